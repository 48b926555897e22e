#include "wire.h"

#include <stdint.h>
#include <stdlib.h>
#include <string.h>

#define REFERENT 0x00020000u /* of a unique pointer that is not null */
#define NULL_TEXT 0xFFFFFFFFu

/* ---- bytes being made */

void writer_begin(Writer *to, size_t before)
{
    to->length = 0;
    to->body = before;
    to->fault = S_OK;
    write_zeros(to, before);
}

void writer_free(Writer *to)
{
    free(to->bytes);
    memset(to, 0, sizeof *to);
}

/* Space for `count` more bytes; NULL if that fails, or after an earlier fault. The length is never
 * above body + MAX_BODY. */
static BYTE *extend(Writer *to, size_t count)
{
    BYTE *bytes;

    if (FAILED(to->fault) || !count)
        return NULL;
    if (count > to->body + MAX_BODY - to->length) {
        to->fault = E_INVALIDARG;
        return NULL;
    }
    if (count > to->room - to->length) {
        size_t room = 2 * (to->length + count) + 256;

        if (!(bytes = realloc(to->bytes, room))) {
            to->fault = E_OUTOFMEMORY;
            return NULL;
        }
        to->bytes = bytes;
        to->room = room;
    }
    bytes = to->bytes + to->length;
    to->length += count;
    return bytes;
}

void write_bytes(Writer *to, const void *from, size_t count)
{
    BYTE *bytes = extend(to, count);

    if (bytes)
        memcpy(bytes, from, count);
}

void write_zeros(Writer *to, size_t count)
{
    BYTE *bytes = extend(to, count);

    if (bytes)
        memset(bytes, 0, count);
}

void write_16(Writer *to, UINT16 number)
{
    write_bytes(to, &number, sizeof number); /* every Windows is little-endian */
}

void write_32(Writer *to, UINT32 number)
{
    write_bytes(to, &number, sizeof number);
}

void write_pad(Writer *to, size_t width)
{
    write_zeros(to, (width - (to->length - to->body) % width) % width);
}

/* Writes over a number that was written before. */
static void set_32(Writer *to, size_t at, UINT32 number)
{
    if (SUCCEEDED(to->fault))
        memcpy(to->bytes + at, &number, sizeof number);
}

/* ---- types */

/* Whether a server has scalars of a type. */
static BOOL is_scalar(VARTYPE type)
{
    switch (type) {
    case VT_EMPTY:
    case VT_NULL:
    case VT_BSTR:
    case VT_DECIMAL:
        return TRUE;
    case VT_R4:
    case VT_R8:
    case VT_DATE:
        return FALSE;
    }
    return width_of(type) != 0;
}

/* What a wireSAFEARRAY says of cells of a type. */
typedef struct Cells {
    UINT32 form;   /* sfType: 0 if a server has no arrays of the type */
    UINT32 bytes;  /* cbElements on the wire */
    UINT16 flags;  /* fFeatures */
    size_t memory; /* the bytes of a cell here */
} Cells;

static Cells cells_of(VARTYPE type)
{
    Cells cells = {0, width_of(type), 0x80, width_of(type)};

    if (type == VT_BSTR)
        return (Cells){8, 4, 0x180, sizeof(BSTR)};
    if (type == VT_VARIANT)
        return (Cells){0xC, 16, 0x880, sizeof(VARIANT)};
    if (type == VT_ERROR || !is_scalar(type))
        return cells;
    switch (cells.bytes) {
    case 1:
        cells.form = 0x10;
        break;
    case 2:
        cells.form = 2;
        break;
    case 4:
        cells.form = 3;
        break;
    case 8:
        cells.form = 0x14;
        break;
    }
    return cells;
}

/* The product of the counts, or MAX_CELLS + 1 if it is above MAX_CELLS. */
static UINT32 count_cells(const SAFEARRAYBOUND *bounds, UINT32 count)
{
    UINT64 cells = 1;
    UINT32 i;

    for (i = 0; i < count; i++)
        if (!bounds[i].cElements)
            return 0;
    for (i = 0; i < count; i++) {
        cells *= bounds[i].cElements;
        if (cells > MAX_CELLS)
            return MAX_CELLS + 1;
    }
    return (UINT32)cells;
}

/* ---- values to bytes */

static void write_head(Writer *to, VARTYPE type)
{
    write_zeros(to, 8); /* clSize, known once all is written, and a reserved number */
    write_16(to, type);
    write_zeros(to, 6);
    write_32(to, type & VT_ARRAY ? VT_ARRAY : type);
}

static void write_size(Writer *to, size_t head)
{
    set_32(to, head, (UINT32)((to->length - head + 7) / 8));
}

static void write_text(Writer *to, BSTR text)
{
    UINT32 count = SysStringByteLen(text), units = count / 2 + count % 2;

    write_pad(to, 4);
    write_32(to, units);
    write_32(to, count);
    write_32(to, units);
    write_bytes(to, text, count);
    write_zeros(to, count % 2);
}

static void write_decimal(Writer *to, const DECIMAL *number)
{
    write_pad(to, 8);
    write_16(to, 0);
    write_bytes(to, &number->scale, 1);
    write_bytes(to, &number->sign, 1);
    write_32(to, number->Hi32);
    write_bytes(to, &number->Lo64, 8);
}

static void write_scalar(Writer *to, const VARIANT *value)
{
    UINT32 width = width_of(V_VT(value));
    size_t head;

    write_pad(to, 8);
    head = to->length;
    write_head(to, V_VT(value));
    if (width) {
        write_pad(to, width);
        write_bytes(to, &V_UI8(value), width);
    } else if (V_VT(value) == VT_DECIMAL) {
        write_decimal(to, &V_DECIMAL(value));
    } else if (V_VT(value) == VT_BSTR) {
        write_32(to, V_BSTR(value) ? REFERENT : 0);
        if (V_BSTR(value))
            write_text(to, V_BSTR(value));
    }
    write_size(to, head);
}

static void write_texts(Writer *to, const BSTR *texts, UINT32 count)
{
    UINT32 i;

    for (i = 0; i < count; i++)
        write_32(to, texts[i] ? REFERENT : 0);
    for (i = 0; i < count; i++)
        if (texts[i])
            write_text(to, texts[i]);
}

/* Whether cells have the type of their VARIANT. Numbers are compared only by their width, since a
 * host may call a Long an INT. A cell is followed as a pointer only if the array itself, if it has
 * a type, says that it is one. */
static BOOL holds_cells(const SAFEARRAY *array, VARTYPE type, size_t width)
{
    VARTYPE own;

    if (array->cbElements != width)
        return FALSE;
    return (type != VT_BSTR && type != VT_VARIANT) || !(array->fFeatures & FADF_HAVEVARTYPE) ||
           (SUCCEEDED(SafeArrayGetVartype((SAFEARRAY *)array, &own)) && own == type);
}

/* Checks that the cells of an array can be written; `count` is their number. A null pointer is an
   array without cells. */
static HRESULT check_array(const SAFEARRAY *array, VARTYPE type, size_t width, UINT32 *count)
{
    *count = 0;
    if (!array)
        return S_OK;
    if (array->cDims < 1 || array->cDims > MAX_BOUNDS || !holds_cells(array, type, width))
        return E_INVALIDARG;
    *count = count_cells(array->rgsabound, array->cDims);
    return *count > MAX_CELLS || (*count && !array->pvData) ? E_INVALIDARG : S_OK;
}

/* All of an array before its cells. The bounds are in the order of memory: rgsabound has the
   leftmost dimension last. So are the cells: in memory the last of rgsabound counts fastest, on the
   wire the last that is listed. */
static void write_array_head(Writer *to, VARTYPE type, const SAFEARRAY *array, UINT32 count)
{
    static const SAFEARRAYBOUND nothing = {0, 0};
    UINT32 dimensions = array ? array->cDims : 1;
    Cells cells = cells_of(type);

    write_head(to, type | VT_ARRAY);
    write_32(to, REFERENT);
    write_32(to, REFERENT);
    write_32(to, dimensions);
    write_16(to, (UINT16)dimensions);
    write_16(to, cells.flags);
    write_32(to, cells.bytes);
    write_32(to, (UINT32)type << 16);
    write_32(to, cells.form);
    write_32(to, count);
    write_32(to, REFERENT);
    write_bytes(to, array ? array->rgsabound : &nothing, dimensions * sizeof nothing);
    write_32(to, count);
}

/* The source of cells: a host's array, and the type of its cells. */
typedef struct Source {
    const SAFEARRAY *array;
    VARTYPE own;
    /* the type that they are written with; that of a VARIANT takes any scalar */
    VARTYPE wanted;
    int how; /* for scripts floating-point numbers go as what they are exactly */
} Source;

/* What is written of a cell. */
static HRESULT cell_at(const Source *source, UINT32 i, VARIANT *made)
{
    const VARIANT *cell;
    VARIANT room, number;
    HRESULT result;

    if (source->own == VT_VARIANT) {
        cell = value_behind((const VARIANT *)source->array->pvData + i, &room);
        if (!cell)
            return E_POINTER;
    } else {
        UINT32 width = width_of(source->own);

        memset(&room, 0, sizeof room);
        memcpy(&V_UI8(&room), (const BYTE *)source->array->pvData + (size_t)i * width, width);
        V_VT(&room) = source->own;
        cell = &room;
    }
    if ((source->how & WITH_TEXTS) &&
        (result = text_as(cell, source->wanted, &number)) != S_FALSE) {
        if (FAILED(result))
            return result;
        cell = &number;
    }
    if (source->wanted != VT_VARIANT)
        return cell_as(cell, source->wanted, made);
    if (source->how && (result = number_as(cell, VT_VARIANT, made)) != S_FALSE)
        return result;
    *made = *cell;
    /* a server says bad stub data, without the argument */
    return is_scalar(V_VT(cell)) ? S_OK : DISP_E_BADVARTYPE;
}

static HRESULT write_cells(Writer *to, const Source *source, UINT32 count)
{
    UINT32 width = width_of(source->wanted), i;
    HRESULT result = S_OK;
    VARIANT made;

    if (width && count)
        write_pad(to, width);
    for (i = 0; i < count && !width && SUCCEEDED(result); i++) {
        result = source->wanted == VT_VARIANT ? S_OK : cell_at(source, i, &made);
        if (SUCCEEDED(result))
            write_32(to, source->wanted == VT_VARIANT || V_BSTR(&made) ? REFERENT : 0);
    }
    for (i = 0; i < count && SUCCEEDED(result); i++) {
        if (FAILED(result = cell_at(source, i, &made)))
            break;
        if (width)
            write_bytes(to, &V_UI8(&made), width);
        else if (source->wanted == VT_VARIANT)
            write_scalar(to, &made);
        else if (V_BSTR(&made))
            write_text(to, V_BSTR(&made));
    }
    return result;
}

static HRESULT write_array(Writer *to, VARTYPE type, const SAFEARRAY *array)
{
    Cells cells = cells_of(type);
    Source source = {array, VT_VARIANT, VT_VARIANT, 0};
    size_t head = to->length;
    HRESULT result;
    UINT32 count;

    if (!cells.form) {
        write_head(to, type | VT_ARRAY);
        write_size(to, head);
        return S_OK; /* the server refuses its vt */
    }
    if (FAILED(result = check_array(array, type, cells.memory, &count)))
        return result;
    write_array_head(to, type, array, count);
    if (type == VT_BSTR && count) {
        write_texts(to, array->pvData, count);
    } else if (type == VT_VARIANT && count) {
        result = write_cells(to, &source, count);
    } else if (count) {
        write_pad(to, cells.bytes);
        write_bytes(to, array->pvData, (size_t)count * cells.bytes);
    }
    write_size(to, head);
    return result;
}

/* An array of VARIANT, VT_R4 or VT_R8, with its cells converted to another type. Nothing is written
 * if one cannot be converted. */
static HRESULT write_array_as(Writer *to, VARTYPE own, const SAFEARRAY *array, VARTYPE wanted,
                              int how)
{
    Source source = {array, own, wanted, how};
    size_t head = to->length;
    HRESULT result;
    UINT32 count, i;
    VARIANT made;

    result = check_array(array, own, own == VT_VARIANT ? sizeof(VARIANT) : width_of(own), &count);
    for (i = 0; i < count && SUCCEEDED(result); i++)
        result = cell_at(&source, i, &made);
    if (FAILED(result))
        return result;
    write_array_head(to, wanted, array, count);
    result = write_cells(to, &source, count);
    write_size(to, head);
    return result;
}

/* A field's length and a reserved number, known once the field is written. */
static size_t begin_field(Writer *to)
{
    write_zeros(to, 8);
    return to->length;
}

static HRESULT end_field(Writer *to, size_t field, HRESULT result)
{
    set_32(to, field - 8, (UINT32)(to->length - field));
    write_pad(to, 8);
    return SUCCEEDED(result) ? to->fault : result;
}

HRESULT write_variant(Writer *to, const VARIANT *value)
{
    HRESULT result = S_OK;
    VARIANT room;
    size_t field;

    if (!(value = value_behind(value, &room)))
        return E_POINTER;
    field = begin_field(to);
    if (V_VT(value) & VT_ARRAY)
        result = write_array(to, V_VT(value) & (VARTYPE)~VT_ARRAY, V_ARRAY(value));
    else
        write_scalar(to, value);
    return end_field(to, field, result);
}

/* A number as an SCODE, which JScript has no other value for. */
static BOOL scode_of(const VARIANT *value, VARIANT *made)
{
    VARIANT whole;
    INT64 number;
    BOOL large;

    if (number_as(value, VT_I8, &whole) == S_OK)
        value = &whole;
    if (!whole_number(value, &number, &large) || large || number < INT32_MIN || number > UINT32_MAX)
        return FALSE;
    memset(made, 0, sizeof *made);
    V_UI4(made) = (UINT32)number; /* an SCODE's place */
    V_VT(made) = VT_ERROR;
    return TRUE;
}

HRESULT write_variant_as(Writer *to, const VARIANT *value, VARTYPE declared, int how)
{
    size_t begun = to->length, field;
    VARTYPE own, wanted = VT_VARIANT;
    VARIANT room, made;
    HRESULT result;

    if (!(value = value_behind(value, &room)))
        return E_POINTER;
    own = V_VT(value) & (VARTYPE)~VT_ARRAY;
    if (!(V_VT(value) & VT_ARRAY)) {
        if (declared == VT_ERROR && (how & FOR_JSCRIPT) && scode_of(value, &made))
            return write_variant(to, &made);
        result = number_as(value, declared, &made);
        if (result == S_FALSE && (how & WITH_TEXTS))
            result = text_as(value, declared, &made);
        return FAILED(result) ? result : write_variant(to, result == S_OK ? &made : value);
    }
    if (own != VT_VARIANT && own != VT_R4 && own != VT_R8)
        return write_variant(to, value);
    if ((declared & VT_ARRAY) && cells_of(declared & (VARTYPE)~VT_ARRAY).form)
        wanted = declared & (VARTYPE)~VT_ARRAY;
    field = begin_field(to);
    result = end_field(to, field, write_array_as(to, own, V_ARRAY(value), wanted, how));
    if (FAILED(result) && SUCCEEDED(to->fault))
        to->length = begun;
    return result;
}

/* ---- bytes being read */

Reader reader_of(const BYTE *bytes, size_t length)
{
    Reader from = {bytes, length, 0, FALSE};

    return from;
}

size_t bytes_left(const Reader *from)
{
    return from->bad ? 0 : from->length - from->place;
}

/* Whether `count` bytes are there; else the Reader is bad. */
static BOOL has_bytes(Reader *from, size_t count)
{
    if (count > bytes_left(from))
        from->bad = TRUE;
    return !from->bad;
}

void read_bytes(Reader *from, void *to, size_t count)
{
    if (!has_bytes(from, count)) {
        memset(to, 0, count);
    } else if (count) {
        memcpy(to, from->bytes + from->place, count);
        from->place += count;
    }
}

void read_past(Reader *from, size_t count)
{
    if (has_bytes(from, count))
        from->place += count;
}

UINT16 read_16(Reader *from)
{
    UINT16 number;

    read_bytes(from, &number, sizeof number);
    return number;
}

UINT32 read_32(Reader *from)
{
    UINT32 number;

    read_bytes(from, &number, sizeof number);
    return number;
}

void read_pad(Reader *from, size_t width)
{
    read_past(from, (width - from->place % width) % width);
}

UINT32 read_string(Reader *from, const BYTE **units)
{
    UINT32 count = read_32(from);

    read_past(from, 4);
    if (count > bytes_left(from) / 2)
        from->bad = TRUE;
    if (from->bad)
        count = 0;
    *units = from->bytes + from->place;
    read_past(from, (size_t)count * 2);
    read_pad(from, 8);
    return count;
}

/* A text after its referent. It is made only after all of its bytes are known to have come. */
static HRESULT read_text(Reader *from, BSTR *text)
{
    UINT32 most, count, units;

    *text = NULL;
    read_pad(from, 4);
    most = read_32(from);
    count = read_32(from);
    units = read_32(from);
    if (count == NULL_TEXT) {
        from->bad = from->bad || most || units;
        return S_OK;
    }
    if (most != units || units != count / 2 + count % 2)
        from->bad = TRUE;
    if (!has_bytes(from, (size_t)count + count % 2))
        return S_OK;
    *text = SysAllocStringByteLen((const char *)from->bytes + from->place, count);
    read_past(from, (size_t)count + count % 2);
    return *text ? S_OK : E_OUTOFMEMORY;
}

static void read_decimal(Reader *from, DECIMAL *number)
{
    read_pad(from, 8);
    read_past(from, 2);
    read_bytes(from, &number->scale, 1);
    read_bytes(from, &number->sign, 1);
    number->Hi32 = read_32(from);
    read_bytes(from, &number->Lo64, 8);
    if (number->scale > 28 || (number->sign && number->sign != DECIMAL_NEG))
        from->bad = TRUE;
}

/* A wireVARIANT that is a scalar. The VARIANT owns a text only if S_OK is returned. */
static HRESULT read_scalar(Reader *from, VARIANT *value)
{
    HRESULT result = S_OK;
    VARTYPE type;
    UINT32 width;

    memset(value, 0, sizeof *value);
    read_pad(from, 8);
    read_past(from, 8);
    type = read_16(from);
    read_past(from, 6);
    if (read_32(from) != type || !is_scalar(type))
        from->bad = TRUE;
    width = width_of(type);
    if (width) {
        read_pad(from, width);
        read_bytes(from, &V_UI8(value), width);
        if (type == VT_BOOL && V_BOOL(value))
            V_BOOL(value) = VARIANT_TRUE;
    } else if (type == VT_DECIMAL) {
        read_decimal(from, &V_DECIMAL(value));
    } else if (type == VT_BSTR && read_32(from)) {
        result = read_text(from, &V_BSTR(value));
    }
    if (from->bad || FAILED(result)) {
        memset(value, 0, sizeof *value); /* a text is made last, so there is none here */
        return from->bad ? OAUT_E_NO_REPLY : result;
    }
    V_VT(value) = type;
    return S_OK;
}

/* An array of zeros, its bounds in the order of rgsabound. It is made by SafeArrayCreate, which
   takes them the other way round: what SafeArrayAllocDescriptorEx makes has no FADF_BSTR and
   FADF_VARIANT, so nobody frees its cells. */
static SAFEARRAY *new_array(VARTYPE type, UINT32 dimensions, const SAFEARRAYBOUND *bounds)
{
    SAFEARRAYBOUND turned[MAX_BOUNDS];
    UINT32 i;

    for (i = 0; i < dimensions; i++)
        turned[i] = bounds[dimensions - 1 - i];
    return SafeArrayCreate(type, dimensions, turned);
}

/* A text that is a cell: of an array of texts, or of one of VARIANT that takes its place. */
static HRESULT read_text_cell(Reader *from, void *data, UINT32 i, BOOL as_variants)
{
    VARIANT *cell = (VARIANT *)data + i;

    if (!as_variants)
        return read_text(from, (BSTR *)data + i);
    V_VT(cell) = VT_BSTR;
    return read_text(from, &V_BSTR(cell));
}

/* The cells of an array of texts or VARIANTs: their referents, then those that are not null. */
static HRESULT read_pointees(Reader *from, VARTYPE type, void *data, UINT32 count, int how)
{
    BOOL as_variants = how != 0;
    Reader referents = *from;
    HRESULT result = S_OK;
    UINT32 i;

    read_past(from, (size_t)count * 4);
    for (i = 0; i < count && !from->bad && SUCCEEDED(result); i++) {
        BOOL is_there = read_32(&referents) != 0;

        if (is_there && type == VT_BSTR)
            result = read_text_cell(from, data, i, as_variants);
        else if (is_there)
            result = read_scalar(from, (VARIANT *)data + i);
        else if (type == VT_BSTR && as_variants)
            V_VT((VARIANT *)data + i) = VT_BSTR;
        if (type == VT_VARIANT && as_variants && SUCCEEDED(result))
            result = make_scriptable((VARIANT *)data + i, how);
    }
    return result;
}

static void read_numbers(Reader *from, VARTYPE type, void *data, UINT32 count, UINT32 width)
{
    UINT32 i;

    if (!count)
        return;
    read_pad(from, width);
    read_bytes(from, data, (size_t)count * width);
    if (type == VT_BOOL)
        for (i = 0; i < count; i++)
            if (((VARIANT_BOOL *)data)[i])
                ((VARIANT_BOOL *)data)[i] = VARIANT_TRUE;
}

/* Reads cells into an array of VARIANT, whose numbers get types that scripts have. */
static HRESULT read_numbers_as_variants(Reader *from, VARTYPE type, VARIANT *cells, UINT32 count,
                                        UINT32 width, int how)
{
    HRESULT result = S_OK;
    UINT32 i;

    if (count)
        read_pad(from, width);
    for (i = 0; i < count && !from->bad && SUCCEEDED(result); i++) {
        read_bytes(from, &V_UI8(&cells[i]), width);
        if (type == VT_BOOL && V_BOOL(&cells[i]))
            V_BOOL(&cells[i]) = VARIANT_TRUE;
        V_VT(&cells[i]) = type;
        result = make_scriptable(&cells[i], how);
    }
    return result;
}

/* A wireVARIANT that is an array, from its discriminant on; for scripts it becomes one of
 * VARIANT. */
static HRESULT read_array(Reader *from, VARTYPE type, int how, VARIANT *value)
{
    VARTYPE made = how ? VT_VARIANT : type;
    SAFEARRAYBOUND bounds[MAX_BOUNDS];
    Cells cells = cells_of(type);
    UINT32 discriminant, referents, most, dimensions, form, count;
    SAFEARRAY *array;
    HRESULT result = S_OK;

    discriminant = read_32(from);
    referents = read_32(from) ? 1 : 0;
    referents += read_32(from) ? 1 : 0;
    most = read_32(from);
    dimensions = read_16(from);
    read_past(from, 10); /* fFeatures, cbElements, cLocks */
    form = read_32(from);
    count = read_32(from);
    read_past(from, 4);
    if (from->bad || (discriminant != VT_ARRAY && discriminant != (UINT32)(type | VT_ARRAY)) ||
        referents != 2 || dimensions < 1 || dimensions > MAX_BOUNDS || most != dimensions ||
        !cells.form || form != cells.form)
        return OAUT_E_NO_REPLY;
    read_bytes(from, bounds, dimensions * sizeof *bounds);
    if (read_32(from) != count || count > MAX_CELLS || count_cells(bounds, dimensions) != count)
        from->bad = TRUE;
    /* the bytes of the cells, or of their referents, before room is made for them */
    if (from->bad || bytes_left(from) < (size_t)count * (width_of(type) ? cells.bytes : 4))
        return OAUT_E_NO_REPLY;
    if (!(array = new_array(made, dimensions, bounds)))
        return E_OUTOFMEMORY;
    if (count && !array->pvData)
        result = E_OUTOFMEMORY;
    else if (type == VT_BSTR || type == VT_VARIANT)
        result = read_pointees(from, type, array->pvData, count, how);
    else if (how)
        result = read_numbers_as_variants(from, type, array->pvData, count, cells.bytes, how);
    else
        read_numbers(from, type, array->pvData, count, cells.bytes);
    if (from->bad || FAILED(result)) {
        SafeArrayDestroy(array);
        return from->bad ? OAUT_E_NO_REPLY : result;
    }
    V_VT(value) = VT_ARRAY | made;
    V_ARRAY(value) = array;
    return S_OK;
}

HRESULT read_variant(Reader *from, int how, VARIANT *value)
{
    UINT32 length = read_32(from);
    HRESULT result;
    Reader field;
    VARTYPE type;

    memset(value, 0, sizeof *value);
    read_past(from, 4);
    if (!has_bytes(from, length))
        return OAUT_E_NO_REPLY;
    field = reader_of(from->bytes + from->place, length);
    read_past(from, length);
    read_pad(from, 8);
    read_past(&field, 8);
    type = read_16(&field);
    read_past(&field, 6);
    if (type & VT_ARRAY) {
        result = read_array(&field, type & (VARTYPE)~VT_ARRAY, how, value);
    } else {
        field.place = 0; /* a scalar is read from its head on */
        result = read_scalar(&field, value);
        if (how && SUCCEEDED(result))
            result = make_scriptable(value, how);
    }
    if (SUCCEEDED(result) && (from->bad || field.place != length)) {
        VariantClear(value);
        result = OAUT_E_NO_REPLY;
    }
    return result;
}
