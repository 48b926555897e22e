#include "keys.h"

#include <stdio.h>
#include <stdlib.h>
#include <string.h>

#define AGAIN_AFTER 50u /* milliseconds: the gateway serves two clients with keys at once */

/* A value that is filled, and how many cells of its array are. */
typedef struct Cells {
    VARIANT *values;
    UINT32 count, room;
} Cells;

static void free_cells(Cells *cells)
{
    while (cells->count > 0)
        VariantClear(&cells->values[--cells->count]);
    free(cells->values);
}

/* An array of VARIANT with these values, which it takes over. */
static HRESULT array_of_cells(Cells *cells, VARIANT *made)
{
    SAFEARRAYBOUND bound = {cells->count, 0};
    SAFEARRAY *array = SafeArrayCreate(VT_VARIANT, 1, &bound);

    if (!array)
        return E_OUTOFMEMORY;
    if (cells->count)
        memcpy(array->pvData, cells->values, cells->count * sizeof(VARIANT));
    cells->count = 0;
    V_ARRAY(made) = array;
    V_VT(made) = VT_ARRAY | VT_VARIANT;
    return S_OK;
}

static VARIANT *next_cell(Cells *cells)
{
    VARIANT *values;

    if (cells->count == cells->room) {
        if (!(values = realloc(cells->values, (2 * (size_t)cells->room + 16) * sizeof(VARIANT))))
            return NULL;
        cells->values = values;
        cells->room = 2 * cells->room + 16;
    }
    VariantInit(&cells->values[cells->count]);
    return &cells->values[cells->count++];
}

/* A scalar as a store's file has it: docs/reference/images.md. */
static HRESULT read_stored(Reader *from, int how, VARIANT *value)
{
    VARTYPE type = read_16(from);
    BYTE scale = 0, minus = 0;
    UINT32 length;
    BSTR text;

    if (type == VT_BSTR) {
        length = read_32(from);
        if (length != MAXDWORD) {
            if (length > bytes_left(from))
                return OAUT_E_NO_REPLY;
            if (!(text = SysAllocStringByteLen((const char *)from->bytes + from->place, length)))
                return E_OUTOFMEMORY;
            read_past(from, length);
            V_BSTR(value) = text;
        }
    } else if (type == VT_DECIMAL) {
        read_bytes(from, &scale, 1);
        read_bytes(from, &minus, 1);
        V_DECIMAL(value).scale = scale;
        V_DECIMAL(value).sign = minus ? DECIMAL_NEG : 0;
        V_DECIMAL(value).Hi32 = read_32(from);
        read_bytes(from, &V_DECIMAL(value).Lo64, 8);
    } else if (type == VT_BOOL) {
        read_bytes(from, &minus, 1);
        V_BOOL(value) = minus ? VARIANT_TRUE : VARIANT_FALSE;
    } else if (width_of(type)) {
        /* the numbers of the union begin at one place */
        read_bytes(from, &V_UI8(value), width_of(type));
    } else if (type != VT_EMPTY && type != VT_NULL) {
        return OAUT_E_NO_REPLY;
    }
    V_VT(value) = type;
    return how ? make_scriptable(value, how) : S_OK;
}

/* A key: its only argument, or an array of them. */
static HRESULT read_key(Reader *from, int how, VARIANT *value)
{
    UINT16 count = read_16(from), i;
    HRESULT result = S_OK;
    Cells cells = {NULL, 0, 0};
    VARIANT *cell;

    if (count == 1) {
        result = read_stored(from, how, value);
    } else {
        for (i = 0; i < count && SUCCEEDED(result); i++)
            result = (cell = next_cell(&cells)) ? read_stored(from, how, cell) : E_OUTOFMEMORY;
        if (SUCCEEDED(result))
            result = array_of_cells(&cells, value);
        free_cells(&cells);
    }
    return SUCCEEDED(result) && (from->bad || bytes_left(from)) ? OAUT_E_NO_REPLY : result;
}

static int digit_of(char digit)
{
    return digit >= '0' && digit <= '9'   ? digit - '0'
           : digit >= 'a' && digit <= 'f' ? digit - 'a' + 10
                                          : -1;
}

/* The bytes of a line of hexadecimal digits in quotation marks, in its place; their number, or -1
 * if it is none. */
static int bytes_of_line(char *line, size_t length)
{
    size_t i;

    if (length < 2 || length % 2 || line[0] != '"' || line[length - 1] != '"')
        return -1;
    for (i = 0; 2 * i + 2 < length; i++) {
        int high = digit_of(line[2 * i + 1]), low = digit_of(line[2 * i + 2]);

        if (high < 0 || low < 0)
            return -1;
        line[i] = (char)(16 * high + low);
    }
    return (int)i;
}

/* Reads so many lines, each a key. */
static HRESULT read_keys(Watch *watch, ULONGLONG until, UINT32 count, int how, Cells *keys)
{
    HRESULT result = S_OK;
    char *line = NULL;
    size_t room = 0, length;
    Reader from;
    UINT32 i;
    int size;

    for (i = 0; i < count && result == S_OK; i++) {
        VARIANT *key = next_cell(keys);

        result = key ? read_line(watch, until, &line, &room, &length) : E_OUTOFMEMORY;
        if (result != S_OK)
            break;
        if ((size = bytes_of_line(line, length)) < 0) {
            result = OAUT_E_NO_REPLY;
            break;
        }
        from = reader_of((const BYTE *)line, (size_t)size);
        result = read_key(&from, how, key);
    }
    free(line);
    return result;
}

/* Asks once. S_FALSE if the time is up, or if the gateway is busy (`is_busy`). */
static HRESULT ask_for_keys(const Settings *settings, const char *line, ULONGLONG until, int how,
                            Cells *keys, BOOL *is_busy, int *cause)
{
    Watch *watch = new_watch();
    char *first = NULL;
    size_t room = 0, length;
    unsigned count;
    HRESULT result;

    *is_busy = FALSE;
    if (!watch)
        return E_OUTOFMEMORY;
    if ((result = ask_gateway(watch, settings, line, until)) == S_OK &&
        (result = read_line(watch, until, &first, &room, &length)) == S_OK) {
        if (sscanf(first, "{\"keys\":%u}", &count) == 1)
            result = read_keys(watch, until, count, how, keys);
        else if ((*is_busy = !strncmp(first, "{\"busy\":", 8)))
            result = S_FALSE;
        else
            result = sends_no_changes(watch);
    }
    *cause = cause_of(watch);
    free(first);
    free_watch(watch);
    return result;
}

HRESULT list_keys(const Settings *settings, UINT32 object, REFGUID interface_id, DISPID member,
                  int how, VARIANT *keys, int *cause)
{
    ULONGLONG until = settings->timeout ? GetTickCount64() + settings->timeout : MAXULONGLONG;
    Cells cells = {NULL, 0, 0};
    WCHAR guid[40];
    char line[128];
    HRESULT result;
    BOOL is_busy;

    StringFromGUID2(interface_id, guid, 40);
    snprintf(line, sizeof line, "keys object=%u interface=%ls member=%ld\n", object, guid,
             (long)member);
    while ((result = ask_for_keys(settings, line, until, how, &cells, &is_busy, cause)) ==
               S_FALSE &&
           is_busy && GetTickCount64() < until)
        Sleep(AGAIN_AFTER);
    if (result == S_FALSE || result == OAUT_E_NO_REPLY) {
        *cause = result == S_FALSE ? WSAETIMEDOUT : WSAEPROTONOSUPPORT;
        result = OAUT_E_NOT_REACHED;
    }
    if (result == S_OK)
        result = array_of_cells(&cells, keys);
    free_cells(&cells);
    return result;
}
