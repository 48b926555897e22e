/* The library's text of what a type library has, in the words that `oaut check` takes:

       tlb2idl FILE [-o OUT.idl] [--double=DECIMAL] [--date=CY|BSTR] [--only=COCLASS]..

   FILE is a .tlb, or a DLL or EXE with a type library inside; `FILE\2` is its second one. What
   cannot be carried is left out, each with a line on standard error. docs/guide/import.md lists
   what is kept, in which form, and why the rest is not. clients/python/oaut/importing.py has the
   same rules for MIDL text, in the same order and with the same words: change both. */
#define COBJMACROS
#define CINTERFACE
#ifndef TESTS_TYPELIB_H
#include <windows.h>
#include <oleauto.h>

#include <fcntl.h>
#include <io.h>
#endif
#include <stdarg.h>
#include <stdint.h>
#include <stdio.h>
#include <stdlib.h>
#include <string.h>

#define TEXT_LIMIT 262144
#define NAME_LIMIT 64
#define ITEM_LIMIT 256
#define MEMBER_LIMIT 512
#define PARAMETER_LIMIT 16
#define DEPTH_LIMIT 64 /* of aliases, and of interfaces above one another */
#define SECONDS 120    /* after so long the system's reader is taken for one that never ends */
#define RESERVE 65536  /* bytes of the stack for what runs after it has overflowed */

typedef struct Text {
    char *bytes;
    size_t length, room;
} Text;

/* A type of a library's text, NULL for void; `was` is the original type if it differs. */
typedef struct Type {
    const char *word, *was;
    BOOL is_array;
} Type;

typedef struct Parameter {
    const char *name, *literal; /* the literal of its default, or NULL */
    Type type;
    BOOL is_optional;
} Parameter;

typedef enum Kind { PROPERTY, READONLY, METHOD, GET, PUT, PUTREF } Kind;

/* A form of a member; the new value of a put is its last parameter. */
typedef struct Member {
    const char *name;
    MEMBERID id;
    Kind kind;
    Type type;
    Parameter parameters[PARAMETER_LIMIT];
    unsigned count;
} Member;

typedef struct Interface {
    const char *name;
    GUID guid;
    UINT place; /* in the library */
    TYPEKIND kind;
    WORD flags;
    Member **members;
    size_t count, room;
    Text text;
    int rank; /* 0 if it is a coclass's default, 1 if a coclass has it, otherwise 2 */
    BOOL is_left, is_wanted;
} Interface;

typedef struct Entry {
    const char *name;
    GUID guid;
    BOOL is_default, is_source;
    Interface *kept;
} Entry;

typedef struct Coclass {
    const char *name;
    GUID guid;
    Entry *entries;
    unsigned count;
    BOOL is_left;
    Text text;
} Coclass;

static struct {
    const char *as_double, *as_date, *only[ITEM_LIMIT];
    unsigned only_count;
    char path[1024];
    Text report;
    unsigned long left;
} given;

static const char *const kinds[] = {"property", "readonly", "method", "get", "put", "putref"};
static const GUID none;
static const GUID iid_unknown = {0x00000000, 0x0000, 0x0000, {0xC0, 0, 0, 0, 0, 0, 0, 0x46}};
static const GUID iid_dispatch = {0x00020400, 0x0000, 0x0000, {0xC0, 0, 0, 0, 0, 0, 0, 0x46}};

/* ---- memory, which is held until the process ends; texts; the end */

static void fail(const char *why)
{
    fprintf(stderr, "tlb2idl: %s: %s\n", given.path, why);
    fflush(stderr);
    exit(1);
}

static void *room_for(size_t count, size_t size)
{
    void *made = count && size > SIZE_MAX / 2 / count ? NULL : calloc(count ? count : 1, size);

    if (!made)
        fail("out of memory");
    return made;
}

/* A block with room for one element more than `count`, in place of one that may have it already. */
static void *with_room(void *block, size_t count, size_t *room, size_t size)
{
    void *made;

    if (count < *room)
        return block;
    *room = *room ? 2 * *room : 8;
    made = room_for(*room, size);
    if (count)
        memcpy(made, block, count * size);
    free(block);
    return made;
}

static void add_bytes(Text *to, const char *bytes, size_t count)
{
    if (to->room - to->length < count + 1) {
        size_t room = 2 * to->room + count + 64;
        char *made = room_for(room, 1);

        if (to->length)
            memcpy(made, to->bytes, to->length);
        free(to->bytes);
        to->bytes = made;
        to->room = room;
    }
    memcpy(to->bytes + to->length, bytes, count);
    to->length += count;
    to->bytes[to->length] = 0;
}

/* As printf, into a text; what is put into it is short, or a name that was cut. */
static void add(Text *to, const char *format, ...)
{
    char some[1024];
    va_list words;
    int count;

    va_start(words, format);
    count = vsnprintf(some, sizeof some, format, words);
    va_end(words);
    add_bytes(to, some,
              count < 0                     ? 0
              : (size_t)count < sizeof some ? (size_t)count
                                            : sizeof some - 1);
}

static const char *kept_text(const char *format, ...)
{
    char some[512];
    va_list words;
    char *made;

    va_start(words, format);
    vsnprintf(some, sizeof some, format, words);
    va_end(words);
    made = room_for(strlen(some) + 1, 1);
    return strcpy(made, some);
}

/* A line of what is left out. */
#define LEAVE(...) (given.left++, add(&given.report, __VA_ARGS__), add(&given.report, "\n"))

/* A name in UTF-8; of a long one the first 400 bytes or so, which no rule takes for a name. The
 * BSTR is freed. */
static const char *name_of(BSTR wide)
{
    char some[512] = "";
    UINT length = wide ? SysStringLen(wide) : 0;
    char *made;

    WideCharToMultiByte(CP_UTF8, 0, wide, length < 130 ? (int)length : 130, some, sizeof some - 1,
                        NULL, NULL);
    SysFreeString(wide);
    made = room_for(strlen(some) + 1, 1);
    return strcpy(made, some);
}

static char folded(char letter)
{
    return letter >= 'a' && letter <= 'z' ? (char)(letter - 'a' + 'A') : letter;
}

static int compared(const char *one, const char *other)
{
    while (*one && folded(*one) == folded(*other))
        one++, other++;
    return (unsigned char)folded(*one) - (unsigned char)folded(*other);
}

static const char *fault_of_name(const char *name)
{
    static const char *const reserved[] = {
        "library", "importlib", "dispinterface", "interface", "coclass", "properties", "methods",
        "void",    "unsigned",  "SAFEARRAY",     "char",      "short",   "long",       "int",
        "hyper",   "CURRENCY",  "VARIANT_BOOL",  "SCODE",     "DECIMAL", "BSTR",       "VARIANT"};
    size_t i;

    if (strlen(name) > NAME_LIMIT)
        return "limit: a name of 64 bytes";
    for (i = 0; name[i]; i++)
        if (name[i] != '_' && !(folded(name[i]) >= 'A' && folded(name[i]) <= 'Z') &&
            !(i && name[i] >= '0' && name[i] <= '9'))
            return "a name that is none";
    for (i = 0; i < sizeof reserved / sizeof *reserved; i++)
        if (!strcmp(name, reserved[i]))
            return "a name that is none";
    return *name ? NULL : "a name that is none";
}

static void add_guid(Text *to, const GUID *guid)
{
    const BYTE *last = guid->Data4;

    add(to, "%08lx-%04x-%04x-%02x%02x-%02x%02x%02x%02x%02x%02x", (unsigned long)guid->Data1,
        guid->Data2, guid->Data3, last[0], last[1], last[2], last[3], last[4], last[5], last[6],
        last[7]);
}

/* ---- types */

/* A type with this many pointers removed. Returns why it is left out, or NULL. */
static const char *carried(ITypeInfo *of, const TYPEDESC *desc, int pointers, BOOL in_array,
                           Type *type)
{
    ITypeInfo *infos[DEPTH_LIMIT];
    TYPEATTR *attributes[DEPTH_LIMIT];
    unsigned held = 0, pointed = 0;
    const char *why = NULL;
    const TYPEDESC *element = NULL;
    Type found = {NULL, NULL, FALSE};
    BOOL is_void = FALSE;

    for (;;) {
        while (desc->vt == VT_PTR && pointed < DEPTH_LIMIT) {
            desc = desc->lptdesc;
            pointed++;
        }
        if (desc->vt != VT_USERDEFINED)
            break;
        if (held == DEPTH_LIMIT) {
            why = "alias that does not end";
            goto done;
        }
        if (FAILED(ITypeInfo_GetRefTypeInfo(of, desc->hreftype, &infos[held]))) {
            why = "type of another library, which is not there";
            goto done;
        }
        if (FAILED(ITypeInfo_GetTypeAttr(infos[held], &attributes[held]))) {
            ITypeInfo_Release(infos[held]);
            why = "type that cannot be read";
            goto done;
        }
        of = infos[held];
        switch (attributes[held++]->typekind) {
        case TKIND_ALIAS:
            desc = &attributes[held - 1]->tdescAlias;
            continue;
        case TKIND_ENUM:
            found.word = "long";
            break;
        case TKIND_INTERFACE:
        case TKIND_DISPATCH:
        case TKIND_COCLASS:
            why = "interface pointer";
            goto done;
        default:
            why = "record";
            goto done;
        }
        break;
    }
    if (!found.word)
        switch (desc->vt) {
        case VT_I1:
            found.word = "char";
            break;
        case VT_UI1:
            found.word = "unsigned char";
            break;
        case VT_I2:
            found.word = "short";
            break;
        case VT_UI2:
            found.word = "unsigned short";
            break;
        case VT_I4:
            found.word = "long";
            break;
        case VT_UI4:
            found.word = "unsigned long";
            break;
        case VT_INT:
            found.word = "int";
            break;
        case VT_UINT:
            found.word = "unsigned int";
            break;
        case VT_I8:
        case VT_INT_PTR:
            found.word = "hyper";
            break;
        case VT_UI8:
        case VT_UINT_PTR:
            found.word = "unsigned hyper";
            break;
        case VT_CY:
            found.word = "CURRENCY";
            break;
        case VT_BOOL:
            found.word = "VARIANT_BOOL";
            break;
        case VT_ERROR:
        case VT_HRESULT:
            found.word = "SCODE";
            break;
        case VT_DECIMAL:
            found.word = "DECIMAL";
            break;
        case VT_BSTR:
            found.word = "BSTR";
            break;
        case VT_VARIANT:
            found.word = "VARIANT";
            break;
        case VT_R4:
            found.was = "float";
            found.word = given.as_double;
            break;
        case VT_R8:
            found.was = "double";
            found.word = given.as_double;
            break;
        case VT_DATE:
            found.was = "date";
            found.word = given.as_date;
            break;
        case VT_VOID:
            is_void = TRUE;
            break;
        case VT_SAFEARRAY:
            element = desc->lptdesc;
            break;
        case VT_CARRAY:
            why = "array of C";
            break;
        case VT_LPSTR:
        case VT_LPWSTR:
            why = "text that is no BSTR";
            break;
        case VT_DISPATCH:
        case VT_UNKNOWN:
            why = "interface pointer";
            break;
        case VT_FILETIME:
        case VT_CLSID:
            why = "record";
            break;
        case VT_PTR:
            why = "pointer";
            break;
        default:
            why = "type that no value has";
            break;
        }
    if (!why && ((int)pointed > pointers || (is_void && pointed)))
        why = "pointer";
    if (!why && element && in_array)
        why = "arrays";
    else if (!why && element) {
        why = carried(of, element, 0, TRUE, &found);
        if (!why && !found.word)
            why = "array of void";
        else if (!why && (!strcmp(found.word, "SCODE") || !strcmp(found.word, "DECIMAL")))
            why = kept_text("array of %s", found.was ? found.was : found.word);
        else if (why && !strcmp(why, "arrays"))
            why = "array of arrays";
        found.is_array = TRUE;
    }
    if (!why && !element && !is_void && !found.word)
        why = found.was;
    *type = found;
done:
    while (held--) {
        ITypeInfo_ReleaseTypeAttr(infos[held], attributes[held]);
        ITypeInfo_Release(infos[held]);
    }
    return why;
}

static void add_type(Text *to, const Type *type)
{
    if (!type->word)
        add(to, "void");
    else
        add(to, type->is_array ? "SAFEARRAY(%s)" : "%s", type->word);
    if (type->was)
        add(to, " /* %s */", type->was);
}

static BOOL is_same(const Type *one, const Type *other)
{
    return one->word && other->word && !strcmp(one->word, other->word) &&
           one->is_array == other->is_array && one->was == other->was;
}

/* ---- defaults */

/* The whole number of a default, as its bits and its sign. */
static BOOL whole(const VARIANT *value, BOOL *is_below, uint64_t *size)
{
    int64_t number = 0;
    double real;

    *is_below = FALSE;
    switch (V_VT(value)) {
    case VT_I1:
        number = (signed char)V_UI1(value);
        break;
    case VT_UI1:
        number = V_UI1(value);
        break;
    case VT_I2:
        number = V_I2(value);
        break;
    case VT_UI2:
        number = V_UI2(value);
        break;
    case VT_I4:
    case VT_INT:
        number = V_I4(value);
        break;
    case VT_UI4:
    case VT_UINT:
    case VT_ERROR:
    case VT_HRESULT:
        number = V_UI4(value);
        break;
    case VT_I8:
        number = V_I8(value);
        break;
    case VT_BOOL:
        number = V_BOOL(value);
        break;
    case VT_UI8:
        *size = V_UI8(value);
        return TRUE;
    case VT_CY:
        if (V_CY(value).int64 % 10000)
            return FALSE;
        number = V_CY(value).int64 / 10000;
        break;
    case VT_R4:
    case VT_R8:
    case VT_DATE:
        real = V_VT(value) == VT_R4 ? V_R4(value) : V_R8(value);
        if (!(real > -9e18 && real < 9e18) || real != (double)(int64_t)real)
            return FALSE;
        number = (int64_t)real;
        break;
    default:
        return FALSE;
    }
    *is_below = number < 0;
    *size = number < 0 ? (uint64_t)0 - (uint64_t)number : (uint64_t)number;
    return TRUE;
}

/* The literal of a default, or NULL if there is none. */
static const char *literal_of(const VARIANT *value, const Type *type)
{
    static const struct {
        const char *word;
        uint64_t least, most;
    } ranges[] = {
        {"char", 0x80, 0x7F},
        {"short", 0x8000, 0x7FFF},
        {"long", 0x80000000, 0x7FFFFFFF},
        {"int", 0x80000000, 0x7FFFFFFF},
        {"hyper", (uint64_t)1 << 63, INT64_MAX},
        {"unsigned char", 0, 0xFF},
        {"unsigned short", 0, 0xFFFF},
        {"unsigned long", 0, 0xFFFFFFFF},
        {"unsigned int", 0, 0xFFFFFFFF},
        {"unsigned hyper", 0, UINT64_MAX},
        {"SCODE", 0, 0xFFFFFFFF},
        {"DECIMAL", (uint64_t)1 << 63, INT64_MAX},
        {"CURRENCY", INT64_MAX / 10000, INT64_MAX / 10000},
        {"VARIANT", 0x80000000, 0x7FFFFFFF},
    };

    uint64_t size;
    BOOL is_below;
    size_t i;

    if (type->is_array)
        return NULL;
    if (V_VT(value) == VT_BSTR) {
        Text text = {NULL, 0, 0};
        UINT length = V_BSTR(value) ? SysStringLen(V_BSTR(value)) : 0;

        if ((strcmp(type->word, "BSTR") && strcmp(type->word, "VARIANT")) || type->was)
            return NULL;
        add(&text, "\"");
        for (i = 0; i < length; i++) {
            WCHAR letter = V_BSTR(value)[i];
            char one = (char)letter;

            if (letter < ' ' || letter > '~')
                return NULL;
            if (one == '"' || one == '\\')
                add(&text, "\\");
            add_bytes(&text, &one, 1);
        }
        add(&text, "\"");
        return text.bytes;
    }
    if (!whole(value, &is_below, &size))
        return NULL;
    if (!strcmp(type->word, "VARIANT_BOOL") ||
        (!strcmp(type->word, "VARIANT") && V_VT(value) == VT_BOOL))
        return size ? "TRUE" : "FALSE";
    if (!strcmp(type->word, "VARIANT") && (V_VT(value) == VT_R4 || V_VT(value) == VT_R8 ||
                                           V_VT(value) == VT_DATE || V_VT(value) == VT_CY))
        return NULL;
    if (!strcmp(type->word, "BSTR") && !type->was && !size)
        return "\"\"";
    for (i = 0; i < sizeof ranges / sizeof *ranges; i++)
        if (!strcmp(type->word, ranges[i].word)) {
            uint64_t width = ranges[i].most + 1;

            /* what a compiler keeps has the width of the type alone */
            if (!ranges[i].least && is_below && width && size <= width / 2) {
                size = width - size;
                is_below = FALSE;
            } else if (ranges[i].least == width && i < 4 && !is_below && size >= width &&
                       size < 2 * width) {
                size = 2 * width - size;
                is_below = TRUE;
            }
            if (size > (is_below ? ranges[i].least : ranges[i].most))
                return NULL;
            return kept_text(is_below && size ? "-%llu" : "%llu", (unsigned long long)size);
        }
    return NULL;
}

/* ---- members */

/* A parameter of a function. Gives why its member is left out, or NULL. */
static const char *parameter_of(ITypeInfo *info, const ELEMDESC *element, Kind kind, BOOL is_value,
                                Parameter *made)
{
    const PARAMDESC *words = &element->paramdesc;
    BOOL has_default = (words->wParamFlags & PARAMFLAG_FHASDEFAULT) && words->pparamdescex;
    const char *why = is_value ? NULL : fault_of_name(made->name);

    if (why)
        return why;
    if (words->wParamFlags & (PARAMFLAG_FOUT | PARAMFLAG_FRETVAL))
        return "out";
    why = carried(info, &element->tdesc, 1, FALSE, &made->type);
    if (why)
        return why;
    if (!made->type.word)
        return "void";
    /* an omitted argument is an error value, too */
    if (has_default && V_VT(&words->pparamdescex->varDefaultValue) == VT_ERROR &&
        V_UI4(&words->pparamdescex->varDefaultValue) == 0x80020004)
        has_default = FALSE;
    if (is_value)
        return has_default || (words->wParamFlags & PARAMFLAG_FOPT) ? "default" : NULL;
    if (kind != METHOD && made->type.is_array)
        return "array";
    made->is_optional = has_default ||
                        (words->wParamFlags & (PARAMFLAG_FOPT | PARAMFLAG_FHASDEFAULT));
    if (has_default) {
        made->literal = literal_of(&words->pparamdescex->varDefaultValue, &made->type);
        if (!made->literal)
            return "default";
    }
    return NULL;
}

/* A form of a function; `names` are those of its member and of the parameters of its first form.
 * Gives why it is left out, or NULL. */
static const char *form_of(ITypeInfo *info, const FUNCDESC *function, const char *const *names,
                           unsigned name_count, Member *made)
{
    const ELEMDESC *taken[PARAMETER_LIMIT + 1], *result = &function->elemdescFunc;
    unsigned count = 0, i, j;
    int pointers = 0;
    const char *why;

    if (made->kind == PUTREF)
        return "a put by reference";
    if (function->cParamsOpt < 0)
        return "a list of arguments of any length";
    why = fault_of_name(made->name);
    if (why)
        return why;
    if (made->id == -1 || made->id == -3)
        return "a DISPID that is taken";
    for (i = 0; i < (unsigned)(function->cParams < 0 ? 0 : function->cParams); i++) {
        const ELEMDESC *one = &function->lprgelemdescParam[i];

        if (one->paramdesc.wParamFlags & PARAMFLAG_FLCID)
            continue;
        if ((one->paramdesc.wParamFlags & PARAMFLAG_FRETVAL) &&
            i == (unsigned)function->cParams - 1) {
            result = one;
            pointers = 1;
            break;
        }
        if (count <= PARAMETER_LIMIT)
            taken[count] = one;
        count++;
    }
    if (count > PARAMETER_LIMIT)
        return "limit: 16 parameters";
    for (i = 0; i < count; i++) {
        BOOL is_value = made->kind == PUT && i == count - 1;
        Parameter *one = &made->parameters[i];

        one->name = is_value                      ? ""
                    : i < name_count && *names[i] ? names[i]
                                                  : kept_text("Parameter%u", i + 1);
        why = parameter_of(info, taken[i], made->kind, is_value, one);
        if (why)
            return is_value ? kept_text("%s, the new value", why)
                            : kept_text("%s, parameter %.65s", why, one->name);
    }
    made->count = count;
    for (i = 0; i < count; i++)
        for (j = 0; j < i; j++)
            if (*made->parameters[i].name &&
                !compared(made->parameters[i].name, made->parameters[j].name))
                return "two parameters of one name";
    if (pointers || result->tdesc.vt != VT_HRESULT) {
        why = carried(info, &result->tdesc, pointers, FALSE, &made->type);
        if (why)
            return why;
    }
    if (made->kind == PUT) {
        char name[NAME_LIMIT] = "Value";

        if (made->type.word || !count)
            return count ? "a put with a result" : "a put without a value";
        for (i = 0; i < count - 1;)
            if (compared(made->parameters[i].name, name))
                i++;
            else {
                strcat(name, "_");
                i = 0;
            }
        made->parameters[count - 1].name = kept_text("%s", name);
    } else if (!made->type.word && made->kind != METHOD)
        return "a get without a result";
    return NULL;
}

static unsigned own_count(const Member *member)
{
    return member->kind == PUT ? member->count - 1 : member->count;
}

static const Type *value_of(const Member *member)
{
    return member->kind == PUT ? &member->parameters[member->count - 1].type : &member->type;
}

static BOOL is_pair(const Member *one, const Member *other)
{
    return (one->kind == GET && other->kind == PUT) || (one->kind == PUT && other->kind == GET);
}

static BOOL do_agree(const Member *one, const Member *other)
{
    unsigned i;

    if (one->id != other->id || own_count(one) != own_count(other) ||
        !is_same(value_of(one), value_of(other)))
        return FALSE;
    for (i = 0; i < own_count(one); i++) {
        const Parameter *first = &one->parameters[i], *second = &other->parameters[i];

        if (compared(first->name, second->name) || !is_same(&first->type, &second->type) ||
            first->is_optional != second->is_optional || !first->literal != !second->literal ||
            (first->literal && strcmp(first->literal, second->literal)))
            return FALSE;
    }
    return TRUE;
}

/* Why a form cannot be kept beside the earlier ones, or NULL. A property's get and put without
 * parameters are one declaration. */
static const char *joined(const Interface *to, const Member *made, size_t *declarations)
{
    const Member *other = NULL;
    size_t i, same = 0;
    BOOL is_taken = FALSE;

    for (i = 0; i < to->count; i++) {
        if (!compared(to->members[i]->name, made->name)) {
            other = to->members[i];
            same++;
        } else if (to->members[i]->id == made->id)
            is_taken = TRUE;
    }
    if (same > 1 || (other && !is_pair(other, made)))
        return "a second member of its name";
    if (other && !do_agree(other, made))
        return "get and put disagree";
    if (other && !own_count(made))
        return NULL;
    if (!other && is_taken)
        return "a second member of its DISPID";
    if (*declarations == MEMBER_LIMIT)
        return "limit: 512 members";
    ++*declarations;
    return NULL;
}

typedef struct Collected {
    Interface *of;
    size_t declarations, seen;
} Collected;

static void keep(Collected *to, Member *made, const char *why)
{
    to->seen++;
    if (!why)
        why = joined(to->of, made, &to->declarations);
    if (why) {
        LEAVE("%s.%.65s, DISPID %ld, %s: %s", to->of->name, made->name, (long)made->id,
              kinds[made->kind], why);
        free(made);
        return;
    }
    to->of->members = with_room(to->of->members, to->of->count, &to->of->room,
                                sizeof *to->of->members);
    to->of->members[to->of->count++] = made;
}

/* Whether this is one of the functions that each dispatch interface has of IUnknown and
 * IDispatch. */
static BOOL is_of_dispatch(const FUNCDESC *function, const char *name)
{
    static const char *const seven[] = {
        "QueryInterface", "AddRef",        "Release", "GetTypeInfoCount",
        "GetTypeInfo",    "GetIDsOfNames", "Invoke"};
    size_t i;

    if (((ULONG)function->memid & 0xFFFE0000) != 0x60000000 ||
        !(function->wFuncFlags & FUNCFLAG_FRESTRICTED))
        return FALSE;
    for (i = 0; i < 7; i++)
        if (!strcmp(name, seven[i]))
            return TRUE;
    return FALSE;
}

static void add_function(Collected *to, ITypeInfo *info, const FUNCDESC *function,
                         BOOL is_dispinterface)
{
    BSTR wide[2 * PARAMETER_LIMIT + 2] = {NULL};
    const char *names[2 * PARAMETER_LIMIT + 1];
    Member *made = room_for(1, sizeof *made);
    UINT count = 0, i;

    if (FAILED(ITypeInfo_GetNames(info, function->memid, wide, 2 * PARAMETER_LIMIT + 1, &count)))
        count = 0;
    made->name = name_of(count ? wide[0] : NULL);
    for (i = 1; i < count; i++)
        names[i - 1] = name_of(wide[i]);
    made->id = function->memid;
    switch (function->invkind) {
    case INVOKE_PROPERTYGET:
        made->kind = GET;
        break;
    case INVOKE_PROPERTYPUT:
        made->kind = PUT;
        break;
    case INVOKE_PROPERTYPUTREF:
        made->kind = PUTREF;
        break;
    default:
        made->kind = METHOD;
        break;
    }
    if (is_dispinterface && is_of_dispatch(function, made->name))
        free(made);
    else
        keep(to, made, form_of(info, function, names, count ? count - 1 : 0, made));
}

static void add_variable(Collected *to, ITypeInfo *info, const VARDESC *variable)
{
    BSTR wide = NULL;
    Member *made = room_for(1, sizeof *made);
    UINT count = 0;
    const char *why;

    if (FAILED(ITypeInfo_GetNames(info, variable->memid, &wide, 1, &count)))
        count = 0;
    made->name = name_of(count ? wide : NULL);
    made->id = variable->memid;
    made->kind = variable->wVarFlags & VARFLAG_FREADONLY ? READONLY : PROPERTY;
    why = fault_of_name(made->name);
    if (!why && (made->id == -1 || made->id == -3))
        why = "a DISPID that is taken";
    if (!why)
        why = carried(info, &variable->elemdescVar.tdesc, 0, FALSE, &made->type);
    if (!why && !made->type.word)
        why = "a get without a result";
    keep(to, made, why);
}

/* Adds what an interface has itself. */
static void add_own(Collected *to, ITypeInfo *info)
{
    TYPEATTR *attributes;
    UINT i;

    if (FAILED(ITypeInfo_GetTypeAttr(info, &attributes))) {
        LEAVE("interface %s: it cannot be read", to->of->name);
        return;
    }
    for (i = 0; i < attributes->cVars; i++) {
        VARDESC *variable;

        if (FAILED(ITypeInfo_GetVarDesc(info, i, &variable))) {
            LEAVE("interface %s, variable %u: it cannot be read", to->of->name, i);
            continue;
        }
        add_variable(to, info, variable);
        ITypeInfo_ReleaseVarDesc(info, variable);
    }
    for (i = 0; i < attributes->cFuncs; i++) {
        FUNCDESC *function;

        if (FAILED(ITypeInfo_GetFuncDesc(info, i, &function))) {
            LEAVE("interface %s, function %u: it cannot be read", to->of->name, i);
            continue;
        }
        add_function(to, info, function, attributes->typekind == TKIND_DISPATCH);
        ITypeInfo_ReleaseFuncDesc(info, function);
    }
    ITypeInfo_ReleaseTypeAttr(info, attributes);
}

/* The interfaces from one up to IDispatch or IUnknown, without these; the caller releases the
   references. Reports whether IDispatch is there, and whether one could not be found. */
static unsigned chain_of(ITypeInfo *info, ITypeInfo **chain, BOOL *dispatches, BOOL *is_cut)
{
    unsigned count = 0;

    *dispatches = *is_cut = FALSE;
    ITypeInfo_AddRef(info);
    while (info && count < DEPTH_LIMIT) {
        TYPEATTR *attributes;
        ITypeInfo *above = NULL;
        HREFTYPE reference;

        if (FAILED(ITypeInfo_GetTypeAttr(info, &attributes))) {
            *is_cut = TRUE;
            break;
        }
        if (IsEqualGUID(&attributes->guid, &iid_dispatch) ||
            IsEqualGUID(&attributes->guid, &iid_unknown)) {
            *dispatches |= IsEqualGUID(&attributes->guid, &iid_dispatch);
            ITypeInfo_ReleaseTypeAttr(info, attributes);
            break;
        }
        if (attributes->cImplTypes &&
            (FAILED(ITypeInfo_GetRefTypeOfImplType(info, 0, &reference)) ||
             FAILED(ITypeInfo_GetRefTypeInfo(info, reference, &above)))) {
            *is_cut = TRUE;
            above = NULL;
        }
        ITypeInfo_ReleaseTypeAttr(info, attributes);
        chain[count++] = info;
        info = above;
    }
    if (info)
        ITypeInfo_Release(info);
    return count;
}

/* Whether members of an interface are called by their DISPIDs; if so, they are collected. */
static BOOL collect(Interface *of, ITypeInfo *info, size_t *seen)
{
    Collected to = {of, 0, 0};
    ITypeInfo *chain[DEPTH_LIMIT], *second = NULL;
    BOOL dispatches, is_cut;
    unsigned count;
    HREFTYPE reference;

    if (of->kind == TKIND_DISPATCH && (of->flags & TYPEFLAG_FDUAL) &&
        SUCCEEDED(ITypeInfo_GetRefTypeOfImplType(info, (UINT)-1, &reference)))
        ITypeInfo_GetRefTypeInfo(info, reference, &second);
    if (of->kind == TKIND_DISPATCH && !second) {
        add_own(&to, info);
        *seen = to.seen;
        return TRUE;
    }
    count = chain_of(second ? second : info, chain, &dispatches, &is_cut);
    dispatches = dispatches || of->kind == TKIND_DISPATCH ||
                 (of->flags & (TYPEFLAG_FDUAL | TYPEFLAG_FDISPATCHABLE));
    if (dispatches && is_cut)
        LEAVE("interface %s, members of one of another library: not there", of->name);
    while (count--) {
        if (dispatches)
            add_own(&to, chain[count]);
        ITypeInfo_Release(chain[count]);
    }
    if (second)
        ITypeInfo_Release(second);
    *seen = to.seen;
    return dispatches;
}

/* ---- texts of items */

static void add_form(Text *to, const Member *member)
{
    unsigned i;

    add(to, "[id(%ld)%s] ", (long)member->id,
        member->kind == GET   ? ", propget"
        : member->kind == PUT ? ", propput"
                              : "");
    add_type(to, &member->type);
    add(to, " %s(", member->name);
    for (i = 0; i < member->count; i++) {
        const Parameter *one = &member->parameters[i];

        add(to, "%s[in%s", i ? ", " : "", one->is_optional ? ", optional" : "");
        if (one->literal) {
            add(to, ", defaultvalue(");
            add_bytes(to, one->literal, strlen(one->literal));
            add(to, ")");
        }
        add(to, "] ");
        add_type(to, &one->type);
        add(to, " %s", one->name);
    }
    add(to, ");\n");
}

static const Member *other_form(const Interface *of, const Member *member)
{
    size_t i;

    for (i = 0; i < of->count; i++)
        if (is_pair(of->members[i], member) && !compared(of->members[i]->name, member->name))
            return of->members[i];
    return NULL;
}

static void write_interface(Interface *of)
{
    Text methods = {NULL, 0, 0}, *to = &of->text;
    size_t i;

    add(to, "[uuid(");
    add_guid(to, &of->guid);
    add(to, ")]\ndispinterface %s {\nproperties:\n", of->name);
    for (i = 0; i < of->count; i++) {
        const Member *member = of->members[i],
                     *other = own_count(member) ? NULL : other_form(of, member);

        if (member->kind == PROPERTY || member->kind == READONLY ||
            (member->kind == GET && !member->count)) {
            add(to, "[id(%ld)%s] ", (long)member->id,
                member->kind == READONLY || (member->kind == GET && !other) ? ", readonly" : "");
            add_type(to, &member->type);
            add(to, " %s;\n", member->name);
        } else if (!other)
            add_form(&methods, member);
    }
    add(to, "methods:\n");
    if (methods.length)
        add_bytes(to, methods.bytes, methods.length);
    add(to, "}\n");
    free(methods.bytes);
}

/* The place of the default interface among those that are kept. */
static unsigned default_of(const Coclass *of)
{
    unsigned i, first = of->count;

    for (i = 0; i < of->count; i++)
        if (of->entries[i].kept) {
            if (of->entries[i].is_default)
                return i;
            if (first == of->count)
                first = i;
        }
    return first;
}

static void write_coclass(Coclass *of)
{
    unsigned i, first = default_of(of);

    of->text.length = 0;
    add(&of->text, "[uuid(");
    add_guid(&of->text, &of->guid);
    add(&of->text, ")]\ncoclass %s {\n", of->name);
    for (i = 0; i < of->count; i++)
        if (of->entries[i].kept)
            add(&of->text, "%sdispinterface %s;\n", i == first ? "[default] " : "",
                of->entries[i].name);
    add(&of->text, "}\n");
}

/* ---- the library */

static struct {
    Interface *interfaces;
    Coclass *coclasses;
    size_t interface_count, interface_room, coclass_count, coclass_room;
    GUID guid;
    WORD major, minor;
    const char *name;
} library;

static int in_order(const void *one, const void *other)
{
    const char *first = *(const char *const *)one, *second = *(const char *const *)other;
    int found = compared(first, second);

    return found ? found : strcmp(first, second);
}

static const char *item_name(ITypeInfo *info)
{
    BSTR wide = NULL;

    if (FAILED(ITypeInfo_GetDocumentation(info, MEMBERID_NIL, &wide, NULL, NULL, NULL)))
        wide = NULL;
    return name_of(wide);
}

static void read_coclass(Coclass *to, ITypeInfo *info, unsigned count)
{
    unsigned i;

    to->entries = room_for(count, sizeof *to->entries);
    for (i = 0; i < count; i++) {
        Entry *entry = &to->entries[to->count];
        HREFTYPE reference;
        ITypeInfo *of;
        TYPEATTR *attributes;
        INT flags = 0;

        ITypeInfo_GetImplTypeFlags(info, i, &flags);
        entry->is_default = (flags & IMPLTYPEFLAG_FDEFAULT) != 0;
        entry->is_source = (flags & IMPLTYPEFLAG_FSOURCE) != 0;
        if (FAILED(ITypeInfo_GetRefTypeOfImplType(info, i, &reference)) ||
            FAILED(ITypeInfo_GetRefTypeInfo(info, reference, &of))) {
            LEAVE("coclass %.65s, interface %u: of another library, which is not there", to->name,
                  i);
            continue;
        }
        if (SUCCEEDED(ITypeInfo_GetTypeAttr(of, &attributes))) {
            entry->name = item_name(of);
            entry->guid = attributes->guid;
            ITypeInfo_ReleaseTypeAttr(of, attributes);
            to->count++;
        } else
            LEAVE("coclass %.65s, interface %u: it cannot be read", to->name, i);
        ITypeInfo_Release(of);
    }
}

static void read_item(ITypeInfo *info, UINT place)
{
    static const char *const others[] = {"enum", "record", "module", NULL,
                                         NULL,   NULL,     "alias",  "union"};
    TYPEATTR *attributes;
    const char *name = item_name(info);

    if (FAILED(ITypeInfo_GetTypeAttr(info, &attributes))) {
        LEAVE("item %.65s: it cannot be read", name);
        return;
    }
    if (IsEqualGUID(&attributes->guid, &iid_dispatch) ||
        IsEqualGUID(&attributes->guid, &iid_unknown)) {
        /* (which some compilers write into each library) */
    } else if (attributes->typekind == TKIND_INTERFACE || attributes->typekind == TKIND_DISPATCH) {
        Interface *made;

        library.interfaces = with_room(library.interfaces, library.interface_count,
                                       &library.interface_room, sizeof *made);
        made = &library.interfaces[library.interface_count++];
        made->name = name;
        made->guid = attributes->guid;
        made->place = place;
        made->kind = attributes->typekind;
        made->flags = attributes->wTypeFlags;
        made->rank = 2;
    } else if (attributes->typekind == TKIND_COCLASS) {
        Coclass *made;

        library.coclasses = with_room(library.coclasses, library.coclass_count,
                                      &library.coclass_room, sizeof *made);
        made = &library.coclasses[library.coclass_count++];
        made->name = name;
        made->guid = attributes->guid;
        read_coclass(made, info, attributes->cImplTypes);
    } else if (attributes->typekind == TKIND_ENUM)
        LEAVE("enum %.65s: its constants; as a type it is long", name);
    else if (attributes->typekind != TKIND_ALIAS) {
        const char *kind = attributes->typekind < TKIND_MAX && others[attributes->typekind]
                               ? others[attributes->typekind]
                               : "item";

        LEAVE("%s %.65s: %s", kind, name, kind);
    }
    ITypeInfo_ReleaseTypeAttr(info, attributes);
}

/* Why an item cannot be kept beside the earlier ones, or NULL. */
static const char *fault_of_item(const char *name, const GUID *guid, size_t interfaces,
                                 size_t coclasses)
{
    const char *why = fault_of_name(name);
    BOOL is_taken = IsEqualGUID(guid, &library.guid);
    size_t i;

    if (why)
        return why;
    if (IsEqualGUID(guid, &none))
        return "no GUID";
    for (i = 0; i < interfaces; i++)
        if (!library.interfaces[i].is_left) {
            if (!compared(library.interfaces[i].name, name))
                return "a second item of its name";
            is_taken |= IsEqualGUID(&library.interfaces[i].guid, guid);
        }
    for (i = 0; i < coclasses; i++)
        if (!library.coclasses[i].is_left) {
            if (!compared(library.coclasses[i].name, name))
                return "a second item of its name";
            is_taken |= IsEqualGUID(&library.coclasses[i].guid, guid);
        }
    return is_taken ? "a second item of its GUID" : NULL;
}

static BOOL is_asked_for(const Coclass *one)
{
    unsigned i;

    for (i = 0; i < given.only_count; i++)
        if (!compared(given.only[i], one->name))
            return TRUE;
    return !given.only_count;
}

static Interface *interface_of(const Entry *entry, BOOL also_left)
{
    size_t low = 0, high = library.interface_count;

    while (low < high) {
        size_t middle = (low + high) / 2;
        int found = in_order(&entry->name, &library.interfaces[middle].name);

        if (!found) {
            Interface *one = &library.interfaces[middle];

            return IsEqualGUID(&one->guid, &entry->guid) && (also_left || !one->is_left) ? one
                                                                                         : NULL;
        }
        if (found < 0)
            high = middle;
        else
            low = middle + 1;
    }
    return NULL;
}

static void leave_entry(const Coclass *of, const Entry *entry, const char *why)
{
    LEAVE("coclass %.65s, interface %.65s%s: %s", of->name, entry->name,
          entry->is_default && !entry->is_source ? ", its default" : "", why);
}

static void choose_interfaces(ITypeLib *of)
{
    size_t i, j;

    for (i = 0; i < library.coclass_count; i++)
        for (j = 0; is_asked_for(&library.coclasses[i]) && j < library.coclasses[i].count; j++) {
            Interface *one = interface_of(&library.coclasses[i].entries[j], TRUE);

            if (one)
                one->is_wanted = TRUE;
        }
    for (i = 0; i < library.interface_count; i++) {
        Interface *one = &library.interfaces[i];
        ITypeInfo *info = NULL;
        const char *why;
        size_t seen = 0, lines = given.report.length;
        unsigned long left = given.left;

        one->is_left = TRUE;
        if ((given.only_count && !one->is_wanted) ||
            FAILED(ITypeLib_GetTypeInfo(of, one->place, &info)))
            continue;
        why = fault_of_item(one->name, &one->guid, i, 0);
        if (!collect(one, info, &seen)) {
            /* (what it has is no member of a dispatch interface) */
            given.report.length = lines;
            given.left = left;
            LEAVE("interface %.65s: no dispatch interface", one->name);
        } else {
            if (why) {
                given.report.length = lines;
                given.left = left;
            } else if (seen && !one->count)
                why = "none of its members is kept";
            if (why)
                LEAVE("interface %.65s: %s", one->name, why);
            else {
                one->is_left = FALSE;
                write_interface(one);
            }
        }
        ITypeInfo_Release(info);
    }
}

static void choose_coclasses(void)
{
    size_t i, found = 0;
    unsigned j, k;

    for (i = 0; i < library.coclass_count; i++) {
        Coclass *one = &library.coclasses[i];
        const char *why;
        BOOL has_some = FALSE;

        one->is_left = TRUE;
        if (!is_asked_for(one))
            continue;
        why = fault_of_item(one->name, &one->guid, library.interface_count, i);
        for (j = 0; !why && j < one->count; j++) {
            Entry *entry = &one->entries[j];
            Interface *kept = entry->is_source ? NULL : interface_of(entry, FALSE);

            for (k = 0; kept && k < j; k++)
                if (one->entries[k].kept == kept)
                    break;
            if (!kept || k < j)
                leave_entry(one, entry,
                            entry->is_source ? "source interface"
                            : kept           ? "a second time"
                                             : "not kept");
            else {
                entry->kept = kept;
                has_some = TRUE;
            }
        }
        if (!why && !has_some)
            why = "none of its interfaces is kept";
        if (!why && found == ITEM_LIMIT)
            why = "limit: 256 coclasses";
        if (why) {
            LEAVE("coclass %.65s: %s", one->name, why);
            continue;
        }
        found++;
        one->is_left = FALSE;
        for (j = 0; j < one->count; j++)
            if (one->entries[j].kept) {
                int rank = j == default_of(one) ? 0 : 1;

                if (rank < one->entries[j].kept->rank)
                    one->entries[j].kept->rank = rank;
            }
        write_coclass(one);
    }
}

/* Leaves interfaces out until the rest fits; the coclasses' defaults come first, then their
 * others. */
static void fit(size_t used)
{
    size_t room = TEXT_LIMIT > used ? TEXT_LIMIT - used : 0, i, count = 0;
    int rank;

    for (i = 0; i < library.coclass_count; i++)
        if (!library.coclasses[i].is_left)
            room = library.coclasses[i].text.length < room ? room - library.coclasses[i].text.length
                                                           : 0;
    for (rank = 0; rank < 3; rank++)
        for (i = 0; i < library.interface_count; i++) {
            Interface *one = &library.interfaces[i];

            if (one->is_left || one->rank != rank)
                continue;
            if (count < ITEM_LIMIT && one->text.length <= room) {
                count++;
                room -= one->text.length;
                continue;
            }
            one->is_left = TRUE;
            LEAVE("interface %s: limit: %s", one->name,
                  count < ITEM_LIMIT ? "a text of 262,144 bytes" : "256 interfaces");
        }
}

static void drop_entries(void)
{
    size_t i;
    unsigned j;

    for (i = 0; i < library.coclass_count; i++) {
        Coclass *one = &library.coclasses[i];
        BOOL has_some = FALSE;

        for (j = 0; !one->is_left && j < one->count; j++)
            if (one->entries[j].kept && one->entries[j].kept->is_left) {
                one->entries[j].kept = NULL;
                leave_entry(one, &one->entries[j], "not kept");
            } else if (one->entries[j].kept)
                has_some = TRUE;
        if (one->is_left)
            continue;
        if (has_some)
            write_coclass(one);
        else {
            one->is_left = TRUE;
            LEAVE("coclass %s: none of its interfaces is kept", one->name);
        }
    }
}

/* The text of a type library, and after the report a line with counts. */
static Text text_of(ITypeLib *of)
{
    Text text = {NULL, 0, 0};
    TLIBATTR *attributes;
    BSTR wide = NULL;
    UINT i, count = ITypeLib_GetTypeInfoCount(of);
    size_t interfaces = 0, coclasses = 0, members = 0, j;
    const char *why;

    if (FAILED(ITypeLib_GetLibAttr(of, &attributes)))
        fail("not read: the library has no attributes");
    library.guid = attributes->guid;
    library.major = attributes->wMajorVerNum;
    library.minor = attributes->wMinorVerNum;
    ITypeLib_ReleaseTLibAttr(of, attributes);
    if (FAILED(ITypeLib_GetDocumentation(of, -1, &wide, NULL, NULL, NULL)))
        wide = NULL;
    library.name = name_of(wide);
    why = fault_of_name(library.name);
    if (why) {
        LEAVE("library %.65s: %s; it is called Library", library.name, why);
        library.name = "Library";
    }
    if (IsEqualGUID(&library.guid, &none))
        fail("the library has no GUID");
    for (i = 0; i < count; i++) {
        ITypeInfo *info;

        if (FAILED(ITypeLib_GetTypeInfo(of, i, &info))) {
            LEAVE("item %u: it cannot be read", i);
            continue;
        }
        read_item(info, i);
        ITypeInfo_Release(info);
    }
    for (i = 0; i < given.only_count; i++) {
        for (j = 0; j < library.coclass_count; j++)
            if (!compared(given.only[i], library.coclasses[j].name))
                break;
        if (j == library.coclass_count)
            fail(kept_text("the library has no coclass %.65s", given.only[i]));
    }
    if (library.interface_count)
        qsort(library.interfaces, library.interface_count, sizeof *library.interfaces, in_order);
    if (library.coclass_count)
        qsort(library.coclasses, library.coclass_count, sizeof *library.coclasses, in_order);
    choose_interfaces(of);
    choose_coclasses();
    add(&text, "[uuid(");
    add_guid(&text, &library.guid);
    add(&text, "), version(%u.%u)]\nlibrary %s {\n", library.major, library.minor, library.name);
    fit(text.length + strlen("}\n"));
    drop_entries();
    for (j = 0; j < library.interface_count; j++)
        if (!library.interfaces[j].is_left) {
            add_bytes(&text, library.interfaces[j].text.bytes, library.interfaces[j].text.length);
            interfaces++;
            members += library.interfaces[j].count;
        }
    for (j = 0; j < library.coclass_count; j++)
        if (!library.coclasses[j].is_left) {
            add_bytes(&text, library.coclasses[j].text.bytes, library.coclasses[j].text.length);
            coclasses++;
        }
    add(&text, "}\n");
    if (!interfaces)
        fail("nothing of the library is kept");
    add(&given.report,
        "%lu interfaces, %lu coclasses, %lu members kept; %lu lines of what is left out\n",
        (unsigned long)interfaces, (unsigned long)coclasses, (unsigned long)members, given.left);
    return text;
}

/* ---- the program */

#ifndef TESTS_TYPELIB_H
static WCHAR *output;

/* Writes a file, whole or not at all. */
static void write_file(const Text *text)
{
    WCHAR part[MAX_PATH + 8];
    FILE *file;
    BOOL is_written;

    if (wcslen(output) > MAX_PATH)
        fail("the name of the file to write is too long");
    wcscpy(part, output);
    wcscat(part, L".part");
    file = _wfopen(part, L"wb");
    if (!file)
        fail("the file to write cannot be made");
    is_written = fwrite(text->bytes, 1, text->length, file) == text->length;
    is_written = !fclose(file) && is_written;
    if (!is_written || !MoveFileExW(part, output, MOVEFILE_REPLACE_EXISTING)) {
        _wremove(part);
        fail("the file cannot be written");
    }
}

static WCHAR *input;
static volatile LONG is_done; /* all is written */

static DWORD WINAPI work(void *unused)
{
    ULONG reserve = RESERVE;
    ITypeLib *of;
    HRESULT result;
    Text text;

    (void)unused;
    SetThreadStackGuarantee(&reserve);
    result = CoInitialize(NULL);
    if (SUCCEEDED(result))
        result = LoadTypeLibEx(input, REGKIND_NONE, &of);
    if (FAILED(result)) {
        char why[64];

        snprintf(why, sizeof why, "%s (0x%08lX)",
                 result == TYPE_E_CANTLOADLIBRARY || result == (HRESULT)0x80070002
                     ? "not there, or no type library"
                     : "not read",
                 (unsigned long)result);
        fail(why);
    }
    text = text_of(of);
    if (output)
        write_file(&text);
    else if (fwrite(text.bytes, 1, text.length, stdout) != text.length || fflush(stdout))
        fail("standard output cannot be written");
    fwrite(given.report.bytes, 1, given.report.length, stderr);
    fflush(stderr);
    is_done = TRUE;
    return 0;
}

/* Ends this process after a crash of the system's reader, with a line. It takes no lock and no
   memory: the crash may have left both in any state. */
static void end_after_crash(const char *code)
{
    const char *parts[] = {"tlb2idl: ", given.path, ": the system's reader crashed", code, "\n"};
    DWORD count;
    size_t i;

    for (i = 0; i < sizeof parts / sizeof *parts; i++)
        WriteFile(GetStdHandle(STD_ERROR_HANDLE), parts[i], (DWORD)strlen(parts[i]), &count, NULL);
    TerminateProcess(GetCurrentProcess(), 1);
}

/* The system's reader gets any bytes of a file; if it crashes on them, only this process ends. */
static LONG WINAPI on_crash(EXCEPTION_POINTERS *told)
{
    char code[32];

    snprintf(code, sizeof code, " (0x%08lX)", (unsigned long)told->ExceptionRecord->ExceptionCode);
    end_after_crash(code);
    return EXCEPTION_EXECUTE_HANDLER;
}

static const char *utf8(const WCHAR *wide)
{
    char some[1024] = "";

    WideCharToMultiByte(CP_UTF8, 0, wide, -1, some, sizeof some - 1, NULL, NULL);
    return kept_text("%s", some);
}

static int usage(void)
{
    fputs(
        "usage: tlb2idl FILE [-o OUT.idl] [--double=DECIMAL] [--date=CY|BSTR] [--only=COCLASS]..\n",
        stderr);
    return 2;
}

int wmain(int count, WCHAR **words)
{
    HANDLE worker;
    int i;

    for (i = 1; i < count; i++) {
        if (!wcscmp(words[i], L"-o") && i + 1 < count && !output)
            output = words[++i];
        else if (!wcscmp(words[i], L"--double=DECIMAL"))
            given.as_double = "DECIMAL";
        else if (!wcscmp(words[i], L"--date=CY"))
            given.as_date = "CURRENCY";
        else if (!wcscmp(words[i], L"--date=BSTR"))
            given.as_date = "BSTR";
        else if (!wcsncmp(words[i], L"--only=", 7) && given.only_count < ITEM_LIMIT)
            given.only[given.only_count++] = utf8(words[i] + 7);
        else if (words[i][0] != '-' && !input)
            input = words[i];
        else
            return usage();
    }
    if (!input)
        return usage();
    snprintf(given.path, sizeof given.path, "%s", utf8(input));
    _setmode(_fileno(stdout), _O_BINARY);
    _setmode(_fileno(stderr), _O_BINARY);
    SetErrorMode(SEM_FAILCRITICALERRORS | SEM_NOGPFAULTERRORBOX);
    SetUnhandledExceptionFilter(on_crash);
    worker = CreateThread(NULL, 16 << 20, work, NULL, 0, NULL);
    if (!worker)
        fail("out of memory");
    if (WaitForSingleObject(worker, SECONDS * 1000) != WAIT_OBJECT_0)
        fail("the system's reader does not come to an end");
    /* after a stack overflow the system may end the thread without a call of on_crash */
    if (!is_done)
        end_after_crash("");
    return 0;
}
#endif
