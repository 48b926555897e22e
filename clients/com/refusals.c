#include "refusals.h"

#include <stdio.h>
#include <string.h>
#include <wchar.h>

/* Each code with which a call may be refused. The numbers are those of VBScript, JScript and VBA, 0
 * if they have none for the code. docs/guide/com.md has the same table. */
static const struct {
    HRESULT code;
    UINT32 number;
    const WCHAR *name, *words;
} REFUSALS[] = {
    {DISP_E_UNKNOWNNAME, 438, L"DISP_E_UNKNOWNNAME", L"there is no such name"},
    {DISP_E_MEMBERNOTFOUND, 438, L"DISP_E_MEMBERNOTFOUND",
     L"there is no such member, or not in this form: a put of a readonly one, a get of one that is "
     L"only put"},
    {DISP_E_UNKNOWNINTERFACE, 438, L"DISP_E_UNKNOWNINTERFACE",
     L"the riid of a call has to be IID_NULL"},
    {DISP_E_TYPEMISMATCH, 13, L"DISP_E_TYPEMISMATCH", L"the value is of another type"},
    {DISP_E_OVERFLOW, 6, L"DISP_E_OVERFLOW", L"the number is too large or too small"},
    {DISP_E_BADVARTYPE, 458, L"DISP_E_BADVARTYPE", L"values of this type are not supported"},
    {DISP_E_PARAMNOTOPTIONAL, 449, L"DISP_E_PARAMNOTOPTIONAL", L"a required argument is missing"},
    {DISP_E_BADPARAMCOUNT, 450, L"DISP_E_BADPARAMCOUNT", L"the number of arguments is wrong"},
    {DISP_E_NONAMEDARGS, 446, L"DISP_E_NONAMEDARGS", L"its arguments have no names"},
    {DISP_E_PARAMNOTFOUND, 448, L"DISP_E_PARAMNOTFOUND",
     L"no parameter has the name of an argument"},
    {DISP_E_BADINDEX, 9, L"DISP_E_BADINDEX", L"nothing has this index"},
    {DISP_E_ARRAYISLOCKED, 10, L"DISP_E_ARRAYISLOCKED", L"the array is locked"},
    {E_NOTIMPL, 445, L"E_NOTIMPL", L"it is a method, and the library has no bodies of methods"},
    {E_NOINTERFACE, 430, L"E_NOINTERFACE", L"the object does not have this interface"},
    {E_INVALIDARG, 5, L"E_INVALIDARG",
     L"an argument is given twice, or an array or the whole call is too large"},
    {E_OUTOFMEMORY, 7, L"E_OUTOFMEMORY", L"out of memory; nothing has changed"},
    {E_POINTER, 0, L"E_POINTER", L"a pointer is null"},
    {E_UNEXPECTED, 0, L"E_UNEXPECTED",
     L"there is no lock to release, the array was never put, or the store cannot hold another "
     L"object"},
    {E_FAIL, 0, L"E_FAIL", L"the store's device has failed; nothing is written any more"},
    {RPC_E_DISCONNECTED, 0, L"RPC_E_DISCONNECTED",
     L"the store has no object with this number; it was released"},
    {(HRESULT)0x800706F7, 0, L"RPC_X_BAD_STUB_DATA",
     L"the server refuses the call: a text is too long"},
    {STG_E_WRITEFAULT, 0, L"STG_E_WRITEFAULT",
     L"the store's device failed to write; the request was executed completely or not at all"},
    {STG_E_MEDIUMFULL, 0, L"STG_E_MEDIUMFULL", L"the store is full; nothing has changed"},
    {REGDB_E_CLASSNOTREG, 429, L"REGDB_E_CLASSNOTREG", L"the library has no such coclass"},
    {OAUT_E_NOT_REACHED, 462, L"RPC_S_SERVER_UNAVAILABLE",
     L"the server was not reached; nothing was sent"},
    {OAUT_E_OTHER_LIBRARY, 0, L"RPC_S_UNKNOWN_IF",
     L"the server has another library now; nothing was sent: make the object again"},
    {OAUT_E_LOST, 0, L"RPC_E_CONNECTION_TERMINATED",
     L"the connection broke before the reply; the request was executed completely or not at all"},
    {OAUT_E_LATE, 0, L"RPC_E_TIMEOUT",
     L"no reply came in time; the request was executed completely or not at all"},
    {OAUT_E_NO_REPLY, 0, L"RPC_E_INVALID_DATA",
     L"the server sent bytes that are not a reply; the request was executed completely or not at "
     L"all"},
};

HRESULT code_for_scripts(HRESULT code)
{
    size_t i;

    for (i = 0; i < ARRAYSIZE(REFUSALS); i++)
        if (REFUSALS[i].code == code && REFUSALS[i].number)
            return (HRESULT)(0x800A0000u + REFUSALS[i].number);
    return code;
}

/* ---- words for types */

/* As a library's text has them, and what hosts have besides. */
static const WCHAR *word_of(VARTYPE type)
{
    switch (type) {
    case VT_EMPTY:
        return L"Empty";
    case VT_NULL:
        return L"Null";
    case VT_I1:
        return L"char";
    case VT_UI1:
        return L"unsigned char";
    case VT_I2:
        return L"short";
    case VT_UI2:
        return L"unsigned short";
    case VT_I4:
        return L"long";
    case VT_UI4:
        return L"unsigned long";
    case VT_INT:
        return L"int";
    case VT_UINT:
        return L"unsigned int";
    case VT_I8:
        return L"hyper";
    case VT_UI8:
        return L"unsigned hyper";
    case VT_R4:
        return L"float";
    case VT_R8:
        return L"double";
    case VT_CY:
        return L"CURRENCY";
    case VT_DECIMAL:
        return L"DECIMAL";
    case VT_DATE:
        return L"DATE";
    case VT_BOOL:
        return L"VARIANT_BOOL";
    case VT_ERROR:
        return L"SCODE";
    case VT_BSTR:
        return L"BSTR";
    case VT_VARIANT:
        return L"VARIANT";
    case VT_DISPATCH:
    case VT_UNKNOWN:
        return L"object";
    }
    return L"another type";
}

/* Which type would hold a value that is taken nowhere, or not here. */
static const WCHAR *advice_on(const VARIANT *given)
{
    BOOL is_large;

    switch (V_VT(given)) {
    case VT_R4:
    case VT_R8:
        switch (exact_type(given, &is_large)) {
        case VT_I4:
            return L"as a whole number it is a long: CLng makes one";
        case VT_I8:
            return L"as a whole number it is a hyper, which CURRENCY and DECIMAL hold too";
        case VT_CY:
            return L"CURRENCY and DECIMAL hold this number";
        case VT_DECIMAL:
            return L"DECIMAL holds this number, and CCur makes a CURRENCY that is near it";
        }
        return is_large ? L"no type holds a number so large"
                        : L"no type holds this number; a text does";
    case VT_DATE:
        return L"there are no dates; a text or a number of days holds one";
    case VT_DISPATCH:
    case VT_UNKNOWN:
        return V_UNKNOWN(given) ? L"objects are not kept; the hub's NumberOf gives a number that is"
                                : L"Nothing is not kept; Null and Empty are";
    }
    return V_VT(given) & VT_ARRAY
               ? L"an array holds scalars alone: no doubles, dates, objects and arrays"
               : NULL;
}

/* ---- the text */

#define MOST 1024 /* units of a description */

typedef struct Text {
    WCHAR units[MOST];
    size_t length;
} Text;

static void add(Text *to, const WCHAR *words)
{
    while (*words && to->length < MOST - 1)
        to->units[to->length++] = *words++;
    to->units[to->length] = 0;
}

static void add_type(Text *to, VARTYPE type)
{
    if (type & VT_ARRAY)
        add(to, L"SAFEARRAY(");
    add(to, word_of(type & (VARTYPE) ~(VT_ARRAY | VT_BYREF)));
    if (type & VT_ARRAY)
        add(to, L")");
}

/* Which element of an array is at fault, by its indices, and why. */
static BOOL add_element(Text *to, const Refusal *refusal, const VARIANT *given)
{
    const SAFEARRAY *array = V_ARRAY(given);
    const WCHAR *advice = NULL;
    const VARIANT *cell;
    WCHAR number[24];
    VARIANT room;
    HRESULT code;
    UINT32 place, i;

    code = find_misfit(array, V_VT(given) & (VARTYPE)~VT_ARRAY, refusal->declared, refusal->how,
                       &place, &cell, &room);
    if (code == S_OK)
        return FALSE;
    add(to, L"; element (");
    for (i = array->cDims; i-- > 0;) { /* the leftmost index first, which counts fastest */
        const SAFEARRAYBOUND *bound = &array->rgsabound[i];

        swprintf(number, ARRAYSIZE(number), L"%ld%ls",
                 (long)bound->lLbound + (long)(place % bound->cElements), i ? L", " : L")");
        place /= bound->cElements;
        add(to, number);
    }
    add(to, code == DISP_E_OVERFLOW ? L" is too large or too small: it is given as "
                                    : L" is given as ");
    add_type(to, V_VT(cell));
    if (code == DISP_E_BADVARTYPE)
        advice = advice_on(cell);
    if (advice) {
        add(to, L"; ");
        add(to, advice);
    }
    return TRUE;
}

/* What was declared and what was given, of the codes that speak of a value. */
static void add_argument(Text *to, const Refusal *refusal)
{
    BOOL is_of_value = refusal->code == DISP_E_TYPEMISMATCH || refusal->code == DISP_E_OVERFLOW ||
                       refusal->code == DISP_E_BADVARTYPE;
    const WCHAR *advice = NULL;
    const VARIANT *given = NULL;
    VARIANT room;

    if (refusal->given)
        given = value_behind(refusal->given, &room);
    if (refusal->argument) {
        add(to, L": ");
        add(to, refusal->argument);
        if (is_of_value && refusal->declared != VT_EMPTY) {
            add(to, L" is declared ");
            add_type(to, refusal->declared);
        }
        if (is_of_value && given) {
            add(to, refusal->declared != VT_EMPTY ? L" and given as " : L" is given as ");
            add_type(to, V_VT(given));
        }
    }
    if (given && is_of_value && (V_VT(given) & VT_ARRAY) && refusal->declared != VT_EMPTY &&
        add_element(to, refusal, given))
        return;
    if (given && (refusal->code == DISP_E_BADVARTYPE ||
                  (refusal->code == DISP_E_OVERFLOW && is_floating(given))))
        advice = advice_on(given);
    if (advice) {
        add(to, L"; ");
        add(to, advice);
    }
}

/* Which server was not reached, or lost, and why, as far as this end knows. */
static void add_cause(Text *to, const Refusal *refusal)
{
    static const struct {
        int cause;
        const WCHAR *words;
    } CAUSES[] = {
        {0, L"the server ended the connection"},
        {WSAECONNREFUSED, L"connection refused: nothing listens there"},
        {WSAHOST_NOT_FOUND, L"no host has this name"},
        {WSANO_DATA, L"no host has this name"},
        {WSAETIMEDOUT, L"timed out"},
        {WSAEHOSTUNREACH, L"no route to this host"},
        {WSAENETUNREACH, L"no route to this network"},
        {WSAECONNRESET, L"the server reset the connection"},
        {WSAECONNABORTED, L"this machine aborted the connection"},
        {WSAEPROTONOSUPPORT, L"what listens there sends no changes"},
    };

    const Settings *settings = &refusal->connection->settings;
    int cause = refusal->watch ? refusal->cause : refusal->connection->cause;
    const WCHAR *words = L"";
    WCHAR number[16];
    size_t i;

    if (refusal->watch && !*refusal->watch) {
        add(to, L"; no port for changes is registered: oautreg add has --watch for it");
        return;
    }
    for (i = 0; i < ARRAYSIZE(CAUSES); i++)
        if (CAUSES[i].cause == cause)
            words = CAUSES[i].words;
    add(to, L"; ");
    add(to, settings->host);
    add(to, L":");
    add(to, refusal->watch ? refusal->watch : settings->port);
    add(to, L": ");
    add(to, words);
    if (cause) {
        swprintf(number, ARRAYSIZE(number), *words ? L", %d" : L"%d", cause);
        add(to, number);
    }
}

static void describe(Text *to, const Refusal *refusal)
{
    const WCHAR *name = NULL, *words = L"it is refused";
    WCHAR number[16];
    size_t i;

    for (i = 0; i < ARRAYSIZE(REFUSALS); i++)
        if (REFUSALS[i].code == refusal->code) {
            name = REFUSALS[i].name;
            words = REFUSALS[i].words;
        }
    to->length = 0;
    add(to, refusal->object ? refusal->object : L"oautcom");
    if (refusal->member) {
        add(to, L", ");
        add(to, refusal->member);
    }
    add(to, L": ");
    add(to, words);
    add_argument(to, refusal);
    /* (if the server itself replies with such a code, the connection still works) */
    if ((refusal->code == OAUT_E_NOT_REACHED || refusal->code == OAUT_E_LOST) &&
        (refusal->watch || refusal->connection->socket == INVALID_SOCKET))
        add_cause(to, refusal);
    add(to, L" (");
    if (name) {
        add(to, name);
        add(to, L", ");
    }
    swprintf(number, ARRAYSIZE(number), L"0x%08lX", (unsigned long)refusal->code);
    add(to, number);
    add(to, L")");
}

HRESULT tell_refusal(const Refusal *refusal, BOOL for_scripts, EXCEPINFO *told)
{
    Text text;

    describe(&text, refusal);
    memset(told, 0, sizeof *told);
    told->bstrSource = SysAllocString(refusal->source ? refusal->source : L"oautcom");
    told->bstrDescription = SysAllocString(text.units);
    told->scode = for_scripts ? code_for_scripts(refusal->code) : refusal->code;
    return DISP_E_EXCEPTION;
}
