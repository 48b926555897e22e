/* Type libraries by chance for the rules of tlb2idl.c, under Linux with sanitizers:

       libraries FOLDER COUNT SEED

   makes COUNT of them: with names that are none, types and aliases that lead anywhere and back,
   members by the hundred, calls that fail now and then, and memory that is refused. Each ends with
   a text or with a line; what was taken is given back. Each 50th text is written to FOLDER, for
   `oaut check`, which has to take it as it stands. Prints how many ended in which way. */
#include "linux/typelib.h"

#include <setjmp.h>
#include <stdio.h>

#undef malloc
#undef calloc
#undef realloc

static jmp_buf ended;
static long refused, held_blocks;

typedef struct Block {
    struct Block *before, *behind;
    size_t pad[2];
} Block;

static Block blocks_list = {&blocks_list, &blocks_list, {0, 0}};

static void *own_calloc(size_t count, size_t size)
{
    Block *made = refused && !--refused ? NULL : calloc(1, sizeof(Block) + count * size);

    if (!made)
        return NULL;
    made->before = &blocks_list;
    made->behind = blocks_list.behind;
    made->behind->before = made;
    blocks_list.behind = made;
    held_blocks++;
    return made + 1;
}

static void own_free(void *block)
{
    Block *of;

    if (!block)
        return;
    of = (Block *)block - 1;
    of->before->behind = of->behind;
    of->behind->before = of->before;
    held_blocks--;
    free(of);
}

#define calloc own_calloc
#define free own_free
#define exit(status) longjmp(ended, 1 + (status))
#include "../tlb2idl.c"
#undef calloc
#undef free
#undef exit

#define PARTS 12 /* of a type */

static uint64_t state;

static uint32_t any(uint32_t below)
{
    state = state * 6364136223846793005u + 1442695040888963407u;
    return (uint32_t)((state >> 33) % below);
}

/* ---- a type library: each answer is made anew of the seed of what was asked, so the same question
 * has the same answer */

struct ITypeLib {
    int none;
};

struct ITypeInfo {
    UINT place;
};

static struct {
    uint64_t seed;
    UINT count;
    unsigned mood;
    ITypeInfo infos[700];
} made;

static long taken; /* what was taken and has to be given back */

static uint64_t begin(uint32_t what, uint32_t place, uint32_t detail)
{
    uint64_t was = state;

    state = made.seed ^ (uint64_t)what << 56 ^ (uint64_t)place << 24 ^ detail;
    any(2);
    any(2);
    return was;
}

static BOOL fails(void)
{
    return made.mood == 1 && !any(200);
}

static BSTR name_by_chance(uint32_t what, uint32_t place, uint32_t detail)
{
    static const char *const some[] = {"long",  "properties", "a b",    "1st",   "_",
                                       "Value", "value",      "VALUE_", "Count", "count",
                                       "Item",  "library",    ""};
    uint64_t was = begin(what, place, detail);
    char bytes[80] = "";
    WCHAR *wide;
    size_t length, i;

    if (!any(12))
        strcpy(bytes, some[any(sizeof some / sizeof *some)]);
    else if (!any(60))
        memset(bytes, 'n', 60 + any(10));
    else
        snprintf(bytes, sizeof bytes, "%c%u_%u", "NmPx"[what % 4], any(6) ? place : any(3),
                 any(8) ? detail : any(3));
    length = strlen(bytes);
    wide = calloc(length + 3, sizeof *wide);
    *(UINT *)wide = (UINT)(length * sizeof *wide);
    for (i = 0; i < length; i++)
        wide[2 + i] = (WCHAR)bytes[i];
    if (length && !any(80))
        wide[2 + any((uint32_t)length)] = (WCHAR)any(0x10000);
    state = was;
    taken++;
    return wide + 2;
}

UINT SysStringLen(BSTR text)
{
    return *(UINT *)(text - 2) / sizeof(WCHAR);
}

void SysFreeString(BSTR text)
{
    if (text) {
        free(text - 2);
        taken--;
    }
}

int WideCharToMultiByte(UINT page, DWORD flags, const WCHAR *wide, int count, char *bytes, int room,
                        const char *other, BOOL *used)
{
    int i, length = 0;

    (void)page, (void)flags, (void)other, (void)used;
    for (i = 0; i < count; i++) {
        if (length + 3 > room)
            return 0;
        if (wide[i] < 0x80)
            bytes[length++] = (char)wide[i];
        else {
            bytes[length++] = (char)(0xE0 | wide[i] >> 12);
            bytes[length++] = (char)(0x80 | (wide[i] >> 6 & 0x3F));
            bytes[length++] = (char)(0x80 | (wide[i] & 0x3F));
        }
    }
    return length;
}

static GUID guid_by_chance(uint32_t place)
{
    uint64_t was = begin(7, place, 0);
    GUID guid = {0x11223344, 0x5566, 0x7788, {0, 0, 0, 0, 0, 0, 0, 0}};

    guid.a += any(20) ? place + 1 : any(3);
    if (!any(40))
        memset(&guid, 0, sizeof guid);
    state = was;
    return guid;
}

/* A type; what it points to hangs on `parts`, which has room for PARTS. */
static TYPEDESC type_by_chance(TYPEDESC *parts)
{
    static const VARTYPE plain[] = {VT_I2,   VT_I4,      VT_BSTR,    VT_BOOL, VT_VARIANT,
                                    VT_CY,   VT_ERROR,   VT_DECIMAL, VT_I1,   VT_UI1,
                                    VT_UI2,  VT_UI4,     VT_I8,      VT_UI8,  VT_INT,
                                    VT_UINT, VT_HRESULT, VT_R4,      VT_R8,   VT_DATE};
    TYPEDESC found = {{NULL}, 0};
    unsigned used = 0;
    TYPEDESC *at = &found;

    while (used < PARTS - 2 && !any(used > 3 ? 2 : 5)) {
        at->vt = any(3) ? VT_PTR : VT_SAFEARRAY;
        at->lptdesc = &parts[used++];
        at = at->lptdesc;
    }
    memset(at, 0, sizeof *at);
    at->vt = any(6)   ? plain[any(sizeof plain / sizeof *plain)]
             : any(4) ? VT_USERDEFINED
                      : (VARTYPE)any(80);
    if (at->vt == VT_USERDEFINED)
        at->hreftype = any(made.count + 1);
    else if (at->vt == VT_PTR || at->vt == VT_SAFEARRAY || at->vt == VT_CARRAY) {
        at->lptdesc = &parts[used];
        memset(&parts[used], 0, sizeof *parts);
        parts[used].vt = VT_I4;
    }
    return found;
}

UINT ITypeLib_GetTypeInfoCount(ITypeLib *of)
{
    (void)of;
    return made.count;
}

HRESULT ITypeLib_GetTypeInfo(ITypeLib *of, UINT place, ITypeInfo **info)
{
    (void)of;
    if (fails())
        return E_OUTOFMEMORY;
    *info = &made.infos[place];
    made.infos[place].place = place;
    taken++;
    return S_OK;
}

HRESULT ITypeLib_GetLibAttr(ITypeLib *of, TLIBATTR **attributes)
{
    (void)of;
    if (fails())
        return E_OUTOFMEMORY;
    *attributes = calloc(1, sizeof **attributes);
    (*attributes)->guid = guid_by_chance(100000);
    (*attributes)->wMajorVerNum = (WORD)any(0x10000);
    taken++;
    return S_OK;
}

void ITypeLib_ReleaseTLibAttr(ITypeLib *of, TLIBATTR *attributes)
{
    (void)of;
    free(attributes);
    taken--;
}

HRESULT ITypeLib_GetDocumentation(ITypeLib *of, INT place, BSTR *name, BSTR *text, DWORD *context,
                                  BSTR *file)
{
    (void)of, (void)place, (void)text, (void)context, (void)file;
    *name = name_by_chance(0, 100000, 0);
    return S_OK;
}

void ITypeInfo_AddRef(ITypeInfo *info)
{
    (void)info;
    taken++;
}

void ITypeInfo_Release(ITypeInfo *info)
{
    (void)info;
    taken--;
}

HRESULT ITypeInfo_GetTypeAttr(ITypeInfo *info, TYPEATTR **attributes)
{
    static const TYPEKIND some[] = {TKIND_DISPATCH, TKIND_DISPATCH, TKIND_INTERFACE, TKIND_COCLASS,
                                    TKIND_ALIAS,    TKIND_ALIAS,    TKIND_ENUM,      TKIND_RECORD,
                                    TKIND_UNION,    TKIND_MODULE};

    struct {
        TYPEATTR attributes;
        TYPEDESC parts[PARTS];
    } * all;

    uint64_t was;

    if (fails())
        return E_OUTOFMEMORY;
    was = begin(1, info->place, 0);
    all = calloc(1, sizeof *all);
    *attributes = &all->attributes;
    all->attributes.typekind = made.mood == 2 ? (info->place % 2 ? TKIND_COCLASS : TKIND_DISPATCH)
                                              : some[any(sizeof some / sizeof *some)];
    all->attributes.wTypeFlags = any(2) ? 0 : TYPEFLAG_FDUAL;
    all->attributes.cImplTypes = (WORD)(all->attributes.typekind == TKIND_COCLASS ? any(9)
                                        : any(5)                                  ? 1
                                                                                  : 0);
    all->attributes.cFuncs = (WORD)(any(300) ? any(12) : any(1100));
    all->attributes.cVars = (WORD)(all->attributes.typekind == TKIND_DISPATCH ? any(12) : 0);
    all->attributes.tdescAlias = type_by_chance(all->parts);
    all->attributes.guid = info->place == made.count - 1 && any(2) ? iid_dispatch
                                                                   : guid_by_chance(info->place);
    state = was;
    taken++;
    return S_OK;
}

void ITypeInfo_ReleaseTypeAttr(ITypeInfo *info, TYPEATTR *attributes)
{
    (void)info;
    free(attributes);
    taken--;
}

static MEMBERID id_by_chance(uint32_t place)
{
    return any(15)  ? (MEMBERID)(place / 2)
           : any(3) ? (MEMBERID)any(5) - 4
                    : (MEMBERID)(0x60000000 + any(3));
}

HRESULT ITypeInfo_GetFuncDesc(ITypeInfo *info, UINT place, FUNCDESC **function)
{
    struct {
        FUNCDESC function;
        ELEMDESC elements[40];
        PARAMDESCEX defaults[40];
        TYPEDESC parts[41][PARTS];
    } * all;

    uint64_t was;
    int i;

    if (fails())
        return E_OUTOFMEMORY;
    was = begin(2, info->place, place);
    all = calloc(1, sizeof *all);
    *function = &all->function;
    all->function.memid = id_by_chance(place);
    all->function.invkind = 1 << any(any(20) ? 3 : 5);
    all->function.cParams = (SHORT)(any(40) ? any(4) : any(40) - 1);
    all->function.cParamsOpt = (SHORT)(any(100) ? 0 : -1);
    all->function.wFuncFlags = (WORD)any(2);
    all->function.elemdescFunc.tdesc = any(2)   ? (TYPEDESC){{NULL}, VT_HRESULT}
                                       : any(2) ? (TYPEDESC){{NULL}, VT_VOID}
                                                : type_by_chance(all->parts[40]);
    all->function.lprgelemdescParam = all->elements;
    for (i = 0; i < all->function.cParams; i++) {
        ELEMDESC *one = &all->elements[i];

        one->tdesc = type_by_chance(all->parts[i]);
        one->paramdesc.wParamFlags = (USHORT)(any(3) ? 1 : any(0x40));
        if (i == all->function.cParams - 1 && any(2) &&
            all->function.invkind == INVOKE_PROPERTYGET) {
            one->paramdesc.wParamFlags = 0xA;
            all->parts[i][PARTS - 1] = one->tdesc;
            one->tdesc.vt = VT_PTR;
            one->tdesc.lptdesc = &all->parts[i][PARTS - 1];
        }
        if (any(2)) {
            VARIANT *value = &all->defaults[i].varDefaultValue;

            one->paramdesc.pparamdescex = &all->defaults[i];
            V_VT(value) = (VARTYPE)any(30);
            V_UI8(value) = any(3) ? any(300) : (ULONGLONG)any(0x80000000u) << 33 | any(0x80000000u);
            if (V_VT(value) == VT_BSTR)
                V_BSTR(value) = any(9) ? name_by_chance(3, info->place, place) : NULL;
        }
    }
    state = was;
    taken++;
    return S_OK;
}

void ITypeInfo_ReleaseFuncDesc(ITypeInfo *info, FUNCDESC *function)
{
    int i;

    (void)info;
    for (i = 0; i < function->cParams; i++) {
        PARAMDESCEX *one = function->lprgelemdescParam[i].paramdesc.pparamdescex;

        if (one && V_VT(&one->varDefaultValue) == VT_BSTR)
            SysFreeString(V_BSTR(&one->varDefaultValue));
    }
    free(function);
    taken--;
}

HRESULT ITypeInfo_GetVarDesc(ITypeInfo *info, UINT place, VARDESC **variable)
{
    struct {
        VARDESC variable;
        TYPEDESC parts[PARTS];
    } * all;

    uint64_t was;

    if (fails())
        return E_OUTOFMEMORY;
    was = begin(4, info->place, place);
    all = calloc(1, sizeof *all);
    *variable = &all->variable;
    all->variable.memid = 1000 + id_by_chance(2 * place);
    all->variable.wVarFlags = (WORD)any(2);
    all->variable.elemdescVar.tdesc = type_by_chance(all->parts);
    state = was;
    taken++;
    return S_OK;
}

void ITypeInfo_ReleaseVarDesc(ITypeInfo *info, VARDESC *variable)
{
    (void)info;
    free(variable);
    taken--;
}

HRESULT ITypeInfo_GetNames(ITypeInfo *info, MEMBERID id, BSTR *names, UINT most, UINT *count)
{
    UINT i;

    (void)info;
    if (fails())
        return E_OUTOFMEMORY;
    *count = any(2) ? 1 : 1 + any(most);
    if (*count > most)
        *count = most;
    for (i = 0; i < *count; i++)
        names[i] = name_by_chance(5, (uint32_t)id, i);
    return S_OK;
}

HRESULT ITypeInfo_GetDocumentation(ITypeInfo *info, MEMBERID id, BSTR *name, BSTR *text,
                                   DWORD *context, BSTR *file)
{
    (void)id, (void)text, (void)context, (void)file;
    if (fails())
        return E_OUTOFMEMORY;
    *name = name_by_chance(6, info->place, 0);
    return S_OK;
}

HRESULT ITypeInfo_GetRefTypeOfImplType(ITypeInfo *info, UINT place, HREFTYPE *reference)
{
    uint64_t was = begin(8, info->place, place);

    *reference = any(3) ? any(made.count + 1) : made.count - 1;
    state = was;
    return fails() ? E_OUTOFMEMORY : S_OK;
}

HRESULT ITypeInfo_GetImplTypeFlags(ITypeInfo *info, UINT place, INT *flags)
{
    uint64_t was = begin(9, info->place, place);

    *flags = (INT)any(4);
    state = was;
    return S_OK;
}

HRESULT ITypeInfo_GetRefTypeInfo(ITypeInfo *info, HREFTYPE reference, ITypeInfo **found)
{
    (void)info;
    return reference >= made.count ? E_INVALIDARG : ITypeLib_GetTypeInfo(NULL, reference, found);
}

/* ---- one after another */

int main(int count, char **words)
{
    static long wanted, place, kept, lines; /* (which outlive a jump) */

    if (count == 4)
        wanted = atol(words[2]);

    for (place = 0; place < wanted; place++) {
        int how;

        state = strtoull(words[3], NULL, 10) * 1000003u + (uint64_t)place;
        any(2);
        made.seed = (uint64_t)any(0x7FFFFFFF) << 32 | any(0x7FFFFFFF);
        made.mood = any(8);
        made.count = 1 + any(any(60) ? 30 : 600);
        taken = 0;
        memset(&given, 0, sizeof given);
        memset(&library, 0, sizeof library);
        strcpy(given.path, "made.tlb");
        given.as_double = any(2) ? "DECIMAL" : NULL;
        given.as_date = any(2) ? any(2) ? "CURRENCY" : "BSTR" : NULL;
        refused = any(10) ? 0 : 1 + any(300);
        how = setjmp(ended);
        if (!how) {
            Text text = text_of(NULL);

            refused = 0;
            kept++;
            if (taken || text.length > TEXT_LIMIT) {
                printf("seed %s, %ld: %ld not given back, %zu bytes\n", words[3], place, taken,
                       text.length);
                return 1;
            }
            if (kept % 50 == 0) {
                char path[4096];
                FILE *file;

                snprintf(path, sizeof path, "%s/%ld.idl", words[1], place);
                file = fopen(path, "wb");
                if (!file || fwrite(text.bytes, 1, text.length, file) != text.length ||
                    fclose(file))
                    return 2;
            }
        } else if (how == 2)
            lines++;
        while (blocks_list.behind != &blocks_list)
            own_free(blocks_list.behind + 1);
    }
    printf("%ld texts, %ld lines\n", kept, lines);
    return 0;
}
