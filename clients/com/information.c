#include "information.h"
#include "hub.h"

#include <stdlib.h>
#include <string.h>
#include <wchar.h>

/* ---- from a file */

static HRESULT open_file(const Target *target, ITypeLib **library)
{
    const WCHAR *file = target->connection->settings.type_library;

    return file[0] ? LoadTypeLibEx(file, REGKIND_NONE, library) : S_FALSE;
}

/* The dispinterface of a coclass: the default one if `iid` is zero. */
static HRESULT interface_in_file(ITypeLib *library, const Target *target, ITypeInfo **found)
{
    TYPEATTR *attributes;
    HREFTYPE reference;
    ITypeInfo *class;
    HRESULT result;
    INT flags;
    UINT i;

    if (!IsEqualGUID(&target->iid, &GUID_NULL))
        return ITypeLib_GetTypeInfoOfGuid(library, &target->iid, found);
    if (FAILED(result = ITypeLib_GetTypeInfoOfGuid(library, &target->class, &class)))
        return result;
    if (SUCCEEDED(result = ITypeInfo_GetTypeAttr(class, &attributes))) {
        result = TYPE_E_ELEMENTNOTFOUND;
        for (i = 0; i < attributes->cImplTypes; i++) {
            if (FAILED(ITypeInfo_GetImplTypeFlags(class, i, &flags)) ||
                !(flags & IMPLTYPEFLAG_FDEFAULT))
                continue;
            result = ITypeInfo_GetRefTypeOfImplType(class, i, &reference);
            if (SUCCEEDED(result))
                result = ITypeInfo_GetRefTypeInfo(class, reference, found);
            break;
        }
        ITypeInfo_ReleaseTypeAttr(class, attributes);
    }
    ITypeInfo_Release(class);
    return result;
}

/* ---- made of a server's description */

/* Room for what AddFuncDesc is given of one parameter. */
typedef struct Room {
    TYPEDESC cells;
    PARAMDESCEX value;
    WCHAR name[MAX_NAME + 1];
} Room;

static TYPEDESC type_of(VARTYPE type, TYPEDESC *cells)
{
    TYPEDESC made;

    memset(&made, 0, sizeof made);
    made.vt = type;
    if (type & VT_ARRAY) {
        cells->vt = type & (VARTYPE)~VT_ARRAY;
        made.vt = VT_SAFEARRAY;
        made.lptdesc = cells;
    }
    return made;
}

static HRESULT add_property(ICreateTypeInfo *to, UINT index, const Member *member)
{
    WCHAR name[MAX_NAME + 1];
    TYPEDESC cells;
    VARDESC property;
    HRESULT result;

    memset(&cells, 0, sizeof cells);
    memset(&property, 0, sizeof property);
    property.memid = member->id;
    property.varkind = VAR_DISPATCH;
    property.wVarFlags = member->flags;
    property.elemdescVar.tdesc = type_of(member->type, &cells);
    copy_name(&member->name, name);
    result = ICreateTypeInfo_AddVarDesc(to, index, &property);
    return SUCCEEDED(result) ? ICreateTypeInfo_SetVarName(to, index, name) : result;
}

static HRESULT add_function(ICreateTypeInfo *to, UINT index, const Member *member)
{
    LPOLESTR names[MAX_ARGUMENTS + 1];
    ELEMDESC parameters[MAX_ARGUMENTS];
    WCHAR name[MAX_NAME + 1];
    HRESULT result = S_OK;
    TYPEDESC cells;
    Room *rooms;
    FUNCDESC function;
    Parameter parameter;
    UINT32 i;

    if (!(rooms = calloc(MAX_ARGUMENTS, sizeof *rooms)))
        return E_OUTOFMEMORY;
    memset(&cells, 0, sizeof cells);
    memset(&function, 0, sizeof function);
    memset(parameters, 0, sizeof parameters);
    function.memid = member->id;
    function.lprgelemdescParam = parameters;
    function.funckind = FUNC_DISPATCH;
    function.invkind = (INVOKEKIND)member->kind;
    function.callconv = CC_STDCALL;
    function.cParams = (SHORT)member->declared;
    function.elemdescFunc.tdesc = type_of(
        member->kind == INVOKE_PROPERTYGET ? member->type : VT_VOID, &cells);
    copy_name(&member->name, name);
    names[0] = name;
    for (i = 0; i < member->declared && parameter_at(member, i, &parameter) && SUCCEEDED(result);
         i++) {
        ELEMDESC *made = &parameters[i];

        made->tdesc = type_of(parameter.type, &rooms[i].cells);
        made->paramdesc.wParamFlags = parameter.flags;
        if (parameter.flags & PARAMFLAG_FHASDEFAULT) {
            rooms[i].value.cBytes = sizeof rooms[i].value;
            result = read_variant(&parameter.value, FALSE, &rooms[i].value.varDefaultValue);
            made->paramdesc.pparamdescex = &rooms[i].value;
        }
        copy_name(&parameter.name, rooms[i].name);
        names[i + 1] = rooms[i].name;
    }
    if (SUCCEEDED(result))
        result = ICreateTypeInfo_AddFuncDesc(to, index, &function);
    if (SUCCEEDED(result)) /* a put's new value has no name */
        result = ICreateTypeInfo_SetFuncAndParamNames(to, index, names, 1u + member->parameters);
    for (i = 0; i < MAX_ARGUMENTS; i++)
        VariantClear(&rooms[i].value.varDefaultValue);
    free(rooms);
    return result;
}

/* IDispatch as the system's type library has it, which is above each dispinterface of a file; NULL
 * if it is not there. */
static ITypeInfo *system_dispatch(void)
{
    static const GUID system = {0x00020430, 0, 0, {0xC0, 0, 0, 0, 0, 0, 0, 0x46}};
    ITypeInfo *found = NULL;
    ITypeLib *library;

    if (FAILED(LoadRegTypeLib(&system, 2, 0, LOCALE_NEUTRAL, &library)))
        return NULL;
    if (FAILED(ITypeLib_GetTypeInfoOfGuid(library, &IID_IDispatch, &found)))
        found = NULL;
    ITypeLib_Release(library);
    return found;
}

/* Begins a dispinterface; `above` is what it derives from, or NULL. */
static HRESULT begin_dispatch(ICreateTypeLib2 *library, WCHAR *name, REFGUID guid, ITypeInfo *above,
                              ICreateTypeInfo **made)
{
    HRESULT result = ICreateTypeLib2_CreateTypeInfo(library, name, TKIND_DISPATCH, made);
    HREFTYPE reference;

    if (FAILED(result))
        return result;
    result = ICreateTypeInfo_SetGuid(*made, guid);
    if (SUCCEEDED(result))
        result = ICreateTypeInfo_SetTypeFlags(*made, TYPEFLAG_FDISPATCHABLE);
    if (SUCCEEDED(result) && above)
        result = ICreateTypeInfo_AddRefTypeInfo(*made, above, &reference);
    if (SUCCEEDED(result) && above)
        result = ICreateTypeInfo_AddImplType(*made, 0, reference);
    if (SUCCEEDED(result))
        return S_OK;
    ICreateTypeInfo_Release(*made);
    return result;
}

/* Ends a type, and gives it as it can be read. */
static HRESULT end_type(ICreateTypeInfo *made, HRESULT result, ITypeInfo **found)
{
    if (SUCCEEDED(result))
        result = ICreateTypeInfo_LayOut(made);
    if (SUCCEEDED(result))
        result = ICreateTypeInfo_QueryInterface(made, &IID_ITypeInfo, (void **)found);
    ICreateTypeInfo_Release(made);
    return result;
}

/* Adds an interface under a name, and gives it as it can be read. */
static HRESULT add_interface(ICreateTypeLib2 *library, const Item *type, WCHAR *name,
                             ITypeInfo *above, ITypeInfo **found)
{
    UINT functions = 0, properties = 0;
    Reader at = entries_of(type);
    ICreateTypeInfo *made;
    HRESULT result = begin_dispatch(library, name, &type->guid, above, &made);
    Member member;

    *found = NULL;
    if (FAILED(result))
        return result;
    while (SUCCEEDED(result) && next_member(&at, &member))
        if (member.declared <= MAX_ARGUMENTS) /* what has more cannot be called */
            result = member.kind ? add_function(made, functions++, &member)
                                 : add_property(made, properties++, &member);
    return end_type(made, result, found);
}

static HRESULT add_implemented(ICreateTypeInfo *class, UINT place, ITypeInfo *type, BOOL is_default)
{
    HREFTYPE reference;
    HRESULT result = ICreateTypeInfo_AddRefTypeInfo(class, type, &reference);

    if (SUCCEEDED(result))
        result = ICreateTypeInfo_AddImplType(class, place, reference);
    if (SUCCEEDED(result) && is_default)
        result = ICreateTypeInfo_SetImplTypeFlags(class, place, IMPLTYPEFLAG_FDEFAULT);
    return result;
}

static HRESULT begin_class(ICreateTypeLib2 *library, WCHAR *name, REFGUID guid,
                           ICreateTypeInfo **made)
{
    HRESULT result = ICreateTypeLib2_CreateTypeInfo(library, name, TKIND_COCLASS, made);

    if (FAILED(result))
        return result;
    result = ICreateTypeInfo_SetGuid(*made, guid);
    if (SUCCEEDED(result))
        result = ICreateTypeInfo_SetTypeFlags(*made, TYPEFLAG_FCANCREATE);
    if (FAILED(result))
        ICreateTypeInfo_Release(*made);
    return result;
}

/* ---- the hub */

/* Adds a member of the hub. A member with any number of arguments takes an array of them after the
 * required ones. */
static HRESULT add_hub_member(ICreateTypeInfo *to, UINT index, const HubMember *member,
                              ITypeInfo *collection)
{
    WCHAR names[HUB_WORDS + 2][24];
    LPOLESTR words[HUB_WORDS + 2];
    ELEMDESC parameters[HUB_WORDS + 1];
    TYPEDESC cells, pointed;
    FUNCDESC function;
    BOOL has_rest = member->most == MAX_ARGUMENTS;
    UINT32 count = member->least + (has_rest ? 1 : 0), i;
    HRESULT result = S_OK;

    memset(&function, 0, sizeof function);
    memset(parameters, 0, sizeof parameters);
    memset(&pointed, 0, sizeof pointed);
    for (i = 0; i <= count; i++) {
        lstrcpynW(names[i],
                  !i                   ? member->name
                  : i <= member->least ? member->arguments[i - 1].name
                                       : L"more",
                  24);
        words[i] = names[i];
    }
    for (i = 0; i < count; i++) {
        VARTYPE type = i < member->least ? member->arguments[i].type : VT_ARRAY | VT_VARIANT;

        parameters[i].tdesc = type_of(type, &cells);
        parameters[i].paramdesc.wParamFlags = PARAMFLAG_FIN;
    }
    function.memid = member->id;
    function.lprgelemdescParam = parameters;
    function.funckind = FUNC_DISPATCH;
    function.invkind = member->kind;
    function.callconv = CC_STDCALL;
    function.cParams = (SHORT)count;
    function.cParamsOpt = has_rest ? -1 : 0;
    function.wFuncFlags = member->id == DISPID_NEWENUM ? FUNCFLAG_FRESTRICTED | FUNCFLAG_FHIDDEN
                                                       : 0;
    function.elemdescFunc.tdesc.vt = member->type;
    if (member->type == VT_USERDEFINED && collection) {
        result = ICreateTypeInfo_AddRefTypeInfo(to, collection, &pointed.hreftype);
        pointed.vt = VT_USERDEFINED;
        function.elemdescFunc.tdesc.vt = VT_PTR;
        function.elemdescFunc.tdesc.lptdesc = &pointed;
    } else if (member->type == VT_USERDEFINED) {
        function.elemdescFunc.tdesc.vt = VT_DISPATCH;
    }
    if (SUCCEEDED(result))
        result = ICreateTypeInfo_AddFuncDesc(to, index, &function);
    return SUCCEEDED(result) ? ICreateTypeInfo_SetFuncAndParamNames(to, index, words, count + 1)
                             : result;
}

/* Adds the dispinterface of the hub or of its collections, which is what the hub's Objects then
 * gives. */
static HRESULT add_hub(ICreateTypeLib2 *library, REFGUID hub, WCHAR *name, ITypeInfo *above,
                       ITypeInfo *collection, BOOL is_collection, ITypeInfo **found)
{
    GUID guid = part_of_hub(hub, is_collection ? PART_COLLECTION : PART_HUB);
    const HubMember *member;
    ICreateTypeInfo *made;
    HRESULT result = begin_dispatch(library, name, &guid, above, &made);
    UINT index = 0;
    UINT32 i;

    *found = NULL;
    if (FAILED(result))
        return result;
    for (i = 0; SUCCEEDED(result) && (member = hub_member(i)); i++)
        /* below IDispatch a member Release would be hidden by COM's own; Remove is the same */
        if ((member->of_collections || !is_collection) &&
            !(above && !wcscmp(member->name, L"Release")))
            result = add_hub_member(made, index++, member, collection);
    return end_type(made, result, found);
}

/* Whether a library has a type with a name, in any case of its letters. */
static BOOL has_type_named(const Library *told, const WCHAR *name)
{
    UINT32 i;

    for (i = 0; i < told->count; i++)
        if (CompareStringOrdinal(told->items[i].name, -1, name, -1, TRUE) == CSTR_EQUAL)
            return TRUE;
    return FALSE;
}

/* A name that no type of the library has; underscores are appended until it is free. */
static void free_name(const Library *told, const WCHAR *wanted, WCHAR name[MAX_NAME + 1])
{
    size_t length;

    lstrcpynW(name, wanted, MAX_NAME + 1);
    for (length = wcslen(name); has_type_named(told, name) && length < MAX_NAME; length++)
        wcscpy(name + length, L"_");
}

/* Adds the hub, its class and its collections to a library that is written. */
static HRESULT add_hub_types(ICreateTypeLib2 *library, const Library *told, REFGUID hub,
                             ITypeInfo *above)
{
    ITypeInfo *collection = NULL, *face = NULL, *whole = NULL;
    ICreateTypeInfo *class;
    WCHAR name[MAX_NAME + 1];
    HRESULT result;

    free_name(told, L"DObjects", name);
    result = add_hub(library, hub, name, above, NULL, TRUE, &collection);
    free_name(told, L"DStore", name);
    if (SUCCEEDED(result))
        result = add_hub(library, hub, name, above, collection, FALSE, &face);
    free_name(told, L"Store", name);
    if (SUCCEEDED(result) && SUCCEEDED(result = begin_class(library, name, hub, &class)))
        result = end_type(class, add_implemented(class, 0, face, TRUE), &whole);
    if (collection)
        ITypeInfo_Release(collection);
    if (face)
        ITypeInfo_Release(face);
    if (whole)
        ITypeInfo_Release(whole);
    return result;
}

/* ---- a library in memory, or in a file */

/* A library with the GUID that a hub's has. */
static HRESULT new_library(REFGUID hub, WCHAR *file, ICreateTypeLib2 **made)
{
    HRESULT result = CreateTypeLib2(sizeof(void *) == 8 ? SYS_WIN64 : SYS_WIN32, file, made);
    GUID guid = part_of_hub(hub, PART_LIBRARY);

    if (FAILED(result))
        return result;
    if (FAILED(result = ICreateTypeLib2_SetGuid(*made, &guid)) ||
        FAILED(result = ICreateTypeLib2_SetVersion(*made, 1, 0)) ||
        FAILED(result = ICreateTypeLib2_SetLcid(*made, LOCALE_NEUTRAL)))
        ICreateTypeLib2_Release(*made);
    return result;
}

static HRESULT new_memory_library(REFGUID hub, ICreateTypeLib2 **made)
{
    WCHAR file[] = L"oautcom.tlb"; /* it is never saved */

    return new_library(hub, file, made);
}

static GUID hub_told(const Library *told)
{
    return told->count ? hub_of_library(&told->items[0].guid) : GUID_NULL;
}

HRESULT hub_information(REFGUID hub, BOOL is_collection, ITypeInfo **found)
{
    WCHAR name[] = L"Objects", store[] = L"Store"; /* hosts show it as an object's type */
    ICreateTypeLib2 *library;
    HRESULT result;

    *found = NULL;
    if (FAILED(result = new_memory_library(hub, &library)))
        return result;
    result = add_hub(library, hub, is_collection ? name : store, NULL, NULL, is_collection, found);
    ICreateTypeLib2_Release(library);
    return result;
}

#define WRITTEN L": objects of an oaut server, written as it was registered" /* after the name */

static HRESULT add_coclass(ICreateTypeLib2 *library, const Library *told, const Item *coclass,
                           ITypeInfo **types)
{
    WCHAR name[MAX_NAME + 1];
    ICreateTypeInfo *made;
    ITypeInfo *whole = NULL;
    const Item *type;
    HRESULT result;
    BOOL is_default;
    UINT32 i;

    memcpy(name, coclass->name, sizeof name);
    if (FAILED(result = begin_class(library, name, &coclass->guid, &made)))
        return result;
    for (i = 0; SUCCEEDED(result) && (type = interface_at(told, coclass, i, &is_default)); i++)
        result = add_implemented(made, i, types[type - told->items], is_default);
    result = end_type(made, result, &whole);
    if (whole)
        ITypeInfo_Release(whole);
    return result;
}

HRESULT write_types(const Library *told, REFGUID hub, const WCHAR *name, WCHAR *file)
{
    WCHAR mark[MAX_NAME + ARRAYSIZE(WRITTEN)], own[MAX_NAME + 1];
    ITypeInfo **types = calloc((size_t)told->count + 1, sizeof *types), *above = system_dispatch();
    ICreateTypeLib2 *library = NULL;
    HRESULT result = types ? new_library(hub, file, &library) : E_OUTOFMEMORY;
    UINT32 i;

    lstrcpynW(own, name, MAX_NAME + 1);
    wcscpy(mark, own);
    wcscat(mark, WRITTEN);
    if (SUCCEEDED(result))
        result = ICreateTypeLib2_SetName(library, own);
    if (SUCCEEDED(result))
        result = ICreateTypeLib2_SetDocString(library, mark);
    for (i = 0; SUCCEEDED(result) && i < told->count; i++) { /* interfaces come first */
        memcpy(own, told->items[i].name, sizeof own);
        result = told->items[i].kind == KIND_INTERFACE
                     ? add_interface(library, &told->items[i], own, above, &types[i])
                     : add_coclass(library, told, &told->items[i], types);
    }
    if (SUCCEEDED(result))
        result = add_hub_types(library, told, hub, above);
    if (SUCCEEDED(result))
        result = ICreateTypeLib2_SaveAllChanges(library);
    for (i = 0; types && i < told->count; i++)
        if (types[i])
            ITypeInfo_Release(types[i]);
    free(types);
    if (above)
        ITypeInfo_Release(above);
    if (library)
        ICreateTypeLib2_Release(library);
    return result;
}

BOOL is_written_file(const WCHAR *file)
{
    ITypeLib *library;
    BSTR mark = NULL;
    BOOL is_own;

    if (FAILED(LoadTypeLibEx(file, REGKIND_NONE, &library)))
        return FALSE;
    is_own = SUCCEEDED(ITypeLib_GetDocumentation(library, -1, NULL, &mark, NULL, NULL)) && mark &&
             wcsstr(mark, WRITTEN);
    SysFreeString(mark);
    ITypeLib_Release(library);
    return is_own;
}

/* ---- of objects */

static HRESULT make_interface(const Target *target, const Library *told, ITypeInfo **found)
{
    const Item *type = find_interface(told, &target->class, &target->iid), *coclass;
    GUID hub = hub_told(told);
    ICreateTypeLib2 *library;
    WCHAR name[MAX_NAME + 1];
    HRESULT result;

    if (!type || !(coclass = find_coclass(told, &target->class)))
        return TYPE_E_ELEMENTNOTFOUND;
    if (FAILED(result = new_memory_library(&hub, &library)))
        return result;
    memcpy(name, IsEqualGUID(&target->iid, &GUID_NULL) ? coclass->name : type->name, sizeof name);
    result = add_interface(library, type, name, NULL, found);
    ICreateTypeLib2_Release(library);
    return result;
}

static HRESULT make_class(const Target *target, const Library *told, ITypeInfo **found)
{
    const Item *coclass = find_coclass(told, &target->class), *type;
    GUID hub = hub_told(told);
    ICreateTypeLib2 *library;
    ICreateTypeInfo *made;
    WCHAR name[MAX_NAME + 1];
    HRESULT result;
    BOOL is_default;
    UINT32 i;

    if (!coclass)
        return TYPE_E_ELEMENTNOTFOUND;
    if (FAILED(result = new_memory_library(&hub, &library)))
        return result;
    memcpy(name, coclass->name, sizeof name);
    if (SUCCEEDED(result = begin_class(library, name, &coclass->guid, &made))) {
        for (i = 0; SUCCEEDED(result) && (type = interface_at(told, coclass, i, &is_default));
             i++) {
            ITypeInfo *its;

            memcpy(name, type->name, sizeof name);
            if (FAILED(result = add_interface(library, type, name, NULL, &its)))
                break;
            result = add_implemented(made, i, its, is_default);
            ITypeInfo_Release(its);
        }
        result = end_type(made, result, found);
    }
    ICreateTypeLib2_Release(library);
    return result;
}

HRESULT interface_information(const Target *target, ITypeInfo **found)
{
    const Library *told;
    ITypeLib *library;
    HRESULT result = open_file(target, &library);

    if (FAILED(result))
        return result;
    if (result == S_OK) {
        result = interface_in_file(library, target, found);
        ITypeLib_Release(library);
        return result;
    }
    if (FAILED(result = library_of(target->connection, &told)))
        return result;
    return make_interface(target, told, found);
}

HRESULT class_information(const Target *target, ITypeInfo **found)
{
    const Library *told;
    ITypeLib *library;
    HRESULT result = open_file(target, &library);

    if (FAILED(result))
        return result;
    if (result == S_OK) {
        result = ITypeLib_GetTypeInfoOfGuid(library, &target->class, found);
        ITypeLib_Release(library);
        return result;
    }
    if (FAILED(result = library_of(target->connection, &told)))
        return result;
    return make_class(target, told, found);
}
