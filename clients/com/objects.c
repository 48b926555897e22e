/* IDispatch of a store's objects.

   An object here is a number of the server's, and its Release ends this proxy alone: a store's
   objects have no owner and outlive the scripts that made them. The hub's Release gives one up. */
#include "objects.h"
#include "information.h"
#include "refusals.h"

#include <olectl.h>
#include <stddef.h>
#include <stdio.h>
#include <stdlib.h>
#include <string.h>
#include <wchar.h>

LONG dll_references;

/* By this an object of this DLL is known among all others: it is answered by objects of a store
 * only. */
static const GUID IID_OautObject = {
    0x6f617574, 0x0001, 0x4c6f, {0x9a, 0x51, 0x62, 0x72, 0x69, 0x64, 0x67, 0x65}};

struct object;

/* An interface of an object: what a caller has a pointer to. */
typedef struct Face {
    const IDispatchVtbl *calls;
    struct object *object;
    struct Face *next;
    Target target;
} Face;

typedef struct object {
    Face face; /* its IUnknown and IDispatch, and the first of its interfaces */
    const IProvideClassInfoVtbl *information;
    LONG references;
} Object;

static const IDispatchVtbl FACE_CALLS;
static const IProvideClassInfoVtbl INFORMATION_CALLS;

HRESULT new_object(const Target *target, REFIID iid, void **made)
{
    Object *object = calloc(1, sizeof *object);
    HRESULT result;

    *made = NULL;
    if (!object)
        return E_OUTOFMEMORY;
    object->face.calls = &FACE_CALLS;
    object->face.object = object;
    object->face.target = *target;
    object->information = &INFORMATION_CALLS;
    object->references = 1;
    connection_keep(target->connection);
    InterlockedIncrement(&dll_references);
    result = IDispatch_QueryInterface((IDispatch *)object, iid, made);
    IDispatch_Release((IDispatch *)object);
    return result;
}

const Target *target_of(IUnknown *some)
{
    void *found;
    const Target *target;

    if (FAILED(IUnknown_QueryInterface(some, &IID_OautObject, &found)))
        return NULL;
    target = &((Face *)found)->target;
    IUnknown_Release((IUnknown *)found);
    return target;
}

/* ---- interfaces */

/* Interfaces of the system that hosts ask for, before each call even: no library's. */
static BOOL is_of_system(REFIID iid)
{
    static const GUID known[] = {
        /* IDispatchEx */
        {0xA6EF9860, 0xC720, 0x11D0, {0x93, 0x37, 0x00, 0xA0, 0xC9, 0x0D, 0xCA, 0xA9}},
        /* IProvideClassInfo2 */
        {0xA6BC3AC0, 0xDBAA, 0x11CE, {0x9D, 0xE3, 0x00, 0xAA, 0x00, 0x4B, 0xB8, 0x51}},
        /* ISupportErrorInfo */
        {0xDF0B3D60, 0x548F, 0x101B, {0x8E, 0x65, 0x08, 0x00, 0x2B, 0x2B, 0xD1, 0x19}},
        /* IConnectionPointContainer */
        {0xB196B284, 0xBAB4, 0x101A, {0xB6, 0x9C, 0x00, 0xAA, 0x00, 0x34, 0x1D, 0x07}},
        /* IObjectSafety */
        {0xCB5BDC81, 0x93C1, 0x11CF, {0x8F, 0x20, 0x00, 0x80, 0x5F, 0x2C, 0xD0, 0x64}},
        /* IObjectWithSite */
        {0xFC4801A3, 0x2BA9, 0x11CF, {0xA2, 0x29, 0x00, 0xAA, 0x00, 0x3D, 0x73, 0x52}},
        /* INoMarshal */
        {0xECC8691B, 0xC1DB, 0x4DC0, {0x85, 0x5E, 0x65, 0xF6, 0xC5, 0x51, 0xAF, 0x49}},
        /* IAgileObject */
        {0x94EA2B94, 0xE9CC, 0x49E0, {0xC0, 0xFF, 0xEE, 0x64, 0xCA, 0x8F, 0x5B, 0x90}},
        /* IManagedObject */
        {0xC3FCC19E, 0xA970, 0x11D2, {0x8B, 0x5A, 0x00, 0xA0, 0xC9, 0xB7, 0xC9, 0xC4}},
        /* ICallFactory */
        {0x1C733A30, 0x2A1C, 0x11CE, {0xAD, 0xE5, 0x00, 0xAA, 0x00, 0x44, 0x77, 0x3D}},
    };
    static const BYTE ole[8] = {0xC0, 0, 0, 0, 0, 0, 0, 0x46};
    size_t i;

    for (i = 0; i < ARRAYSIZE(known); i++)
        if (IsEqualGUID(&known[i], iid))
            return TRUE;
    return !iid->Data2 && !iid->Data3 && !memcmp(iid->Data4, ole, sizeof ole);
}

HRESULT has_interface(const Target *target, REFIID iid)
{
    const Library *library;
    HRESULT result;

    if (IsEqualGUID(iid, &IID_IUnknown) || IsEqualGUID(iid, &IID_IDispatch) ||
        IsEqualGUID(iid, &IID_IProvideClassInfo))
        return S_OK;
    if (is_of_system(iid))
        return E_NOINTERFACE;
    if (FAILED(result = library_of(target->connection, &library)))
        return result;
    return find_interface(library, &target->class, iid) ? S_OK : E_NOINTERFACE;
}

/* The face of an object for one of its coclass's interfaces; it is made when it is first asked
 * for. */
static HRESULT find_face(Object *object, REFIID iid, Face **found)
{
    const Target *target = &object->face.target;
    const Library *library;
    HRESULT result;
    Face *face;

    for (face = &object->face; face; face = face->next)
        if (IsEqualGUID(&face->target.iid, iid)) {
            *found = face;
            return S_OK;
        }
    /* an object of a second interface has only that: COM's own stubs of dispinterfaces call
       IDispatch, so in another apartment another interface would be taken for it */
    if (!IsEqualGUID(&target->iid, &GUID_NULL))
        return E_NOINTERFACE;
    if (FAILED(result = has_interface(target, iid)))
        return result;
    library = library_told(target->connection);
    if (find_interface(library, &target->class, iid) ==
        find_interface(library, &target->class, &GUID_NULL)) {
        *found = &object->face;
        return S_OK;
    }
    if (!(face = calloc(1, sizeof *face)))
        return E_OUTOFMEMORY;
    face->calls = &FACE_CALLS;
    face->object = object;
    face->target = *target;
    face->target.iid = *iid;
    face->next = object->face.next;
    object->face.next = face;
    *found = face;
    return S_OK;
}

static HRESULT STDMETHODCALLTYPE face_query(IDispatch *self, REFIID iid, void **found)
{
    Object *object = ((Face *)self)->object;
    Face *face = NULL;
    HRESULT result = S_OK;

    *found = NULL;
    if (IsEqualGUID(iid, &IID_IUnknown) || IsEqualGUID(iid, &IID_IDispatch) ||
        IsEqualGUID(iid, &IID_OautObject)) {
        *found = &object->face;
    } else if (IsEqualGUID(iid, &IID_IProvideClassInfo)) {
        *found = &object->information;
    } else if (is_of_system(iid)) {
        return E_NOINTERFACE;
    } else {
        connection_enter(object->face.target.connection);
        result = find_face(object, iid, &face);
        result = connection_leave(object->face.target.connection, result);
        *found = face;
    }
    if (*found)
        InterlockedIncrement(&object->references);
    return result;
}

static ULONG STDMETHODCALLTYPE face_keep(IDispatch *self)
{
    return (ULONG)InterlockedIncrement(&((Face *)self)->object->references);
}

static ULONG STDMETHODCALLTYPE face_release(IDispatch *self)
{
    Object *object = ((Face *)self)->object;
    ULONG left = (ULONG)InterlockedDecrement(&object->references);

    if (!left) {
        connection_release(object->face.target.connection);
        while (object->face.next) {
            Face *face = object->face.next;

            object->face.next = face->next;
            free(face);
        }
        free(object);
        InterlockedDecrement(&dll_references);
    }
    return left;
}

/* ---- type information */

static HRESULT STDMETHODCALLTYPE face_type(IDispatch *self, UINT index, LCID locale,
                                           ITypeInfo **found)
{
    const Target *target = &((Face *)self)->target;
    HRESULT result;

    (void)locale;
    *found = NULL;
    if (index)
        return DISP_E_BADINDEX;
    connection_enter(target->connection);
    result = interface_information(target, found);
    return connection_leave(target->connection, result);
}

static HRESULT STDMETHODCALLTYPE face_type_count(IDispatch *self, UINT *count)
{
    (void)self;
    *count = 1;
    return S_OK;
}

static Object *of_information(IProvideClassInfo *self)
{
    return (Object *)((BYTE *)self - offsetof(Object, information));
}

static HRESULT STDMETHODCALLTYPE information_query(IProvideClassInfo *self, REFIID iid,
                                                   void **found)
{
    return face_query((IDispatch *)of_information(self), iid, found);
}

static ULONG STDMETHODCALLTYPE information_keep(IProvideClassInfo *self)
{
    return face_keep((IDispatch *)of_information(self));
}

static ULONG STDMETHODCALLTYPE information_release(IProvideClassInfo *self)
{
    return face_release((IDispatch *)of_information(self));
}

static HRESULT STDMETHODCALLTYPE information_class(IProvideClassInfo *self, ITypeInfo **found)
{
    const Target *target = &of_information(self)->face.target;
    HRESULT result;

    *found = NULL;
    connection_enter(target->connection);
    result = class_information(target, found);
    return connection_leave(target->connection, result);
}

static const IProvideClassInfoVtbl INFORMATION_CALLS = {
    information_query,
    information_keep,
    information_release,
    information_class,
};

/* ---- members */

static HRESULT STDMETHODCALLTYPE face_names(IDispatch *self, REFIID riid, LPOLESTR *names,
                                            UINT count, LCID locale, DISPID *ids)
{
    const Target *target = &((Face *)self)->target;
    HRESULT result;

    if (!count || !names || !ids)
        return E_INVALIDARG;
    connection_enter(target->connection);
    result = names_to_ids(target->connection, target->generation, target->number, &target->class,
                          &target->iid, riid, locale, (const WCHAR *const *)names, count, ids);
    if (FAILED(result) && result != DISP_E_UNKNOWNNAME && count == 1 &&
        IsEqualGUID(riid, &IID_NULL) && defer_name(target->connection, names[0], ids)) {
        if (result == OAUT_E_NO_REPLY)
            hang_up(target->connection);
        result = S_OK;
    }
    return connection_leave(target->connection, result);
}

/* Asks for the DISPID of a name that could not be asked for before. */
static HRESULT find_deferred(Call *call)
{
    const Target *target = call->target;
    const WCHAR *name = deferred_name(target->connection, call->id);
    const Library *library;
    const Item *type;
    HRESULT result;
    Member member;
    DISPID id;

    if (!name)
        return S_OK;
    if (FAILED(result = library_of(target->connection, &library)))
        return result;
    type = find_interface(library, &target->class, &target->iid);
    if (type && find_member(type, call->id, &member))
        return S_OK;
    result = names_to_ids(target->connection, target->generation, target->number, &target->class,
                          &target->iid, &IID_NULL, LOCALE_NEUTRAL, &name, 1, &id);
    if (result == S_OK)
        call->id = id;
    return result;
}

void name_class(Connection *connection, REFGUID class, WCHAR *text, size_t room)
{
    const Item *coclass = find_coclass(library_told(connection), class);
    WCHAR *progid;

    if (SUCCEEDED(ProgIDFromCLSID(class, &progid))) {
        lstrcpynW(text, progid, (int)room);
        CoTaskMemFree(progid);
    } else {
        lstrcpynW(text, coclass ? coclass->name : L"object", (int)room);
    }
}

/* What the library says of the argument at fault. */
static void name_argument(const Call *call, const Member *member, Refusal *refusal,
                          WCHAR name[MAX_NAME + 1])
{
    UINT32 place = parameter_of(call, call->argument);
    Parameter parameter;

    refusal->given = &call->given->rgvarg[call->argument];
    if (place == NO_ARGUMENT) {
        refusal->argument = L"the new value";
        refusal->declared = member->type;
    } else if (place < member->parameters && parameter_at(member, place, &parameter)) {
        copy_name(&parameter.name, name);
        refusal->argument = name;
        refusal->declared = parameter.type;
    } else {
        refusal->argument = L"an index";
    }
}

/* Whether a host asks by a get without arguments whether the member wants some: those of Python do,
   and look at the code itself. VBScript and VBA say METHOD too. */
static BOOL is_probe(const Call *call, HRESULT code)
{
    return call->flags == DISPATCH_PROPERTYGET && !call->given->cArgs &&
           (code == DISP_E_MEMBERNOTFOUND || code == DISP_E_PARAMNOTOPTIONAL);
}

/* Describes the error of a call in words, if the host has passed a structure for them. */
static HRESULT refuse(const Call *call, HRESULT code, EXCEPINFO *told)
{
    WCHAR source[80], object[96], member_name[MAX_NAME + 1], argument[MAX_NAME + 1];
    const Target *target = call->target;
    BOOL has_argument = call->argument < call->given->cArgs;
    Refusal refusal = {
        code, source, object, NULL, NULL, VT_EMPTY, NULL, target->for_scripts, target->connection,
        NULL, 0};
    const Library *library;
    const Item *type;
    Member member;

    if (!told || is_probe(call, code))
        return code;
    if (is_connected(target->connection))
        /* for the names; without it some are missing */
        library_of(target->connection, &library);
    name_class(target->connection, &target->class, source, ARRAYSIZE(source));
    swprintf(object, ARRAYSIZE(object), L"%ls %lu", source, (unsigned long)target->number);
    /* (in another library the DISPID may be another member's) */
    if (code != OAUT_E_OTHER_LIBRARY &&
        name_told(target->connection, &target->class, &target->iid, call->id, member_name))
        refusal.member = member_name;
    else
        refusal.member = deferred_name(target->connection, call->id);
    type = find_interface(library_told(target->connection), &target->class, &target->iid);
    if (has_argument && type && find_member(type, call->id, &member))
        name_argument(call, &member, &refusal, argument);
    else if (has_argument)
        refusal.given = &call->given->rgvarg[call->argument];
    return tell_refusal(&refusal, target->for_scripts, told);
}

static HRESULT STDMETHODCALLTYPE face_invoke(IDispatch *self, DISPID id, REFIID riid, LCID locale,
                                             WORD flags, DISPPARAMS *given, VARIANT *result,
                                             EXCEPINFO *exception, UINT *argument)
{
    static DISPPARAMS nothing;
    Call call = call_of(&((Face *)self)->target, id, given);
    HRESULT code = check_arguments(given);

    call.riid = riid;
    call.locale = locale;
    call.flags = flags;
    call.result = result;
    if (result)
        VariantInit(result);
    connection_enter(call.target->connection);
    if (FAILED(code))
        call.given = &nothing;
    else if (SUCCEEDED(code = find_deferred(&call)))
        code = perform_call(&call);
    if (FAILED(code) && argument && call.argument < call.given->cArgs)
        *argument = call.argument;
    if (code == OAUT_E_NO_REPLY)
        hang_up(call.target->connection);
    if (FAILED(code))
        code = refuse(&call, code, exception);
    return connection_leave(call.target->connection, code);
}

static const IDispatchVtbl FACE_CALLS = {
    face_query, face_keep, face_release, face_type_count, face_type, face_names, face_invoke,
};
