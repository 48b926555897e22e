#include "classes.h"
#include "hub.h"

#include <olectl.h>
#include <stddef.h>
#include <stdlib.h>
#include <string.h>
#include <wchar.h>

typedef struct ClassObject {
    const IClassFactoryVtbl *calls;
    const IParseDisplayNameVtbl *parser; /* GetObject("Demo.Store:1"), of a hub's */
    LONG references;
    Class class;
} ClassObject;

static ClassObject *of_parser(IParseDisplayName *self)
{
    return (ClassObject *)((BYTE *)self - offsetof(ClassObject, parser));
}

static HRESULT STDMETHODCALLTYPE class_query(IClassFactory *self, REFIID iid, void **found)
{
    ClassObject *class = (ClassObject *)self;

    if (IsEqualGUID(iid, &IID_IUnknown) || IsEqualGUID(iid, &IID_IClassFactory))
        *found = self;
    else if (class->class.is_hub && IsEqualGUID(iid, &IID_IParseDisplayName))
        *found = &class->parser;
    else
        *found = NULL;
    if (!*found)
        return E_NOINTERFACE;
    InterlockedIncrement(&class->references);
    return S_OK;
}

static ULONG STDMETHODCALLTYPE class_keep(IClassFactory *self)
{
    return (ULONG)InterlockedIncrement(&((ClassObject *)self)->references);
}

static ULONG STDMETHODCALLTYPE class_release(IClassFactory *self)
{
    ULONG left = (ULONG)InterlockedDecrement(&((ClassObject *)self)->references);

    if (!left) {
        free(self);
        InterlockedDecrement(&dll_references);
    }
    return left;
}

/* Makes an object in the store. */
static HRESULT create_number(Target *target)
{
    HRESULT result;
    Reader from;

    write_bytes(begin_request(target->connection, OP_CREATE), &target->class, sizeof target->class);
    if ((result = exchange(target->connection, ONCE)) != S_OK)
        return result;
    from = reply_fields(target->connection);
    target->number = read_32(&from);
    target->generation = target->connection->generation;
    if (from.bad)
        return OAUT_E_NO_REPLY;
    note_made(target->connection, target->number, &target->class);
    return S_OK;
}

/* An object of a coclass, with an interface that it has: none is made for nobody. */
static HRESULT create_object(const Class *class, Connection *connection, REFIID iid, void **made)
{
    Target target = {connection, class->guid, GUID_NULL, 0, class->for_scripts, 0};
    HRESULT result;

    connection_enter(connection);
    if (SUCCEEDED(result = has_interface(&target, iid)))
        result = create_number(&target);
    result = connection_leave(connection, result);
    return result == S_OK ? new_object(&target, iid, made) : result;
}

static HRESULT STDMETHODCALLTYPE class_create(IClassFactory *self, IUnknown *outer, REFIID iid,
                                              void **made)
{
    const Class *class = &((ClassObject *)self)->class;
    Connection *connection;
    HRESULT result;

    *made = NULL;
    if (outer)
        return CLASS_E_NOAGGREGATION;
    if (!(connection = connection_to(&class->settings)))
        return E_OUTOFMEMORY;
    if (class->is_hub) /* it dials with its first call: CreateObject shows one code for all */
        result = new_hub(connection, &class->guid, class->for_scripts, iid, made);
    else
        result = create_object(class, connection, iid, made);
    connection_release(connection);
    return result;
}

static HRESULT STDMETHODCALLTYPE class_lock(IClassFactory *self, BOOL on)
{
    (void)self;
    if (on)
        InterlockedIncrement(&dll_references);
    else
        InterlockedDecrement(&dll_references);
    return S_OK;
}

static HRESULT STDMETHODCALLTYPE parser_query(IParseDisplayName *self, REFIID iid, void **found)
{
    return class_query((IClassFactory *)of_parser(self), iid, found);
}

static ULONG STDMETHODCALLTYPE parser_keep(IParseDisplayName *self)
{
    return class_keep((IClassFactory *)of_parser(self));
}

static ULONG STDMETHODCALLTYPE parser_release(IParseDisplayName *self)
{
    return class_release((IClassFactory *)of_parser(self));
}

/* The number after the last colon of a display name. */
static BOOL number_in(const WCHAR *name, UINT32 *number)
{
    const WCHAR *at = wcsrchr(name, L':');
    UINT64 sum = 0;

    if (!at || !*++at)
        return FALSE;
    for (; *at >= L'0' && *at <= L'9' && sum <= MAXDWORD; at++)
        sum = 10 * sum + (UINT64)(*at - L'0');
    *number = (UINT32)sum;
    return !*at && sum <= MAXDWORD;
}

static HRESULT STDMETHODCALLTYPE parser_parse(IParseDisplayName *self, IBindCtx *context,
                                              LPOLESTR name, ULONG *eaten, IMoniker **made)
{
    const Class *class = &of_parser(self)->class;
    Connection *connection;
    IUnknown *found;
    HRESULT result;
    UINT32 number;

    (void)context;
    *made = NULL;
    *eaten = 0;
    if (!number_in(name, &number))
        return MK_E_SYNTAX;
    if (!(connection = connection_to(&class->settings)))
        return E_OUTOFMEMORY;
    connection_enter(connection);
    result = find_object(connection, number, class->for_scripts, &IID_IUnknown, (void **)&found);
    result = connection_leave(connection, result);
    connection_release(connection);
    if (FAILED(result))
        return result;
    result = CreatePointerMoniker(found, made);
    IUnknown_Release(found);
    if (SUCCEEDED(result))
        *eaten = (ULONG)lstrlenW(name);
    return result;
}

static const IClassFactoryVtbl CLASS_CALLS = {class_query, class_keep, class_release, class_create,
                                              class_lock};
static const IParseDisplayNameVtbl PARSER_CALLS = {parser_query, parser_keep, parser_release,
                                                   parser_parse};

HRESULT new_class_object(const Class *class, REFIID iid, void **made)
{
    ClassObject *object = calloc(1, sizeof *object);
    HRESULT result;

    *made = NULL;
    if (!object)
        return E_OUTOFMEMORY;
    object->calls = &CLASS_CALLS;
    object->parser = &PARSER_CALLS;
    object->references = 1;
    object->class = *class;
    InterlockedIncrement(&dll_references);
    result = class_query((IClassFactory *)object, iid, made);
    class_release((IClassFactory *)object);
    return result;
}
