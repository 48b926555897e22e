#include "library.h"

#include <stdlib.h>
#include <string.h>

#define MAX_ITEMS 1024u     /* of a library: twice what a server has */
#define MAX_ENTRIES 1024u   /* of an interface or a coclass: the same */
#define MAX_TOLD 0x4000000u /* the bytes of all descriptions that are kept */

typedef struct known_name {
    struct known_name *next;
    GUID class, iid;
    DISPID id;
    UINT32 length;
    WCHAR text[];
} KnownName;

static void forget_items(Library *library)
{
    UINT32 i;

    for (i = 0; i < library->count; i++)
        free(library->items[i].entries);
    free(library->items);
    library->items = NULL;
    library->count = library->size = 0;
    library->is_whole = FALSE;
}

void forget_library(Library *library)
{
    while (library->names) {
        KnownName *name = library->names;

        library->names = name->next;
        free(name);
    }
    forget_items(library);
}

/* ---- names */

/* Names are equal as a server has them: A to Z folded, unit by unit. */
static BOOL same_name(const WCHAR *one, const WCHAR *other, UINT32 length)
{
    UINT32 i;

    for (i = 0; i < length; i++) {
        WCHAR a = one[i], b = other[i];

        if ((a >= 'A' && a <= 'Z' ? a + 32 : a) != (b >= 'A' && b <= 'Z' ? b + 32 : b))
            return FALSE;
    }
    return TRUE;
}

static KnownName *find_name(const Library *library, REFGUID class, REFIID iid, const WCHAR *text,
                            UINT32 length)
{
    KnownName *name;

    for (name = library->names; name; name = name->next)
        if (name->length == length && IsEqualGUID(&name->class, class) &&
            IsEqualGUID(&name->iid, iid) && same_name(name->text, text, length))
            return name;
    return NULL;
}

static void remember_name(Library *library, REFGUID class, REFIID iid, const WCHAR *text,
                          UINT32 length, DISPID id)
{
    KnownName *name;

    if (length > MAX_NAME || !(name = malloc(sizeof *name + length * sizeof *text)))
        return;
    name->class = *class;
    name->iid = *iid;
    name->id = id;
    name->length = length;
    memcpy(name->text, text, length * sizeof *text);
    name->next = library->names;
    library->names = name;
}

HRESULT names_to_ids(Connection *connection, UINT32 generation, UINT32 object, REFGUID class,
                     REFIID iid, REFIID riid, LCID locale, const WCHAR *const *names, UINT32 count,
                     DISPID *ids)
{
    BOOL alone = count == 1 && IsEqualGUID(riid, &GUID_NULL);
    KnownName *known = NULL;
    Reader from;
    HRESULT result;
    Writer *to;
    UINT32 i;

    if (alone && is_connected(connection))
        known = find_name(connection->library, class, iid, names[0], (UINT32)lstrlenW(names[0]));
    if (known) {
        ids[0] = known->id;
        return S_OK;
    }
    for (i = 0; i < count; i++)
        ids[i] = DISPID_UNKNOWN;
    to = begin_request_of(connection, OP_GETIDS, generation);
    write_32(to, object);
    write_32(to, 0);
    write_bytes(to, iid, sizeof *iid);
    write_bytes(to, riid, sizeof *riid);
    write_32(to, locale);
    write_32(to, count);
    for (i = 0; i < count; i++) {
        UINT32 length = (UINT32)lstrlenW(names[i]);

        write_32(to, length);
        write_32(to, 0);
        write_bytes(to, names[i], (size_t)length * sizeof(WCHAR));
        write_pad(to, 8);
    }
    result = exchange(connection, AGAIN);
    if (result != S_OK && result != DISP_E_UNKNOWNNAME)
        return result;
    from = reply_fields(connection);
    if (read_32(&from) != count)
        from.bad = TRUE;
    read_past(&from, 4);
    if (bytes_left(&from) / sizeof *ids < count)
        return OAUT_E_NO_REPLY;
    for (i = 0; i < count; i++)
        ids[i] = (DISPID)read_32(&from);
    if (alone && result == S_OK)
        remember_name(connection->library, class, iid, names[0], (UINT32)lstrlenW(names[0]),
                      ids[0]);
    return result;
}

#define DEFERRED_FIRST ((DISPID)0x8f6f0000) /* a library that has it has its own member called */
#define MAX_DEFERRED 1024u

typedef struct deferred_name {
    WCHAR text[MAX_NAME + 1];
} DeferredName;

BOOL defer_name(Connection *connection, const WCHAR *name, DISPID *id)
{
    UINT32 length = (UINT32)lstrlenW(name), i;
    DeferredName *all;

    if (!length || length > MAX_NAME)
        return FALSE;
    for (i = 0; i < connection->deferred_count; i++)
        if ((UINT32)lstrlenW(connection->deferred[i].text) == length &&
            same_name(connection->deferred[i].text, name, length))
            break;
    if (i == connection->deferred_count) {
        if (i == MAX_DEFERRED || !(all = realloc(connection->deferred, (i + 1) * sizeof *all)))
            return FALSE;
        memcpy(all[i].text, name, (length + 1) * sizeof *name);
        connection->deferred = all;
        connection->deferred_count++;
    }
    *id = DEFERRED_FIRST + (DISPID)i;
    return TRUE;
}

const WCHAR *deferred_name(const Connection *connection, DISPID id)
{
    UINT32 place = (UINT32)id - (UINT32)DEFERRED_FIRST;

    return place < connection->deferred_count ? connection->deferred[place].text : NULL;
}

void copy_name(const Name *name, WCHAR text[MAX_NAME + 1])
{
    memcpy(text, name->units, name->length * sizeof *text);
    text[name->length] = 0;
}

BOOL name_told(const Connection *connection, REFGUID class, REFIID iid, DISPID id,
               WCHAR text[MAX_NAME + 1])
{
    const Library *library = connection->library;
    const Item *type = find_interface(library, class, iid);
    const KnownName *name;
    Member member;

    if (type && find_member(type, id, &member)) {
        copy_name(&member.name, text);
        return TRUE;
    }
    for (name = library->names; name; name = name->next)
        if (name->id == id && IsEqualGUID(&name->class, class) && IsEqualGUID(&name->iid, iid)) {
            memcpy(text, name->text, name->length * sizeof *text);
            text[name->length] = 0;
            return TRUE;
        }
    return FALSE;
}

/* ---- descriptions */

static BOOL read_name(Reader *from, Name *name)
{
    name->length = read_string(from, &name->units);
    if (name->length > MAX_NAME)
        from->bad = TRUE;
    return !from->bad;
}

static HRESULT ask_item(Connection *connection, enum way way, UINT32 index, Item *item,
                        Reader *entries)
{
    Writer *to = begin_request(connection, OP_TYPEINFO);
    HRESULT result;
    Name name;

    memset(item, 0, sizeof *item);
    write_32(to, index);
    write_32(to, 0);
    if ((result = exchange(connection, way)) != S_OK)
        return result;
    *entries = reply_fields(connection);
    item->kind = read_32(entries);
    item->count = read_32(entries);
    read_bytes(entries, &item->guid, sizeof item->guid);
    if (!read_name(entries, &name))
        return OAUT_E_NO_REPLY;
    copy_name(&name, item->name);
    return S_OK;
}

HRESULT describe_item(Connection *connection, UINT32 index, Item *item, Reader *entries)
{
    return ask_item(connection, index ? HERE : AGAIN, index, item, entries);
}

Reader entries_of(const Item *item)
{
    return reader_of(item->entries, item->length);
}

BOOL next_parameter(Reader *at, Parameter *parameter)
{
    parameter->type = read_16(at);
    parameter->flags = read_16(at);
    read_past(at, 4);
    read_name(at, &parameter->name);
    parameter->value = *at;
    if (parameter->flags & PARAMFLAG_FHASDEFAULT) {
        UINT32 length = read_32(at);

        read_past(at, 4);
        read_past(at, length);
        read_pad(at, 8);
    }
    return !at->bad;
}

BOOL next_member(Reader *at, Member *member)
{
    Parameter parameter;
    WORD i;

    if (!bytes_left(at))
        return FALSE;
    member->id = (DISPID)read_32(at);
    member->kind = read_16(at);
    member->flags = read_16(at);
    member->type = read_16(at);
    member->parameters = member->declared = read_16(at);
    read_past(at, 4);
    read_name(at, &member->name);
    member->rest = *at;
    for (i = 0; i < member->declared && next_parameter(at, &parameter); i++)
        ;
    if (member->kind == INVOKE_PROPERTYPUT && member->declared && !at->bad) {
        member->parameters--;
        member->type = parameter.type; /* the last one has the type of the property */
    } else if (member->kind == INVOKE_FUNC) {
        member->type = VT_VOID;
    }
    return !at->bad;
}

BOOL find_member(const Item *type, DISPID id, Member *member)
{
    Reader at = entries_of(type);

    while (next_member(&at, member))
        if (member->id == id)
            return TRUE;
    return FALSE;
}

BOOL parameter_at(const Member *member, UINT32 place, Parameter *parameter)
{
    Reader at = member->rest;
    UINT32 i;

    for (i = 0; i < member->declared && next_parameter(&at, parameter); i++)
        if (i == place)
            return TRUE;
    return FALSE;
}

/* ---- interfaces and coclasses */

static BOOL is_named(const Item *item, const WCHAR *name)
{
    UINT32 length = (UINT32)lstrlenW(name);

    return (UINT32)lstrlenW(item->name) == length && same_name(item->name, name, length);
}

const Item *find_coclass(const Library *library, REFGUID class)
{
    UINT32 i;

    for (i = 0; i < library->count; i++)
        if (library->items[i].kind == KIND_COCLASS && IsEqualGUID(&library->items[i].guid, class))
            return &library->items[i];
    return NULL;
}

const Item *find_coclass_named(const Library *library, const WCHAR *name)
{
    UINT32 i;

    for (i = 0; i < library->count; i++)
        if (library->items[i].kind == KIND_COCLASS && is_named(&library->items[i], name))
            return &library->items[i];
    return NULL;
}

const Item *interface_at(const Library *library, const Item *class, UINT32 place, BOOL *is_default)
{
    Reader at = entries_of(class);
    UINT32 index;

    if (place >= class->count)
        return NULL;
    read_past(&at, (size_t)place * 8);
    *is_default = (read_32(&at) & IMPLTYPEFLAG_FDEFAULT) != 0;
    index = read_32(&at);
    if (at.bad || index >= library->count || library->items[index].kind != KIND_INTERFACE)
        return NULL;
    return &library->items[index];
}

/* By its GUID if it has no name. */
static const Item *interface_of(const Library *library, REFGUID class, REFIID iid,
                                const WCHAR *name)
{
    const Item *coclass = find_coclass(library, class), *found;
    BOOL is_default;
    UINT32 i;

    for (i = 0; coclass && (found = interface_at(library, coclass, i, &is_default)); i++)
        if (name                           ? is_named(found, name)
            : IsEqualGUID(iid, &GUID_NULL) ? is_default
                                           : IsEqualGUID(iid, &found->guid))
            return found;
    return NULL;
}

const Item *find_interface(const Library *library, REFGUID class, REFIID iid)
{
    return interface_of(library, class, iid, NULL);
}

const Item *find_interface_named(const Library *library, REFGUID class, const WCHAR *name)
{
    return interface_of(library, class, &GUID_NULL, name);
}

/* ---- all of a library */

/* Keeps an item whose entries have come, once all of them are read: what is looked for later is
 * there. */
static HRESULT add_item(Library *library, Item *item, Reader *entries)
{
    Item *all = realloc(library->items, (library->count + 1) * sizeof *all);
    size_t length = bytes_left(entries);
    Member member;
    Reader at;
    UINT32 i;

    if (!all)
        return E_OUTOFMEMORY;
    library->items = all;
    at = reader_of(entries->bytes + entries->place, length);
    if (item->kind == KIND_COCLASS) {
        read_past(&at, (size_t)item->count * 8);
    } else {
        for (i = 0; i < item->count && next_member(&at, &member); i++)
            ;
        if (i < item->count)
            at.bad = TRUE;
    }
    if (at.bad || length > MAX_TOLD - library->size)
        return OAUT_E_NO_REPLY;
    item->length = (UINT32)length;
    if (!(item->entries = malloc(length + 1)))
        return E_OUTOFMEMORY;
    memcpy(item->entries, at.bytes, length);
    library->size += item->length;
    all[library->count++] = *item;
    return S_OK;
}

/* Reads all items. The first one is asked for by a way, the others over the same connection. */
static HRESULT read_library(Connection *connection, enum way first)
{
    Library *library = connection->library;
    BOOL has_classes = FALSE;
    HRESULT result = S_OK;
    UINT32 index;

    for (index = 0; SUCCEEDED(result); index++) {
        Reader entries;
        Item item;

        if ((result = ask_item(connection, index ? HERE : first, index, &item, &entries)) != S_OK)
            break;
        library = connection->library; /* (another one, if this request has dialled) */
        if (!index && library->is_whole)
            return S_OK; /* it was read to be compared with an earlier one */
        if (!index)
            forget_items(library);
        if (index >= MAX_ITEMS || item.count > MAX_ENTRIES ||
            (item.kind != KIND_INTERFACE && item.kind != KIND_COCLASS) ||
            (item.kind == KIND_INTERFACE && has_classes))
            result = OAUT_E_NO_REPLY; /* interfaces come first: an index is one of theirs */
        else
            result = add_item(library, &item, &entries);
        has_classes = item.kind == KIND_COCLASS;
    }
    if (result != DISP_E_BADINDEX)
        return result;
    library->is_whole = TRUE;
    return S_OK;
}

HRESULT library_of(Connection *connection, const Library **library)
{
    BOOL has_locks = connection->locks || connection->lost_locks;
    HRESULT result = S_OK;

    if (is_connected(connection) && has_gone(connection))
        hang_up(connection); /* another library may be there by now */
    if (!is_connected(connection) || !connection->library->is_whole)
        result = read_library(connection, AGAIN);
    if (result == OAUT_E_LOST && !has_locks) {
        hang_up(connection); /* what is half read is not used */
        result = read_library(connection, AGAIN);
    }
    *library = connection->library; /* (not before: a dial may have put another one there) */
    if (SUCCEEDED(result))
        return S_OK;
    hang_up(connection); /* nothing of the caller's has been asked yet */
    return result == OAUT_E_LOST && !has_locks ? OAUT_E_NOT_REACHED : result;
}

/* ---- whether a library has what an earlier one had */

static BOOL same_names(const Name *one, const Name *other)
{
    WCHAR a[MAX_NAME + 1], b[MAX_NAME + 1];

    copy_name(one, a);
    copy_name(other, b);
    return one->length == other->length && same_name(a, b, one->length);
}

static BOOL same_parameters(const Member *one, const Member *other)
{
    Parameter a, b;
    UINT32 i;

    for (i = 0; i < one->declared; i++)
        if (!parameter_at(one, i, &a) || !parameter_at(other, i, &b) || a.type != b.type ||
            a.flags != b.flags || !same_names(&a.name, &b.name))
            return FALSE;
    return TRUE;
}

static BOOL has_member(const Item *type, const Member *wanted)
{
    Reader at = entries_of(type);
    Member member;

    while (next_member(&at, &member))
        if (member.id == wanted->id && member.kind == wanted->kind &&
            member.flags == wanted->flags && member.type == wanted->type &&
            member.declared == wanted->declared && same_names(&member.name, &wanted->name) &&
            same_parameters(&member, wanted))
            return TRUE;
    return FALSE;
}

static BOOL has_members(const Item *type, const Item *before)
{
    Reader at = entries_of(before);
    Member member;

    while (next_member(&at, &member))
        if (!has_member(type, &member))
            return FALSE;
    return TRUE;
}

/* Whether a coclass has the interfaces of an earlier one, and the same default one. */
static BOOL has_interfaces(const Library *library, const Item *class, const Library *before_library,
                           const Item *before)
{
    const Item *wanted, *found;
    BOOL was_default, is_default;
    UINT32 i, k;

    for (i = 0; (wanted = interface_at(before_library, before, i, &was_default)); i++) {
        for (k = 0; (found = interface_at(library, class, k, &is_default)); k++)
            if (IsEqualGUID(&found->guid, &wanted->guid))
                break;
        if (!found || is_default != was_default)
            return FALSE;
    }
    return TRUE;
}

static BOOL has_item(const Library *library, const Library *before_library, const Item *before)
{
    const Item *item;
    UINT32 i;

    for (i = 0; i < library->count; i++) {
        item = &library->items[i];
        if (item->kind == before->kind && IsEqualGUID(&item->guid, &before->guid))
            return item->kind == KIND_INTERFACE
                       ? has_members(item, before)
                       : has_interfaces(library, item, before_library, before);
    }
    return FALSE;
}

static BOOL has_known_name(const Library *library, const KnownName *name)
{
    const Item *type = find_interface(library, &name->class, &name->iid);
    Reader at;
    Member member;

    if (!type)
        return FALSE;
    at = entries_of(type);
    while (next_member(&at, &member)) {
        WCHAR text[MAX_NAME + 1];

        copy_name(&member.name, text);
        if (member.id == name->id && member.name.length == name->length &&
            same_name(text, name->text, name->length))
            return TRUE;
    }
    return FALSE;
}

/* Whether everything that was read of an earlier library is the same in this one. */
static BOOL has_all_of(const Library *library, const Library *before)
{
    const KnownName *name;
    UINT32 i;

    for (i = 0; before->is_whole && i < before->count; i++)
        if (!has_item(library, before, &before->items[i]))
            return FALSE;
    for (name = before->names; name; name = name->next)
        if (!has_known_name(library, name))
            return FALSE;
    return TRUE;
}

static BOOL has_told(const Library *library)
{
    return library->is_whole || library->names;
}

HRESULT compare_library(Connection *connection)
{
    Library *library = connection->library;
    HRESULT result;

    if (has_told(library) && !has_told(connection->before)) {
        connection->library = connection->before;
        connection->before = library;
    }
    forget_library(connection->library);
    if (!has_told(connection->before))
        return S_OK;
    if (FAILED(result = read_library(connection, HERE)))
        return result;
    if (has_all_of(connection->library, connection->before)) {
        connection->library->names = connection->before->names; /* they are so here too */
        connection->before->names = NULL;
    } else {
        connection->generation++;
    }
    forget_library(connection->before);
    return S_OK;
}

const Library *library_told(const Connection *connection)
{
    return connection->library;
}
