/* What a server says of its library: names and types, by GETIDS and TYPEINFO. What it has said is
   remembered while the connection lasts; afterwards it serves the texts of errors alone. The next
   connection may reach another server, while hosts still use DISPIDs of this one. So both libraries
   are compared before anything else is asked.

   All here want the connection's lock held. */
#ifndef OAUT_LIBRARY_H
#define OAUT_LIBRARY_H

#include "connection.h"

#define KIND_INTERFACE 4u /* TKIND_DISPATCH */
#define KIND_COCLASS 5u   /* TKIND_COCLASS */

/* A name in a description: at most MAX_NAME UTF-16 units, at any address. */
#define MAX_NAME 64u

typedef struct Name {
    const BYTE *units;
    UINT32 length;
} Name;

/* An interface or a coclass. Its entries stay bytes, and are read when something is looked up. */
typedef struct Item {
    UINT32 kind;
    GUID guid;
    WCHAR name[MAX_NAME + 1];
    UINT32 count;
    BYTE *entries;
    UINT32 length;
} Item;

typedef struct Library {
    /* interfaces, then coclasses; an entry of a coclass names an interface by its index */
    Item *items;
    UINT32 count, size; /* of items; of all their entries, in bytes */
    BOOL is_whole;
    struct known_name *names;
} Library;

/* A member of an interface, in one of its forms. */
typedef struct Member {
    DISPID id;
    WORD kind;       /* 0 a property, else an INVOKEKIND */
    WORD flags;      /* VARFLAGS */
    VARTYPE type;    /* of what it holds, with VT_ARRAY; VT_VOID of a method */
    WORD parameters; /* a put's new value not counted */
    WORD declared;   /* the same, and it counted */
    Name name;
    Reader rest; /* at its parameters */
} Member;

typedef struct Parameter {
    VARTYPE type;
    WORD flags; /* PARAMFLAGS */
    Name name;
    Reader value; /* its default, a variant field, if flags say that there is one */
} Parameter;

void forget_library(Library *library);

/* After a dial: if an earlier connection's server has said something of its library, reads the one
   that is there. If it does not have all of that, as it was, the connection's next generation
   begins. */
HRESULT compare_library(Connection *connection);

/* The library of the server that is there, or is dialled. */
HRESULT library_of(Connection *connection, const Library **library);
/* The library as it was last received, perhaps in part; sends no request. */
const Library *library_told(const Connection *connection);

const Item *find_coclass(const Library *library, REFGUID class);
const Item *find_coclass_named(const Library *library, const WCHAR *name);
/* An interface of a coclass, by its GUID (zeros for the default one) or by its name; NULL if there
 * is none. */
const Item *find_interface(const Library *library, REFGUID class, REFIID iid);
const Item *find_interface_named(const Library *library, REFGUID class, const WCHAR *name);
/* An entry of a coclass, from 0 on: an interface, and whether it is the default one. NULL after the
 * last. */
const Item *interface_at(const Library *library, const Item *class, UINT32 place, BOOL *is_default);

/* Members in their order; FALSE after the last, or if the bytes are no member. `at` begins as
 * entries_of returns it. */
Reader entries_of(const Item *item);
BOOL next_member(Reader *at, Member *member);
/* The first form of the member with a DISPID. */
BOOL find_member(const Item *type, DISPID id, Member *member);
BOOL next_parameter(Reader *at, Parameter *parameter);
BOOL parameter_at(const Member *member, UINT32 place, Parameter *parameter);

/* DISPIDs of a member and of parameters, by GETIDS; that of a member alone is remembered.
   `generation` is the object's (connection.h). */
HRESULT names_to_ids(Connection *connection, UINT32 generation, UINT32 object, REFGUID class,
                     REFIID iid, REFIID riid, LCID locale, const WCHAR *const *names, UINT32 count,
                     DISPID *ids);
/* A DISPID for a name that the server could not be asked for. Hosts show no text if GetIDsOfNames
   fails, but they do if a call fails, so the call with this DISPID asks again. FALSE if there are
   too many. Valid as long as the connection is. */
BOOL defer_name(Connection *connection, const WCHAR *name, DISPID *id);
/* The name of such a DISPID, or NULL. */
const WCHAR *deferred_name(const Connection *connection, DISPID id);
/* The name of a member as it was last received; FALSE if it was not. */
BOOL name_told(const Connection *connection, REFGUID class, REFIID iid, DISPID id,
               WCHAR name[MAX_NAME + 1]);
void copy_name(const Name *name, WCHAR text[MAX_NAME + 1]);

/* Asks for the item of the library with an index; DISP_E_BADINDEX after the last. The items are
 * asked for from 0 on, so that all of them are of one server. The entries stay in the reply until
 * the next exchange. */
HRESULT describe_item(Connection *connection, UINT32 index, Item *item, Reader *entries);

#endif
