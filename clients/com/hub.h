/* The hub: what is of the server and of no object, and the collections of its objects. */
#ifndef OAUT_HUB_H
#define OAUT_HUB_H

#include "calls.h"

#define HUB_WORDS 4u /* at most, for arguments with places of their own */

/* A member of the hub's, or of its collections' too. */
typedef struct HubMember {
    DISPID id;
    const WCHAR *name;
    /* arguments; most is MAX_ARGUMENTS if there may be any number of them */
    UINT32 least, most;
    BOOL of_collections;
    INVOKEKIND kind; /* as type information has it: a call may say either */
    /* of what it gives: VT_DISPATCH of an object, VT_USERDEFINED of a collection */
    VARTYPE type;

    struct {
        const WCHAR *name;
        VARTYPE type;
    } arguments[HUB_WORDS];
} HubMember;

/* The members in some order, from 0 on; NULL after the last. */
const HubMember *hub_member(UINT32 place);

/* GUIDs that are made of a hub's: of a type library with it, of its dispinterface, of its
 * collections' one. */
enum hub_part { PART_LIBRARY = 0x746c6962, PART_HUB = 0x6d656d62, PART_COLLECTION = 0x6f626a73 };

GUID part_of_hub(REFGUID hub, enum hub_part part);

/* The class of a library's hub, from the GUID of its first interface. */
GUID hub_of_library(REFGUID first);

/* The hub of a server, under its own class. */
HRESULT new_hub(Connection *connection, REFGUID class, int for_scripts, REFIID iid, void **made);

/* A COM object for the live object with a number; RPC_E_DISCONNECTED where there is none. */
HRESULT find_object(Connection *connection, UINT32 number, int for_scripts, REFIID iid,
                    void **found);

/* An object was made. Wants the connection's lock held. */
void note_made(Connection *connection, UINT32 number, REFGUID class);

#endif
