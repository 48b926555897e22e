/* COM objects over a connection: those of a store. */
#ifndef OAUT_OBJECTS_H
#define OAUT_OBJECTS_H

#include "calls.h"

/* How many objects of this DLL are there, and locks on it. */
extern LONG dll_references;

/* A COM object for an object of a store. Its IDispatch is the target's interface; the others of the
   coclass are there by QueryInterface. */
HRESULT new_object(const Target *target, REFIID iid, void **made);

/* The target of a COM object that new_object has made, else NULL. It lasts as long as the
 * object. */
const Target *target_of(IUnknown *object);

/* Whether an object of a coclass would answer an interface. Wants the connection's lock held. */
HRESULT has_interface(const Target *target, REFIID iid);

/* The class as it is registered, such as Desk.Sheet, or its coclass's name, followed by the
 * object's number. */
void name_class(Connection *connection, REFGUID class, WCHAR *text, size_t room);

#endif
