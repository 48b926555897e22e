/* Type information: from the file that is registered for a class, else made of the server's
   description of its library.

   All here but hub_information and is_written_file want the connection's lock held. */
#ifndef OAUT_INFORMATION_H
#define OAUT_INFORMATION_H

#include "calls.h"

/* Of an object's interface. Without a file, the information of the default interface has the
 * coclass's name, since hosts show it as the object's type. */
HRESULT interface_information(const Target *target, ITypeInfo **found);
/* Of its coclass, with all of its interfaces. */
HRESULT class_information(const Target *target, ITypeInfo **found);
/* Of the hub, or of its collections. */
HRESULT hub_information(REFGUID hub, BOOL is_collection, ITypeInfo **found);

/* Writes the type library of a server's library: its interfaces and coclasses, the hub with its
   class, and the hub's collections, under a name. What the file had before is lost. */
HRESULT write_types(const Library *told, REFGUID hub, const WCHAR *name, WCHAR *file);
/* Whether a file is one that write_types has made. */
BOOL is_written_file(const WCHAR *file);

#endif
