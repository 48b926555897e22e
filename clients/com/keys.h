/* The keys of a property with parameters, from the gateway's --watch. */
#ifndef OAUT_KEYS_H
#define OAUT_KEYS_H

#include "watch.h"

/* Has the arguments of all values of a property that were put: an array of VARIANT with the
   argument, if the property has one parameter, or else with an array of VARIANT for each. The
   connection's settings are used, and its lock is not wanted. OAUT_E_NOT_REACHED with the cause as
   Connection has it. */
HRESULT list_keys(const Settings *settings, UINT32 object, REFGUID interface_id, DISPID member,
                  int how, VARIANT *keys, int *cause);

#endif
