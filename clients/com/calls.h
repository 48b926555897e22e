/* Calls of an object's members, as requests.

   All here want the connection's lock held. */
#ifndef OAUT_CALLS_H
#define OAUT_CALLS_H

#include "library.h"

#define MAX_ARGUMENTS 32u

/* An object of a store, as one of its coclass's interfaces. */
typedef struct Target {
    Connection *connection;
    GUID class;
    GUID iid; /* zeros for the default interface */
    UINT32 number;
    int for_scripts;   /* how its hosts have values (values.h) */
    UINT32 generation; /* of the connection, as the object was made (connection.h) */
} Target;

/* What a caller of Invoke gives. */
typedef struct Call {
    const Target *target;
    DISPID id;
    const GUID *riid;
    LCID locale;
    WORD flags;
    const DISPPARAMS *given;
    VARIANT *result; /* or NULL */
    UINT32 argument; /* the argument at fault, or NO_ARGUMENT */
    /* the member, if it was looked up and exists */
    BOOL has_member;
    Member member;
    /* an argument that could not be written as what is declared, so that it went as it is, and why;
     * S_OK for none */
    HRESULT misfit;
    UINT32 misfit_at;
} Call;

Call call_of(const Target *target, DISPID id, const DISPPARAMS *given);

/* Whether the arguments are valid: pointers if there are counts, and at most as many as a request
 * has. */
HRESULT check_arguments(const DISPPARAMS *given);

/* Performs a call by its request. */
HRESULT perform_call(Call *call);

/* Begins a request about a property, up to its arguments' number. */
Writer *begin_call(const Call *call, enum opcode opcode, UINT32 count, UINT32 named);
/* Writes the argument at a place of rgvarg; VT_EMPTY if no declared type is known. */
HRESULT write_argument(Call *call, Writer *to, UINT32 place, VARTYPE declared);
/* Looks the member up if its types matter for the arguments. Returns the declared type of a
 * parameter, VT_EMPTY if it is not known. */
HRESULT find_types(Call *call);
VARTYPE type_of_parameter(const Call *call, UINT32 parameter);
/* The place of the parameter of an argument in rgvarg, or NO_ARGUMENT for a put's new value. */
UINT32 parameter_of(const Call *call, UINT32 place);

#endif
