#include "calls.h"

#include <string.h>

Call call_of(const Target *target, DISPID id, const DISPPARAMS *given)
{
    Call call;

    memset(&call, 0, sizeof call);
    call.target = target;
    call.id = id;
    call.riid = &GUID_NULL;
    call.given = given;
    call.argument = call.misfit_at = NO_ARGUMENT;
    return call;
}

HRESULT check_arguments(const DISPPARAMS *given)
{
    if (!given)
        return E_INVALIDARG;
    if (given->cArgs > MAX_ARGUMENTS || given->cNamedArgs > MAX_ARGUMENTS)
        return DISP_E_BADPARAMCOUNT;
    return (given->cArgs && !given->rgvarg) || (given->cNamedArgs && !given->rgdispidNamedArgs)
               ? E_INVALIDARG
               : S_OK;
}

static BOOL is_put(const Call *call)
{
    return (call->flags & DISPATCH_PROPERTYPUT) != 0;
}

/* Whether all arguments, a put's new value aside, are given by place. */
static BOOL by_place(const Call *call)
{
    const DISPPARAMS *given = call->given;

    if (is_put(call))
        return given->cNamedArgs == 1 && given->rgdispidNamedArgs[0] == DISPID_PROPERTYPUT &&
               given->cArgs;
    return !given->cNamedArgs;
}

UINT32 parameter_of(const Call *call, UINT32 place)
{
    const DISPPARAMS *given = call->given;

    if (place >= given->cNamedArgs)
        return given->cArgs - 1 - place; /* by place: the last one comes first */
    return given->rgdispidNamedArgs[place] == DISPID_PROPERTYPUT
               ? NO_ARGUMENT
               : (UINT32)given->rgdispidNamedArgs[place];
}

VARTYPE type_of_parameter(const Call *call, UINT32 parameter)
{
    Parameter found;

    if (!call->has_member || parameter >= call->member.parameters ||
        !parameter_at(&call->member, parameter, &found))
        return VT_EMPTY;
    return found.type;
}

/* The declared type of the argument at a place of rgvarg. */
static VARTYPE declared_at(const Call *call, UINT32 place)
{
    UINT32 parameter = parameter_of(call, place);

    if (parameter != NO_ARGUMENT)
        return type_of_parameter(call, parameter);
    return call->has_member ? call->member.type : VT_EMPTY;
}

HRESULT write_argument(Call *call, Writer *to, UINT32 place, VARTYPE declared)
{
    const VARIANT *value = &call->given->rgvarg[place];
    BOOL is_misfit = FALSE;
    HRESULT result = S_FALSE;

    if (call->target->for_scripts && declared != VT_EMPTY) {
        result = write_variant_as(to, value, declared, call->target->for_scripts);
        is_misfit = result == DISP_E_BADVARTYPE || result == DISP_E_TYPEMISMATCH ||
                    result == DISP_E_OVERFLOW;
    }
    if (is_misfit && call->misfit == S_OK) {
        call->misfit = result;
        call->misfit_at = place;
    }
    if (is_misfit || result == S_FALSE)
        /* unchanged, so that another error is reported first */
        result = write_variant(to, value);
    if (FAILED(result) && result != E_OUTOFMEMORY)
        call->argument = place;
    return result;
}

Writer *begin_call(const Call *call, enum opcode opcode, UINT32 count, UINT32 named)
{
    const Target *target = call->target;
    Writer *to = begin_request_of(target->connection, opcode, target->generation);

    write_32(to, target->number);
    write_32(to, (UINT32)call->id);
    write_bytes(to, &target->iid, sizeof target->iid);
    write_bytes(to, call->riid, sizeof *call->riid);
    write_32(to, call->locale);
    write_16(to, call->flags);
    write_16(to, 0);
    write_32(to, count);
    write_32(to, named);
    return to;
}

/* Sends the request, and returns to the caller: a get's value is read into the caller's
 * variable. */
static HRESULT finish_call(Call *call)
{
    Connection *connection = call->target->connection;
    HRESULT result = exchange(connection, is_put(call) ? ONCE : AGAIN);
    VARIANT unwanted;
    Reader from;

    call->argument = connection->argument;
    if (result != S_OK || is_put(call))
        return result;
    from = reply_fields(connection);
    result = read_variant(&from, call->target->for_scripts,
                          call->result ? call->result : &unwanted);
    if (SUCCEEDED(result) && !call->result)
        VariantClear(&unwanted);
    return result;
}

/* INVOKE, with all that is given. */
static HRESULT invoke(Call *call)
{
    const DISPPARAMS *given = call->given;
    Writer *to = begin_call(call, OP_INVOKE, given->cArgs, given->cNamedArgs);
    HRESULT result;
    UINT32 i;

    for (i = 0; i < given->cNamedArgs; i++)
        write_32(to, (UINT32)given->rgdispidNamedArgs[i]);
    write_pad(to, 8);
    for (i = 0; i < given->cArgs; i++)
        if (FAILED(result = write_argument(call, to, i, declared_at(call, i))))
            return result;
    return finish_call(call);
}

/* An index of an array. What is no whole number is refused as an argument of such a type is. */
static HRESULT index_of(const VARIANT *value, BOOL for_scripts, INT32 *index)
{
    VARIANT room, made;
    INT64 number;
    BOOL large;

    if (!(value = value_behind(value, &room)))
        return E_POINTER;
    if (for_scripts && number_as(value, VT_I4, &made) == S_OK)
        value = &made;
    if (whole_number(value, &number, &large)) {
        *index = (INT32)number;
        return large || number != *index ? DISP_E_BADINDEX : S_OK;
    }
    switch (V_VT(value)) {
    case VT_EMPTY:
    case VT_NULL:
    case VT_BOOL:
    case VT_BSTR:
    case VT_CY:
    case VT_DECIMAL:
    case VT_ERROR:
        return DISP_E_TYPEMISMATCH;
    }
    return DISP_E_BADVARTYPE;
}

/* An element of a property's array: positional arguments after the property's parameters are
 * indices. rgvarg has the last of them first, as rgsabound and the wire have their bounds. */
static HRESULT invoke_element(Call *call)
{
    const DISPPARAMS *given = call->given;
    UINT32 parameters = call->member.parameters, first = is_put(call) ? 1 : 0;
    UINT32 indices = given->cArgs - first - parameters, i;
    Writer *to = begin_call(call, is_put(call) ? OP_PUTELEM : OP_GETELEM, parameters, 0);
    HRESULT result;

    for (i = first + indices; i < given->cArgs; i++)
        if (FAILED(result = write_argument(call, to, i, declared_at(call, i))))
            return result;
    write_32(to, indices);
    write_32(to, 0);
    for (i = first; i < first + indices; i++) {
        INT32 index;

        if (FAILED(result = index_of(&given->rgvarg[i], call->target->for_scripts, &index))) {
            call->argument = i;
            return result;
        }
        write_32(to, (UINT32)index);
    }
    write_pad(to, 8);
    if (is_put(call) &&
        FAILED(result = write_argument(call, to, 0, call->member.type & (VARTYPE)~VT_ARRAY)))
        return result;
    result = finish_call(call);
    if (call->argument < parameters)
        /* the server has seen the parameters' arguments alone */
        call->argument += first + indices;
    else if (is_put(call) && (result == DISP_E_BADVARTYPE || result == DISP_E_OVERFLOW))
        call->argument = 0; /* a cell's new value has no index in its reply */
    return result;
}

/* Whether something is given that scripts and servers have different types for. */
static BOOL has_misfits(const DISPPARAMS *given, int how)
{
    UINT32 i;

    for (i = 0; i < given->cArgs; i++) {
        VARIANT room;
        const VARIANT *value = value_behind(&given->rgvarg[i], &room);

        if (value && (is_floating(value) || V_VT(value) == (VT_ARRAY | VT_VARIANT) ||
                      V_VT(value) == (VT_ARRAY | VT_R8) || V_VT(value) == (VT_ARRAY | VT_R4) ||
                      ((how & WITH_TEXTS) && V_VT(value) == VT_BSTR) || (how & FOR_JSCRIPT)))
            return TRUE;
    }
    return FALSE;
}

static HRESULT find_called(Call *call)
{
    const Target *target = call->target;
    const Library *library;
    const Item *type;
    HRESULT result = library_of(target->connection, &library);

    if (FAILED(result))
        return result;
    type = find_interface(library, &target->class, &target->iid);
    call->has_member = type && find_member(type, call->id, &call->member) &&
                       call->member.type != VT_VOID;
    return S_OK;
}

HRESULT find_types(Call *call)
{
    return call->target->for_scripts && has_misfits(call->given, call->target->for_scripts)
               ? find_called(call)
               : S_OK;
}

/* The library's types are read only if they make a difference. */
HRESULT perform_call(Call *call)
{
    UINT32 arguments;
    HRESULT result;

    if (call->flags & DISPATCH_PROPERTYPUTREF)
        /* of a value, a put */
        call->flags = (WORD)((call->flags & ~DISPATCH_PROPERTYPUTREF) | DISPATCH_PROPERTYPUT);
    arguments = call->given->cArgs - (is_put(call) && by_place(call) ? 1 : 0);
    if (FAILED(result = arguments && by_place(call) ? find_called(call) : find_types(call)))
        return result;
    if (call->has_member && by_place(call) && arguments > call->member.parameters &&
        ((call->member.type & VT_ARRAY) || call->member.type == VT_VARIANT))
        result = invoke_element(call);
    else
        result = invoke(call);
    if (call->misfit != S_OK && call->argument == call->misfit_at &&
        (result == DISP_E_TYPEMISMATCH || result == DISP_E_BADVARTYPE))
        result = call->misfit; /* it is this argument, and none before it */
    return result;
}
