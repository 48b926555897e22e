/* The EXCEPINFO of a refused call, beside its code. */
#ifndef OAUT_REFUSALS_H
#define OAUT_REFUSALS_H

#include "connection.h"

/* A refusal. Of the texts each may be NULL. */
typedef struct Refusal {
    HRESULT code;
    const WCHAR *source; /* the class, as it is registered: Desk.Sheet */
    const WCHAR *object; /* what was called, such as Desk.Sheet 3 */
    const WCHAR *member;
    const WCHAR *argument; /* the name of the argument at fault */
    VARTYPE declared;      /* its declared type, VT_EMPTY if that is not known */
    const VARIANT *given;  /* it */
    int how;               /* how the host has values (values.h) */
    const Connection *connection;
    /* the port of the watch that was not reached, or NULL: the connection was not */
    const WCHAR *watch;
    int cause; /* and why not, as Connection has it */
} Refusal;

/* The code by which VBScript, JScript and VBA have a number of their own for one of the server's:
   0x800A0000 and that number. A code that they have none for stays. */
HRESULT code_for_scripts(HRESULT code);

/* Fills the host's EXCEPINFO, and returns DISP_E_EXCEPTION. */
HRESULT tell_refusal(const Refusal *refusal, BOOL for_scripts, EXCEPINFO *told);

#endif
