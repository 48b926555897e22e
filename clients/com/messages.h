/* The registration's messages for the person that runs it. */
#ifndef OAUT_MESSAGES_H
#define OAUT_MESSAGES_H

#include "connection.h"

/* Prints a line on standard error, if the host has one; else shows it, unless regsvr32 was started
 * with /s. */
void report(const WCHAR *format, ...);
/* Prints a line that reports no failure on standard output. */
void say(const WCHAR *format, ...);

/* What gets each line instead, without its end. */
typedef void Listener(const WCHAR *line);
__declspec(dllexport) void WINAPI OautListen(Listener *listener);

/* Reports why a server gave no answer. Wants the connection's lock held. */
void report_refusal(HRESULT code, const Connection *connection);

#endif
