/* Changes as they happen, over a connection of its own to the gateway's --watch. */
#ifndef OAUT_WATCH_H
#define OAUT_WATCH_H

#include "connection.h"

#define ANY_CHANGED                                                                               \
    (-1) /* the watch has begun, changes were missed, the server was restarted, or its library is \
            new */

typedef struct Watch Watch;

/* NULL if memory is out. */
Watch *new_watch(void);
void free_watch(Watch *watch);

/* Waits for a change of an object of a coclass, or with GUID_NULL of any; the connection's settings
   are used, and its lock is not wanted. S_OK with the object's number or ANY_CHANGED, S_FALSE if
   there is no change in time, if the watch has not begun in time, or if another thread waits
   longer; else OAUT_E_NOT_REACHED with the cause as Connection has it, and the next call begins
   anew. */
HRESULT wait_for_change(Watch *watch, const Settings *settings, REFGUID coclass, DWORD milliseconds,
                        INT64 *object, int *cause);

/* For what else the gateway sends there. Connects and sends a line; S_FALSE if the time is up. */
HRESULT ask_gateway(Watch *watch, const Settings *settings, const char *line, ULONGLONG until);
/* Reads the next line, whole, without its end; a NUL follows it. `*line` has `*room` bytes and
   grows; the caller frees it. S_FALSE if the time is up. */
HRESULT read_line(Watch *watch, ULONGLONG until, char **line, size_t *room, size_t *length);
/* What listens there is no gateway. */
HRESULT sends_no_changes(Watch *watch);
/* Why the last of these has failed, as Connection has it. */
int cause_of(const Watch *watch);

#endif
