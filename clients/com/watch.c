#include "watch.h"

#include <stdlib.h>
#include <string.h>

#define BEGINNING 96u /* bytes of a line that are kept: they have its kind and object */
#define RECEIVED 4096
#define PASSED_OVER 10000 /* the most lines about one object that one call skips */
#define NO_OBJECT (-2)

enum state {
    NOT_BEGUN, /* before the first wait, and after a loss */
    DIALS,     /* the socket connects to `address` */
    ASKS,      /* the gateway has not replied */
    BEGUN
};

struct Watch {
    HANDLE turn; /* an event that is set while no thread waits */
    enum state state;
    SOCKET socket; /* INVALID_SOCKET if there is none */
    Addresses addresses;
    const ADDRINFOW *address;
    Address reached;    /* the one that was connected last */
    ULONGLONG deadline; /* of DIALS and ASKS */
    INT64 next;         /* the object of a line that was read ahead, or NO_OBJECT */
    UINT32 length;      /* of the line that is arriving */
    int at, count;      /* in bytes: the next byte, and the number of bytes */
    int cause;
    char line[BEGINNING + 1], bytes[RECEIVED];
};

static void close_socket(Watch *watch)
{
    if (watch->socket != INVALID_SOCKET)
        closesocket(watch->socket);
    watch->socket = INVALID_SOCKET;
}

static void end(Watch *watch)
{
    close_socket(watch);
    free_addresses(&watch->addresses);
    watch->state = NOT_BEGUN;
    watch->length = 0;
    watch->at = watch->count = 0;
    watch->next = NO_OBJECT;
}

Watch *new_watch(void)
{
    Watch *watch = calloc(1, sizeof *watch);

    if (!watch)
        return NULL;
    if (!(watch->turn = CreateEventW(NULL, FALSE, TRUE, NULL))) {
        free(watch);
        return NULL;
    }
    watch->socket = INVALID_SOCKET;
    end(watch);
    return watch;
}

void free_watch(Watch *watch)
{
    if (!watch)
        return;
    end(watch);
    CloseHandle(watch->turn);
    free(watch);
}

static struct timeval time_until(ULONGLONG until)
{
    ULONGLONG now = GetTickCount64(), left = until > now ? until - now : 0;
    struct timeval time;

    if (left > MAXLONG)
        left = MAXLONG;
    time.tv_sec = (long)(left / 1000);
    time.tv_usec = (long)(left % 1000 * 1000);
    return time;
}

/* Waits until there are bytes to read. S_FALSE if none arrive in time. */
static HRESULT have_bytes(Watch *watch, ULONGLONG until)
{
    struct timeval time = time_until(until);
    fd_set readable;
    int count;

    if (watch->at < watch->count)
        return S_OK;
    FD_ZERO(&readable);
    FD_SET(watch->socket, &readable);
    if (!(count = select((int)watch->socket + 1, &readable, NULL, NULL, &time)))
        return S_FALSE;
    watch->at = 0;
    watch->count = count < 0 ? count : recv(watch->socket, watch->bytes, RECEIVED, 0);
    if (watch->count > 0)
        return S_OK;
    watch->cause = watch->count ? WSAGetLastError() : 0;
    watch->count = 0;
    return OAUT_E_NOT_REACHED;
}

HRESULT sends_no_changes(Watch *watch)
{
    watch->cause = WSAEPROTONOSUPPORT;
    return OAUT_E_NOT_REACHED;
}

/* Reads the next line, of which the beginning is kept. */
static HRESULT have_line(Watch *watch, ULONGLONG until)
{
    HRESULT result;
    char character;

    while ((result = have_bytes(watch, until)) == S_OK) {
        if ((character = watch->bytes[watch->at++]) == '\n') {
            watch->line[watch->length] = 0;
            watch->length = 0;
            return S_OK;
        }
        if (watch->length < BEGINNING)
            watch->line[watch->length++] = character;
    }
    return result;
}

HRESULT read_line(Watch *watch, ULONGLONG until, char **line, size_t *room, size_t *length)
{
    HRESULT result;
    char *more;

    *length = 0;
    while ((result = have_bytes(watch, until)) == S_OK) {
        if (*length + 1 >= *room) {
            if (!(more = realloc(*line, 2 * *room + RECEIVED)))
                return E_OUTOFMEMORY;
            *line = more;
            *room = 2 * *room + RECEIVED;
        }
        if (((*line)[*length] = watch->bytes[watch->at++]) == '\n') {
            (*line)[*length] = 0;
            return S_OK;
        }
        ++*length;
    }
    return result;
}

int cause_of(const Watch *watch)
{
    return watch->cause;
}

static BOOL begins_with(const Watch *watch, const char *prefix)
{
    return !strncmp(watch->line, prefix, strlen(prefix));
}

/* The object of a line; ANY_CHANGED if it has none, as a change of the library. */
static HRESULT object_of_line(Watch *watch, INT64 *object)
{
    static const char name[] = ",\"object\":";
    const char *at = strstr(watch->line, name);

    *object = ANY_CHANGED;
    if (begins_with(watch, "{\"gap\":") || begins_with(watch, "{\"restart\":"))
        return S_OK;
    if (!begins_with(watch, "{\"seq\":"))
        return sends_no_changes(watch);
    if (at)
        for (*object = 0, at += strlen(name); *at >= '0' && *at <= '9' && *object <= MAXDWORD; at++)
            *object = 10 * *object + (*at - '0');
    return *object && *object <= MAXDWORD ? S_OK : sends_no_changes(watch);
}

/* The next change. Changes of the same object that have arrived after it are skipped. */
static HRESULT next_change(Watch *watch, ULONGLONG until, INT64 *object)
{
    HRESULT result = S_OK;
    int i;

    *object = watch->next;
    watch->next = NO_OBJECT;
    if (*object == NO_OBJECT && ((result = have_line(watch, until)) != S_OK ||
                                 FAILED(result = object_of_line(watch, object))))
        return result;
    for (i = 0; i < PASSED_OVER && have_line(watch, 0) == S_OK; i++) {
        if (FAILED(result = object_of_line(watch, &watch->next)))
            return result;
        if (watch->next != *object)
            return S_OK;
        watch->next = NO_OBJECT;
    }
    return S_OK; /* (a failure is found again by the next call) */
}

/* Begins to connect to the next address. */
static HRESULT dial_next(Watch *watch)
{
    u_long is_on = 1;

    close_socket(watch);
    while ((watch->address = next_address(&watch->addresses, &watch->reached))) {
        watch->socket = socket_for(watch->address);
        if (watch->socket == INVALID_SOCKET || ioctlsocket(watch->socket, (long)FIONBIO, &is_on) ||
            (connect(watch->socket, watch->address->ai_addr, (int)watch->address->ai_addrlen) &&
             WSAGetLastError() != WSAEWOULDBLOCK))
            watch->cause = WSAGetLastError();
        else
            return S_OK;
        close_socket(watch);
    }
    return OAUT_E_NOT_REACHED;
}

/* Waits until the socket is connected to an address. */
static HRESULT have_connection(Watch *watch, ULONGLONG until)
{
    fd_set connected, failed;
    struct timeval time;
    u_long is_on = 0;
    int cause, size;

    do {
        time = time_until(until);
        FD_ZERO(&connected);
        FD_ZERO(&failed);
        FD_SET(watch->socket, &connected);
        FD_SET(watch->socket, &failed);
        if (!select((int)watch->socket + 1, NULL, &connected, &failed, &time))
            return S_FALSE;
        size = sizeof cause;
        if (getsockopt(watch->socket, SOL_SOCKET, SO_ERROR, (char *)&cause, &size))
            cause = WSAGetLastError();
        if (!cause && FD_ISSET(watch->socket, &connected) &&
            !ioctlsocket(watch->socket, (long)FIONBIO, &is_on)) {
            keep_address(&watch->reached, watch->address);
            free_addresses(&watch->addresses);
            return S_OK;
        }
        watch->cause = cause;
    } while (SUCCEEDED(dial_next(watch)));
    return OAUT_E_NOT_REACHED;
}

static HRESULT send_line(Watch *watch, const char *line)
{
    int length = (int)strlen(line);

    if (send(watch->socket, line, length, 0) == length)
        return S_OK;
    watch->cause = WSAGetLastError();
    return OAUT_E_NOT_REACHED;
}

static HRESULT ask(Watch *watch, REFGUID coclass)
{
    char line[80] = "watch class=";
    WCHAR guid[40];
    size_t length = strlen(line), i;

    if (IsEqualGUID(coclass, &GUID_NULL))
        length = strlen("watch");
    else
        for (i = 0, StringFromGUID2(coclass, guid, 40); guid[i]; i++)
            line[length++] = (char)guid[i];
    line[length] = '\n';
    return send_line(watch, line);
}

HRESULT ask_gateway(Watch *watch, const Settings *settings, const char *line, ULONGLONG until)
{
    HRESULT result;

    if (!find_addresses(settings, settings->watch, &watch->addresses, &watch->cause) ||
        FAILED(dial_next(watch)))
        return OAUT_E_NOT_REACHED;
    result = have_connection(watch, until);
    return result == S_OK ? send_line(watch, line) : result;
}

/* Begins, or goes on with it. S_FALSE if that takes longer. */
static HRESULT begin(Watch *watch, const Settings *settings, REFGUID coclass, ULONGLONG until)
{
    HRESULT result = S_OK;

    if (watch->state == NOT_BEGUN) {
        watch->deadline = settings->timeout ? GetTickCount64() + settings->timeout : MAXULONGLONG;
        if (!find_addresses(settings, settings->watch, &watch->addresses, &watch->cause) ||
            FAILED(dial_next(watch)))
            return OAUT_E_NOT_REACHED;
        watch->state = DIALS;
    }
    if (watch->deadline < until)
        until = watch->deadline;
    if (watch->state == DIALS) {
        if ((result = have_connection(watch, until)) == S_OK)
            result = ask(watch, coclass);
        if (result == S_OK)
            watch->state = ASKS;
    }
    if (watch->state == ASKS && (result = have_line(watch, until)) == S_OK) {
        if (!begins_with(watch, "{\"epoch\":"))
            return sends_no_changes(watch);
        watch->state = BEGUN;
    }
    if (result == S_FALSE && GetTickCount64() >= watch->deadline) {
        watch->cause = WSAETIMEDOUT;
        return OAUT_E_NOT_REACHED;
    }
    return result;
}

HRESULT wait_for_change(Watch *watch, const Settings *settings, REFGUID coclass, DWORD milliseconds,
                        INT64 *object, int *cause)
{
    ULONGLONG until = GetTickCount64() + milliseconds;
    HRESULT result = OAUT_E_NOT_REACHED;

    *object = ANY_CHANGED;
    if (WaitForSingleObject(watch->turn, milliseconds) != WAIT_OBJECT_0)
        return S_FALSE; /* another thread waits longer */
    watch->cause = 0;
    if (watch->state == BEGUN && (result = next_change(watch, until, object)) == OAUT_E_NOT_REACHED)
        end(watch); /* the connection was lost */
    if (watch->state != BEGUN) {
        *object = ANY_CHANGED;
        result = begin(watch, settings, coclass, until);
    }
    if (FAILED(result))
        end(watch);
    *cause = watch->cause;
    SetEvent(watch->turn);
    return result;
}
