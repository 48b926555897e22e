#include "library.h"

#include <stdlib.h>
#include <string.h>

#define LENGTH 4u            /* the bytes of a record before its body */
#define HEAD 16u             /* those of a reply before its fields */
#define FIRST_ROOM 4096u     /* for replies: most of them come whole by the first call */
#define RECENT 20u           /* milliseconds after a reply: the server is still connected */
#define MAX_REPLY 0x1000000u /* three times what the largest value takes */
#define MAX_LIST 0x40000000u /* an object has as many bytes as in a bank of a store */
#define REPLY_STEP 0x40000u  /* so much room is made at once for bytes to come */

static CRITICAL_SECTION all_lock; /* of the list, and of all counts of references */
static Connection *all_connections;

void connections_begin(void)
{
    InitializeCriticalSection(&all_lock);
}

/* ---- coming and going */

void hang_up(Connection *connection)
{
    if (connection->socket != INVALID_SOCKET)
        closesocket(connection->socket);
    connection->socket = INVALID_SOCKET;
    if (connection->locks)
        connection->lost_locks = TRUE;
    connection->locks = 0;
    connection->listing.is_there = FALSE;
}

/* Lets the timer come back after some milliseconds. */
static void set_timer(Connection *connection, DWORD milliseconds)
{
    LARGE_INTEGER due;
    FILETIME time;

    due.QuadPart = -10000 * (LONGLONG)milliseconds; /* from now on, in units of 100 ns */
    time.dwLowDateTime = due.u.LowPart;
    time.dwHighDateTime = (DWORD)due.u.HighPart;
    SetThreadpoolTimer(connection->timer, &time, 0, 0);
}

/* Hangs up if nothing was asked for a while; otherwise it checks again later. */
static VOID CALLBACK on_timer(PTP_CALLBACK_INSTANCE instance, PVOID context, PTP_TIMER timer)
{
    Connection *connection = context;
    ULONGLONG quiet;

    (void)instance;
    (void)timer;
    EnterCriticalSection(&connection->lock); /* after a call that is in progress */
    /* else nothing sets the timer again but the next dial */
    if (connection->socket != INVALID_SOCKET) {
        quiet = GetTickCount64() - connection->last;
        if (connection->locks)
            set_timer(connection, connection->settings.idle);
        else if (quiet < connection->settings.idle)
            set_timer(connection, connection->settings.idle - (DWORD)quiet);
        else
            hang_up(connection);
    }
    LeaveCriticalSection(&connection->lock);
}

static void free_connection(Connection *connection)
{
    free(connection->library);
    free(connection->before);
    free(connection);
}

static Connection *new_connection(const Settings *settings)
{
    Connection *connection = calloc(1, sizeof *connection);
    WSADATA told;

    if (!connection)
        return NULL;
    connection->library = calloc(1, sizeof *connection->library);
    connection->before = calloc(1, sizeof *connection->before);
    if (!connection->library || !connection->before) {
        free_connection(connection);
        return NULL;
    }
    connection->settings = *settings;
    connection->references = 1;
    connection->generation = 1;
    connection->socket = INVALID_SOCKET;
    if (!(connection->timer = CreateThreadpoolTimer(on_timer, connection, NULL)) ||
        WSAStartup(MAKEWORD(2, 2), &told)) {
        if (connection->timer)
            CloseThreadpoolTimer(connection->timer);
        free_connection(connection);
        return NULL;
    }
    InitializeCriticalSection(&connection->lock);
    return connection;
}

Connection *connection_to(const Settings *settings)
{
    Connection *found;

    EnterCriticalSection(&all_lock);
    for (found = all_connections; found; found = found->next)
        if (!lstrcmpW(found->settings.host, settings->host) &&
            !lstrcmpW(found->settings.port, settings->port))
            break;
    if (found) {
        found->references++;
    } else if ((found = new_connection(settings))) {
        found->next = all_connections;
        all_connections = found;
    }
    LeaveCriticalSection(&all_lock);
    return found;
}

void connection_keep(Connection *connection)
{
    EnterCriticalSection(&all_lock);
    connection->references++;
    LeaveCriticalSection(&all_lock);
}

void connection_release(Connection *connection)
{
    Connection **at = &all_connections;
    BOOL last;

    EnterCriticalSection(&all_lock);
    if ((last = !--connection->references)) {
        while (*at != connection)
            at = &(*at)->next;
        *at = connection->next;
    }
    LeaveCriticalSection(&all_lock);
    if (!last)
        return;
    /* nobody finds it any more, and once it is hung up no callback sets the timer again */
    EnterCriticalSection(&connection->lock);
    hang_up(connection);
    LeaveCriticalSection(&connection->lock);
    SetThreadpoolTimer(connection->timer, NULL, 0, 0);
    WaitForThreadpoolTimerCallbacks(connection->timer, TRUE);
    CloseThreadpoolTimer(connection->timer);
    DeleteCriticalSection(&connection->lock);
    forget_library(connection->library);
    forget_library(connection->before);
    writer_free(&connection->request);
    free(connection->reply);
    free(connection->listing.live);
    free(connection->deferred);
    free_connection(connection);
    WSACleanup();
}

void connection_enter(Connection *connection)
{
    EnterCriticalSection(&connection->lock);
}

HRESULT connection_leave(Connection *connection, HRESULT code)
{
    if (code == OAUT_E_NO_REPLY)
        hang_up(connection);
    LeaveCriticalSection(&connection->lock);
    return code;
}

/* ---- exchanges */

static void set_option(SOCKET socket, int level, int option, DWORD number)
{
    setsockopt(socket, level, option, (const char *)&number, sizeof number);
}

BOOL find_addresses(const Settings *settings, const WCHAR *port, Addresses *found, int *cause)
{
    ADDRINFOW hints = {0};

    memset(found, 0, sizeof *found);
    hints.ai_family = AF_UNSPEC;
    hints.ai_socktype = SOCK_STREAM;
    if ((*cause = GetAddrInfoW(settings->host, port, &hints, &found->list)))
        found->list = NULL;
    found->next = found->list;
    return found->list != NULL;
}

const ADDRINFOW *next_address(Addresses *from, const Address *reached)
{
    const ADDRINFOW *address;
    BOOL is_reached;

    for (;;) {
        if (!from->next && from->are_others)
            return NULL;
        if (!from->next) {
            from->are_others = TRUE;
            from->next = from->list;
            continue;
        }
        address = from->next;
        from->next = address->ai_next;
        is_reached = (size_t)reached->length == address->ai_addrlen &&
                     !memcmp(&reached->bytes, address->ai_addr, address->ai_addrlen);
        if (is_reached != from->are_others)
            return address;
    }
}

void free_addresses(Addresses *addresses)
{
    if (addresses->list)
        FreeAddrInfoW(addresses->list);
    memset(addresses, 0, sizeof *addresses);
}

SOCKET socket_for(const ADDRINFOW *address)
{
    /* not for the processes that the host starts: one that goes on would keep the next client
     * waiting */
    return WSASocketW(address->ai_family, address->ai_socktype, address->ai_protocol, NULL, 0,
                      WSA_FLAG_OVERLAPPED | WSA_FLAG_NO_HANDLE_INHERIT);
}

void keep_address(Address *reached, const ADDRINFOW *address)
{
    reached->length = 0;
    if (address->ai_addrlen > sizeof reached->bytes)
        return;
    memcpy(&reached->bytes, address->ai_addr, address->ai_addrlen);
    reached->length = (int)address->ai_addrlen;
}

/* Connects to the first address where somebody listens. */
static HRESULT dial(Connection *connection)
{
    SOCKET made = INVALID_SOCKET;
    const ADDRINFOW *address;
    Addresses addresses;

    if (!find_addresses(&connection->settings, connection->settings.port, &addresses,
                        &connection->cause))
        return OAUT_E_NOT_REACHED;
    while (made == INVALID_SOCKET && (address = next_address(&addresses, &connection->reached))) {
        if ((made = socket_for(address)) == INVALID_SOCKET) {
            connection->cause = WSAGetLastError();
        } else if (connect(made, address->ai_addr, (int)address->ai_addrlen)) {
            connection->cause = WSAGetLastError();
            closesocket(made);
            made = INVALID_SOCKET;
        } else {
            keep_address(&connection->reached, address);
        }
    }
    free_addresses(&addresses);
    if (made == INVALID_SOCKET)
        return OAUT_E_NOT_REACHED;
    set_option(made, IPPROTO_TCP, TCP_NODELAY, 1); /* else a call may wait 40 ms */
    set_option(made, SOL_SOCKET, SO_RCVTIMEO, connection->settings.timeout);
    set_option(made, SOL_SOCKET, SO_SNDTIMEO, connection->settings.timeout);
    connection->socket = made;
    if (connection->settings.idle)
        set_timer(connection, connection->settings.idle);
    return S_OK;
}

/* Connects, and compares the server's library with the one of an earlier connection. */
static HRESULT dial_again(Connection *connection)
{
    UINT32 tag = connection->tag, wanted = connection->wanted;
    Writer request = connection->request;
    HRESULT result = dial(connection);

    if (FAILED(result))
        return result;
    /* the request that dials waits */
    memset(&connection->request, 0, sizeof connection->request);
    result = compare_library(connection);
    writer_free(&connection->request);
    connection->request = request;
    connection->tag = tag;
    connection->wanted = wanted;
    if (FAILED(result))
        hang_up(connection); /* the next one that dials compares */
    return result == OAUT_E_LOST ? OAUT_E_NOT_REACHED : result;
}

BOOL is_connected(const Connection *connection)
{
    return connection->socket != INVALID_SOCKET;
}

BOOL has_gone(Connection *connection)
{
    struct timeval now = {0, 0};
    fd_set readable;

    if (GetTickCount64() - connection->last < RECENT)
        /* else each of many puts would check; if the server is gone after all, the put fails as
         * lost */
        return FALSE;
    FD_ZERO(&readable);
    FD_SET(connection->socket, &readable);
    return select((int)connection->socket + 1, &readable, NULL, NULL, &now) != 0;
}

static HRESULT socket_fault(Connection *connection)
{
    connection->cause = WSAGetLastError();
    return connection->cause == WSAETIMEDOUT ? OAUT_E_LATE : OAUT_E_LOST;
}

static HRESULT send_all(Connection *connection)
{
    const Writer *request = &connection->request;
    size_t sent = 0;

    while (sent < request->length) {
        int count = send(connection->socket, (const char *)request->bytes + sent,
                         (int)(request->length - sent), 0);

        if (count <= 0)
            return socket_fault(connection);
        sent += (size_t)count;
    }
    return S_OK;
}

/* Room for a record of a length. It is made as the bytes come, so that a length that lies takes no
 * memory. */
static HRESULT make_room(Connection *connection, UINT32 length)
{
    UINT32 room = 2 * connection->received + REPLY_STEP; /* at most some of 2 * MAX_LIST */
    BYTE *reply;

    if (length < room)
        room = length < FIRST_ROOM ? FIRST_ROOM : length;
    if (room <= connection->reply_room)
        return S_OK;
    if (!(reply = realloc(connection->reply, room)))
        return E_OUTOFMEMORY;
    connection->reply = reply;
    connection->reply_room = room;
    return S_OK;
}

/* Receives some bytes of a record, and counts them; `until` is the deadline of the whole reply, 0
 * for none. */
static HRESULT receive_some(Connection *connection, char *to, UINT32 room, UINT32 length,
                            ULONGLONG until)
{
    int got = recv(connection->socket, to, (int)room, 0);

    if (got < 0)
        return socket_fault(connection);
    if (!got)
        return OAUT_E_LOST;
    connection->received += (UINT32)got;
    if (connection->received < length && until && GetTickCount64() > until)
        return OAUT_E_LATE; /* a server that sends a byte now and then is late too */
    return S_OK;
}

/* Receives until so many bytes of a record have come, and what comes with them. */
static HRESULT receive(Connection *connection, UINT32 length, ULONGLONG until)
{
    HRESULT result = S_OK;

    while (connection->received < length && SUCCEEDED(result))
        if (SUCCEEDED(result = make_room(connection, length)))
            result = receive_some(connection, (char *)connection->reply + connection->received,
                                  connection->reply_room - connection->received, length, until);
    return result;
}

/* Receives the rest of a record that there is no memory for, so that the connection and its locks
 * stay. S_FALSE if it works. */
static HRESULT pass_over(Connection *connection, UINT32 length, ULONGLONG until)
{
    HRESULT result = S_OK;
    char bytes[FIRST_ROOM];

    while (connection->received < length && SUCCEEDED(result)) {
        UINT32 left = length - connection->received;

        result = receive_some(connection, bytes, left < FIRST_ROOM ? left : FIRST_ROOM, length,
                              until);
    }
    return SUCCEEDED(result) ? S_FALSE : result;
}

/* The length that the reply to a request has at most. */
static UINT32 most_of_reply(const Writer *request)
{
    UINT16 opcode;

    memcpy(&opcode, request->bytes + request->body + sizeof(UINT32), sizeof opcode);
    return opcode == OP_LIST ? MAX_LIST : MAX_REPLY;
}

Writer *begin_request(Connection *connection, enum opcode opcode)
{
    return begin_request_of(connection, opcode, 0);
}

Writer *begin_request_of(Connection *connection, enum opcode opcode, UINT32 generation)
{
    Writer *to = &connection->request;

    connection->wanted = generation;
    writer_begin(to, 4); /* the record's length */
    write_32(to, ++connection->tag);
    write_16(to, (UINT16)opcode);
    write_16(to, 0);
    return to;
}

/* One try. OAUT_E_NOT_REACHED if nothing of the request was sent, S_FALSE if there is no memory for
 * the reply. */
static HRESULT try_exchange(Connection *connection, enum way way)
{
    DWORD timeout = connection->settings.timeout;
    UINT32 length, head[3];
    ULONGLONG until;
    HRESULT result;

    if (is_connected(connection) && way != AGAIN && has_gone(connection))
        /* a server that is gone is noticed before a put is sent, not after it */
        hang_up(connection);
    if (!is_connected(connection) && connection->lost_locks) {
        connection->cause = 0;
        return OAUT_E_LOST; /* the caller gets one error that its locks are gone */
    }
    if (!is_connected(connection) &&
        FAILED(result = way == HERE ? OAUT_E_LOST : dial_again(connection)))
        return result;
    if (connection->wanted && connection->wanted != connection->generation)
        return OAUT_E_OTHER_LIBRARY;
    until = timeout ? GetTickCount64() + timeout : 0;
    connection->received = 0;
    connection->cause = 0;
    if (FAILED(result = send_all(connection)) ||
        FAILED(result = receive(connection, LENGTH, until)))
        return result;
    memcpy(&length, connection->reply, sizeof length);
    if (length < HEAD || length > most_of_reply(&connection->request))
        return OAUT_E_NO_REPLY;
    if ((result = receive(connection, LENGTH + length, until)) == E_OUTOFMEMORY)
        return pass_over(connection, LENGTH + length, until);
    if (FAILED(result))
        return result;
    connection->reply_length = length;
    memcpy(head, connection->reply + LENGTH, sizeof head);
    if (head[0] != connection->tag || (head[1] && SUCCEEDED((HRESULT)head[1])))
        return OAUT_E_NO_REPLY; /* S_OK is the only success code of a server */
    connection->argument = head[2];
    if (connection->received > LENGTH + length)
        hang_up(connection); /* nobody asked for the bytes after it */
    return S_OK;
}

HRESULT exchange(Connection *connection, enum way way)
{
    Writer *request = &connection->request;
    UINT32 length = (UINT32)(request->length - request->body), code;
    BOOL fresh = connection->socket == INVALID_SOCKET;
    HRESULT result;

    connection->argument = NO_ARGUMENT;
    if (FAILED(request->fault))
        return request->fault;
    memcpy(request->bytes, &length, sizeof length);
    result = try_exchange(connection, way);
    if (result == OAUT_E_LOST && way == AGAIN && !fresh) {
        hang_up(connection);
        result = try_exchange(connection, way);
    }
    if (result == OAUT_E_OTHER_LIBRARY)
        return result; /* and the connection stays */
    if (FAILED(result)) {
        connection->argument = NO_ARGUMENT;
        hang_up(connection); /* a late reply must not be taken for the next one's */
        connection->lost_locks = FALSE;
        return result;
    }
    connection->last = GetTickCount64();
    if (result == S_FALSE)
        return E_OUTOFMEMORY;
    memcpy(&code, connection->reply + LENGTH + 4, sizeof code);
    return (HRESULT)code;
}

Reader reply_fields(Connection *connection)
{
    return reader_of(connection->reply + LENGTH + HEAD, connection->reply_length - HEAD);
}
