/* Connections to servers: requests and their replies over a socket, and a server's type
 * information. A process has one connection to a server, for all of its objects. It connects with
 * the first request, and hangs up if nothing was asked for a while, so that the server's next
 * client has its turn: objects are numbers in a store, and the next request connects again. A call
 * holds the connection's lock throughout. */
#ifndef OAUT_CONNECTION_H
#define OAUT_CONNECTION_H

#include <winsock2.h>
#include <ws2tcpip.h>

#include "wire.h"

/* The bridge's own codes, besides those of a server's replies. */
#define OAUT_E_NOT_REACHED ((HRESULT)0x800706BA) /* RPC_S_SERVER_UNAVAILABLE: nothing was sent */
#define OAUT_E_LOST \
    ((HRESULT)0x80010006) /* RPC_E_CONNECTION_TERMINATED: sent; done or not, wholly */
#define OAUT_E_LATE ((HRESULT)0x8001011F) /* RPC_E_TIMEOUT: the same, no reply in time */
/* RPC_S_UNKNOWN_IF: another library is there than the one that the object was made with; nothing
 * was sent */
#define OAUT_E_OTHER_LIBRARY ((HRESULT)0x800706B5)

enum opcode {
    OP_CREATE = 1,
    OP_RELEASE,
    OP_GETIDS,
    OP_INVOKE,
    OP_GETELEM,
    OP_PUTELEM,
    OP_REDIM,
    OP_LOCK,
    OP_UNLOCK,
    OP_TYPEINFO,
    OP_LIST
};

/* The address of a server, and how long to wait; texts end with a NUL. */
typedef struct Settings {
    WCHAR host[256], port[16];
    WCHAR watch[16];              /* the port of the gateway's --watch there, or empty */
    WCHAR type_library[MAX_PATH]; /* the file of its types, or empty */
    DWORD timeout;                /* milliseconds for a reply; 0 for ever */
    DWORD idle; /* milliseconds after the last reply until it hangs up; 0: never */
} Settings;

struct Library;

/* An address of a server; its length is 0 if there is none. */
typedef struct Address {
    struct sockaddr_storage bytes;
    int length;
} Address;

/* The addresses of a host's port that are left to be tried: first the one that was reached last,
 * then the others in the resolver's order. */
typedef struct Addresses {
    ADDRINFOW *list, *next;
    BOOL are_others;
} Addresses;

/* A live object. */
typedef struct Live {
    UINT32 number;
    GUID class;
} Live;

/* The objects that the server there had, in the order of their numbers. */
typedef struct Listing {
    Live *live;
    UINT32 count, room;
    BOOL is_there;   /* of this connection; what was made or released over it since is in it */
    ULONGLONG until; /* other clients' objects may be missing from then on */
} Listing;

typedef struct Connection {
    struct Connection *next;
    LONG references;
    Settings settings;
    CRITICAL_SECTION lock;
    PTP_TIMER timer;
    SOCKET socket; /* INVALID_SOCKET if it is hung up */
    ULONGLONG last;
    /* of arrays: they end with the connection, so it is not idle while there are some */
    LONG locks;
    BOOL lost_locks; /* some have ended so, and no caller knows yet */
    UINT32 tag;
    Writer request;
    BYTE *reply;
    UINT32 reply_length, reply_room; /* of the body, of all that is received */
    UINT32 received;
    UINT32 argument; /* the last reply's index of an argument, or NO_ARGUMENT */
    /* why there was none: Winsock's error, or 0 if the server ended the connection */
    int cause;
    Address reached; /* the one that was connected last */
    Listing listing;
    struct Library *library; /* what the server has said of its library (library.h) */
    /* what an earlier connection's has said, until this one's is compared with it */
    struct Library *before;
    /* from 1 on: the next one begins if another library is there than before */
    UINT32 generation;
    /* the generation of the object that a request is about, 0 if it is about none */
    UINT32 wanted;
    struct deferred_name *deferred; /* names that nobody could be asked for (library.h) */
    UINT32 deferred_count;
} Connection;

/* Finds the addresses of a port of the server's host; FALSE if there are none, with the cause as
 * Connection has it. */
BOOL find_addresses(const Settings *settings, const WCHAR *port, Addresses *found, int *cause);
/* The next one to try, NULL after the last. */
const ADDRINFOW *next_address(Addresses *from, const Address *reached);
void free_addresses(Addresses *addresses);
/* A socket for an address, INVALID_SOCKET if there is none. */
SOCKET socket_for(const ADDRINFOW *address);
/* Keeps an address that was reached. */
void keep_address(Address *reached, const ADDRINFOW *address);

/* Before all else, once a process. */
void connections_begin(void);

/* The process's connection to a server, made if there is none; the caller has a reference. NULL if
 * out of memory. Settings other than host and port apply only when it is made. */
Connection *connection_to(const Settings *settings);
void connection_keep(Connection *connection);
/* Gives a reference back; the last one hangs up. Not while its lock is held. */
void connection_release(Connection *connection);

void connection_enter(Connection *connection);
/* Leaves, and returns the code of what was done in between; if bytes came that are no reply, it has
 * hung up. */
HRESULT connection_leave(Connection *connection, HRESULT code);

/* All below want the connection's lock held. */

/* Over which connection a request goes. */
enum way {
    /* over the existing connection; over a new one if there is none, or its server had gone before
       the request was sent */
    ONCE,
    AGAIN, /* the same, and over a new one if the connection broke: the request is idempotent */
    HERE   /* over the one that is there: what was asked before it has to be of the same server */
};

/* Begins the request; the caller writes its fields to what is given. One about an object goes only
   to a server that has the library that the object was made with: `generation` is the connection's
   at that time, or 0 for any. */
Writer *begin_request(Connection *connection, enum opcode opcode);
Writer *begin_request_of(Connection *connection, enum opcode opcode, UINT32 generation);
/* Sends what was begun, and has the reply. S_OK, a code of the server, or one of the bridge's, and
   then it has hung up; but it stays connected after E_OUTOFMEMORY for a long reply, whose bytes it
   has read past. */
HRESULT exchange(Connection *connection, enum way way);
/* The fields of the last reply. */
Reader reply_fields(Connection *connection);
void hang_up(Connection *connection);

/* Whether there is a connection; whether its other end has closed, or has sent what nobody asked
   for, so that nothing that is sent has a reply. */
BOOL is_connected(const Connection *connection);
BOOL has_gone(Connection *connection);

#endif
