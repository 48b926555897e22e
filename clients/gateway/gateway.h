/* Declarations that the files of the gateway share. main.c has the start and the loop; clients.c
 * the connections, framing.c the requests and replies in their bytes, turns.c the requests for the
 * server and the clients of its replies, server.c its process. Around them: options.c has the
 * command line, addresses.c addresses, sockets.c the listening sockets, files.c names of files,
 * metrics.c counters and reports, fullness.c how full the store is; page.c starts the page;
 * backup.c and probe.c are programs of their own. noting.c matches replies with their requests, for
 * read-only sockets and for watching.c, which sends changes to watching clients in the form of
 * changes.c, and keys.c the keys of a property. tailing.c shows what passes, and slow.c reports
 * slow batches. */
#ifndef GATEWAY_H
#define GATEWAY_H

#include <errno.h>
#include <fcntl.h>
#include <limits.h>
#include <stdbool.h>
#include <stddef.h>
#include <stdint.h>
#include <stdio.h>
#include <stdlib.h>
#include <string.h>
#include <sys/queue.h>
#include <sys/socket.h>
#include <sys/stat.h>
#include <sys/un.h>
#include <unistd.h>

enum {
    BASE = 1 << 14,   /* the bytes that each buffer of a client may always have */
    QUEUE = 1 << 18,  /* a client with this many bytes of requests waiting is not read */
    UNREAD = 1 << 20, /* a client with more bytes of unread replies gets no turn */
    HEAD = 20,        /* the shortest reply, with its length */
    BODY = 4194304,   /* the longest request */
};

/* Little-endian numbers at any place. */
static inline uint16_t get16(const char *at)
{
    uint16_t value;
    memcpy(&value, at, sizeof value);
    return value;
}

static inline uint32_t get32(const char *at)
{
    uint32_t value;
    memcpy(&value, at, sizeof value);
    return value;
}

static inline uint64_t get64(const char *at)
{
    uint64_t value;
    memcpy(&value, at, sizeof value);
    return value;
}

/* The length of the first of whole replies, or 0 if there is none. */
static inline size_t length_of_reply(const char *at, size_t size)
{
    if (size < HEAD)
        return 0;
    size_t length = 4 + (size_t)get32(at);
    return length < HEAD || length > size ? 0 : length;
}

/* Bytes that have come and not gone yet, from `start` to `end`; up to `mark` they are whole
 * requests. */
typedef struct buffer {
    char *at;
    size_t start, mark, end, room;
} Buffer;

typedef enum kind { SHARED, HEX, ALONE, READ, METRICS, CONTROL, WATCH, KINDS } Kind;

typedef enum stage {
    OPEN,
    CLOSED,    /* nothing more is read: what has come whole is answered */
    ANSWERED,  /* replies that it has not taken are all that is left */
    HANGING_UP /* it has taken them: what it still sends is thrown away */
} Stage;

typedef struct client {
    int fd; /* -1 if the place is free */
    /* how many clients have had this place: it identifies events that are meant for one that has
     * gone */
    uint32_t visit;
    Kind kind;
    Stage stage;
    uint32_t events; /* of epoll, which are waited for */
    /* has a turn to come; was just answered; epoll does not watch it; there is no room to read more
     * of it */
    bool waits, touched, deaf, starved;
    unsigned asked; /* requests that are with the server */
    /* the last batch that it is part of; the one that was answered, and it has asked nothing
       since */
    uint64_t batch, answered;
    /* requests of those that ask for something; how many that batch still takes, and takes in
       all */
    unsigned asks, share, window;
    /* the bytes of a reply to such a request, about; of the longest one in that batch */
    size_t weight, heaviest;
    bool is_known;     /* by such a reply */
    unsigned patience; /* how many turns in a row had few requests of it */
    Buffer in, out;
    size_t digits; /* HEX: of the line that is coming */
    bool bad, cr;  /* HEX: it is no pairs of digits; its last character was a CR */
    /* when it last sent, when it last took; since when it waits, and sends what has not come
       whole */
    double came, took, since, begun;
    TAILQ_ENTRY(client) answer;
    struct client *next;     /* of the free places */
    bool tails;              /* CONTROL: it gets what passes */
    struct watcher *watcher; /* WATCH: once it has said what it watches */
} Client;

TAILQ_HEAD(queue, client);

/* crates/oa_gateway_c, which is proved: what is decided about bytes, turns and clients. Each call
 * takes any arguments. `false` of those that put bytes, or move a client in a queue, says that they
 * have done nothing. */
typedef struct place {
    /* of the client that has a number; ends that the server owes to those that had it before */
    uint32_t presence, owed;
} Place;

enum { ABSENT, PRESENT, ENDING, OVER }; /* presence: any higher number means OVER, too */

typedef struct heard {
    uint32_t what, client;
    size_t count; /* bytes after the frame's head */
} Heard;

typedef struct turn {
    uint32_t requests, asks; /* how many more it takes; of those that ask for something */
    size_t bytes;            /* of requests, that the batch still takes */
    /* bytes of the reply to one that asks, about, or 0 if they are not counted; of all replies of
     * the batch */
    size_t weight, expected;
    size_t most, room; /* of all replies, that a batch may have; for which there is memory */
    bool first;        /* there is memory for one reply, however long */
} Turn;

enum { TAKEN, FULL, OFTEN, MUCH, LACKS }; /* what becomes of a request */

typedef struct turn_queue {
    /* clients at the beginning of an array, first in the next batch; where those of this batch
     * begin, and end */
    size_t kept, next, end;
} Queue;

typedef struct exclusion {
    /* a client has the server alone; one had it, and since then those that share it had no batch */
    bool is_held, others_first;
} Exclusion;

enum { NOBODYS, HOLDERS, NEXT_HOLDERS, SHARED_ONES }; /* whose requests are in a batch */

typedef struct moment {
    /* the server serves; it has a batch; a backup keeps it waiting */
    bool is_up, in_flight, is_held;
    bool ends_wait;       /* an end was sent since the last batch */
    size_t awaited;       /* clients that this one answered, and that have asked nothing since */
    uint64_t since, took; /* nanoseconds since it was answered; that a batch takes, about */
} Moment;

typedef struct conduct {
    size_t unread; /* bytes of replies that it has not read */
    /* milliseconds: it has read none of them; nothing passed; a request is being read */
    uint64_t unread_for, silent, incomplete_for;
    bool asks_nothing; /* no request of it waits or is with the server */
} Conduct;

typedef struct patience {
    /* milliseconds that a client may take for replies and requests; until the next request */
    uint64_t stalled, idle;
} Patience;

enum { STAYS, UNREAD_LONG, INCOMPLETE, IDLE }; /* what becomes of a client */

enum { PART, ALL_ANSWERED, GIVEN, ENDED, DROPPED, WRONG }; /* what becomes of a frame */

/* FRAME: the most bytes after a head */
enum { FRAME_HEAD = 8, FRAME = 1 << 20, NOW_BYTES = 16 };

size_t oa_find_requests(const char *bytes, size_t size, bool *ends);
bool oa_send(Place *place, uint32_t number, const char *bytes, size_t size, char *out, size_t room,
             size_t *put);
bool oa_close(Place *place, uint32_t number, char *out, size_t room, size_t *put);
bool oa_leave(Place *place, uint32_t number, char *out, size_t room, size_t *put);
bool oa_put_now(char *out, size_t room, size_t *put);
void oa_hear(Place *places, size_t count, const char *bytes, size_t size, Heard *heard);
void oa_restart(Place *places, size_t count);
uint32_t oa_take(Turn *turn, const char *body, size_t size);
bool oa_join(Queue *queue, uint32_t *places, size_t count, uint32_t client);
bool oa_first(const Queue *queue, const uint32_t *places, size_t count, uint32_t *client);
bool oa_had_turn(Queue *queue, uint32_t *places, size_t count, bool waits, bool took);
bool oa_renew(Queue *queue, uint32_t *places, size_t count);
bool oa_remove(Queue *queue, uint32_t *places, size_t count, uint32_t client);
uint32_t oa_begin(Exclusion *exclusion, const Queue *own, const Queue *alones, const Queue *shared);
void oa_let_go(Exclusion *exclusion);
bool oa_begins(const Moment *moment, const Exclusion *exclusion, const Queue *own,
               const Queue *alones, const Queue *shared, uint64_t *after);
uint32_t oa_judge(const Conduct *conduct, const Patience *patience);
bool oa_gives_way(const Conduct *conduct, size_t used, size_t memory, bool lacks);
size_t oa_heaviest(const size_t *unread, size_t count);

/* main.c */
/* the data of epoll events that are not a client's */
static const uint64_t SERVER = UINT64_MAX, SIGNALS = UINT64_MAX - 1, LISTENER = UINT64_MAX - 2;
struct listener;
extern double now, draining; /* draining: since when it ends */
bool watch(int fd, int operation, uint32_t events, uint64_t told);
void watch_surely(int fd, int operation, uint32_t events, uint64_t told);
double clock_now(void);
void let_rest(struct listener *listener);
bool have_descriptors(double count);
_Noreturn void fail(int status, const char *format, ...) __attribute__((format(printf, 2, 3)));

/* clients.c: what the buffers of clients have, and may have */
extern size_t in_bytes, out_bytes, memory;
extern size_t most_places; /* of clients and monitors, at most */
/* holder: a backup, while nothing is sent to the server */
extern Client *clients, *end_of_clients, *holder;
bool make_room(Buffer *buffer, size_t more, size_t *pool, size_t limit);
void append(Buffer *buffer, size_t *pool, const void *bytes, size_t size);
void give_room_back(Buffer *buffer, size_t *pool, bool wholly);
void trim(Buffer *buffer, size_t *pool);
extern bool replies_lack_room; /* a request waits since its reply may find no memory */
void relieve(void);
void make_places(size_t clients);
size_t unread(const Client *client);
void speak(Client *client);
void gone(Client *client);
void client_event(uint32_t place, uint32_t visit, uint32_t events);
void let_read(void);
void all_end(void);
void all_lost(void);
void judge_all(void);
void accept_clients(struct listener *listener);

/* framing.c */
size_t wanted(const Client *client);
void bytes_came(Client *client, const char *bytes, size_t size);
void end_came(Client *client);
void cut_short(Client *client);
void stop_reading(Client *client);
void give(Client *client, const char *replies, size_t size);

/* turns.c */
extern Client *alone;  /* the client that has the server for itself */
extern uint64_t batch; /* its number */
extern size_t awaited; /* clients that were just answered, and have asked nothing since */
extern bool in_flight; /* a batch is with the server */
extern bool ends_wait; /* an end was sent since the last batch */
size_t waiting(void);  /* clients with a turn to come */
void batch_took(double seconds);
double until_batch(double at);
double pause_left(double at);
void enqueue(Client *client);
void look(Client *client);
bool begin_batch(void);
bool hand_out(struct queue *answered);
void client_came(Client *client);
void client_gone(Client *client);
void server_came(void);
void session_lost(Client *client);

/* changes.c */
typedef struct text {
    char *at;
    size_t size, room;
} Text;

enum { CREATE_CHANGE = 1, RELEASE_CHANGE = 2, LIBRARY_CHANGE = 12 };

typedef struct change {
    size_t at, size; /* of what was kept of its request */
    uint64_t number;
    uint32_t opcode, object;
    int32_t member;
    bool has_member;
    char class[16]; /* zeros if it is not known */
} Change;

void clear_text(Text *it);
void add_bytes(Text *it, const void *bytes, size_t size);
bool may_change(const char *record, size_t size);
void keep_change(Text *it, const char *record, size_t size);
void change_head(Change *it, const char *kept, const char *reply, size_t size);
void change_line(Text *line, Text *value, const Change *it, const char *kept);

/* noting.c */
/* somebody wants to know what passes; there is a socket for which the requests at the server are
 * noted */
extern bool noting, matching;
void keep_from_changing(char *records, size_t size);
void note_request(const Client *c, const char *record, size_t size);
void note_rest(const Client *c);
void replies_leave(uint32_t place, char *replies, size_t size);
extern size_t untold; /* acknowledged changes that watching clients have not got */
void tell_changes(bool all_of_them);
void forget_notes(void);
void note_or_not(void);

/* tailing.c */
extern bool tailing; /* somebody gets what passes */
void tail(const char *what, uint32_t place, const char *record, size_t size);
void send_tails(void);
bool begin_tail(Client *c);
void end_tail(Client *c);
int print_tail(char **words);

/* slow.c */
extern double slow; /* milliseconds; 0: slow batches are not reported */
void count_request(uint32_t place, const char *record, size_t size);
void batch_was(double seconds);

/* watching.c */
extern bool watching; /* there is a socket for watching clients */
extern double watchers;
extern uint64_t watcher_count;
void prepare_watching(void);
void objects_came(const char *reply, size_t size);
void change_came(Change *it, const char *kept, const char *reply, size_t size);
void tell_change(const Change *it, const char *kept);
void server_is_new(void);
void tell_watchers(void);
double watchers_due(void);
void end_watching(void);
void watcher_event(Client *c, uint32_t events);
void stop_watching(Client *c);
bool read_guid(const char *word, char *into);
bool read_number(const char *word, long long least, long long greatest, long long *into);
void begin_watching(Client *c, const char *asked, FILE *to);

/* server.c */
extern Buffer to_server, from_server;
/* default_bytes: of a tracked store, that a request may leave out, at most */
extern size_t server_bytes, default_bytes;
extern bool is_up, is_held, is_tracked;
/* a backup that needs to know whether the store has switched its bank */
extern Client *tracker;
/* how long a batch takes, about; when the last one was answered */
extern double took, answered_at;
void start_server(void);
void read_server(void);
bool server_has_come(void);
void write_server(void);
void pump(void);
double let_go_on(void);
void track(Client *client);
void bank_may_change(void);
void end_tracking(void);
int end_server(void);
bool has_server(void);
void wait_for_others(void);
bool kept_waiting(void);
double unanswered_for(void);

/* addresses.c */
typedef struct address {
    struct sockaddr_storage name;
    socklen_t size;
} Address;

bool is_url(const char *word);
const char *read_address(const char *word, Address *into);
const char *read_address_there(const char *word, Address *into);

/* sockets.c */
enum { LISTENERS = 16 };

extern struct listener {
    int fd;
    Kind kind;
    bool own;   /* it is to be made here, or was */
    bool rests; /* until the next second: there is no descriptor or memory for a connection */
    struct sockaddr_storage name;
    socklen_t size;
    /* of a unix socket that was made here; -1 before that, and once it is removed */
    int folder;
    char named[NAME_MAX + 1]; /* its name in that folder */
    struct stat made;         /* what it is there */
} listeners[LISTENERS];

extern unsigned listener_count;
extern const char *const kinds[KINDS];

enum { ALLOWED = 64 };

typedef struct allowed {
    unsigned count;
    uint32_t ids[ALLOWED];
} Allowed;

/* those of read-only sockets, beside the others */
extern Allowed users, groups, read_users, read_groups;
void add_address(Kind kind, const char *word);
bool add_allowed(const char *name, const char *word);
bool is_nameless(bool only_readers);
bool take_sockets(void);
void check_paths(void);
void open_sockets(void);
void unlink_sockets(void);
bool is_allowed(int fd, Kind kind);

/* options.c */
enum { MOST_CLIENTS = 100000, MOST_WATCHERS = 10000, NUMBERS = 8, WATCHERS = 6 };

extern double most, idle, hold, stalled, report;

extern const struct number {
    const char *name;
    double *value, least, greatest;
} numbers[NUMBERS];

extern unsigned long mode;
extern const char *program, *store, *page; /* page: its address, NULL if none was asked for */
int take_options(int argc, char **argv, void (*took)(const char *name, const char *word));
void read_options(int argc, char **argv);
void settle_memory(void);

/* reload.c */
void keep_fixed(const char *name, const char *word);
void reload(const char *line, FILE *to);
int ask_to_reload(int argc, char **argv);

/* metrics.c */
enum { BUCKETS = 20, CODES = 32 };

typedef struct histogram {
    /* the upper bound of the first bucket; each other one is twice as large */
    double least, sum;
    uint64_t buckets[BUCKETS + 1];
} Histogram;

extern struct counts {
    uint64_t live, clients, turned_away, stalled, silent, requests, batches, in, out, refused,
        starts, holds, unmeasured, changes, missed, turned_down, slow;
    double held; /* seconds that backups kept the server waiting */
    Histogram batch, commit, wait;

    struct code {
        uint32_t code;
        uint64_t count;
    } codes[CODES];

    bool faulted; /* STG_E_WRITEFAULT was answered */
} counts;

void observe(Histogram *histogram, double value);
void note(uint32_t code);
void tell_one(FILE *to, const char *kind, const char *of, const char *name, const char *help,
              double value);
void answer_monitor(Client *client);
void report_counts(void);
bool notify(const char *format, ...) __attribute__((format(printf, 1, 2)));
void say(const char *format, ...) __attribute__((format(printf, 1, 2)));

/* fullness.c */
const char *measure(const char *path, FILE *to);
int print_measure(const char *path);
void tell_fullness(FILE *to);
void look_at_measure(void);
bool is_measuring(pid_t process);
pid_t spawn_self(char *const *words, int output);
int print_keys(char **words);

/* keys.c */
#define KEYS_LINE "a line is needed: keys object=N interface=GUID member=N"
bool send_keys(const Client *c, const char *asked, FILE *to);
void keys_ended(pid_t process);

/* files.c */
int open_folder(const char *path, int flags, const char **base);
void name_beside(const char *base, char into[NAME_MAX + 1]);
bool is_same_file(const struct stat *one, const struct stat *other);
int rename_to_free_name(int folder, const char *from, const char *to);
bool remove_socket(int folder, const char *base, const struct stat *known);

/* page.c, backup.c */
extern pid_t page_process; /* 0 if there is none */
void check_page(void);
void start_page(void);
void become_python(char *const *words);
int reach(const char *control);
const char *ask(int gateway, const char *line);
int backup(const char *control, const char *file);
int print_status(const char *control);
int probe(const char *address, const char *seconds);

#endif
