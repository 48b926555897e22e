/* The connections: accepting, reading, writing and closing them. */
#include "gateway.h"

#include <netinet/in.h>
#include <netinet/tcp.h>
#include <sys/epoll.h>

size_t in_bytes, out_bytes, memory, most_places;
Client *clients, *end_of_clients, *holder;
bool replies_lack_room;
static bool room_made, room_lacks; /* memory was freed; a client may be starved */
/* a client that was starved, and may exceed the limit until the server has its request */
static Client *favoured;
static Client *free_places; /* linked by `next` */
static unsigned connected[KINDS];
static size_t *unread_bytes; /* of each place: bytes of replies, for a decision about all */

enum {
    ACCEPTS = 8,       /* connections of a socket that are accepted in one turn */
    PLACES_APIECE = 8, /* of the metrics, and of the control sockets */
    /* seconds of silence after which TCP asks whether the other end is there: one that has closed
       keeps no place for hours */
    PROBED = 60,
    COPYING = 3600 /* seconds that a backup may take for what it copies while requests go on */
};

/* ---- buffers */

/* What a buffer gets beyond its need, so that it is not moved for each few bytes. */
static size_t spare(size_t size)
{
    return size / 2 < 1 << 18 ? size / 2 : 1 << 18;
}

/* What a pool counts of a buffer: not the base that each client has anyway. */
static size_t beyond_base(size_t room)
{
    return room > BASE ? room - BASE : 0;
}

/* Makes space for so many more bytes. False if the pool would exceed its limit; BASE bytes are
 * never refused. */
bool make_room(Buffer *b, size_t more, size_t *pool, size_t limit)
{
    size_t filled = b->end - b->start, room = b->room;
    if (room - b->end >= more)
        return true;
    /* bytes are moved only if that is rare */
    if (filled + more > room || b->start < filled)
        room = filled + more <= BASE ? BASE : filled + more + spare(filled + more);
    if (room > BASE && room > b->room && *pool + beyond_base(room) - beyond_base(b->room) > limit) {
        if (filled + more > b->room)
            return false;
        room = b->room;
    }
    if (b->start)
        memmove(b->at, b->at + b->start, filled);
    b->mark -= b->start < b->mark ? b->start : b->mark;
    b->start = 0;
    b->end = filled;
    if (room <= b->room)
        return true;
    b->at = realloc(b->at, room);
    if (!b->at)
        fail(1, "out of memory");
    *pool += beyond_base(room) - beyond_base(b->room);
    b->room = room;
    return true;
}

void append(Buffer *b, size_t *pool, const void *bytes, size_t size)
{
    if (!size)
        return;
    make_room(b, size, pool, SIZE_MAX);
    memcpy(b->at + b->end, bytes, size);
    b->end += size;
}

void give_room_back(Buffer *b, size_t *pool, bool wholly)
{
    if (b->end > b->start && !wholly)
        return;
    b->start = b->mark = b->end = 0;
    if (b->room <= BASE && !wholly)
        return;
    free(b->at);
    *pool -= beyond_base(b->room);
    *b = (Buffer){0};
    room_made = true;
}

/* Frees memory of a buffer that has few bytes left. */
void trim(Buffer *b, size_t *pool)
{
    size_t filled = b->end - b->start;
    if (!filled)
        give_room_back(b, pool, false);
    if (b->room <= BASE || filled > BASE)
        return;
    char *less = malloc(BASE);
    if (!less)
        return;
    memcpy(less, b->at + b->start, filled);
    free(b->at);
    *pool -= beyond_base(b->room);
    *b = (Buffer){.at = less,
                  .mark = b->mark > b->start ? b->mark - b->start : 0,
                  .end = filled,
                  .room = BASE};
    room_made = true;
}

/* ---- reading and writing */

size_t unread(const Client *c)
{
    return c->out.end - c->out.start;
}

static void listen_to(Client *c)
{
    bool reads = c->stage == OPEN && !c->starved && c->in.mark - c->in.start <= QUEUE &&
                 unread(c) <= UNREAD;
    uint32_t events = (reads || c->stage == HANGING_UP ? EPOLLIN : 0u) |
                      (unread(c) ? EPOLLOUT : 0u);
    if (events == c->events)
        return;
    /* the time in which the gateway did not read it does not count */
    if (events & ~c->events & EPOLLIN)
        c->begun = now;
    if (!watch(c->fd, c->deaf ? EPOLL_CTL_ADD : EPOLL_CTL_MOD, events,
               (uint64_t)c->visit << 32 | (uint64_t)(c - clients))) {
        gone(c);
        return;
    }
    c->events = events;
    c->deaf = false;
}

void gone(Client *c)
{
    if (c->kind < METRICS) {
        client_gone(c);
        counts.live--;
    }
    if (c == holder)
        let_go_on();
    if (c == tracker)
        end_tracking();
    if (c == favoured)
        favoured = NULL;
    if (c->watcher)
        stop_watching(c);
    if (c->tails)
        end_tail(c);
    close(c->fd);
    connected[c->kind]--;
    give_room_back(&c->in, &in_bytes, true);
    give_room_back(&c->out, &out_bytes, true);
    *c = (Client){.fd = -1, .visit = c->visit + 1, .next = free_places};
    free_places = c;
}

/* Sends a client its replies, as many bytes as it accepts. */
void speak(Client *c)
{
    while (unread(c)) {
        ssize_t n = send(c->fd, c->out.at + c->out.start, unread(c), MSG_NOSIGNAL | MSG_DONTWAIT);
        if (n < 0 && errno != EAGAIN && errno != EINTR) {
            gone(c);
            return;
        }
        if (n < 0)
            break;
        c->out.start += (size_t)n;
        c->took = now;
    }
    if (c->kind < METRICS && unread(c) <= UNREAD && c->in.mark > c->in.start)
        enqueue(c);
    trim(&c->out, &out_bytes);
    if (c->kind >= METRICS || wanted(c) <= BASE)
        trim(&c->in, &in_bytes);
    if (c->stage == ANSWERED && !unread(c)) {
        c->stage = HANGING_UP;
        c->took = now;
        shutdown(c->fd, SHUT_WR);
    }
    listen_to(c);
}

static void read_client(Client *c)
{
    char digits[4096], *to = digits;
    for (int turns = 0; turns < 4 && c->stage == OPEN && c->in.mark - c->in.start <= QUEUE;
         turns++) {
        size_t need = wanted(c), room = sizeof digits,
               limit = c == alone || c == favoured ? SIZE_MAX : memory / 2;
        c->starved = !make_room(&c->in, need > BASE ? need : BASE, &in_bytes, limit) &&
                     !make_room(&c->in, need, &in_bytes, limit);
        room_lacks |= c->starved;
        if (c->starved)
            break;
        if (c->kind != HEX) {
            to = c->in.at + c->in.end;
            room = c->in.room - c->in.end;
        }
        ssize_t n = recv(c->fd, to, room, MSG_DONTWAIT);
        if (n < 0 && errno != EAGAIN && errno != EINTR) {
            gone(c);
            return;
        }
        if (n < 0)
            break;
        c->came = now;
        counts.in += (size_t)n;
        if (n)
            bytes_came(c, digits, (size_t)n);
        else
            end_came(c);
        if ((size_t)n < room)
            break;
    }
    speak(c);
}

/* Reads a line of a control socket, or a request for metrics. */
static void read_monitor(Client *c)
{
    make_room(&c->in, 1024, &in_bytes, SIZE_MAX);
    ssize_t n = recv(c->fd, c->in.at + c->in.end, 1023, MSG_DONTWAIT);
    if (n <= 0 || c->in.end + (size_t)n > 8192) {
        gone(c);
        return;
    }
    c->came = now;
    c->in.end += (size_t)n;
    c->in.at[c->in.end] = 0;
    if (!strstr(c->in.at, c->kind == METRICS ? "\r\n\r\n" : "\n"))
        return;
    answer_monitor(c);
    if (c->fd < 0)
        return; /* another process has its connection */
    c->in.end = 0;
    speak(c);
}

void client_event(uint32_t place, uint32_t visit, uint32_t events)
{
    Client *c = &clients[place];
    if (c->fd < 0 || c->visit != visit)
        return;
    if (c->watcher) {
        watcher_event(c, events);
        return;
    }
    if (events & EPOLLOUT)
        speak(c);
    if (c->fd < 0 || c->visit != visit || !(events & ~(uint32_t)EPOLLOUT))
        return;
    if (!(c->events & EPOLLIN)) {
        /* it has hung up, and its earlier requests are still to be answered */
        watch(c->fd, EPOLL_CTL_DEL, 0, 0);
        c->deaf = true;
        c->events = 0;
    } else if (c->stage == HANGING_UP) {
        /* closing a socket with unread bytes might lose its replies */
        char bytes[BASE];
        ssize_t n = recv(c->fd, bytes, sizeof bytes, MSG_DONTWAIT);
        if (!n || (n < 0 && errno != EAGAIN && errno != EINTR))
            gone(c);
    } else if (c->kind < METRICS)
        read_client(c);
    else
        read_monitor(c);
}

/* ---- coming and going */

/* Makes places for so many clients, and for monitors. Places that were never used are after
 * `end_of_clients`, and take no memory. */
void make_places(size_t most_clients)
{
    most_places = most_clients + (KINDS - METRICS) * PLACES_APIECE + MOST_WATCHERS;
    clients = calloc(most_places, sizeof *clients);
    unread_bytes = calloc(most_places, sizeof *unread_bytes);
    if (!clients || !unread_bytes)
        fail(1, "out of memory");
    end_of_clients = clients;
}

static Client *take_place(void)
{
    Client *c = free_places;
    if (c)
        free_places = c->next;
    else if (end_of_clients < clients + most_places)
        c = end_of_clients++;
    return c;
}

/* Whether there is a place for one more client of a kind. If the monitors have used theirs, the one
 * that was silent for longest is disconnected, except a backup and those that tail. On the control
 * socket, which only its owner reaches, there is always a place. */
static bool is_place_for(Kind kind)
{
    Client *oldest = NULL;
    if (kind < METRICS)
        return counts.live < (uint64_t)most;
    if (kind == WATCH)
        return connected[WATCH] < (unsigned)watchers;
    if (connected[kind] < PLACES_APIECE)
        return true;
    for (Client *c = clients; c < end_of_clients; c++)
        if (c->fd >= 0 && c->kind == kind && c != holder && c != tracker && !c->tails &&
            (!oldest || c->came < oldest->came))
            oldest = c;
    if (!oldest || (kind == METRICS && now - oldest->came < 0.2))
        return false;
    gone(oldest);
    return true;
}

/* Accepts some connections of a socket. The rest has its turn after the other events. */
void accept_clients(struct listener *l)
{
    bool client = l->kind < METRICS;
    for (int count = 0, yes = 1; count < ACCEPTS; count++) {
        int fd = accept4(l->fd, NULL, NULL, SOCK_CLOEXEC | SOCK_NONBLOCK);
        if (fd < 0 && (errno == EMFILE || errno == ENFILE || errno == ENOBUFS || errno == ENOMEM))
            let_rest(l);
        else if (fd < 0 && (errno == EBADF || errno == EINVAL || errno == ENOTSOCK ||
                            errno == EOPNOTSUPP || errno == ENOSYS))
            fail(1, "cannot accept connections: %s", strerror(errno));
        if (fd < 0)
            return; /* there is none, or it has closed already */
        Client *c = is_place_for(l->kind) && is_allowed(fd, l->kind) ? take_place() : NULL;
        if (!c) {
            counts.turned_away++;
            close(fd);
            continue;
        }
        setsockopt(fd, SOL_SOCKET, SO_KEEPALIVE, &yes, sizeof yes);
        setsockopt(fd, IPPROTO_TCP, TCP_KEEPIDLE, &(int){PROBED}, sizeof(int));
        setsockopt(fd, IPPROTO_TCP, TCP_KEEPINTVL, &(int){PROBED / 4}, sizeof(int));
        setsockopt(fd, IPPROTO_TCP, TCP_NODELAY, &yes, sizeof yes);
        *c = (Client){.fd = fd,
                      .visit = c->visit,
                      .kind = l->kind,
                      .deaf = true,
                      .came = now,
                      .took = now,
                      .begun = now};
        connected[l->kind]++;
        if (client) {
            client_came(c);
            counts.live++;
            counts.clients++;
        }
        listen_to(c);
    }
}

static void read_again(Client *c)
{
    c->starved = false;
    c->came = now;
    listen_to(c);
}

/* Clients that were not read for lack of memory are read again once some was freed. A client that
 * has the server for itself is read at once, since all others wait for it. So is one other, in
 * turn: otherwise clients with parts of requests might wait for memory that they hold
 * themselves. */
void let_read(void)
{
    static size_t turn;
    size_t count = (size_t)(end_of_clients - clients);
    for (Client *c = clients; room_made && c < end_of_clients; c++)
        if (c->starved)
            read_again(c);
    room_made = false;
    if (alone && alone->starved)
        read_again(alone);
    if (favoured && (favoured->stage != OPEN ||
                     (favoured->in.mark == favoured->in.start && wanted(favoured) <= BASE)))
        favoured = NULL;
    if (favoured || !room_lacks)
        return;
    room_lacks = false;
    for (size_t i = 0; i < count && !room_lacks; i++) {
        room_lacks = clients[turn % count].starved;
        turn++;
    }
    if (!room_lacks)
        return;
    favoured = &clients[(turn - 1) % count];
    read_again(favoured);
}

/* The gateway ends: it reads only what has come already. */
void all_end(void)
{
    for (Client *c = clients; c < end_of_clients; c++) {
        if (c->fd < 0 || c->stage != OPEN)
            continue;
        if (c->watcher)
            continue; /* it gets the replies that are still to come */
        if (c->kind >= METRICS)
            gone(c);
        else
            read_client(c);
        if (c->fd < 0 || c->stage != OPEN)
            continue;
        stop_reading(c);
        speak(c);
    }
}

/* The server has ended: all connections are closed. */
void all_lost(void)
{
    for (Client *c = clients; c < end_of_clients; c++) {
        if (c->fd < 0 || c->kind == METRICS || c->kind == WATCH)
            continue;
        if (c->kind == CONTROL)
            gone(c);
        else {
            session_lost(c);
            speak(c);
        }
    }
}

/* ---- who is disconnected */

static uint64_t milliseconds(double seconds)
{
    return seconds > 0 ? (uint64_t)(seconds * 1000) : 0;
}

static Conduct conduct_of(const Client *c)
{
    bool comes = c->in.end > c->in.mark && c->events & EPOLLIN;
    return (Conduct){
        .unread = unread(c),
        .unread_for = milliseconds(now - c->took),
        .silent = milliseconds(now - (c->came > c->took ? c->came : c->took)),
        .incomplete_for = comes ? milliseconds(now - c->begun) : 0,
        .asks_nothing = !c->asked && !c->starved && c->in.mark == c->in.start,
    };
}

/* Disconnects a client that exceeds a time limit. */
static void judge(Client *c)
{
    Conduct conduct = conduct_of(c);
    Patience patience = {.stalled = milliseconds(stalled),
                         .idle = idle > 0 ? milliseconds(idle) : UINT64_MAX};
    uint32_t verdict;

    /* it costs only its place, and the bytes that wait for a tail */
    if (c->watcher || (c->tails && c->stage == OPEN))
        return;
    if (c == alone || c == holder)
        patience.idle = milliseconds(hold);
    else if (c->kind >= METRICS)
        patience.idle = milliseconds(c == tracker ? COPYING : 10);
    verdict = oa_judge(&conduct, &patience);
    if (verdict == UNREAD_LONG ||
        (c->stage == HANGING_UP && !conduct.unread && conduct.silent > 2000)) {
        counts.stalled += verdict == UNREAD_LONG;
        gone(c);
        return;
    }
    if (c->stage != OPEN)
        return;
    if (c->kind >= METRICS) {
        if (conduct.unread ||
            (c->kind == METRICS ? milliseconds(now - c->begun) : conduct.silent) <= patience.idle)
            return;
        counts.silent++;
        gone(c);
        return;
    }
    if (verdict == STAYS)
        return;
    *(c->in.end > c->in.mark ? &counts.stalled : &counts.silent) += 1;
    cut_short(c);
    speak(c);
}

void judge_all(void)
{
    for (Client *c = clients; c < end_of_clients; c++)
        if (c->fd >= 0)
            judge(c);
    relieve();
}

/* Replies may fill half of the memory. Above that, all clients that have read none of theirs for a
 * second are disconnected; above twice that, the client with the most. */
void relieve(void)
{
    size_t used = out_bytes, count = (size_t)(end_of_clients - clients), place;
    bool lacks = replies_lack_room;
    replies_lack_room = false;
    for (Client *c = clients; (lacks || used > memory / 2) && c < end_of_clients; c++) {
        Conduct conduct = conduct_of(c);
        if (c->fd < 0 || !oa_gives_way(&conduct, used, memory, lacks))
            continue;
        counts.stalled++;
        gone(c);
    }
    while (out_bytes > memory) {
        for (place = 0; place < count; place++)
            unread_bytes[place] = unread(&clients[place]);
        place = oa_heaviest(unread_bytes, count);
        if (place >= count)
            break;
        counts.stalled++;
        gone(&clients[place]);
    }
}
