/* Drives framing.c and turns.c by made-up clients and a made-up server, and aborts where a reply
 * goes astray.
 *
 *     fuzz [COUNT SEED]
 *
 * Without words it reads one input (AFL++ gives many), else it makes so many. Compiled with
 * -DFUZZED and -fsanitize=fuzzer it is a target of libFuzzer. An input says, byte by byte, which
 * client sends what, in which pieces it comes, when a batch begins and how much of the server's
 * replies has come. The server keeps locks by their clients: none is left after all have gone. */
#include "../gateway.h"

#undef assert
#define assert(it)                                                 \
    do {                                                           \
        if (!(it)) {                                               \
            fprintf(stderr, "fuzz: line %d: %s\n", __LINE__, #it); \
            abort();                                               \
        }                                                          \
    } while (0)

/* MARK: with whose number it is the highest byte of a tag; it stands in no raw bytes, as the
 * opcodes of locks do not */
enum { MARK = 0x40, MEN = 5, CELLS = 16, TAGS = 1 << 14, PIPE = 1 << 16 };

static const uint32_t BAD = 0x800706F7;
static const uint32_t OWN = 0xFFFFFFFE, NOW = 0xFFFFFFFF;

typedef struct man {
    Client *c;
    char pipe[PIPE]; /* sent, and not read yet */
    size_t filled;
    bool eof;
    Buffer seen; /* all that was sent, from where no request was found yet */
    uint32_t due[TAGS];
    size_t due_first, due_last;
    uint32_t serial;
    bool ends, cut;
    size_t held[CELLS];
    Buffer there; /* what the server has of a record of it */
    bool over;    /* the server has told it its end */
} Man;

static Man men[MEN];
static Client places[MEN];
static size_t seen_bytes, fake_bytes, there_bytes, locks[CELLS], given_back;
static Buffer fake; /* replies of the server that have not come yet */
static const uint8_t *input;
static size_t left;
/* in which visit the third client had the server alone behind the last batch, plus 1; else 0 */
static uint32_t alone_visit;

static unsigned byte(void)
{
    if (!left)
        return 0;
    left--;
    return *input++;
}

static uint32_t get(const char *at)
{
    uint32_t v;
    memcpy(&v, at, 4);
    return v;
}

static void put(char *at, uint32_t v)
{
    memcpy(at, &v, 4);
}

static void add(Buffer *b, size_t *pool, const void *some, size_t n)
{
    make_room(b, n, pool, SIZE_MAX);
    if (n)
        memcpy(b->at + b->end, some, n);
    b->end += n;
}

static void expect(Man *m, uint32_t tag)
{
    assert(m->due_last < TAGS);
    m->due[m->due_last++] = tag;
}

/* What the requests of a client are, read here once more. */
static void look_at(Man *m)
{
    Buffer *b = &m->seen;
    while (!m->ends) {
        if (m->c->kind == HEX) {
            char *line = b->at ? b->at + b->start : NULL,
                 *end = line ? memchr(line, '\n', b->end - b->start) : NULL;
            if (!end && !(m->eof && !m->filled && b->end > b->start))
                break;
            size_t n = end ? (size_t)(end - line) : b->end - b->start, whole = n + (end != NULL);
            if (n && end && line[n - 1] == '\r')
                n--;
            bool bad = n % 2 || !n;
            for (size_t i = 0; i < n; i++)
                bad |= !strchr("0123456789abcdefABCDEF", line[i]) || !line[i];
            unsigned tag[4] = {0};
            if (bad) {
                m->ends = true;
                break;
            }
            for (unsigned i = 0; i < 4 && n >= 16; i++)
                sscanf(line + 2 * i, "%2x", &tag[i]);
            expect(m, tag[0] | tag[1] << 8 | tag[2] << 16 | tag[3] << 24);
            b->start += whole;
        } else {
            if (b->end - b->start < 4)
                break;
            uint32_t n = get(b->at + b->start);
            if (!n || n > 4194304) {
                m->ends = true;
                m->cut = n > 0;
                break;
            }
            if (b->end - b->start < 4 + (size_t)n)
                break;
            expect(m, n < 8 ? 0 : get(b->at + b->start + 4));
            b->start += 4 + n;
        }
    }
    if (m->eof && !m->filled && !m->ends) {
        m->ends = true;
        m->cut = m->c->kind != HEX && b->end > b->start;
    }
}

static void sends(Man *m, const char *some, size_t n)
{
    if (m->eof || m->filled + n > PIPE)
        return;
    memcpy(m->pipe + m->filled, some, n);
    m->filled += n;
}

static void sends_record(Man *m, const char *record, size_t n)
{
    static char line[8192];
    if (m->c->kind != HEX) {
        sends(m, record, n);
        return;
    }
    for (size_t i = 4; i < n; i++)
        sprintf(line + 2 * (i - 4), "%02x", (unsigned char)record[i]);
    strcpy(line + 2 * (n - 4), m->serial % 5 ? "\n" : "\r\n");
    sends(m, line, strlen(line));
}

static void makes_record(Man *m, unsigned what)
{
    static const unsigned char opcodes[] = {4, 8, 9, 12, 8, 9, 4, 11};
    char record[2048] = {0};
    unsigned opcode = opcodes[what & 7], size = 68;
    if (opcode != 8 && opcode != 9)
        size = 12 + (what >> 3) * 8;
    put(record, size - 4);
    put(record + 4, (uint32_t)(MARK + m - men) << 24 | ++m->serial);
    record[8] = (char)opcode;
    record[12] = (char)(what >> 3 & 3);
    record[16] = (char)(what >> 5 & 3);
    /* a word that is wrong, so that the server refuses it */
    if (opcode == 9)
        record[40] = (char)(what >> 7);
    sends_record(m, record, size);
}

static char harmless(unsigned it)
{
    return (char)(it == 8 || it == 9 || (it >= MARK && it < MARK + MEN) || strchr("489", (int)it)
                      ? '3'
                      : it);
}

/* So many bytes come, as clients.c reads them. */
static void comes(Man *m, size_t most)
{
    Client *c = m->c;
    for (; m->filled && most && c->stage == OPEN;) {
        char digits[4096], *to = digits;
        size_t need = wanted(c), n = sizeof digits;
        if (!make_room(&c->in, need > BASE ? need : BASE, &in_bytes, memory / 2) &&
            !make_room(&c->in, need, &in_bytes, memory / 2))
            return;
        if (c->kind != HEX) {
            to = c->in.at + c->in.end;
            n = c->in.room - c->in.end;
        }
        n = n < m->filled ? n : m->filled;
        n = n < most ? n : most;
        memcpy(to, m->pipe, n);
        add(&m->seen, &seen_bytes, m->pipe, n);
        m->filled -= n;
        memmove(m->pipe, m->pipe + n, m->filled);
        most -= n;
        look_at(m);
        bytes_came(c, digits, n);
    }
    if (!m->filled && m->eof && c->stage == OPEN) {
        look_at(m);
        end_came(c);
    }
}

/* Takes what it was answered: the tags that are due, in their order. */
static void takes(Man *m)
{
    Client *c = m->c;
    while (c->out.end > c->out.start) {
        char *at = c->out.at + c->out.start;
        uint32_t tag, code;
        if (c->kind == HEX) {
            char *end = memchr(at, '\n', c->out.end - c->out.start);
            unsigned b[8];
            assert(end && end - at >= 32);
            for (int i = 0; i < 8; i++)
                assert(sscanf(at + 2 * i, "%2x", &b[i]) == 1);
            tag = b[0] | b[1] << 8 | b[2] << 16 | b[3] << 24;
            code = b[4] | b[5] << 8 | b[6] << 16 | b[7] << 24;
            c->out.start += (size_t)(end + 1 - at);
        } else {
            assert(c->out.end - c->out.start >= 20 && c->out.end - c->out.start >= 4 + get(at));
            tag = get(at + 4);
            code = get(at + 8);
            c->out.start += 4 + get(at);
        }
        if (m->due_first == m->due_last) {
            assert(m->ends && m->cut && !tag && code == BAD);
            m->cut = false;
        } else
            assert(tag == m->due[m->due_first++]);
    }
    c->out.start = c->out.end = 0;
    if (c->stage != ANSWERED) {
        if (c->in.mark > c->in.start)
            enqueue(c);
        return;
    }
    assert(m->ends && !m->cut && m->due_first == m->due_last);
}

static void leaves(Man *m)
{
    Client *c = m->c;
    uint32_t visit = c->visit + 1;
    Kind kind = c->kind;
    client_gone(c);
    give_room_back(&c->in, &in_bytes, true);
    give_room_back(&c->out, &out_bytes, true);
    give_room_back(&m->seen, &seen_bytes, true);
    m->filled = m->due_first = m->due_last = 0;
    m->eof = m->ends = m->cut = false;
    m->seen = (Buffer){0};
    *c = (Client){.fd = 7, .visit = visit, .kind = kind};
    client_came(c);
}

static void tell(uint32_t number, const char *reply, size_t size)
{
    uint32_t head[2] = {number, (uint32_t)size};
    add(&fake, &fake_bytes, head, sizeof head);
    add(&fake, &fake_bytes, reply, size);
}

/* The server answers a request of a client. */
static void serve_one(const char *record, size_t n, Man *of)
{
    char reply[1100] = {16};
    uint32_t tag = n < 12 ? 0 : get(record + 4), code = 0;
    size_t more = 0;
    assert(n < 12 || tag >> 24 < MARK || tag >> 24 >= MARK + MEN || of == &men[(tag >> 24) - MARK]);
    if (n >= 68 && (record[8] == 8 || record[8] == 9) && !record[9]) {
        unsigned cell = (record[12] & 3) | (record[16] & 3) << 2;
        if (record[40] || (record[8] == 8 && (tag & 7) == 7))
            code = 0x8002000D;
        else if (record[8] == 8) {
            locks[cell]++;
            of->held[cell]++;
        } else if (!of->held[cell])
            code = 0x8000FFFF;
        else {
            locks[cell]--;
            of->held[cell]--;
        }
    } else if (n < 12 || record[8] == 12)
        code = BAD;
    else
        more = (n * 7) % 900;
    put(reply, (uint32_t)(16 + more));
    put(reply + 4, tag);
    put(reply + 8, code);
    tell((uint32_t)(of - men), reply, 20 + more);
    /* nobody comes between who has the server alone */
    if (alone == men[2].c && alone_visit == men[2].c->visit + 1 && record[8] != 9)
        assert(of == &men[2]);
}

/* A client has its last reply, and its locks are free. */
static void serve_end(Man *from, bool cut)
{
    char stub[20] = {16};
    put(stub + 8, BAD);
    if (cut)
        tell((uint32_t)(from - men), stub, sizeof stub);
    for (int i = 0; i < CELLS; i++) {
        locks[i] -= from->held[i];
        given_back += from->held[i];
        from->held[i] = 0;
    }
    from->over = true;
    tell((uint32_t)(from - men), NULL, 0);
}

static void serve_bytes(Man *from, const char *some, size_t size)
{
    Buffer *b = &from->there;
    add(b, &there_bytes, some, size);
    while (!from->over && b->end - b->start >= 4) {
        uint32_t n = get(b->at + b->start);
        if (!n || n > BODY)
            serve_end(from, n > 0);
        else if (b->end - b->start < 4 + (size_t)n)
            break;
        else
            serve_one(b->at + b->start, 4 + n, from);
        b->start += 4 + n;
    }
    if (from->over || b->start == b->end)
        b->start = b->end = 0;
}

/* The server answers all that was sent. */
static void serve(void)
{
    while (to_server.end > to_server.start) {
        char *at = to_server.at + to_server.start;
        uint32_t number = get(at);
        uint32_t size = get(at + 4);
        Man *from = number < MEN ? &men[number] : NULL;
        assert(to_server.end - to_server.start >= 8 + (size_t)size && size <= 1 << 20);
        assert(from || !size);
        if (size)
            serve_bytes(from, at + 8, size);
        else if (number == OWN)
            tell(OWN, NULL, 0);
        else if (number != NOW) {
            assert(from);
            if (!from->over)
                serve_end(from, from->there.end > from->there.start);
            from->over = false;
            from->there.start = from->there.end = 0;
        }
        to_server.start += 8 + size;
    }
    to_server.start = to_server.end = 0;
    alone_visit = alone == men[2].c ? men[2].c->visit + 1 : 0;
}

static void hears(size_t most)
{
    struct queue answered = TAILQ_HEAD_INITIALIZER(answered);
    size_t n = fake.end - fake.start < most ? fake.end - fake.start : most;
    if (!n && !in_flight)
        return;
    if (n)
        add(&from_server, &server_bytes, fake.at + fake.start, n);
    fake.start += n;
    if (fake.start == fake.end)
        fake.start = fake.end = 0;
    hand_out(&answered);
    while (!TAILQ_EMPTY(&answered)) {
        Client *c = TAILQ_FIRST(&answered);
        TAILQ_REMOVE(&answered, c, answer);
        c->touched = false;
    }
    size_t due = 0;
    for (Man *m = men; m < men + MEN; m++)
        due += m->c->answered == batch;
    assert(awaited == due);
}

static void begins(void)
{
    if (in_flight)
        return;
    assert(from_server.start == from_server.end && fake.start == fake.end);
    if (begin_batch())
        serve();
}

static void run(const uint8_t *data, size_t size)
{
    static const Kind all[MEN] = {SHARED, HEX, ALONE, SHARED, ALONE};
    input = data;
    left = size;
    for (int i = 0; i < MEN; i++) {
        places[i] = (Client){.fd = 7, .visit = places[i].visit, .kind = all[i]};
        client_came(&places[i]);
    }
    while (left) {
        unsigned what = byte();
        Man *m = &men[what >> 4 & 15 ? (what >> 4) % MEN : 0];
        char raw[256];
        unsigned n;
        now += 0.001;
        switch (what & 15) {
        case 0:
        case 1:
        case 2:
        case 3:
        case 4:
            makes_record(m, byte());
            break;
        case 5:
            for (n = 0; n < 5; n++)
                makes_record(m, byte());
            break;
        case 6:
            n = byte();
            for (unsigned i = 0; i < n; i++)
                raw[i] = harmless(byte());
            sends(m, raw, n);
            break;
        case 7:
            comes(m, byte() + 1);
            break;
        case 8:
        case 9:
            comes(m, PIPE);
            break;
        case 10:
            begins();
            break;
        case 11:
            hears(byte() * 4 + 1);
            break;
        case 12:
            hears(SIZE_MAX);
            break;
        case 13:
            takes(m);
            break;
        case 14:
            m->eof = true;
            comes(m, PIPE);
            break;
        default:
            leaves(m);
        }
    }
    /* all end, and are answered */
    for (int turn = 0; turn < 3; turn++) {
        for (Man *m = men; m < men + MEN; m++) {
            if (!turn)
                m->eof = true;
            comes(m, PIPE);
        }
        for (int i = 0; i < 4000; i++) {
            begins();
            hears(SIZE_MAX);
            for (Man *m = men; m < men + MEN; m++) {
                takes(m);
                comes(m, PIPE);
                if (m->c->stage == ANSWERED && m->c->kind == ALONE)
                    leaves(m);
            }
            if (!in_flight && !waiting() && !ends_wait)
                break;
        }
    }
    assert(!in_flight && !waiting() && !ends_wait);
    for (Man *m = men; m < men + MEN; m++)
        leaves(m);
    for (int i = 0; i < 100; i++) {
        begins();
        hears(SIZE_MAX);
    }
    assert(!in_flight && !waiting() && !ends_wait && !out_bytes && !in_bytes);
    for (int i = 0; i < CELLS; i++)
        assert(!locks[i]);
    for (Man *m = men; m < men + MEN; m++)
        m->serial = 0;
    alone_visit = 0;
    alone = NULL;
}

static void prepare(void)
{
    memory = 1 << 24;
    clients = places;
    end_of_clients = places + MEN;
    most_places = MEN;
    for (int i = 0; i < MEN; i++)
        men[i].c = &places[i];
    server_came();
    serve();
    hears(SIZE_MAX);
}
#ifdef FUZZED
int LLVMFuzzerTestOneInput(const uint8_t *data, size_t size);

int LLVMFuzzerTestOneInput(const uint8_t *data, size_t size)
{
    if (!clients)
        prepare();
    run(data, size);
    return 0;
}
#else
#ifdef __AFL_FUZZ_TESTCASE_LEN
__AFL_FUZZ_INIT();
#endif
int main(int argc, char **argv)
{
    prepare();
#ifdef __AFL_FUZZ_TESTCASE_LEN
    (void)argc, (void)argv;
    unsigned char *data = __AFL_FUZZ_TESTCASE_BUF;
    while (__AFL_LOOP(10000))
        run(data, (size_t)__AFL_FUZZ_TESTCASE_LEN);
#else
    static uint8_t data[8192];
    if (argc < 3) {
        run(data, fread(data, 1, sizeof data, stdin));
        return 0;
    }
    srandom((unsigned)atoi(argv[2]));
    for (long count = atol(argv[1]); count; count--) {
        size_t size = (size_t)random() % sizeof data;
        for (size_t i = 0; i < size; i++)
            data[i] = (uint8_t)random();
        run(data, size);
    }
    printf("%lu requests in %lu batches, %lu locks given back\n", counts.requests, counts.batches,
           given_back);
#endif
    return 0;
}
#endif
