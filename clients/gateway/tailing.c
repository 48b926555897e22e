/* For `oaut-gateway tail`: requests as they go to the server, and its replies as they come, as
 * lines of JSON on a control socket. */
#include "gateway.h"

#include <time.h>

enum {
    SHOWN = 1 << 12, /* bytes of a body that are shown */
    MOST = 1 << 20,  /* bytes that wait for one tail, at most: it loses what comes after that */
    TAILS = 4
};

bool tailing;

static struct tail {
    Client *client; /* NULL if the place is free */
    uint64_t lost;
} tails[TAILS];

static void add_line(struct tail *it, const char *line, size_t size)
{
    char gap[60];
    Client *c = it->client;
    if (unread(c) + size > MOST) {
        it->lost++;
        return;
    }
    if (!unread(c))
        c->took = now;
    if (it->lost)
        append(&c->out, &out_bytes, gap,
               (size_t)snprintf(gap, sizeof gap, "{\"lost\":%lu}\n", it->lost));
    it->lost = 0;
    append(&c->out, &out_bytes, line, size);
}

/* Sends a request or a reply to all who tail. */
void tail(const char *what, uint32_t place, const char *record, size_t size)
{
    static const char digits[] = "0123456789abcdef";
    static char line[2 * SHOWN + 200];
    struct timespec time;
    size_t body = size - 4, shown = body < SHOWN ? body : SHOWN;
    clock_gettime(CLOCK_REALTIME, &time);
    int n = snprintf(line, 150, "{\"time\":%ld.%06ld,\"client\":%u,\"bytes\":%zu,\"%s\":\"",
                     (long)time.tv_sec, time.tv_nsec / 1000, place, body, what);
    char *to = line + n;
    for (size_t i = 4; i < 4 + shown; i++) {
        *to++ = digits[(unsigned char)record[i] >> 4];
        *to++ = digits[record[i] & 15];
    }
    memcpy(to, "\"}\n", 3);
    for (struct tail *it = tails; it < tails + TAILS; it++)
        if (it->client)
            add_line(it, line, (size_t)(to + 3 - line));
}

void send_tails(void)
{
    for (struct tail *it = tails; it < tails + TAILS; it++)
        if (it->client && unread(it->client))
            speak(it->client);
}

/* Begins a tail on a control socket. False if there are as many as allowed. */
bool begin_tail(Client *c)
{
    struct tail *it = tails;
    while (it < tails + TAILS && it->client)
        it++;
    if (c->tails || it == tails + TAILS)
        return false;
    *it = (struct tail){.client = c};
    c->tails = tailing = true;
    note_or_not();
    return true;
}

void end_tail(Client *c)
{
    tailing = false;
    for (struct tail *it = tails; it < tails + TAILS; it++) {
        if (it->client == c)
            it->client = NULL;
        tailing |= it->client != NULL;
    }
    c->tails = false;
    note_or_not();
}

/* The command: the Python client prints it in words. */
int print_tail(char **words)
{
    const char *python[] = {"python3", "-m", "oaut", "tail"};
    char *all[40] = {0};
    size_t count = 0;
    for (; count < 4; count++)
        all[count] = (char *)(uintptr_t)python[count];
    for (; *words && count < 39; words++)
        all[count++] = *words;
    become_python(all);
    fail(1, "cannot run python3: %s", strerror(errno));
}
