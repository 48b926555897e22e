/* Requests and replies in a client's bytes: the ends of requests, in records or in lines, and
 * replies in its framing. */
#include "gateway.h"

/* How many bytes of room the next reading has to have. Of a line the length is not known, so a long
 * one has to have all. */
size_t wanted(const Client *c)
{
    size_t partial = c->in.end - c->in.mark;
    uint32_t size;
    if (c->kind == HEX)
        return partial > BASE / 2 ? BODY + BASE - partial : BASE / 2;
    if (partial < 4)
        return 4096;
    memcpy(&size, c->in.at + c->in.mark, 4);
    return 4 + size - partial;
}

static void line_ended(Client *c)
{
    uint32_t size = (uint32_t)(c->digits / 2);
    if (!c->digits || c->digits % 2 || c->bad) {
        stop_reading(c);
        return;
    }
    memcpy(c->in.at + c->in.mark, &size, 4);
    c->in.mark = c->in.end;
    c->digits = 0;
    c->cr = false;
}

static void digits_came(Client *c, const char *bytes, size_t size)
{
    for (const char *it = bytes; it < bytes + size && c->stage == OPEN; it++) {
        if (*it == '\n') {
            line_ended(c);
            continue;
        }
        const char *all = "0123456789abcdef0123456789ABCDEF",
                   *digit = *it ? strchr(all, *it) : NULL;
        c->bad |= c->cr || (!digit && *it != '\r');
        c->cr = *it == '\r';
        if (c->cr)
            continue;
        if (++c->digits > 2 * BODY) { /* as a record it is too long */
            memset(c->in.at + c->in.mark, 255, 4);
            c->in.end = c->in.mark + 4;
            c->stage = CLOSED;
            break;
        }
        if (c->in.end == c->in.mark)
            c->in.end += 4;
        int value = digit ? (int)(digit - all) & 15 : 0;
        if (c->digits % 2)
            c->in.at[c->in.end++] = (char)(value << 4);
        else
            c->in.at[c->in.end - 1] |= (char)value;
    }
}

/* Bytes have come: those of records are already in the client's buffer, those of lines at
 * `bytes`. */
void bytes_came(Client *c, const char *bytes, size_t size)
{
    Buffer *in = &c->in;
    size_t before = in->mark;
    bool ends = false;
    if (in->end == in->mark)
        c->begun = now;
    if (c->kind == HEX)
        digits_came(c, bytes, size);
    else {
        in->end += size;
        in->mark += oa_find_requests(in->at + in->mark, in->end - in->mark, &ends);
    }
    if (ends) {
        in->end = in->mark + 4;
        c->stage = CLOSED;
    }
    if (in->mark > before)
        c->begun = now;
    if (c->kind == READ)
        keep_from_changing(in->at + before, in->mark - before);
    look(c);
}

/* Nothing more comes: the server will refuse the part of a last record that came. */
void end_came(Client *c)
{
    if (c->kind == HEX && c->digits && c->stage == OPEN)
        line_ended(c);
    if (c->stage == OPEN)
        c->stage = CLOSED;
    look(c);
}

/* A client is disconnected: the part of a last request that came is refused. A line of digits gets
 * a length that it does not have, since without its end nobody knows whether it is whole. */
void cut_short(Client *c)
{
    uint32_t size = (uint32_t)(c->in.end - c->in.mark) - 3;
    if (c->kind == HEX && c->in.end > c->in.mark)
        memcpy(c->in.at + c->in.mark, &size, 4);
    c->stage = CLOSED;
    look(c);
}

/* The same, and what came of it is dropped. */
void stop_reading(Client *c)
{
    c->in.end = c->in.mark;
    c->stage = CLOSED;
    look(c);
}

/* Whole replies go to a client. */
void give(Client *c, const char *replies, size_t size)
{
    static const char digits[] = "0123456789abcdef";
    uint32_t n;
    counts.out += size;
    if (c->out.end == c->out.start)
        c->took = now;
    if (c->kind != HEX) {
        append(&c->out, &out_bytes, replies, size);
        return;
    }
    for (size_t at = 0; at < size; at += 4 + n) {
        memcpy(&n, replies + at, 4);
        make_room(&c->out, 2 * (size_t)n + 1, &out_bytes, SIZE_MAX);
        for (const char *it = replies + at + 4; it < replies + at + 4 + n; it++) {
            c->out.at[c->out.end++] = digits[(unsigned char)*it >> 4];
            c->out.at[c->out.end++] = digits[*it & 15];
        }
        c->out.at[c->out.end++] = '\n';
    }
}
