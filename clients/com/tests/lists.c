/* Long replies to connection.c, under Linux with sanitizers:

       lists OPCODE COUNT REFUSED

   A server of its own replies to requests of this opcode with COUNT objects. The REFUSED-th
   allocation of the request is refused, 0 for none. Prints the code, the bytes of the reply's
   fields, how many locks are left, and the code of a request after it. */
#define OWN_SOCKETS
#include "../library.h"

#include <assert.h>
#include <signal.h>
#include <stdio.h>
#include <sys/prctl.h>

#define AT_ONCE 4096u
#define ENTRY 24u

static void send_all(int client, const void *bytes, size_t count)
{
    const char *at = bytes;

    while (count) {
        ssize_t sent = send(client, at, count, MSG_NOSIGNAL);

        if (sent <= 0)
            return;
        at += sent;
        count -= (size_t)sent;
    }
}

static void reply(int client, UINT32 tag, UINT32 count)
{
    UINT32 head[5] = {16, tag, 0, NO_ARGUMENT, 0}, counts[2] = {count, 0}, number = 0, i;
    static UINT32 entries[AT_ONCE][ENTRY / 4];

    head[0] += count ? 8 + ENTRY * count : 0;
    send_all(client, head, sizeof head);
    if (count)
        send_all(client, counts, sizeof counts);
    while (number < count) {
        for (i = 0; i < AT_ONCE && number < count; i++)
            entries[i][0] = ++number;
        send_all(client, entries, i * ENTRY);
    }
}

static void serve(int listening, UINT16 opcode, UINT32 count)
{
    for (;;) {
        int client = accept(listening, NULL, NULL);
        UINT32 head[2], rest;
        char body[AT_ONCE];

        while (recv(client, head, sizeof head, MSG_WAITALL) == sizeof head) {
            rest = head[0] - 4;
            assert(rest >= 2 && rest <= sizeof body);
            if (recv(client, body, rest, MSG_WAITALL) != (ssize_t)rest)
                break;
            reply(client, head[1], memcmp(body, &opcode, sizeof opcode) ? 0 : count);
        }
        close(client);
    }
}

static HRESULT ask(Connection *connection, enum opcode opcode)
{
    begin_request(connection, opcode);
    return exchange(connection, ONCE);
}

int main(int words_given, char **words)
{
    struct sockaddr_in place = {.sin_family = AF_INET, .sin_addr.s_addr = htonl(INADDR_LOOPBACK)};
    socklen_t size = sizeof place;
    int listening = socket(AF_INET, SOCK_STREAM, 0), i;
    Settings settings = {0};
    Connection *connection;
    char port[16];
    HRESULT code;
    pid_t child;

    assert(words_given == 4 && !bind(listening, (struct sockaddr *)&place, size) &&
           !listen(listening, 8));
    getsockname(listening, (struct sockaddr *)&place, &size);
    if (!(child = fork())) {
        prctl(PR_SET_PDEATHSIG, SIGKILL);
        serve(listening, (UINT16)atoi(words[1]), (UINT32)atoll(words[2]));
    }
    snprintf(port, sizeof port, "%u", ntohs(place.sin_port));
    memcpy(settings.host, L"127.0.0.1", sizeof L"127.0.0.1");
    for (i = 0; port[i]; i++)
        settings.port[i] = (WCHAR)port[i];
    connections_begin();
    connection = connection_to(&settings);
    connection_enter(connection);
    code = ask(connection, OP_LOCK);
    assert(code == S_OK);
    connection->locks = 1;
    refused_in = atoi(words[3]);
    code = ask(connection, (enum opcode)atoi(words[1]));
    refused_in = 0;
    printf("%08x %zu %d ", (unsigned)code, code == S_OK ? reply_fields(connection).length : 0,
           connection->locks);
    printf("%08x\n", (unsigned)ask(connection, OP_UNLOCK));
    connection_leave(connection, S_OK);
    connection_release(connection);
    kill(child, SIGKILL);
    return 0;
}
