/* Which of a host's addresses connection.c dials, under Linux with sanitizers. The host is
   127.0.0.2 and 127.0.0.1, in this order. A line for each turn: which of them were reached, by the
   last byte of their addresses, where only the second one listens, both, only the first one, and
   both again. */
#define OWN_SOCKETS
#include "../library.h"

#include <arpa/inet.h>
#include <assert.h>
#include <poll.h>
#include <stdio.h>

static UINT16 port;

static int listen_at(int last)
{
    struct sockaddr_in place = {.sin_family = AF_INET, .sin_port = htons(port)};
    int listening = socket(AF_INET, SOCK_STREAM, 0), is_on = 1;
    socklen_t size = sizeof place;

    place.sin_addr.s_addr = htonl(0x7F000000u + (UINT32)last);
    setsockopt(listening, SOL_SOCKET, SO_REUSEADDR, &is_on, sizeof is_on);
    assert(!bind(listening, (struct sockaddr *)&place, size) && !listen(listening, 8));
    getsockname(listening, (struct sockaddr *)&place, &size);
    port = ntohs(place.sin_port);
    return listening;
}

int main(void)
{
    static const int turns[][3] = {{1, 0}, {1, 2, 0}, {2, 0}, {1, 2, 0}};
    Connection *connection = NULL;
    Settings settings = {0};
    size_t turn, i;

    memcpy(settings.host, L"127.0.0.2,127.0.0.1", sizeof L"127.0.0.2,127.0.0.1");
    settings.timeout = 20; /* nobody replies */
    connections_begin();
    for (turn = 0; turn < sizeof turns / sizeof *turns; turn++) {
        struct pollfd listening[2];
        nfds_t count = 0;

        for (; turns[turn][count]; count++) {
            listening[count].fd = listen_at(turns[turn][count]);
            listening[count].events = POLLIN;
        }
        if (!connection) {
            char text[16];

            snprintf(text, sizeof text, "%u", port);
            for (i = 0; text[i]; i++)
                settings.port[i] = (WCHAR)text[i];
            connection = connection_to(&settings);
        }
        connection_enter(connection);
        begin_request(connection, OP_LIST);
        assert(exchange(connection, ONCE) == OAUT_E_LATE);
        connection_leave(connection, S_OK);
        poll(listening, count, 0);
        for (i = 0; i < count; i++) {
            if (listening[i].revents)
                printf("%d ", turns[turn][i]);
            close(listening[i].fd);
        }
        puts("");
    }
    connection_release(connection);
    return 0;
}
