/* For health checks: asks a gateway whether its server answers, by a request that changes nothing.
 * A program of its own. */
#include "gateway.h"

#include <sys/time.h>

static const uint32_t E_FAILED = 0x80004005, WRITE_FAULT = 0x8003001D;

int probe(const char *address, const char *seconds)
{
    /* a record of 16 bytes: TYPEINFO of an index that no library has */
    static const unsigned char request[] = {16, 0, 0,   0,   1,   0,   0, 0, 10, 0,
                                            0,  0, 255, 255, 255, 255, 0, 0, 0,  0};
    char reply[HEAD], *end;
    uint32_t code;
    Address place;
    double patience = strtod(seconds, &end);
    struct timeval limit = {(time_t)patience,
                            (suseconds_t)((patience - (double)(time_t)patience) * 1e6)};
    if (*end || !(patience >= 0.001 && patience <= 1e6))
        fail(2, "no number of seconds: %s", seconds);
    const char *wrong = read_address_there(address, &place);
    if (wrong)
        fail(2, "%s: %s", wrong, address);
    int fd = socket(place.name.ss_family, SOCK_STREAM | SOCK_CLOEXEC, 0);
    if (fd < 0 || setsockopt(fd, SOL_SOCKET, SO_RCVTIMEO, &limit, sizeof limit) ||
        setsockopt(fd, SOL_SOCKET, SO_SNDTIMEO, &limit, sizeof limit) ||
        connect(fd, (struct sockaddr *)&place.name, place.size))
        fail(1, "cannot connect to %s: %s", address, strerror(errno));
    if (send(fd, request, sizeof request, MSG_NOSIGNAL) != sizeof request)
        fail(1, "%s has hung up", address);
    ssize_t n = recv(fd, reply, sizeof reply, MSG_WAITALL);
    /* a gateway that closes a connection of which it has not read the request resets it */
    if (n < (ssize_t)sizeof reply && (n >= 0 || errno == ECONNRESET))
        fail(1, "%s has hung up", address);
    if (n < 0)
        fail(1, "%s sent no reply within %s s", address, seconds);
    memcpy(&code, reply + 8, sizeof code);
    if (code == E_FAILED || code == WRITE_FAULT)
        fail(3, "the store's device has failed: 0x%08x", code);
    if (puts("serves") < 0 || fflush(stdout))
        fail(1, "cannot write to standard output: %s", strerror(errno));
    return 0;
}
