/* The keys of a property with parameters, for clients of --watch. Changes contain arguments as they
 * were sent, so the keys are those of the store's file: a process of its own reads it, as it
 * measures it (fullness.c), and has the client's connection from then on. No client waits for
 * it. */
#include "gateway.h"

#include <sys/wait.h>

enum { AT_ONCE = 2 };

static pid_t processes[AT_ONCE]; /* 0 if the place is free */

/* The process was waited for. */
void keys_ended(pid_t process)
{
    for (unsigned i = 0; i < AT_ONCE; i++)
        if (processes[i] == process)
            processes[i] = 0;
}

static pid_t *free_place(void)
{
    pid_t *found = NULL;
    for (pid_t *it = processes; it < processes + AT_ONCE; it++) {
        if (*it && waitpid(*it, NULL, WNOHANG))
            *it = 0;
        if (!*it)
            found = it;
    }
    return found;
}

/* A new client of --watch has sent a line that begins with `keys`. True if a process has its
 * connection by now; else `to` gets what is wrong. */
bool send_keys(const Client *c, const char *asked, FILE *to)
{
    char object[11], guid[39], member[12];
    int end = 0,
        count = sscanf(asked, "keys object=%10[0-9] interface=%38[-{}0-9a-fA-F] member=%11[-0-9]%n",
                       object, guid, member, &end);
    char *const words[] = {(char[]){"oaut-gateway"},
                           (char[]){"keys"},
                           (char *)(uintptr_t)store,
                           object,
                           guid,
                           member,
                           NULL};
    bool good = count == 3 && end && strchr("\r\n", asked[end]);
    pid_t *place = good ? free_place() : NULL;
    if (place)
        *place = spawn_self(words, c->fd);
    if (place && *place)
        return true;
    fprintf(to, good ? "{\"busy\":%d}\n" : "{\"refused\":\"" KEYS_LINE "\"}\n", AT_ONCE);
    return false;
}
