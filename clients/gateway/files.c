/* Names of files. A name is changed only if it still names the file that was checked before. */
#include "gateway.h"

#include <sys/random.h>
#include <time.h>

/* Opens the folder of a path. `base` gets the place in the path at which the name within that
 * folder begins. Returns -1, with errno, on failure. */
int open_folder(const char *path, int flags, const char **base)
{
    char folder[PATH_MAX] = ".";
    const char *slash = strrchr(path, '/');
    size_t length = slash ? (size_t)(slash - path) : 0;

    *base = slash ? slash + 1 : path;
    if (!**base || length >= sizeof folder) {
        errno = **base ? ENAMETOOLONG : EISDIR;
        return -1;
    }
    if (slash) {
        memcpy(folder, path, length);
        strcpy(folder + length, length ? "" : "/");
    }
    return open(folder, flags | O_DIRECTORY | O_CLOEXEC);
}

/* A name beside another one that no file has: `base`, a dot and eight digits. `base` is cut if the
 * name would be longer than a file's may be. */
void name_beside(const char *base, char into[NAME_MAX + 1])
{
    uint32_t number;
    struct timespec time;

    if (getrandom(&number, sizeof number, GRND_NONBLOCK) != sizeof number) {
        clock_gettime(CLOCK_REALTIME, &time);
        number = (uint32_t)time.tv_nsec ^ (uint32_t)getpid() << 16;
    }
    snprintf(into, NAME_MAX + 1, "%.*s.%08x", NAME_MAX - 9, base, number);
}

bool is_same_file(const struct stat *one, const struct stat *other)
{
    return one->st_dev == other->st_dev && one->st_ino == other->st_ino;
}

/* Gives a file another name in its folder, if no file has that. Returns -1, with errno, on failure:
 * EEXIST if one has it. */
int rename_to_free_name(int folder, const char *from, const char *to)
{
    if (!renameat2(folder, from, folder, to, RENAME_NOREPLACE))
        return 0;
    if (errno != EINVAL && errno != ENOSYS)
        return -1;
    /* a file system or a kernel that does not have it */
    if (linkat(folder, from, folder, to, 0))
        return -1;
    return unlinkat(folder, from, 0);
}

/* Removes a socket by its name, if the name is still that of the known socket. The socket is
 * renamed first and compared once more: a file that got the name in between gets it back. Returns
 * whether the name is free. */
bool remove_socket(int folder, const char *base, const struct stat *known)
{
    char aside[NAME_MAX + 1];
    struct stat there;

    if (fstatat(folder, base, &there, AT_SYMLINK_NOFOLLOW))
        return errno == ENOENT;
    if (!S_ISSOCK(there.st_mode) || !is_same_file(&there, known))
        return false;
    name_beside(base, aside);
    if (renameat(folder, base, folder, aside))
        return errno == ENOENT;
    if (!fstatat(folder, aside, &there, AT_SYMLINK_NOFOLLOW) && S_ISSOCK(there.st_mode) &&
        is_same_file(&there, known))
        return !unlinkat(folder, aside, 0);
    if (rename_to_free_name(folder, aside, base))
        say("%s was replaced while it was removed; its replacement is now %s", base, aside);
    return false;
}
