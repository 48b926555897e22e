/* The registration tool: its command line, and the window that runs the same commands. */
#ifndef OAUTREG_H
#define OAUTREG_H

#include <windows.h>

/* A class of this bridge as it is registered. */
typedef struct Entry {
    HKEY key; /* of the class, open */
    int bits; /* of the programs that it is for */
    WCHAR progid[128], host[256], port[16], server[MAX_PATH];
    BOOL is_whole;
} Entry;

/* Calls for each class of this bridge, of the user or of all, for programs of this one's bits and
   then for those of the other; `name` is NULL for every name. The count of them. */
int each_class(BOOL all_users, const WCHAR *name, void call(const Entry *entry, void *with),
               void *with);

/* Runs a command, without the program's own name in front; 0 or 1. */
int run_command(int count, WCHAR **words);

/* What is printed goes to this instead, a line at a time. */
typedef void Listener(const WCHAR *line);
void listen_to_lines(Listener *listener);

/* Shows the window until it is closed; its status. */
int show_window(void);

#endif
