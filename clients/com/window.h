/* The numbers of the window's parts, for its resource, its code and its tests. */
#ifndef OAUT_WINDOW_H
#define OAUT_WINDOW_H

#define WINDOW_DIALOG 100
#define WINDOW_NAME 101
#define WINDOW_ADDRESS 102
#define WINDOW_VALUES 103
#define WINDOW_TEXTS 104
#define WINDOW_ALL_USERS 105
#define WINDOW_TEST 106
#define WINDOW_ADD 107
#define WINDOW_LIST 108
#define WINDOW_REPAIR 109
#define WINDOW_REMOVE 110
#define WINDOW_SAID 111

#define WINDOW_TITLE "oaut: servers for scripts and Office"

#endif
