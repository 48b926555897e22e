/* The window of oautreg: name, address, a test of the connection, what is registered, removal and
   repair. Each button runs a command of the command line on a thread of its own, and shows what it
   prints. */
#include "oautreg.h"
#include "window.h"

#include <stdlib.h>
#include <string.h>
#include <wchar.h>

#define MOST 1024
#define MOST_NAMES 256
#define HAS_ENDED (WM_APP + 1)
#define HAS_LINE (WM_APP + 2)

static HWND window;
static BOOL is_changing; /* whether a command runs that changes what is registered */
/* then the window closes after the command: no registration is left half entered */
static BOOL is_closing;

/* ---- what is registered, a name each */

typedef struct Name {
    WCHAR name[128], address[300];
    BOOL all_users, is_whole;
    int classes[2]; /* for programs of 64 bits, of 32 */
} Name;

static Name names[MOST_NAMES];
static int name_count;

static void add_entry(const Entry *entry, void *with)
{
    const WCHAR *dot = wcschr(entry->progid, L'.');
    size_t length = dot ? (size_t)(dot - entry->progid) : wcslen(entry->progid);
    BOOL all_users = *(BOOL *)with;
    Name *name;
    int i;

    for (i = 0; i < name_count; i++)
        if (names[i].all_users == all_users && !_wcsnicmp(names[i].name, entry->progid, length) &&
            !names[i].name[length])
            break;
    if (i == MOST_NAMES)
        return;
    name = &names[i];
    if (i == name_count) {
        memset(name, 0, sizeof *name);
        memcpy(name->name, entry->progid, length * sizeof *entry->progid);
        name->all_users = all_users;
        name->is_whole = TRUE;
        name_count++;
    }
    if (entry->host[0] && entry->port[0])
        _snwprintf(name->address, 299, wcschr(entry->host, L':') ? L"[%ls]:%ls" : L"%ls:%ls",
                   entry->host, entry->port);
    name->is_whole = name->is_whole && entry->is_whole;
    name->classes[entry->bits == 32]++;
}

/* The name that is chosen in the list, or NULL. */
static const Name *chosen(void)
{
    LRESULT at = SendDlgItemMessageW(window, WINDOW_LIST, LB_GETCURSEL, 0, 0);

    return at >= 0 && at < name_count ? &names[at] : NULL;
}

/* A name's line in the list. */
static void describe(const Name *name, WCHAR line[MOST])
{
    WCHAR classes[80];

    if (name->classes[0] && name->classes[1])
        swprintf(classes, ARRAYSIZE(classes), L"%d classes for 64 bits, %d for 32",
                 name->classes[0], name->classes[1]);
    else
        swprintf(classes, ARRAYSIZE(classes), L"%d classes for %d bits",
                 name->classes[0] + name->classes[1], name->classes[0] ? 64 : 32);
    _snwprintf(line, MOST - 1, L"%ls, %ls, %ls, %ls%ls", name->name[0] ? name->name : L"(no name)",
               name->address, name->all_users ? L"all users" : L"you alone", classes,
               name->is_whole ? L"" : L", damaged: repair it");
    line[MOST - 1] = 0;
}

/* Reads what is registered. What was chosen stays so, if it is still there. */
static void fill_list(void)
{
    BOOL user = FALSE, machine = TRUE;
    const Name *now = chosen();
    WCHAR line[MOST];
    Name before;
    int i;

    memset(&before, 0, sizeof before);
    if (now)
        before = *now;
    name_count = 0;
    each_class(FALSE, NULL, add_entry, &user);
    each_class(TRUE, NULL, add_entry, &machine);
    SendDlgItemMessageW(window, WINDOW_LIST, LB_RESETCONTENT, 0, 0);
    for (i = 0; i < name_count; i++) {
        describe(&names[i], line);
        SendDlgItemMessageW(window, WINDOW_LIST, LB_ADDSTRING, 0, (LPARAM)line);
        if (now && names[i].all_users == before.all_users && !_wcsicmp(names[i].name, before.name))
            SendDlgItemMessageW(window, WINDOW_LIST, LB_SETCURSEL, (WPARAM)i, 0);
    }
}

/* ---- commands */

#define MOST_WORDS 8

typedef struct Command {
    int count;
    WCHAR *words[MOST_WORDS];
} Command;

static void free_command(Command *command)
{
    while (command->count)
        free(command->words[--command->count]);
    free(command);
}

static void add_word(Command *command, const WCHAR *word)
{
    if (command->count < MOST_WORDS && (command->words[command->count] = _wcsdup(word)))
        command->count++;
}

/* A line of what a command prints, on its thread; the window shows it on its own. */
static void on_line(const WCHAR *line)
{
    SendMessageW(window, HAS_LINE, 0, (LPARAM)line);
}

static DWORD WINAPI run(void *context)
{
    Command *command = context;
    int status = run_command(command->count, command->words);

    free_command(command);
    PostMessageW(window, HAS_ENDED, (WPARAM)status, 0);
    return 0;
}

static void allow(BOOL on)
{
    static const int parts[] = {WINDOW_TEST, WINDOW_ADD, WINDOW_REPAIR, WINDOW_REMOVE, WINDOW_LIST};
    size_t i;

    for (i = 0; i < ARRAYSIZE(parts); i++)
        EnableWindow(GetDlgItem(window, parts[i]), on);
}

/* Runs a command, unless there is no memory for it. The buttons wait until it has ended. */
static void start(Command *command)
{
    HANDLE thread;

    if (!command)
        return;
    SetDlgItemTextW(window, WINDOW_SAID, L"");
    allow(FALSE);
    is_changing = command->count && wcscmp(command->words[0], L"test");
    thread = CreateThread(NULL, 0, run, command, 0, NULL);
    if (thread) {
        CloseHandle(thread);
        return;
    }
    free_command(command);
    is_changing = FALSE;
    allow(TRUE);
}

static void show_line(const WCHAR *line)
{
    int length = GetWindowTextLengthW(GetDlgItem(window, WINDOW_SAID));

    SendDlgItemMessageW(window, WINDOW_SAID, EM_SETSEL, (WPARAM)length, (LPARAM)length);
    if (length)
        SendDlgItemMessageW(window, WINDOW_SAID, EM_REPLACESEL, FALSE, (LPARAM)L"\r\n");
    SendDlgItemMessageW(window, WINDOW_SAID, EM_REPLACESEL, FALSE, (LPARAM)line);
}

static BOOL is_checked(int part)
{
    return IsDlgButtonChecked(window, part) == BST_CHECKED;
}

/* The text of a field, without blanks around it; FALSE, and a line that says so, if there is
 * none. */
static BOOL text_in(int part, const WCHAR *missing, WCHAR text[300])
{
    WCHAR given[300], *at = given;
    size_t length;

    GetDlgItemTextW(window, part, given, ARRAYSIZE(given));
    while (*at == L' ')
        at++;
    for (length = wcslen(at); length && at[length - 1] == L' '; length--)
        at[length - 1] = 0;
    wcscpy(text, at);
    if (*text)
        return TRUE;
    SetDlgItemTextW(window, WINDOW_SAID, missing);
    SetFocus(GetDlgItem(window, part));
    return FALSE;
}

static void test_server(void)
{
    Command *command;
    WCHAR address[300];

    if (!text_in(WINDOW_ADDRESS, L"give the server's host and port, such as localhost:8765",
                 address) ||
        !(command = calloc(1, sizeof *command)))
        return;
    add_word(command, L"test");
    add_word(command, address);
    start(command);
}

static void add_server(void)
{
    /* in the order of the field's lines */
    static const WCHAR *const scripts[] = {L"1", L"2", L"0"};
    LRESULT values = SendDlgItemMessageW(window, WINDOW_VALUES, CB_GETCURSEL, 0, 0);
    WCHAR name[300], address[300];
    Command *command;

    if (!text_in(WINDOW_NAME, L"give a name: letters, digits and _", name) ||
        !text_in(WINDOW_ADDRESS, L"give the server's host and port, such as localhost:8765",
                 address) ||
        !(command = calloc(1, sizeof *command)))
        return;
    add_word(command, L"add");
    add_word(command, name);
    add_word(command, address);
    add_word(command, L"--script");
    add_word(command, scripts[values > 0 && values < 3 ? values : 0]);
    if (is_checked(WINDOW_TEXTS))
        add_word(command, L"--texts");
    if (is_checked(WINDOW_ALL_USERS))
        add_word(command, L"--all-users");
    start(command);
}

static void change_chosen(const WCHAR *what)
{
    const Name *name = chosen();
    Command *command;

    if (!name) {
        SetDlgItemTextW(window, WINDOW_SAID, L"choose a line of what is registered first");
        return;
    }
    if (!(command = calloc(1, sizeof *command)))
        return;
    add_word(command, what);
    add_word(command, name->name);
    if (name->all_users)
        add_word(command, L"--all-users");
    start(command);
}

/* Shows the chosen name in the fields. */
static void show_chosen(void)
{
    const Name *name = chosen();

    if (!name)
        return;
    SetDlgItemTextW(window, WINDOW_NAME, name->name);
    SetDlgItemTextW(window, WINDOW_ADDRESS, name->address);
    CheckDlgButton(window, WINDOW_ALL_USERS, name->all_users ? BST_CHECKED : BST_UNCHECKED);
}

/* ---- the window */

static void close_window(void)
{
    if (is_changing && !is_closing)
        show_line(L"this window closes when that has ended");
    is_closing = TRUE;
    if (!is_changing)
        EndDialog(window, 0);
}

static void begin(void)
{
    static const WCHAR *const values[] = {L"VBScript, VBA, Excel", L"JScript",
                                          L"C: as the server has them"};
    size_t i;

    for (i = 0; i < ARRAYSIZE(values); i++)
        SendDlgItemMessageW(window, WINDOW_VALUES, CB_ADDSTRING, 0, (LPARAM)values[i]);
    SendDlgItemMessageW(window, WINDOW_VALUES, CB_SETCURSEL, 0, 0);
    SetDlgItemTextW(window, WINDOW_ADDRESS, L"localhost:8765");
    fill_list();
}

static INT_PTR CALLBACK on_message(HWND self, UINT message, WPARAM word, LPARAM more)
{
    switch (message) {
    case WM_INITDIALOG:
        window = self;
        begin();
        return TRUE;
    case HAS_LINE:
        show_line((const WCHAR *)more);
        return TRUE;
    case HAS_ENDED:
        is_changing = FALSE;
        fill_list();
        allow(TRUE);
        if (is_closing)
            close_window();
        return TRUE;
    case WM_COMMAND:
        break;
    default:
        return FALSE;
    }
    switch (LOWORD(word)) {
    case WINDOW_TEST:
        test_server();
        break;
    case WINDOW_ADD:
        add_server();
        break;
    case WINDOW_REPAIR:
        change_chosen(L"repair");
        break;
    case WINDOW_REMOVE:
        change_chosen(L"remove");
        break;
    case WINDOW_LIST:
        if (HIWORD(word) == LBN_SELCHANGE)
            show_chosen();
        break;
    case IDCANCEL:
        close_window();
        break;
    default:
        return FALSE;
    }
    return TRUE;
}

int show_window(void)
{
    listen_to_lines(on_line);
    return DialogBoxParamW(GetModuleHandleW(NULL), MAKEINTRESOURCEW(WINDOW_DIALOG), NULL,
                           on_message, 0)
               ? 1
               : 0;
}
