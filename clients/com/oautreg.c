/* oautreg: registers servers for COM, for the DLL in its own folder.

       oautreg add NAME HOST:PORT [--all-users] [--script 0|1|2] [--texts] [--watch PORT]
   [--these-bits] oautreg remove NAME [--all-users] [--these-bits]        oautreg remove --all
   [--these-bits] oautreg repair NAME [--all-users] [--these-bits] oautreg list oautreg test
   HOST:PORT oautreg window

   Without --all-users it is for the user alone, and wants no administrator rights. Programs of 64
   and of 32 bits have classes of their own, each served by a DLL of its bits. So the tool does its
   part, and then runs the tool of the other bits in the folder 32 or 64 next to its own, unless
   --these-bits is given. Prints what it has done; a failure is a line on standard error and
   status 1. Started without words, and not from a command line, it shows its window. */
#include "oautreg.h"

#include <stdarg.h>
#include <stdio.h>
#include <stdlib.h>
#include <string.h>
#include <wchar.h>

#define CLASSES L"Software\\Classes"
#define MOST 1024
#define BITS (8 * (int)sizeof(void *)) /* of this program */
#define OTHER_BITS (96 - BITS)
#define THESE_BITS L"--these-bits"

typedef HRESULT WINAPI Install(BOOL on, LPCWSTR line);
typedef HRESULT WINAPI Test(LPCWSTR address);
typedef void WINAPI Listen(Listener *listener);

static WCHAR dll_path[MAX_PATH];
static Listener *lines_go_to; /* or NULL: they are printed */

void listen_to_lines(Listener *listener)
{
    lines_go_to = listener;
}

/* Prints a line, on standard error if it is of a failure. */
static void print(FILE *to, const WCHAR *before, const WCHAR *format, va_list words)
{
    WCHAR line[2 * MOST];

    _vsnwprintf(line, ARRAYSIZE(line) - 1, format, words);
    line[ARRAYSIZE(line) - 1] = 0;
    if (lines_go_to)
        lines_go_to(line);
    else
        fwprintf(to, L"%ls%ls\n", before, line);
}

static void say(const WCHAR *format, ...)
{
    va_list words;

    va_start(words, format);
    print(stdout, L"", format, words);
    va_end(words);
}

static int fail(const WCHAR *format, ...)
{
    va_list words;

    va_start(words, format);
    print(stderr, L"oautreg: ", format, words);
    va_end(words);
    return 1;
}

static int usage(void)
{
    return fail(L"%ls", L"add NAME HOST:PORT [--all-users] [--script 0|1|2] [--texts] [--watch "
                        L"PORT], remove NAME [--all-users], "
                        L"remove --all, repair NAME [--all-users], list, test HOST:PORT, or "
                        L"window; --these-bits leaves programs of "
                        L"other bits out");
}

/* A function of the DLL in the folder of this program. */
static void *dll_function(const char *name)
{
    static HMODULE dll;
    Listen *listen;

    if (!dll && !(dll = LoadLibraryExW(dll_path, NULL, LOAD_WITH_ALTERED_SEARCH_PATH)))
        return NULL;
    if (lines_go_to && (listen = (Listen *)(void *)GetProcAddress(dll, "OautListen")))
        listen(lines_go_to);
    return (void *)GetProcAddress(dll, name);
}

/* ---- what is registered */

static REGSAM view_of(int bits)
{
    return bits == 64 ? KEY_WOW64_64KEY : KEY_WOW64_32KEY;
}

/* Reads a value of a class, of a kind and a size. */
static BOOL read_value(const Entry *entry, const WCHAR *below, const WCHAR *name, DWORD kind,
                       void *value, DWORD *size)
{
    LSTATUS status;
    HKEY key;

    if (RegOpenKeyExW(entry->key, below, 0, KEY_READ | view_of(entry->bits), &key))
        return FALSE;
    status = RegGetValueW(key, NULL, name, kind, NULL, value, size);
    RegCloseKey(key);
    return !status;
}

static BOOL text_of(const Entry *entry, const WCHAR *below, const WCHAR *name, WCHAR *text,
                    DWORD units)
{
    DWORD size = units * sizeof *text;

    text[0] = 0;
    return read_value(entry, below, name, RRF_RT_REG_SZ, text, &size) && text[0];
}

/* Whether this system has programs of 64 bits and of 32, whose classes are apart. */
static BOOL has_both_bits(void)
{
    BOOL is_32_on_64 = FALSE;

    return BITS == 64 || (IsWow64Process(GetCurrentProcess(), &is_32_on_64) && is_32_on_64);
}

/* Reads a class, whose key is open, and whether all of it is there. */
static void read_entry(HKEY root, Entry *entry)
{
    WCHAR progid[160];
    HKEY key;

    entry->is_whole = text_of(entry, L"ProgID", NULL, entry->progid, 128) &
                      text_of(entry, L"Oaut", L"Host", entry->host, 256) &
                      text_of(entry, L"Oaut", L"Port", entry->port, 16) &
                      text_of(entry, L"InprocServer32", NULL, entry->server, MAX_PATH);
    /* damaged: the class has its name as its text too, so that it can be repaired */
    if (!entry->progid[0])
        text_of(entry, NULL, NULL, entry->progid, 128);
    swprintf(progid, 160, L"%ls\\%ls\\CLSID", CLASSES, entry->progid);
    entry->is_whole = entry->is_whole &&
                      GetFileAttributesW(entry->server) != INVALID_FILE_ATTRIBUTES &&
                      !RegOpenKeyExW(root, progid, 0, KEY_READ, &key);
    if (entry->is_whole)
        RegCloseKey(key);
}

/* Whether a class of the other bits is in truth the one of these: a DLL has programs of one kind.
   Wine has one list of a user's classes for both. */
static BOOL is_same_class(HKEY root, const WCHAR *guid, const Entry *other)
{
    WCHAR path[300], server[MAX_PATH];
    Entry own;

    own.bits = BITS;
    swprintf(path, ARRAYSIZE(path), CLASSES L"\\CLSID\\%ls", guid);
    if (other->bits == BITS || RegOpenKeyExW(root, path, 0, KEY_READ | view_of(BITS), &own.key))
        return FALSE;
    if (!text_of(&own, L"InprocServer32", NULL, server, MAX_PATH))
        server[0] = 0;
    RegCloseKey(own.key);
    return server[0] && !_wcsicmp(server, other->server);
}

static int each_class_of(int bits, BOOL all_users, const WCHAR *name,
                         void call(const Entry *entry, void *with), void *with)
{
    HKEY root = all_users ? HKEY_LOCAL_MACHINE : HKEY_CURRENT_USER, classes, own;
    REGSAM access = KEY_READ | view_of(bits);
    WCHAR guid[256], path[300]; /* (a key's name has 255 units at most) */
    DWORD index, units;
    int count = 0;
    Entry entry;

    if (RegOpenKeyExW(root, CLASSES L"\\CLSID", 0, access, &classes))
        return 0;
    for (index = 0;; index++) {
        units = ARRAYSIZE(guid);
        if (RegEnumKeyExW(classes, index, guid, &units, NULL, NULL, NULL, NULL))
            break;
        swprintf(path, ARRAYSIZE(path), L"%ls\\Oaut", guid);
        if (RegOpenKeyExW(classes, path, 0, access, &own))
            continue;
        RegCloseKey(own);
        if (RegOpenKeyExW(classes, guid, 0, access, &entry.key))
            continue;
        entry.bits = bits;
        read_entry(root, &entry);
        if (!is_same_class(root, guid, &entry) &&
            (!name || (!_wcsnicmp(entry.progid, name, wcslen(name)) &&
                       entry.progid[wcslen(name)] == L'.'))) {
            call(&entry, with);
            count++;
        }
        RegCloseKey(entry.key);
    }
    RegCloseKey(classes);
    return count;
}

int each_class(BOOL all_users, const WCHAR *name, void call(const Entry *entry, void *with),
               void *with)
{
    int count = each_class_of(BITS, all_users, name, call, with);

    return has_both_bits() ? count + each_class_of(OTHER_BITS, all_users, name, call, with) : count;
}

static void print_entry(const Entry *entry, void *with)
{
    say(L"%ls  %ls:%ls  %ls, %d bits%ls  %ls", entry->progid[0] ? entry->progid : L"(no name)",
        entry->host, entry->port, *(BOOL *)with ? L"all users" : L"user", entry->bits,
        entry->is_whole ? L"" : L", damaged: repair it", entry->server);
}

static int list(void)
{
    BOOL all_users = FALSE, machine = TRUE;
    int count = each_class(FALSE, NULL, print_entry, &all_users) +
                each_class(TRUE, NULL, print_entry, &machine);

    if (!count)
        say(L"nothing is registered");
    return 0;
}

/* ---- what is done */

/* The numbers of a class that a registration sets, and that a repair keeps. */
enum { SCRIPT, TEXTS, TIMEOUT, IDLE, NUMBERS };

static const WCHAR *const NUMBER_NAMES[NUMBERS] = {L"Script", L"Texts", L"Timeout", L"Idle"};

typedef struct Settings {
    BOOL all_users, these_bits;
    BOOL is_given[NUMBERS];
    DWORD numbers[NUMBERS];
    WCHAR watch[16]; /* empty: as it is */
} Settings;

typedef struct Change {
    const Settings *settings;
    BOOL has_failed;
} Change;

static void set_entry(const Entry *entry, void *with)
{
    Change *change = with;
    const Settings *settings = change->settings;
    HKEY key;
    int i;

    if (entry->bits != BITS)
        return;
    if (RegOpenKeyExW(entry->key, L"Oaut", 0, KEY_SET_VALUE | view_of(BITS), &key)) {
        change->has_failed = TRUE;
        return;
    }
    for (i = 0; i < NUMBERS; i++)
        if (settings->is_given[i] &&
            RegSetValueExW(key, NUMBER_NAMES[i], 0, REG_DWORD, (const BYTE *)&settings->numbers[i],
                           sizeof(DWORD)))
            change->has_failed = TRUE;
    if (settings->watch[0] &&
        RegSetValueExW(key, L"Watch", 0, REG_SZ, (const BYTE *)settings->watch,
                       (DWORD)((wcslen(settings->watch) + 1) * sizeof *settings->watch)))
        change->has_failed = TRUE;
    RegCloseKey(key);
}

/* What regsvr32 /n /i:.. does. The DLL prints why it fails. */
static int install(BOOL on, const WCHAR *name, const WCHAR *address, const Settings *settings)
{
    Install *call = (Install *)dll_function("DllInstall");
    Change change = {settings, FALSE};
    WCHAR line[MOST];

    if (!call)
        return fail(L"%ls cannot be loaded", dll_path);
    if (wcslen(name) + wcslen(address) > MOST - 8)
        return usage();
    swprintf(line, MOST, L"%ls%ls@%ls", settings->all_users ? L"" : L"user:", name, address);
    if (FAILED(call(on, line)))
        return 1;
    if (on)
        each_class(settings->all_users, name, set_entry, &change);
    if (change.has_failed)
        return fail(L"%ls is registered, but its values cannot be set", name);
    say(L"%ls is %ls for programs of %d bits", name, on ? L"registered" : L"removed", BITS);
    return 0;
}

/* What a name's classes say of its server, and how they have values. */
typedef struct Kept {
    WCHAR address[MOST];
    Settings settings;
} Kept;

static void keep_settings(const Entry *entry, void *with)
{
    Kept *kept = with;
    DWORD size;
    int i;

    if (!entry->host[0] || !entry->port[0])
        return;
    if (!kept->address[0]) /* (classes of this program's bits come first) */
        swprintf(kept->address, MOST, wcschr(entry->host, L':') ? L"[%ls]:%ls" : L"%ls:%ls",
                 entry->host, entry->port);
    for (i = 0; i < NUMBERS; i++) {
        size = sizeof(DWORD);
        if (!kept->settings.is_given[i])
            kept->settings.is_given[i] = read_value(entry, L"Oaut", NUMBER_NAMES[i],
                                                    RRF_RT_REG_DWORD, &kept->settings.numbers[i],
                                                    &size);
    }
    if (!kept->settings.watch[0])
        text_of(entry, L"Oaut", L"Watch", kept->settings.watch, ARRAYSIZE(kept->settings.watch));
}

static int repair(const WCHAR *name, const Settings *settings)
{
    Kept kept;

    kept.address[0] = 0;
    kept.settings = *settings;
    if (!each_class(settings->all_users, name, keep_settings, &kept) || !kept.address[0])
        return fail(L"no class says which server %ls has: add it again", name);
    return install(TRUE, name, kept.address, &kept.settings);
}

/* The names whose classes this program's DLL serves. */
typedef struct Names {
    WCHAR (*names)[128];
    int count;
    BOOL has_failed;
} Names;

static void keep_name(const Entry *entry, void *with)
{
    const WCHAR *dot = wcschr(entry->progid, L'.');
    size_t length = dot ? (size_t)(dot - entry->progid) : 0;
    Names *names = with;
    void *more;
    int i;

    if (!length || _wcsicmp(entry->server, dll_path))
        return;
    for (i = 0; i < names->count; i++)
        if (!_wcsnicmp(names->names[i], entry->progid, length) && !names->names[i][length])
            return;
    if (!(more = realloc(names->names, (size_t)(names->count + 1) * sizeof *names->names))) {
        names->has_failed = TRUE;
        return;
    }
    names->names = more;
    memcpy(names->names[names->count], entry->progid, length * sizeof *entry->progid);
    names->names[names->count++][length] = 0;
}

static int remove_all(void)
{
    int status = 0, turn, i;

    for (turn = 0; turn < 2; turn++) {
        Names names = {NULL, 0, FALSE};
        Settings settings = {0};

        settings.all_users = turn == 1;
        each_class(settings.all_users, NULL, keep_name, &names);
        for (i = 0; i < names.count; i++)
            status |= install(FALSE, names.names[i], L"localhost:0", &settings);
        if (names.has_failed)
            status = fail(L"%ls", L"out of memory, so some names are left");
        free(names.names);
    }
    return status;
}

/* A command line of words, for programs of one kind of bits; none of the words has a quotation mark
   that counts. FALSE if it is too long. */
static BOOL join(const WCHAR *path, int count, WCHAR **words, WCHAR line[4 * MOST])
{
    size_t length = wcslen(path) + wcslen(THESE_BITS) + 4;
    int i;

    for (i = 0; i < count; i++) {
        length += wcslen(words[i]) + 3;
        if (wcschr(words[i], L'"') || length >= 4 * MOST)
            return FALSE;
    }
    swprintf(line, 4 * MOST, L"\"%ls\" " THESE_BITS, path);
    for (i = 0; i < count; i++) {
        wcscat(line, L" \"");
        wcscat(line, words[i]);
        wcscat(line, L"\"");
    }
    return TRUE;
}

/* Gives what a program prints to the listener, line by line, until it ends. */
static void pass_lines(HANDLE from)
{
    char bytes[MOST];
    WCHAR line[MOST];
    DWORD count = 0, got;

    while (ReadFile(from, bytes + count, 1, &got, NULL) && got) {
        if (bytes[count] != '\n' && count + 2 < MOST) {
            count += bytes[count] != '\r';
            continue;
        }
        bytes[count] = 0;
        count = 0;
        MultiByteToWideChar(CP_UTF8, 0, bytes, -1, line, MOST);
        lines_go_to(line);
    }
}

/* The path of the tool of the other bits, if it is there and runs here. */
static BOOL find_other(WCHAR path[MAX_PATH])
{
    WCHAR *slash;

    wcscpy(path, dll_path);
    if (!has_both_bits() || !(slash = wcsrchr(path, L'\\')))
        return FALSE;
    *slash = 0;
    if (!(slash = wcsrchr(path, L'\\')) || (size_t)(slash - path) + 20 > MAX_PATH)
        return FALSE;
    swprintf(slash, 20, L"\\%d\\oautreg.exe", OTHER_BITS);
    return GetFileAttributesW(path) != INVALID_FILE_ATTRIBUTES;
}

#define WAIT 120000u /* milliseconds */

/* Waits until a program has ended; its status, and 1 if it does not end. */
static int status_of(HANDLE process, const WCHAR *path)
{
    DWORD status;

    if (WaitForSingleObject(process, WAIT) != WAIT_OBJECT_0)
        return fail(L"%ls has not ended after %d seconds", path, WAIT / 1000);
    return !GetExitCodeProcess(process, &status) || status;
}

/* Runs the tool of the other bits with the same words, if it is there; its status. */
static int run_other_bits(int count, WCHAR **words)
{
    SECURITY_ATTRIBUTES inherited = {sizeof inherited, NULL, TRUE};
    WCHAR path[MAX_PATH], command[4 * MOST];
    HANDLE from = NULL, to = NULL;
    PROCESS_INFORMATION made;
    STARTUPINFOW how;
    int status = 0;
    BOOL is_made;

    memset(&how, 0, sizeof how);
    how.cb = sizeof how;
    if (!find_other(path) || !join(path, count, words, command))
        return 0;
    fflush(stdout);
    if (lines_go_to && CreatePipe(&from, &to, &inherited, 0)) {
        SetHandleInformation(from, HANDLE_FLAG_INHERIT, 0);
        how.dwFlags = STARTF_USESTDHANDLES;
        how.hStdOutput = how.hStdError = to;
    }
    is_made = CreateProcessW(path, command, NULL, NULL, TRUE, lines_go_to ? CREATE_NO_WINDOW : 0,
                             NULL, NULL, &how, &made);
    if (to)
        CloseHandle(to);
    if (is_made) {
        if (from)
            pass_lines(from);
        status = status_of(made.hProcess, path);
        CloseHandle(made.hProcess);
        CloseHandle(made.hThread);
    } else { /* (a Windows without programs of 32 bits) */
        fail(L"%ls does not run here, so programs of %d bits are left as they were", path,
             OTHER_BITS);
    }
    if (from)
        CloseHandle(from);
    return status;
}

/* Whether a name's classes of these bits are also those of the other ones. */
static BOOL has_shared_classes(BOOL all_users, const WCHAR *name)
{
    HKEY root = all_users ? HKEY_LOCAL_MACHINE : HKEY_CURRENT_USER, key;
    WCHAR path[MOST], guid[40], server[MAX_PATH];
    Entry other = {0};
    DWORD size = sizeof guid;
    BOOL is_shared;

    swprintf(path, ARRAYSIZE(path), CLASSES L"\\%ls.Store\\CLSID", name);
    if (!has_both_bits() || RegGetValueW(root, path, NULL, RRF_RT_REG_SZ, NULL, guid, &size))
        return FALSE;
    swprintf(path, ARRAYSIZE(path), CLASSES L"\\CLSID\\%ls", guid);
    if (RegOpenKeyExW(root, path, 0, KEY_READ | view_of(OTHER_BITS), &key))
        return FALSE;
    other.key = key;
    other.bits = OTHER_BITS;
    is_shared = text_of(&other, L"InprocServer32", NULL, server, MAX_PATH) &&
                !_wcsicmp(server, dll_path);
    RegCloseKey(key);
    return is_shared;
}

/* Reads the options; the other words are `given`. Their number, or 0 if an option is none. */
static int read_words(int count, WCHAR **words, Settings *settings, BOOL *all,
                      const WCHAR *given[3])
{
    int i, found = 0;

    for (i = 0; i < count; i++) {
        if (!wcscmp(words[i], L"--all-users")) {
            settings->all_users = TRUE;
        } else if (!wcscmp(words[i], THESE_BITS)) {
            settings->these_bits = TRUE;
        } else if (!wcscmp(words[i], L"--texts")) {
            settings->is_given[TEXTS] = TRUE;
            settings->numbers[TEXTS] = 1;
        } else if (!wcscmp(words[i], L"--all")) {
            *all = TRUE;
        } else if (!wcscmp(words[i], L"--script") && i + 1 < count && words[i + 1][0] >= L'0' &&
                   words[i + 1][0] <= L'2' && !words[i + 1][1]) {
            settings->is_given[SCRIPT] = TRUE;
            settings->numbers[SCRIPT] = (DWORD)(words[++i][0] - L'0');
        } else if (!wcscmp(words[i], L"--watch") && i + 1 < count && words[i + 1][0] &&
                   words[i + 1][0] != L'-' && wcslen(words[i + 1]) < ARRAYSIZE(settings->watch)) {
            wcscpy(settings->watch, words[++i]);
        } else if (words[i][0] == L'-' || found == 3) {
            return 0;
        } else {
            given[found++] = words[i];
        }
    }
    return found;
}

int run_command(int count, WCHAR **words)
{
    Settings settings = {0};
    const WCHAR *given[3] = {L"", L"", L""};
    BOOL all = FALSE, is_removal = FALSE;
    int found = read_words(count, words, &settings, &all, given), status;
    Test *test;

    if (!wcscmp(given[0], L"list") && found == 1)
        return list();
    if (!wcscmp(given[0], L"test") && found == 2) {
        if (!(test = (Test *)dll_function("OautTest")))
            return fail(L"%ls cannot be loaded", dll_path);
        return FAILED(test(given[1]));
    }
    if (!wcscmp(given[0], L"add") && found == 3) {
        status = install(TRUE, given[1], given[2], &settings);
    } else if (!wcscmp(given[0], L"remove") && found == 1 && all) {
        is_removal = TRUE;
        status = remove_all();
    } else if (!wcscmp(given[0], L"remove") && found == 2 && !all) {
        is_removal = TRUE;
        status = install(FALSE, given[1], L"localhost:0", &settings);
    } else if (!wcscmp(given[0], L"repair") && found == 2) {
        status = repair(given[1], &settings);
    } else {
        return usage();
    }
    if (settings.these_bits || (status && !is_removal))
        return status;
    if (!is_removal && has_shared_classes(settings.all_users, given[1])) {
        say(L"programs of %d bits are left out: this system has one list of a user's classes; "
            L"--all-users is for both",
            OTHER_BITS);
        return status;
    }
    return run_other_bits(count, words) | status;
}

/* Whether this program has a console of its own: it was not started from a command line. */
static BOOL is_alone(void)
{
    DWORD process;

    return GetConsoleProcessList(&process, 1) == 1;
}

int wmain(int count, WCHAR **words)
{
    DWORD length = GetModuleFileNameW(NULL, dll_path, MAX_PATH);
    WCHAR *slash = length && length < MAX_PATH ? wcsrchr(dll_path, L'\\') : NULL;

    if (!slash || slash - dll_path + 13 > MAX_PATH)
        return fail(L"%ls", L"its folder has too long a name");
    wcscpy(slash + 1, L"oautcom.dll");
    if ((count == 2 && !wcscmp(words[1], L"window")) || (count == 1 && is_alone())) {
        if (is_alone())
            FreeConsole();
        return show_window();
    }
    return run_command(count - 1, words + 1);
}
