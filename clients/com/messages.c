#include "messages.h"

#include "refusals.h"

#include <stdarg.h>
#include <stdio.h>
#include <wchar.h>

#define MOST 1024 /* units of a message */

/* Whether the command line has the option /s. */
static BOOL is_silent(void)
{
    const WCHAR *at;

    for (at = GetCommandLineW(); *at; at++)
        if (*at == L' ' && (at[1] == L'/' || at[1] == L'-') && (at[2] == L's' || at[2] == L'S') &&
            (!at[3] || at[3] == L' '))
            return TRUE;
    return FALSE;
}

static BOOL print(const WCHAR *text, DWORD stream)
{
    HANDLE to = GetStdHandle(stream);
    char bytes[4 * MOST];
    DWORD done;
    int length;

    if (!to || to == INVALID_HANDLE_VALUE || GetFileType(to) == FILE_TYPE_UNKNOWN)
        return FALSE;
    length = WideCharToMultiByte(CP_UTF8, 0, text, -1, bytes, sizeof bytes - 2, NULL, NULL);
    if (length < 1)
        return FALSE;
    bytes[length - 1] = '\r';
    bytes[length] = '\n';
    return WriteFile(to, bytes, (DWORD)length + 1, &done, NULL);
}

/* In a box, if the host has loaded what shows one: the DLL itself asks for no part of the system
 * that scripts do not. */
static void show(const WCHAR *text)
{
    typedef int WINAPI Box(HWND, LPCWSTR, LPCWSTR, UINT);
    HMODULE user = GetModuleHandleW(L"user32.dll");
    Box *box = user ? (Box *)(void *)GetProcAddress(user, "MessageBoxW") : NULL;

    if (box)
        box(NULL, text, L"oautcom", MB_OK | MB_ICONWARNING);
}

static Listener *listens; /* or NULL */

/* What oautreg's window asks: reports go to it, and nowhere else. */
__declspec(dllexport) void WINAPI OautListen(Listener *listener)
{
    listens = listener;
}

static void fill(WCHAR text[MOST], const WCHAR *format, va_list words)
{
    _vsnwprintf(text, MOST - 1, format, words);
    text[MOST - 1] = 0;
}

void report(const WCHAR *format, ...)
{
    WCHAR text[MOST];
    va_list words;

    va_start(words, format);
    fill(text, format, words);
    va_end(words);
    if (listens)
        listens(text);
    else if (!print(text, STD_ERROR_HANDLE) && !is_silent())
        show(text);
}

void say(const WCHAR *format, ...)
{
    WCHAR text[MOST];
    va_list words;

    va_start(words, format);
    fill(text, format, words);
    va_end(words);
    if (listens)
        listens(text);
    else
        print(text, STD_OUTPUT_HANDLE);
}

void report_refusal(HRESULT code, const Connection *connection)
{
    Refusal refusal = {code, NULL, NULL, NULL, NULL, VT_EMPTY, NULL, 0, connection, NULL, 0};
    EXCEPINFO told;

    tell_refusal(&refusal, FALSE, &told);
    report(L"%ls", told.bstrDescription ? told.bstrDescription : L"out of memory");
    SysFreeString(told.bstrSource);
    SysFreeString(told.bstrDescription);
}
