/* Uses the window of oautreg as a person does, by messages, and prints what it shows:

       window STEP ..

   where a step is  set=NUMBER=TEXT  (a field),  check=NUMBER,  press=NUMBER  (a button; it waits
   until the buttons are there again),  start=NUMBER  (a button; it does not wait),  choose=PLACE (a
   line of the list),  field=NUMBER,  list, said,  file=NAME  (which is made),  close  or  closing
   (which goes on once the window has heard of it). */
#include <windows.h>

#include <stdio.h>
#include <stdlib.h>
#include <string.h>
#include <wchar.h>

#include "../window.h"

#define WAIT 240000u
#define MOST 4096

static HWND window;

static void print(const WCHAR *text)
{
    char bytes[4 * MOST], *at;

    WideCharToMultiByte(CP_UTF8, 0, text, -1, bytes, sizeof bytes, NULL, NULL);
    while ((at = strchr(bytes, '\r')) != NULL) /* a field's lines end with \r\n */
        memmove(at, at + 1, strlen(at));
    puts(bytes);
    fflush(stdout);
}

static void print_field(int part)
{
    WCHAR text[MOST];

    text[0] = 0;
    SendDlgItemMessageW(window, part, WM_GETTEXT, MOST, (LPARAM)text);
    print(text);
}

static void print_list(void)
{
    WCHAR text[MOST];
    LRESULT count = SendDlgItemMessageW(window, WINDOW_LIST, LB_GETCOUNT, 0, 0), i;

    for (i = 0; i < count; i++) {
        SendDlgItemMessageW(window, WINDOW_LIST, LB_GETTEXT, (WPARAM)i, (LPARAM)text);
        print(text);
    }
}

/* Waits until the buttons may be pressed. */
static void wait_until_done(void)
{
    ULONGLONG until = GetTickCount64() + WAIT;

    while (!IsWindowEnabled(GetDlgItem(window, WINDOW_ADD)) && GetTickCount64() < until)
        Sleep(20);
}

/* The window, once its fields are filled: it is there before that, and what is done to it then is
 * lost. */
static HWND find_window(void)
{
    ULONGLONG until = GetTickCount64() + WAIT;
    WCHAR address[2];
    HWND found;

    while (!(found = FindWindowW(NULL, L"" WINDOW_TITLE)) ||
           !SendDlgItemMessageW(found, WINDOW_ADDRESS, WM_GETTEXT, ARRAYSIZE(address),
                                (LPARAM)address)) {
        if (GetTickCount64() >= until)
            return NULL;
        Sleep(20);
    }
    return found;
}

static void step(char *words)
{
    char *number = strchr(words, '='), *text = number ? strchr(number + 1, '=') : NULL;
    int part = number ? atoi(number + 1) : 0;
    WCHAR wide[MOST];

    if (!strncmp(words, "set=", 4) && text) {
        MultiByteToWideChar(CP_UTF8, 0, text + 1, -1, wide, MOST);
        SendDlgItemMessageW(window, part, WM_SETTEXT, 0, (LPARAM)wide);
    } else if (!strncmp(words, "check=", 6)) {
        SendDlgItemMessageW(window, part, BM_CLICK, 0, 0);
    } else if (!strncmp(words, "press=", 6)) {
        SendDlgItemMessageW(window, part, BM_CLICK, 0, 0);
        wait_until_done();
    } else if (!strncmp(words, "start=", 6)) {
        SendDlgItemMessageW(window, part, BM_CLICK, 0, 0);
    } else if (!strncmp(words, "file=", 5)) {
        CloseHandle(CreateFileA(words + 5, GENERIC_WRITE, 0, NULL, CREATE_NEW,
                                FILE_ATTRIBUTE_NORMAL, NULL));
    } else if (!strncmp(words, "choose=", 7)) {
        SendDlgItemMessageW(window, WINDOW_LIST, LB_SETCURSEL, (WPARAM)part, 0);
        SendMessageW(window, WM_COMMAND, MAKEWPARAM(WINDOW_LIST, LBN_SELCHANGE),
                     (LPARAM)GetDlgItem(window, WINDOW_LIST));
    } else if (!strncmp(words, "field=", 6)) {
        print_field(part);
    } else if (!strcmp(words, "list")) {
        print_list();
    } else if (!strcmp(words, "said")) {
        print_field(WINDOW_SAID);
    } else if (!strcmp(words, "close")) {
        PostMessageW(window, WM_COMMAND, IDCANCEL, 0);
    } else if (!strcmp(words, "closing")) {
        SendMessageW(window, WM_COMMAND, IDCANCEL, 0);
    } else {
        printf("no step: %s\n", words);
    }
}

int main(int count, char **words)
{
    int i;

    if (!(window = find_window())) {
        puts("there is no window");
        return 1;
    }
    wait_until_done();
    for (i = 1; i < count; i++)
        step(words[i]);
    puts("end");
    return 0;
}
