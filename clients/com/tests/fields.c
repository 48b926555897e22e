/* Reads fields from standard input, one a line in hexadecimal digits, and prints what the bridge
   writes for the value that each spells, or `-` where it spells none. Built for Windows and for
   Linux. */
#include "../wire.h"

#include <stdio.h>
#include <stdlib.h>
#include <string.h>

#define LINE 0x10000

/* The record's form of a field: its length, four bytes, padding. */
static size_t framed(const char *digits, BYTE *body)
{
    UINT32 length = (UINT32)(strspn(digits, "0123456789abcdef") / 2), i;

    memset(body, 0, length + 16);
    memcpy(body, &length, sizeof length);
    for (i = 0; i < length; i++) {
        char pair[3] = {digits[2 * i], digits[2 * i + 1], 0};

        body[8 + i] = (BYTE)strtoul(pair, NULL, 16);
    }
    return 8 + (length + 7) / 8 * 8;
}

int main(void)
{
    static char line[LINE];
    static BYTE body[LINE];
    Writer to = {0};

    while (fgets(line, sizeof line, stdin)) {
        Reader from = reader_of(body, framed(line, body));
        VARIANT value;
        UINT32 i, length;

        writer_begin(&to, 0);
        if (FAILED(read_variant(&from, FALSE, &value)) || FAILED(write_variant(&to, &value))) {
            puts("-");
            continue;
        }
        memcpy(&length, to.bytes, sizeof length);
        for (i = 0; i < length; i++)
            printf("%02x", to.bytes[8 + i]);
        puts("");
        VariantClear(&value);
    }
    writer_free(&to);
    return 0;
}
