/* The bytes of records, and VARIANTs in them. The forms are those of docs/reference/records.md and
   docs/reference/wire.md.

   A body is written by a Writer and read by a Reader. Neither ever leaves its bytes: once a Writer
   has a fault, or a Reader is bad, every further call changes nothing, so a caller looks once, at
   the end. */
#ifndef OAUT_WIRE_H
#define OAUT_WIRE_H

#include "values.h"

#define MAX_BODY 0x400000u      /* the bytes of a request's body */
#define MAX_CELLS 0x10000u      /* the cells of an array */
#define MAX_BOUNDS 16u          /* the bounds of an array */
#define NO_ARGUMENT 0xFFFFFFFFu /* a reply's index if no argument is at fault */

/* Bytes that are no reply of a server. */
#define OAUT_E_NO_REPLY ((HRESULT)0x8001000F) /* RPC_E_INVALID_DATA */

/* ---- bytes being made */

typedef struct Writer {
    BYTE *bytes;
    size_t length, room;
    size_t body; /* the beginning of the body: its offsets count from here */
    /* E_OUTOFMEMORY, or E_INVALIDARG if the body would be longer than MAX_BODY */
    HRESULT fault;
} Writer;

/* Begins a new body after this many zeros; the Writer's memory is used again. */
void writer_begin(Writer *to, size_t before);
void writer_free(Writer *to);
void write_bytes(Writer *to, const void *from, size_t count);
void write_zeros(Writer *to, size_t count);
void write_16(Writer *to, UINT16 number);
void write_32(Writer *to, UINT32 number);
/* Zeros up to the next multiple of `width` in the body. */
void write_pad(Writer *to, size_t width);

/* A variant field: its length, the value that any VT_BYREF points to, padding. If the value cannot
 * be sent at all, it fails and the Writer has any contents: E_POINTER for a null pointer in
 * VT_BYREF, E_INVALIDARG for an array that does not match its VARIANT or has too many bounds or
 * cells, DISP_E_BADVARTYPE for a cell of an array that no server accepts. A value of a type without
 * a wire form is written as its vt only, and the server refuses it. */
HRESULT write_variant(Writer *to, const VARIANT *value);
/* A variant field for a script's value with a declared type. A floating-point number is sent as a
 * type that holds it exactly, also in an array; an array of VARIANT, or of such numbers, is sent as
 * one of the declared type, each cell with the same number, text or truth value. If one cannot be
 * sent so, nothing is written: DISP_E_BADVARTYPE, DISP_E_TYPEMISMATCH or DISP_E_OVERFLOW. */
HRESULT write_variant_as(Writer *to, const VARIANT *value, VARTYPE declared, int how);

/* ---- bytes being read */

typedef struct Reader {
    const BYTE *bytes;
    size_t length, place; /* place <= length */
    BOOL bad;             /* more was asked for than there was, or something was wrong */
} Reader;

Reader reader_of(const BYTE *bytes, size_t length);
size_t bytes_left(const Reader *from);
/* Reads the next `count` bytes into `to`; zeros if there are fewer. */
void read_bytes(Reader *from, void *to, size_t count);
void read_past(Reader *from, size_t count);
UINT16 read_16(Reader *from);
UINT32 read_32(Reader *from);
void read_pad(Reader *from, size_t width);
/* A string of a record: its UTF-16 units at `*units`, in the Reader's bytes, and their number. */
UINT32 read_string(Reader *from, const BYTE **units);
/* A variant field of a reply. On success the caller owns the VARIANT; else it is EMPTY. For scripts
   a whole number of another type than UI1, I2 and I4 is read as the same number in I4, CURRENCY or
   DECIMAL, in an array too, and an array as one of VARIANT. */
HRESULT read_variant(Reader *from, int how, VARIANT *value);

#endif
