/* Conversions of values for which a host and a server have different types. Nothing is copied:
 * results own no memory, and a text in them is the given one, except those of make_scriptable. */
#ifndef OAUT_VALUES_H
#define OAUT_VALUES_H

#include <windows.h>
#include <oleauto.h>

/* How the hosts of a class have values: 0 as the server has them, else these together. */
#define FOR_SCRIPTS 1 /* as VBScript and VBA have them */
#define FOR_JSCRIPT 2 /* as JScript has them too */
#define WITH_TEXTS 4  /* a text that is a number goes to a number as that number */

/* The bytes of a number of a type, in memory as on the wire; 0 of what is no number. */
UINT32 width_of(VARTYPE type);

/* The value that VT_BYREF refers to, which is not copied: either one in the caller's memory, or
   `room`, which then must not be cleared. NULL if a pointer is null. */
const VARIANT *value_behind(const VARIANT *value, VARIANT *room);

/* Whether a scalar is a whole number; `large`: it is a UI8 above what `number` holds with a
 * sign. */
BOOL whole_number(const VARIANT *value, INT64 *number, BOOL *large);

/* Whether a value is of a floating-point type, VT_R4 or VT_R8. */
BOOL is_floating(const VARIANT *value);

/* The type that holds a floating-point number exactly: for a whole one I4, I8 or DECIMAL; for
 * another one CY or DECIMAL, with the shortest decimal that reads back as the same number of its
 * type. VT_EMPTY if none does; `is_large` is then set if the number is only too large. */
VARTYPE exact_type(const VARIANT *value, BOOL *is_large);

/* A floating-point number as a value that a property of the declared type accepts exactly: a whole
 * one as I4, I8 or DECIMAL, for any declared number; another one as CY or DECIMAL, if one of these,
 * or VARIANT, is declared. DISP_E_BADVARTYPE if there is none, DISP_E_OVERFLOW if it is too large;
 * S_FALSE, with nothing made, for a value of another type. */
HRESULT number_as(const VARIANT *value, VARTYPE declared, VARIANT *made);

/* A text as the number that it is, for a declared type that is a number: blanks around it, a sign,
   digits, and a point with digits after it for CURRENCY and DECIMAL. S_FALSE, with nothing made,
   for what is no such text or type; DISP_E_TYPEMISMATCH if the type does not hold it,
   DISP_E_OVERFLOW if it is too large. */
HRESULT text_as(const VARIANT *value, VARTYPE declared, VARIANT *made);

/* A cell of an array as one of a type: it stays the same number, text or truth, EMPTY becomes zero,
   and a floating-point number what it is exactly; else DISP_E_TYPEMISMATCH, DISP_E_OVERFLOW or
   DISP_E_BADVARTYPE. */
HRESULT cell_as(const VARIANT *cell, VARTYPE type, VARIANT *made);

/* What scripts have for a number. A whole one of another type than UI1, I2 and I4 becomes the same
   number as I4, CURRENCY or DECIMAL. For JScript a DECIMAL becomes a double, if that put back is
   the same number, else a text, and an SCODE a long. E_OUTOFMEMORY leaves it EMPTY. */
HRESULT make_scriptable(VARIANT *value, int how);

/* The first cell of an array that cannot be put as one of a declared type, and why; S_OK if there
   is none. The cell's place counts as memory does; what is found is the cell, or `room` with it. */
HRESULT find_misfit(const SAFEARRAY *array, VARTYPE own, VARTYPE declared, int how, UINT32 *place,
                    const VARIANT **cell, VARIANT *room);

#endif
