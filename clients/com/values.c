#include "values.h"

#include <stdint.h>
#include <string.h>

UINT32 width_of(VARTYPE type)
{
    switch (type) {
    case VT_I1:
    case VT_UI1:
        return 1;
    case VT_I2:
    case VT_UI2:
    case VT_BOOL:
        return 2;
    case VT_I4:
    case VT_UI4:
    case VT_INT:
    case VT_UINT:
    case VT_ERROR:
    case VT_R4:
        return 4;
    case VT_I8:
    case VT_UI8:
    case VT_CY:
    case VT_R8:
    case VT_DATE:
        return 8;
    }
    return 0;
}

const VARIANT *value_behind(const VARIANT *value, VARIANT *room)
{
    const void *at;
    VARTYPE type;
    int turns;

    for (turns = 0; V_VT(value) == (VT_BYREF | VT_VARIANT); turns++)
        if (turns == 4 || !(value = V_VARIANTREF(value)))
            return NULL;
    if (!(V_VT(value) & VT_BYREF))
        return value;
    type = V_VT(value) & (VARTYPE)~VT_BYREF;
    if (!(at = V_BYREF(value)))
        return NULL;
    memset(room, 0, sizeof *room);
    if (type == VT_DECIMAL)
        V_DECIMAL(room) = *(const DECIMAL *)at;
    else if (type & VT_ARRAY)
        V_ARRAY(room) = *(SAFEARRAY *const *)at;
    else if (type == VT_BSTR)
        V_BSTR(room) = *(const BSTR *)at;
    else if (type == VT_DISPATCH || type == VT_UNKNOWN)
        V_BYREF(room) = *(void *const *)at; /* a pointer, as V_DISPATCH and V_UNKNOWN are */
    else
        /* the numbers of the union begin at one place */
        memcpy(&V_UI8(room), at, width_of(type));
    V_VT(room) = type; /* last: a DECIMAL's first two bytes are the vt */
    return room;
}

BOOL whole_number(const VARIANT *value, INT64 *number, BOOL *large)
{
    *large = FALSE;
    switch (V_VT(value)) {
    case VT_I1:
        *number = (signed char)V_UI1(value);
        return TRUE;
    case VT_UI1:
        *number = V_UI1(value);
        return TRUE;
    case VT_I2:
        *number = V_I2(value);
        return TRUE;
    case VT_UI2:
        *number = V_UI2(value);
        return TRUE;
    case VT_I4:
    case VT_INT:
        *number = V_I4(value);
        return TRUE;
    case VT_UI4:
    case VT_UINT:
        *number = V_UI4(value);
        return TRUE;
    case VT_I8:
        *number = V_I8(value);
        return TRUE;
    case VT_UI8:
        *number = V_I8(value);
        *large = *number < 0;
        return TRUE;
    }
    return FALSE;
}

/* ---- whole numbers of many limbs, the lowest first: 192 bits hold 2^53 * 10^28 and what it is
 * compared with */

#define LIMBS 6

typedef struct Big {
    UINT32 limbs[LIMBS];
} Big;

static Big big_of(UINT64 number)
{
    Big made = {{(UINT32)number, (UINT32)(number >> 32)}};

    return made;
}

static void multiply(Big *number, UINT32 factor)
{
    UINT64 carry = 0;
    int i;

    for (i = 0; i < LIMBS; i++) {
        carry += (UINT64)number->limbs[i] * factor;
        number->limbs[i] = (UINT32)carry;
        carry >>= 32;
    }
}

static void add(Big *number, UINT32 more)
{
    UINT64 carry = more;
    int i;

    for (i = 0; i < LIMBS; i++) {
        carry += number->limbs[i];
        number->limbs[i] = (UINT32)carry;
        carry >>= 32;
    }
}

/* Divides, and gives the rest. */
static UINT32 divide(Big *number, UINT32 divisor)
{
    UINT64 rest = 0;
    int i;

    for (i = LIMBS - 1; i >= 0; i--) {
        rest = rest << 32 | number->limbs[i];
        number->limbs[i] = (UINT32)(rest / divisor);
        rest %= divisor;
    }
    return (UINT32)rest;
}

static BOOL is_zero(const Big *number)
{
    Big zero = big_of(0);

    return !memcmp(number, &zero, sizeof zero);
}

static Big difference(const Big *one, const Big *other)
{
    INT64 borrow = 0;
    Big made;
    int i;

    for (i = 0; i < LIMBS; i++) {
        borrow += (INT64)one->limbs[i] - other->limbs[i];
        made.limbs[i] = (UINT32)borrow;
        borrow >>= 32;
    }
    return made;
}

static int compare(const Big *one, const Big *other)
{
    int i;

    for (i = LIMBS - 1; i >= 0; i--)
        if (one->limbs[i] != other->limbs[i])
            return one->limbs[i] < other->limbs[i] ? -1 : 1;
    return 0;
}

static UINT32 limb_at(const Big *number, int i)
{
    return i < LIMBS ? number->limbs[i] : 0;
}

/* The 64 bits from a bit on. */
static UINT64 bits_from(const Big *number, int bit)
{
    int limb = bit / 32, within = bit % 32;
    UINT64 low = limb_at(number, limb) | (UINT64)limb_at(number, limb + 1) << 32;

    return within ? low >> within | (UINT64)limb_at(number, limb + 2) << (64 - within) : low;
}

/* The bits below a bit. */
static Big bits_below(const Big *number, int bit)
{
    Big made = *number;
    int i;

    for (i = 0; i < LIMBS; i++)
        if (32 * i >= bit)
            made.limbs[i] = 0;
        else if (bit - 32 * i < 32)
            made.limbs[i] &= ((UINT32)1 << (bit - 32 * i)) - 1;
    return made;
}

/* ---- floating-point numbers */

#define MAX_PLACES 28 /* of a DECIMAL */
#define MAX_SHIFT 160 /* what is below 2^53 / 2^160 is below half of 10^-28 */
#define CY_PLACES 4

/* A finite number: mantissa * 2^exponent with a sign. */
typedef struct Floating {
    UINT64 mantissa;
    int exponent;
    /* the mantissa is the least one, so that the number below is nearer than that above */
    BOOL is_negative, is_power;
} Floating;

/* Divides a number into its parts; FALSE if it is infinite or not a number. */
static BOOL parts_of(const VARIANT *value, Floating *parts)
{
    BOOL is_double = V_VT(value) == VT_R8;
    UINT64 bits = is_double ? V_UI8(value) : V_UI4(value), first;
    int places = is_double ? 52 : 23, last = is_double ? 0x7FF : 0xFF, exponent;

    first = (UINT64)1 << places;
    exponent = (int)(bits >> places) & last;
    if (exponent == last)
        return FALSE;
    parts->is_negative = (bits >> (is_double ? 63 : 31) & 1) != 0;
    parts->mantissa = bits & (first - 1);
    parts->is_power = !parts->mantissa && exponent > 1;
    if (exponent)
        parts->mantissa |= first;
    parts->exponent = (exponent ? exponent : 1) - last / 2 - places;
    return TRUE;
}

BOOL is_floating(const VARIANT *value)
{
    return V_VT(value) == VT_R8 || V_VT(value) == VT_R4;
}

static BOOL is_whole(const Floating *parts)
{
    if (parts->exponent >= 0 || !parts->mantissa)
        return TRUE;
    return parts->exponent > -64 && !(parts->mantissa & (((UINT64)1 << -parts->exponent) - 1));
}

/* A whole number's magnitude in 96 bits; FALSE if it has more. */
static BOOL magnitude_of(const Floating *parts, UINT32 *high, UINT64 *low)
{
    Big number = big_of(parts->mantissa);
    int exponent = parts->mantissa ? parts->exponent : 0;

    if (exponent <= 0) {
        *low = parts->mantissa >> -exponent;
        *high = 0;
        return TRUE;
    }
    if (exponent > 96)
        return FALSE;
    for (; exponent > 0; exponent--)
        multiply(&number, 2);
    *low = bits_from(&number, 0);
    *high = number.limbs[2];
    return !bits_from(&number, 96);
}

/* Whether a decimal that is off by this much, in units of 1 / (2^shift * 10^places), reads back as
 * the number. */
static BOOL reads_back(const Floating *parts, const Big *off, BOOL is_below, const Big *power)
{
    Big twice = *off;
    int order;

    multiply(&twice, is_below && parts->is_power ? 4 : 2);
    order = compare(&twice, power);
    return order < 0 || (order == 0 && !(parts->mantissa & 1));
}

/* The shortest decimal that reads back as the same number, which is not whole, as digits /
 * 10^places, and of these the nearest. FALSE if it needs more places than a DECIMAL has. */
static BOOL shortest_decimal(const Floating *parts, UINT64 *digits, BYTE *places)
{
    Big scaled = big_of(parts->mantissa), power = big_of(1), one;
    int shift = -parts->exponent;

    if (shift > MAX_SHIFT)
        return FALSE;
    memset(&one, 0, sizeof one);
    one.limbs[shift / 32] = (UINT32)1 << shift % 32;
    for (*places = 1; *places <= MAX_PLACES; ++*places) {
        Big below, above;
        BOOL is_below;
        int order;

        multiply(&scaled, 10);
        multiply(&power, 10);
        *digits = bits_from(&scaled, shift);
        below = bits_below(&scaled, shift);
        above = difference(&one, &below);
        order = compare(&below, &above);
        /* of two that are as near the even one */
        is_below = order < 0 || (order == 0 && !(*digits & 1));
        if (!reads_back(parts, is_below ? &below : &above, is_below, &power)) {
            is_below = !is_below;
            if (!reads_back(parts, is_below ? &below : &above, is_below, &power))
                continue;
        }
        *digits += !is_below;
        return TRUE;
    }
    return FALSE;
}

static const UINT32 TENS[] = {1, 10, 100, 1000, 10000};

/* Whether digits / 10^places is a CURRENCY, and then its count of ten-thousandths. */
static BOOL currency_of(UINT64 digits, BYTE places, BOOL is_negative, INT64 *count)
{
    UINT32 factor;

    if (places > CY_PLACES)
        return FALSE;
    factor = TENS[CY_PLACES - places];
    if (digits > (UINT64)INT64_MAX / factor)
        return FALSE;
    *count = (INT64)(digits * factor);
    if (is_negative)
        *count = -*count;
    return TRUE;
}

static void make_decimal(VARIANT *made, UINT32 high, UINT64 low, BYTE places, BOOL is_negative)
{
    memset(made, 0, sizeof *made);
    V_DECIMAL(made).Hi32 = high;
    V_DECIMAL(made).Lo64 = low;
    V_DECIMAL(made).scale = places;
    V_DECIMAL(made).sign = is_negative ? DECIMAL_NEG : 0;
    V_VT(made) = VT_DECIMAL; /* last: a DECIMAL's first two bytes are the vt */
}

/* A whole number in the narrowest of I4, I8 and DECIMAL. */
static HRESULT whole_as(const Floating *parts, VARIANT *made)
{
    UINT32 high;
    UINT64 low;
    INT64 number;

    if (!magnitude_of(parts, &high, &low))
        return DISP_E_OVERFLOW;
    if (high || low > (UINT64)INT64_MAX) {
        make_decimal(made, high, low, 0, parts->is_negative);
        return S_OK;
    }
    number = parts->is_negative ? -(INT64)low : (INT64)low;
    memset(made, 0, sizeof *made);
    if (number == (INT32)number) {
        V_I4(made) = (INT32)number;
        V_VT(made) = VT_I4;
    } else {
        V_I8(made) = number;
        V_VT(made) = VT_I8;
    }
    return S_OK;
}

/* A number that is not whole, as CY or DECIMAL. */
static HRESULT fraction_as(const Floating *parts, VARTYPE declared, VARIANT *made)
{
    UINT64 digits;
    BYTE places;
    INT64 count;

    if ((declared != VT_CY && declared != VT_DECIMAL && declared != VT_VARIANT) ||
        !shortest_decimal(parts, &digits, &places))
        return DISP_E_BADVARTYPE;
    if (declared != VT_DECIMAL && currency_of(digits, places, parts->is_negative, &count)) {
        memset(made, 0, sizeof *made);
        V_CY(made).int64 = count;
        V_VT(made) = VT_CY;
        return S_OK;
    }
    if (declared == VT_CY)
        return places > CY_PLACES ? DISP_E_BADVARTYPE : DISP_E_OVERFLOW;
    make_decimal(made, 0, digits, places, parts->is_negative);
    return S_OK;
}

HRESULT number_as(const VARIANT *value, VARTYPE declared, VARIANT *made)
{
    Floating parts;

    if (!is_floating(value))
        return S_FALSE;
    if (!parts_of(value, &parts))
        return DISP_E_BADVARTYPE;
    return is_whole(&parts) ? whole_as(&parts, made) : fraction_as(&parts, declared, made);
}

VARTYPE exact_type(const VARIANT *value, BOOL *is_large)
{
    VARIANT made;
    HRESULT result = number_as(value, VT_VARIANT, &made);

    *is_large = result == DISP_E_OVERFLOW;
    return result == S_OK ? V_VT(&made) : VT_EMPTY;
}

/* ---- decimals: digits / 10^places with a sign */

typedef struct Decimal {
    Big digits; /* of at most 96 bits */
    int places;
    BOOL is_negative;
} Decimal;

static Decimal decimal_of(const DECIMAL *number)
{
    Decimal made = {big_of(number->Lo64), number->scale, (number->sign & DECIMAL_NEG) != 0};

    made.digits.limbs[2] = number->Hi32;
    return made;
}

/* Removes the zeros at its end. */
static void shorten(Decimal *number)
{
    Big shorter = number->digits;

    if (is_zero(&number->digits))
        number->places = 0;
    while (number->places > 0 && !divide(&shorter, 10)) {
        number->digits = shorter;
        number->places--;
    }
}

/* As a whole number in the narrowest of I4, I8 and DECIMAL. */
static void make_whole(VARIANT *made, const Decimal *number)
{
    UINT64 low = bits_from(&number->digits, 0),
           most = (UINT64)INT64_MAX + (number->is_negative ? 1 : 0);
    INT64 signed_low = (INT64)(number->is_negative ? 0 - low : low);

    if (number->digits.limbs[2] || low > most) {
        make_decimal(made, number->digits.limbs[2], low, 0, number->is_negative);
        return;
    }
    memset(made, 0, sizeof *made);
    if (signed_low == (INT32)signed_low) {
        V_I4(made) = (INT32)signed_low;
        V_VT(made) = VT_I4;
    } else {
        V_I8(made) = signed_low;
        V_VT(made) = VT_I8;
    }
}

/* Appends a digit. FALSE if the number has more than 96 bits then. */
static BOOL append(Decimal *number, UINT32 digit)
{
    multiply(&number->digits, 10);
    add(&number->digits, digit);
    return !number->digits.limbs[3] && !number->digits.limbs[4] && !number->digits.limbs[5];
}

/* The number that a text is; S_FALSE if it is none. It has the places that it was written with, but
   for zeros at its end that a DECIMAL has no room for. */
static HRESULT parse_text(const WCHAR *at, UINT32 units, Decimal *number)
{
    const WCHAR *end = at + units;
    BOOL has_digits = FALSE, has_point = FALSE;
    Decimal longer;
    UINT32 zeros;

    while (at < end && (*at == L' ' || *at == L'\t'))
        at++;
    while (at < end && (end[-1] == L' ' || end[-1] == L'\t'))
        end--;
    memset(number, 0, sizeof *number);
    if (at < end && (*at == L'-' || *at == L'+'))
        number->is_negative = *at++ == L'-';
    for (zeros = 0; at < end; at++) {
        if (*at == L'.' && !has_point) {
            has_point = TRUE;
            continue;
        }
        if (*at < L'0' || *at > L'9')
            return S_FALSE;
        has_digits = TRUE;
        if (has_point && *at == L'0') {
            zeros++; /* which count if a digit follows */
            continue;
        }
        for (; zeros; zeros--, number->places++)
            if (!append(number, 0))
                return DISP_E_OVERFLOW;
        if (!append(number, (UINT32)(*at - L'0')))
            return DISP_E_OVERFLOW;
        number->places += has_point;
    }
    for (longer = *number; zeros && longer.places < MAX_PLACES && append(&longer, 0); zeros--) {
        longer.places++;
        *number = longer;
    }
    return has_digits ? S_OK : S_FALSE;
}

static BOOL is_number_type(VARTYPE type)
{
    return type == VT_DECIMAL ||
           (width_of(type) && type != VT_BOOL && type != VT_ERROR && type != VT_DATE);
}

HRESULT text_as(const VARIANT *value, VARTYPE declared, VARIANT *made)
{
    Decimal number;
    HRESULT result;
    INT64 count;

    if (V_VT(value) != VT_BSTR || !V_BSTR(value) || !is_number_type(declared))
        return S_FALSE;
    if ((result = parse_text(V_BSTR(value), SysStringByteLen(V_BSTR(value)) / 2, &number)) != S_OK)
        return result;
    /* with the places that it was written with */
    if (declared == VT_DECIMAL && number.places <= MAX_PLACES) {
        make_decimal(made, number.digits.limbs[2], bits_from(&number.digits, 0),
                     (BYTE)number.places, number.is_negative);
        return S_OK;
    }
    shorten(&number);
    if (!number.places) {
        make_whole(made, &number);
        return S_OK;
    }
    if (declared != VT_CY || number.places > CY_PLACES)
        return DISP_E_TYPEMISMATCH;
    if (number.digits.limbs[2] ||
        !currency_of(bits_from(&number.digits, 0), (BYTE)number.places, number.is_negative, &count))
        return DISP_E_OVERFLOW;
    memset(made, 0, sizeof *made);
    V_CY(made).int64 = count;
    V_VT(made) = VT_CY;
    return S_OK;
}

/* ---- cells */

#define CY_MOST (INT64_MAX / 10000) /* the largest whole number of a CURRENCY */

/* A whole number that is given, also as a floating-point one; `large` as above. */
static HRESULT whole_cell(const VARIANT *cell, INT64 *number, BOOL *large)
{
    VARIANT made;
    HRESULT result;

    if (whole_number(cell, number, large))
        return S_OK;
    *large = FALSE;
    if (V_VT(cell) == VT_CY) { /* as the DLL itself returns numbers that a Long does not hold */
        *number = V_CY(cell).int64 / 10000;
        return V_CY(cell).int64 % 10000 ? DISP_E_BADVARTYPE : S_OK;
    }
    if (V_VT(cell) == VT_DECIMAL && !V_DECIMAL(cell).scale) {
        UINT64 low = V_DECIMAL(cell).Lo64;
        BOOL minus = (V_DECIMAL(cell).sign & DECIMAL_NEG) != 0;

        if (V_DECIMAL(cell).Hi32 || (minus && low > (UINT64)1 << 63))
            return DISP_E_OVERFLOW;
        *number = (INT64)(minus ? 0 - low : low);
        *large = !minus && low > (UINT64)INT64_MAX;
        return S_OK;
    }
    if ((result = number_as(cell, VT_I8, &made)) != S_OK)
        return result == S_FALSE ? DISP_E_TYPEMISMATCH : result;
    if (whole_number(&made, number, large))
        return S_OK;
    *number = (INT64)V_DECIMAL(&made).Lo64;
    *large = TRUE;
    return V_DECIMAL(&made).Hi32 || V_DECIMAL(&made).sign ? DISP_E_OVERFLOW : S_OK;
}

/* Whether a whole number is in the range of a type; as a CURRENCY it is counted anew. */
static BOOL fit_number(INT64 *number, BOOL large, VARTYPE type)
{
    UINT32 bits = width_of(type) * 8;
    INT64 least = 0, most;

    switch (type) {
    case VT_CY:
        if (large || *number > CY_MOST || *number < -CY_MOST)
            return FALSE;
        *number *= 10000;
        return TRUE;
    case VT_UI8:
        return large || *number >= 0;
    case VT_I8:
        return !large;
    case VT_I1:
    case VT_I2:
    case VT_I4:
    case VT_INT:
        least = -((INT64)1 << (bits - 1));
        bits--;
    }
    most = ((INT64)1 << bits) - 1;
    return !large && *number >= least && *number <= most;
}

HRESULT cell_as(const VARIANT *cell, VARTYPE type, VARIANT *made)
{
    HRESULT result;
    INT64 number;
    BOOL large;

    if (V_VT(cell) == type && (width_of(type) || type == VT_BSTR)) {
        *made = *cell;
        return S_OK;
    }
    memset(made, 0, sizeof *made);
    V_VT(made) = type;
    if (V_VT(cell) == VT_EMPTY)
        return S_OK;
    if (type == VT_CY && is_floating(cell)) {
        if ((result = number_as(cell, type, made)) != S_OK || V_VT(made) == VT_CY)
            return result; /* else it is a whole number */
    }
    if (type == VT_BOOL || !width_of(type))
        return DISP_E_TYPEMISMATCH;
    if ((result = whole_cell(cell, &number, &large)) != S_OK)
        return result;
    if (!fit_number(&number, large, type))
        return DISP_E_OVERFLOW;
    memset(made, 0, sizeof *made);
    memcpy(&V_UI8(made), &number, width_of(type));
    V_VT(made) = type;
    return S_OK;
}

/* ---- what scripts have */

#define MOST_DIGITS 40 /* and a sign and a point */

/* As a text: a sign, digits, and a point in front of its places. */
static HRESULT make_text(VARIANT *value, const Decimal *number)
{
    WCHAR text[MOST_DIGITS], *end = text + MOST_DIGITS, *at = end;
    Big left = number->digits;
    int places = 0;

    do {
        *--at = (WCHAR)(L'0' + divide(&left, 10));
        if (++places == number->places)
            *--at = L'.';
    } while (!is_zero(&left) || places <= number->places);
    if (number->is_negative)
        *--at = L'-';
    memset(value, 0, sizeof *value);
    V_BSTR(value) = SysAllocStringByteLen((const char *)at, (UINT)(end - at) * (UINT)sizeof *at);
    if (!V_BSTR(value))
        return E_OUTOFMEMORY;
    V_VT(value) = VT_BSTR;
    return S_OK;
}

/* Whether a floating-point number that is put as a DECIMAL is this one. */
static BOOL is_same(const VARIANT *floating, const Decimal *number)
{
    Decimal whole = {big_of(0), 0, FALSE}, shortest = *number;
    VARIANT made;

    if (number_as(floating, VT_DECIMAL, &made) != S_OK)
        return FALSE;
    if (V_VT(&made) == VT_DECIMAL) {
        whole = decimal_of(&V_DECIMAL(&made));
    } else {
        INT64 told = V_VT(&made) == VT_I4 ? V_I4(&made) : V_I8(&made);

        whole.is_negative = told < 0;
        whole.digits = big_of(told < 0 ? 0 - (UINT64)told : (UINT64)told);
    }
    shorten(&whole);
    shorten(&shortest);
    return !compare(&whole.digits, &shortest.digits) && whole.places == shortest.places &&
           (whole.is_negative == shortest.is_negative || is_zero(&shortest.digits));
}

/* A double, if that is the number, else a text. */
static HRESULT make_for_jscript(VARIANT *value, const Decimal *number)
{
    double nearest = (double)bits_from(&number->digits, 0), power = 1;
    VARIANT made;
    int i;

    for (i = 0; i < number->places; i++)
        power *= 10;
    nearest /= power;
    memset(&made, 0, sizeof made);
    if (number->is_negative)
        nearest = -nearest;
    memcpy(&V_UI8(&made), &nearest, sizeof nearest);
    V_VT(&made) = VT_R8;
    if (number->digits.limbs[2] || !is_same(&made, number))
        return make_text(value, number);
    *value = made;
    return S_OK;
}

HRESULT make_scriptable(VARIANT *value, int how)
{
    INT64 number;
    BOOL large, minus;
    Decimal decimal;

    if ((how & FOR_JSCRIPT) && V_VT(value) == VT_ERROR) {
        V_VT(value) = VT_I4; /* at the same place */
        return S_OK;
    }
    if ((how & FOR_JSCRIPT) && V_VT(value) == VT_DECIMAL) {
        decimal = decimal_of(&V_DECIMAL(value));
        return make_for_jscript(value, &decimal);
    }
    if (V_VT(value) == VT_UI1 || V_VT(value) == VT_I2 || V_VT(value) == VT_I4 ||
        !whole_number(value, &number, &large))
        return S_OK;
    minus = !large && number < 0;
    if (!large && number == (INT32)number) {
        memset(value, 0, sizeof *value);
        V_I4(value) = (INT32)number;
        V_VT(value) = VT_I4;
    } else if (!large && number <= CY_MOST && number >= -CY_MOST) {
        memset(value, 0, sizeof *value);
        V_CY(value).int64 = number * 10000;
        V_VT(value) = VT_CY;
    } else {
        make_decimal(value, 0, minus ? 0 - (UINT64)number : (UINT64)number, 0, minus);
        return how & FOR_JSCRIPT ? make_scriptable(value, how) : S_OK;
    }
    return S_OK;
}

/* ---- the cell of an array that is at fault */

HRESULT find_misfit(const SAFEARRAY *array, VARTYPE own, VARTYPE declared, int how, UINT32 *place,
                    const VARIANT **cell, VARIANT *room)
{
    VARTYPE wanted = declared & (VARTYPE)~VT_ARRAY;
    UINT32 count = array && array->pvData ? 1 : 0, i;
    VARIANT made, text;
    HRESULT result;

    for (i = 0; array && i < array->cDims; i++)
        count *= array->rgsabound[i].cElements;
    if (own != VT_VARIANT && own != VT_R4 && own != VT_R8)
        count = 0;
    for (i = 0; i < count; i++) {
        if (own == VT_VARIANT) {
            if (!(*cell = value_behind((const VARIANT *)array->pvData + i, room)))
                return S_OK;
        } else {
            memset(room, 0, sizeof *room);
            memcpy(&V_UI8(room), (const BYTE *)array->pvData + (size_t)i * width_of(own),
                   width_of(own));
            V_VT(room) = own;
            *cell = room;
        }
        *place = i;
        if (!(declared & VT_ARRAY))
            wanted = VT_VARIANT;
        if (wanted == VT_VARIANT) {
            result = number_as(*cell, VT_VARIANT, &made);
            if (result == S_FALSE && (V_VT(*cell) == VT_DATE || V_VT(*cell) == VT_DISPATCH ||
                                      V_VT(*cell) == VT_UNKNOWN || (V_VT(*cell) & VT_ARRAY)))
                result = DISP_E_BADVARTYPE;
        } else if ((how & WITH_TEXTS) && (result = text_as(*cell, wanted, &text)) != S_FALSE) {
            if (result == S_OK)
                result = cell_as(&text, wanted, &made);
        } else {
            result = cell_as(*cell, wanted, &made);
        }
        if (FAILED(result))
            return result;
    }
    return S_OK;
}
