/* Literals of floats are read and spelled.
 *
 * Pointers: a literal is part of a `bytes` object that the caller holds, so a byte comes after it that may be looked at: in a line what
 * ends the literal, or the NUL at the end of the object. Where text is put, there is room for SPELLED bytes. */
#include "fast.h"
#include <float.h>

static const double tens[] = { 1e0, 1e1, 1e2, 1e3, 1e4, 1e5, 1e6, 1e7, 1e8, 1e9, 1e10, 1e11, 1e12, 1e13, 1e14, 1e15, 1e16, 1e17, 1e18,
                               1e19, 1e20, 1e21, 1e22 };

/* The float nearest to a literal, and whether `float.__repr__` is sure to spell it so. A byte follows that is in no literal. -1 and a
 * Python error where it fails.
 *
 * Up to 15 digits the number and the power of ten are doubles, and one division rounds correctly. Up to 19 they are long doubles of 64
 * bits: the quotient, cut to a double, is rounded twice, which matters only where the first lies midway between two doubles. */
double double_of(lp_text literal, bool *is_plain) {
    const uint8_t *at = literal.at, *end = at + literal.len;
    const bool is_minus = *at == '-';
    uint64_t number = 0;
    size_t digits = 0, after = 0;
    bool point = false;
    at += is_minus;
    const uint8_t *first = at;
    for (; at < end && digits < 20; at++) {
        if (*at == '.') {
            point = true;
        } else if ((uint8_t)(*at - '0') <= 9) {
            number = number * 10 + (uint8_t)(*at - '0');
            digits += number != 0;
            after += point;
        } else {
            break;
        }
    }
    *is_plain = false;
    if (at == end && digits <= 15 && after <= 22) {
        const double value = (double)number / tens[after];
        *is_plain = after > 0 && (after == 1 || end[-1] != '0') && (*first != '0' || first[1] == '.') && (value >= 1e-4 || number == 0);
        return is_minus ? -value : value;
    }
#if LDBL_MANT_DIG == 64 && defined __BYTE_ORDER__ && __BYTE_ORDER__ == __ORDER_LITTLE_ENDIAN__
    static const long double long_tens[] = { 1e0L, 1e1L, 1e2L, 1e3L, 1e4L, 1e5L, 1e6L, 1e7L, 1e8L, 1e9L, 1e10L, 1e11L, 1e12L, 1e13L,
                                             1e14L, 1e15L, 1e16L, 1e17L, 1e18L, 1e19L, 1e20L, 1e21L, 1e22L, 1e23L, 1e24L, 1e25L, 1e26L,
                                             1e27L };
    if (at == end && digits <= 19 && after <= 27) {
        const long double quotient = (long double)number / long_tens[after];
        uint64_t mantissa;
        memcpy(&mantissa, &quotient, sizeof mantissa);
        if ((mantissa & 0x7FF) != 0x400) return (double)(is_minus ? -quotient : quotient);
    }
#endif
    return PyOS_string_to_double((const char *)literal.at, (char **)&at, NULL);
}


/* A decimal: `digits` / 10^`after`. */
typedef struct { uint64_t digits; int after; } Decimal;

/* A float from 1e-4 up to 1e15: `mantissa` * 2^-`shift`, and the power of ten that makes it a number of 15 digits before the point. */
typedef struct { double value; uint64_t mantissa; int shift, power; } Parts;

static Parts parts_of(double value) {
    Parts parts = { value, 0, 0, 0 };
    memcpy(&parts.mantissa, &value, sizeof value);
    const int exponent = (int)(parts.mantissa >> 52) - 1023;
    parts.mantissa = (parts.mantissa & (((uint64_t)1 << 52) - 1)) | (uint64_t)1 << 52;
    parts.shift = 52 - exponent;
    parts.power = 14 - exponent * 1233 / 4096 + (exponent < 0);
    parts.power -= value * tens[parts.power] >= 1e15;
    return parts;
}

/* The decimal of at most 15 digits that is read as this float, if there is one. No two of so few digits are read as one float, so it is
 * the shortest. */
static bool short_decimal(const Parts *parts, Decimal *decimal) {
    decimal->digits = (uint64_t)(parts->value * tens[parts->power] + 0.5);
    decimal->after = parts->power;
    return (double)decimal->digits / tens[parts->power] == parts->value;
}

/* The decimal of 16 digits that is nearest to a float, if it is read as this float, or else that of 17. False also where two are as near,
 * or a decimal lies midway between two floats. The float times 10^(`power` + 2) * 2^`shift` is a whole number of less than 120 bits. */
static bool long_decimal(const Parts *parts, Decimal *decimal) {
#ifdef __SIZEOF_INT128__
    typedef unsigned __int128 Wide;
    const uint64_t ten = (uint64_t)tens[parts->power];
    const Wide number = (Wide)ten * 100 * parts->mantissa, half = (Wide)ten * 50, unit = (Wide)1 << parts->shift;
    const uint64_t whole = (uint64_t)(number >> parts->shift);
    const Wide rest = number & (unit - 1), below = whole % 10 * unit + rest, above = 10 * unit - below;
    const Wide near = below < above ? below : above;
    decimal->digits = near < half ? whole / 10 + (above < below) : whole + (rest > unit / 2);
    decimal->after = parts->power + (near < half ? 1 : 2);
    return parts->mantissa != (uint64_t)1 << 52 && below != above && near != half && rest != unit / 2;
#else
    (void)parts;
    (void)decimal;
    return false;
#endif
}

/* Puts a decimal with a point, and at least one digit on each side of it. */
static size_t put_decimal(Decimal decimal, char *out) {
    char text[SPELLED], *at = text + SPELLED;
    for (int i = 0; i <= decimal.after || decimal.digits > 0; i++) {
        if (i == decimal.after) *--at = '.';
        *--at = (char)('0' + decimal.digits % 10);
        decimal.digits /= 10;
    }
    memcpy(out, at, (size_t)(text + SPELLED - at));
    return (size_t)(text + SPELLED - at);
}

/* Spells a float by Python's own function. */
static size_t spell_any(double value, char *out) {
    char *text = PyOS_double_to_string(value, 'r', 0, Py_DTSF_ADD_DOT_0, NULL);
    const size_t len = text ? strlen(text) : 0;
    if (len <= SPELLED) memcpy(out, text ? text : "", len);
    PyMem_Free(text);
    return len;
}

size_t spell_own(double value, char *out) {
    uint64_t bits;
    memcpy(&bits, &value, sizeof value);
    const bool is_minus = bits >> 63;
    const double size = is_minus ? -value : value;
    Decimal decimal = { 0, 1 };
    if (size != 0) {
        if (!(size >= 1e-4 && size < 1e15)) return 0;
        const Parts parts = parts_of(size);
        if (!short_decimal(&parts, &decimal) && !long_decimal(&parts, &decimal)) return 0;
    }
    while (decimal.after > 1 && decimal.digits % 10 == 0) {
        decimal.digits /= 10;
        decimal.after--;
    }
    if (decimal.after == 0) {
        decimal.digits *= 10;
        decimal.after = 1;
    }
    *out = '-';
    return is_minus + put_decimal(decimal, out + is_minus);
}

size_t spell(double value, char *out) {
    const size_t len = spell_own(value, out);
    return len > 0 ? len : spell_any(value, out);
}
