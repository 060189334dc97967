/* Compares the numbers of literals of floats with the doubles that are nearest to them: of worked literals these are written out in
 * hexadecimal, of others strtod gives them. What is no literal has no number. Compile heap.c with -DLP_REFUSE. */
#include "tests.h"
#include <math.h>

/* Half way between the greatest double and the one that would follow it, without its last digit. */
#define HALF "1797693134862315807937289714053034150799341327100378269361737789804449682927647509466490179775872070" \
    "9633028641669288791094655554785194040263065748867150582068190890200070838367627385484581771153176447" \
    "5730270069855571366959622842914819860834936475292719074168444365510704342711559699508093042880177904" \
    "17449779"

/* Worked literals: the bounds of the doubles and of those with fewer digits, what is half way between two, and what is just beside. */
static const struct row { const char *text; double value; } ROWS[] = {
    { "0", 0.0 }, { "-0", -0.0 }, { "-0.0e5", -0.0 }, { "1", 1.0 }, { "-1.5e3", -1500.0 }, { "007.50", 7.5 },
    { "1e+2", 100.0 }, { "1E-2", 0x1.47ae147ae147bp-7 }, { "0.1", 0x1.999999999999ap-4 }, { "0.3", 0x1.3333333333333p-2 },
    { "1e308", 0x1.1ccf385ebc8ap+1023 }, { "1.7976931348623157e308", 0x1.fffffffffffffp+1023 },
    { "1.7976931348623158e308", 0x1.fffffffffffffp+1023 },
    { HALF "2", INFINITY }, { HALF "1.99", 0x1.fffffffffffffp+1023 },
    { "1.7976931348623159e308", INFINITY }, { "1e400", INFINITY }, { "-1e400", -INFINITY },
    { "2.2250738585072014e-308", 0x1p-1022 }, { "2.2250738585072011e-308", 0x0.fffffffffffffp-1022 },
    { "4.9406564584124654e-324", 0x1p-1074 }, { "5e-324", 0x1p-1074 }, { "2.4703282292062328e-324", 0x1p-1074 },
    { "2.4703282292062327e-324", 0.0 }, { "1e-400", 0.0 }, { "-1e-400", -0.0 }, { "7.4109846876186982e-324", 0x2p-1074 },
    { "9007199254740993", 0x1p+53 }, { "9007199254740993.0000000000000000000000000000001", 0x1.0000000000001p+53 },
    { "9007199254740995", 0x1.0000000000002p+53 }, { "9007199254740994.99999999999999999999999999", 0x1.0000000000001p+53 },
    { "1.00000000000000011102230246251565404236316680908203125", 1.0 },
    { "1.00000000000000011102230246251565404236316680908203124", 1.0 },
    { "1.00000000000000011102230246251565404236316680908203126", 0x1.0000000000001p+0 },
    { "1.00000000000000033306690738754696212708950042724609375", 0x1.0000000000002p+0 },
    { "18446744073709551616", 0x1p+64 }, { "1e23", 0x1.52d02c7e14af6p+76 }, { "8.5e-2000000000000000000000000000000", 0.0 },
    { "0e99999999999999999999", 0.0 }, { "0.000000000000000000000000000000000000000000000000001e51", 1.0 },
};

static const char *const NONE[] = {
    "", "-", "+1", ".5", "5.", "1.e5", "1e", "1e+", "e5", "1i", "1u", "0x1", "inf", "-inf", "nan", "infinity", " 1", "1 ", "1_0",
    "--1", "1.2.3", "1e5.0", "\xc3\xa9", "1\xff", "\xff",
};

/* Whether a text, in a block of just its length, has this number, or none: then the value is as it was. */
static bool has(const char *text, size_t len, bool is_literal, double wanted) {
    double value = 77.0;
    uint8_t *copy = copy_of(text, len);
    bool good = lp_float_value(copy, len, &value) == is_literal && memcmp(&value, &wanted, sizeof value) == 0;
    free(copy);
    if (!good) printf("%.*s is %a, and not %a; ", (int)len, text, value, wanted);
    return good;
}

static bool has_number(const char *text, size_t len, double wanted) { return has(text, len, true, wanted); }
static bool has_none(const char *text, size_t len) { return has(text, len, false, 77.0); }

static uint64_t drawn = 88172645463325252u;

static unsigned draw(unsigned below) {
    drawn ^= drawn << 13, drawn ^= drawn >> 7, drawn ^= drawn << 17;
    return (unsigned)(drawn % below);
}

static size_t put_digits(char *out, size_t count) {
    for (size_t at = 0; at < count; at++) out[at] = (char)('0' + draw(10));
    return count;
}

/* Draws a literal, which ends in a NUL. */
static size_t draw_literal(char *out) {
    static const char *const SIGNS[] = { "", "+", "-" };
    size_t len = 0;
    if (draw(2)) out[len++] = '-';
    len += put_digits(out + len, 1 + draw(draw(8) ? 20 : 400));
    if (draw(2)) out[len++] = '.', len += put_digits(out + len, 1 + draw(draw(8) ? 20 : 800));
    if (draw(2)) len += (size_t)sprintf(out + len, "%c%s%u", draw(2) ? 'e' : 'E', SIGNS[draw(3)], draw(330));
    out[len] = '\0';
    return len;
}

/* An odd number of 54 bits lies half way between two doubles; with anything more it is nearer to the greater one. */
static bool are_ties_right(char *out) {
    uint64_t odd = 0x20000000000001u + ((uint64_t)draw(1u << 20) << 32 | draw(UINT32_MAX)) * 2;
    size_t len = (size_t)sprintf(out, "%llu", (unsigned long long)odd);
    bool good = has_number(out, len, (double)odd);
    len += (size_t)sprintf(out + len, ".%0*d1", (int)draw(200), 0);
    return good & has_number(out, len, (double)(odd + 1));
}

int main(void) {
    static char text[4096];
    bool good = true;
    size_t rows = COUNT(ROWS), count = 100000, ties = 2000;
    for (size_t at = 0; at < rows; at++) good &= has_number(ROWS[at].text, strlen(ROWS[at].text), ROWS[at].value);
    for (size_t at = 0; at < COUNT(NONE); at++) good &= has_none(NONE[at], strlen(NONE[at]));
    good &= has_none("1\0", 2) & has_none("1\n", 2);
    for (size_t at = 0; at < count; at++) {
        size_t len = draw_literal(text);
        good &= has_number(text, len, strtod(text, NULL));
    }
    for (size_t at = 0; at < ties; at++) good &= are_ties_right(text);
    printf("%zu worked literals and %zu ties have the nearest double, and %zu others that of strtod\n", rows, ties, count);
    return !good || lp_requests != 0;
}
