/* Sums a field over the lines of each series, by the key of the series, and prints the sums. */
#include "influxdb_line_protocol.h"
#include <search.h>
#include <stddef.h>
#include <stdio.h>
#include <stdlib.h>
#include <string.h>

#define PARTS 16

static bool is_named(const lp_part *part, const char *name) {
    return part->key.text.len == strlen(name) && memcmp(part->key.text.at, name, strlen(name)) == 0;
}

// [sums_in_c]
typedef struct sum { size_t len; uint8_t key[256]; double sum; } sum; /* the bytes after a key are 0 */

static int by_key(const void *one, const void *other) { return memcmp(one, other, offsetof(sum, sum)); }

/* Adds the integers of the field `n` of a line to the sum of its series, in a tree of <search.h>. False: the key is longer than is lent, or
 * there is no memory. */
static bool add_line(const lp_line *line, const lp_part *parts, size_t parts_len, void **sums) {
    sum *made = calloc(1, sizeof *made), **kept = NULL;
    if (made && lp_line_key(line, parts, parts_len, made->key, sizeof made->key, &made->len) == LP_WRITTEN)
        kept = tsearch(made, sums, by_key);
    for (size_t i = line->tags; kept && i < line->tags + line->fields; i++)
        if (parts[i].kind == LP_INTEGER && is_named(&parts[i], "n")) (*kept)->sum += (double)parts[i].integer;
    if (!kept || *kept != made) free(made); /* the series had a sum before */
    return kept != NULL;
}
// [end]

/* Adds up the lines of a text; faults are passed over. False: the text is no UTF-8, or a line or its key takes more than is lent. */
static bool add_lines(const uint8_t *text, size_t len, void **sums) {
    lp_lines lines = LP_NO_LINES;
    lp_line line = LP_EMPTY_LINE;
    lp_part parts[PARTS];
    uint8_t bytes[256];
    uint32_t answer;
    lp_empty_parts(parts, PARTS);
    if (!lp_lines_begin(text, len, LP_CRATE, &lines)) return false;
    do {
        lp_room room = { bytes, sizeof bytes };
        answer = lp_lines_next(&lines, &room, &line, parts, PARTS);
        if (answer == LP_LINE && !add_line(&line, parts, PARTS, sums)) return false;
    } while (answer == LP_LINE || answer == LP_FAULT);
    return answer == LP_END;
}

static void print_sum(const void *node, VISIT visit, int depth) {
    const sum *one = *(sum *const *)node;
    (void)depth;
    if (visit == postorder || visit == leaf) printf("%.*s %g\n", (int)one->len, (const char *)one->key, one->sum);
}

int main(void) {
    const char *text = "cpu,host=a,az=b n=1i\ncpu,az=b,host=a n=2i\ncpu n=4i\n";
    void *sums = NULL;
    const bool good = add_lines((const uint8_t *)text, strlen(text), &sums);
    twalk(sums, print_sum);
    while (sums) {
        sum *one = *(sum **)sums;
        tdelete(one, &sums, by_key);
        free(one);
    }
    return !good;
}
