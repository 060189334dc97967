/* Prints all that the library tells of each text of standard input, a line of hexadecimal digits, in each dialect: the items with their
 * parts, floats as the bits of their numbers, whether the line is admitted and what is written for it, and what is rebuilt of the text.
 * checks/arm64.sh compares what this prints on two processors. */
#define _POSIX_C_SOURCE 200809L
#include "influxdb_line_protocol.h"
#include <inttypes.h>
#include <stdio.h>
#include <stdlib.h>
#include <string.h>

enum { PARTS = 4096, ROOM = 1 << 20 };
static lp_part parts[PARTS];
static uint8_t copies[ROOM], batch[ROOM], faults[ROOM];

static void put(const char *front, lp_text text) {
    printf("%s%zu:", front, text.len);
    fwrite(text.at, 1, text.len, stdout);
}

static void put_part(const lp_part *part) {
    double value = 0;
    uint64_t bits;
    put(part->key.copied ? " c" : " s", part->key.text);
    put(part->text.copied ? "=c" : "=s", part->text.text);
    if (part->kind == LP_FLOAT && !lp_float_value(part->text.text.at, part->text.text.len, &value)) printf(" no float");
    memcpy(&bits, &value, sizeof bits);
    printf(" %u %" PRId64 " %" PRIu64 " %d %" PRIx64, (unsigned)part->kind, part->integer, part->unsigned_integer, part->boolean, bits);
}

static void put_line(const lp_line *line, uint32_t dialect) {
    size_t count = line->tags + line->fields, len = 0;
    bool admitted = false;
    put(line->measurement.copied ? "c" : "s", line->measurement.text);
    put(line->series_is_base ? " base" : " series", line->series);
    for (size_t at = 0; at < count; at++) put_part(&parts[at]);
    printf(" at %d %" PRId64, line->has_timestamp, line->timestamp);
    uint32_t answer = lp_line_is_admitted(dialect, line, parts, count, &admitted);
    printf(" admitted %u %d", (unsigned)answer, admitted);
    answer = lp_line_write(dialect, line, parts, count, batch, ROOM, &len);
    printf(" written %u", (unsigned)answer);
    if (answer == LP_WRITTEN) put(" ", (lp_text){ batch, len });
    puts("");
}

static void put_fault(const lp_line *line) {
    size_t len = 0;
    uint32_t answer = lp_fault_message(line, faults, ROOM, &len);
    printf("fault %u %u %u", (unsigned)line->fault, (unsigned)line->side, (unsigned)answer);
    put(" ", (lp_text){ faults, len });
    puts("");
}

static void put_items(lp_text text, uint32_t dialect) {
    lp_lines lines = LP_NO_LINES;
    lp_line line = LP_EMPTY_LINE;
    lp_room room = { copies, ROOM };
    uint32_t answer = LP_END;
    if (!lp_lines_begin(text.at, text.len, dialect, &lines)) printf("is not UTF-8\n");
    while ((answer = lp_lines_next(&lines, &room, &line, parts, PARTS)) == LP_LINE || answer == LP_FAULT) {
        if (answer == LP_LINE) put_line(&line, dialect);
        else put_fault(&line);
    }
    printf("ends with %u, room %zu\n", (unsigned)answer, room.len);
}

static void put_rebuilt(lp_text text, uint32_t dialect) {
    lp_counts counts = { 0, 0, 0, 0 };
    uint32_t answer = lp_rebuild(dialect, text.at, text.len, batch, ROOM, faults, ROOM, &counts);
    printf("rebuilt %u %zu %zu", (unsigned)answer, counts.carried, counts.refused);
    if (answer == LP_WRITTEN) put(" ", (lp_text){ batch, counts.batch_len }), put(" ", (lp_text){ faults, counts.faults_len });
    puts("");
}

/* The text of a line of digits, in the place of the digits. */
static lp_text text_of(char *digits) {
    lp_text text = { (uint8_t *)digits, strcspn(digits, "\n") / 2 };
    for (size_t at = 0; at < text.len; at++) {
        char pair[3] = { digits[2 * at], digits[2 * at + 1], 0 };
        digits[at] = (char)strtoul(pair, NULL, 16);
    }
    return text;
}

int main(void) {
    char *digits = NULL;
    size_t size = 0;
    lp_empty_parts(parts, PARTS);
    while (getline(&digits, &size, stdin) > 0) {
        lp_text text = text_of(digits);
        for (uint32_t dialect = LP_CRATE; dialect <= LP_NEWLINE_DELIMITED; dialect++) {
            put_items(text, dialect);
            put_rebuilt(text, dialect);
        }
    }
    free(digits);
    return 0;
}
