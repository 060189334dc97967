/* Reads lines, and prints each item. */
#include "influxdb_line_protocol.h"
#include <stdio.h>
#include <string.h>

#define TEXT(t) (int)(t).len, (const char *)(t).at

static void print_line(const lp_line *line, const lp_part *part) {
    printf("%.*s:", TEXT(line->measurement.text));
    for (size_t left = line->tags + line->fields; left > 0; left--, part++) {
        printf(" %.*s=", TEXT(part->key.text));
        if (part->kind == LP_INTEGER) printf("%lldi", (long long)part->integer);
        else if (part->kind == LP_UNSIGNED) printf("%lluu", (unsigned long long)part->unsigned_integer);
        else if (part->kind == LP_BOOLEAN) printf(part->boolean ? "true" : "false");
        else printf("%.*s%s", TEXT(part->text.text), part->text.copied ? " (a copy)" : "");
    }
    if (line->has_timestamp) printf(" at %lld", (long long)line->timestamp);
    if (line->series_is_base) printf(" of %.*s", TEXT(line->series)); /* else lp_line_base puts out its base */
    printf("\n");
}

static void print_fault(const lp_line *line) {
    printf("fault %u <%.*s>\n", (unsigned)line->fault, TEXT(line->fault_text));
}

/* Prints each line of a text, and each fault. False: the text is no UTF-8, or a line takes more than is lent. */
static bool print_lines(const uint8_t *text, size_t len) {
    lp_lines lines = LP_NO_LINES;
    lp_line line = LP_EMPTY_LINE;
    uint32_t answer;
    lp_part parts[8];  /* lent for the tags and fields of a line */
    uint8_t bytes[64]; /* and for those of its texts that hold escapes, without them */
    lp_empty_parts(parts, 8);
    if (!lp_lines_begin(text, len, LP_CRATE, &lines)) return false;
    // [reading_in_c]
    do {
        lp_room room = { bytes, sizeof bytes };
        answer = lp_lines_next(&lines, &room, &line, parts, 8);
        if (answer == LP_LINE) print_line(&line, parts);
        if (answer == LP_FAULT) print_fault(&line);
    } while (answer == LP_LINE || answer == LP_FAULT);
    // [end]
    return answer == LP_END;
}

int main(void) {
    const char *text = "cpu,host=A\\ B,zone=w usage=64i,load=1.5e3,up=t,n=7u 5\nm 5\n# a comment\nm f=9223372036854775808i\ndisk,host=A f=1i\n";
    return !print_lines((const uint8_t *)text, strlen(text));
}
