/* What the tests in C share: blocks that are lent, texts that are composed, and a reader of items. Compile heap.c with -DLP_REFUSE. */
#ifndef LP_TESTS_H
#define LP_TESTS_H
#include "influxdb_line_protocol.h"
#include <stdarg.h>
#include <stdio.h>
#include <stdlib.h>
#include <string.h>

#define TEXT(s) { (const uint8_t *)(s), sizeof (s) - 1 }
#define VIEW(s) { TEXT(s), false }
#define COUNT(rows) (sizeof (rows) / sizeof *(rows))

extern long lp_refused, lp_requests;

static int failed;

/* Prints what does not hold. */
static inline bool expect(bool holds, const char *what) {
    if (!holds) printf("%s\n", what), failed = 1;
    return holds;
}

/* A block of just its length, so that the address sanitizer sees what is touched past it. It holds anything. */
static inline void *lend(size_t len) {
    void *block = malloc(len ? len : 1);
    if (!block) abort();
    return memset(block, '~', len ? len : 1);
}

static inline void *copy_of(const void *bytes, size_t len) { return memcpy(lend(len), bytes, len); }

/* Whether the bytes from a place on are those of a block as it was lent. */
static inline bool is_untouched(const uint8_t *block, size_t from, size_t len) {
    while (from < len && block[from] == '~') from++;
    return from >= len;
}

static inline bool equals(const uint8_t *bytes, size_t len, const char *wanted) {
    return len == strlen(wanted) && memcmp(bytes, wanted, len) == 0;
}

/* A text that is composed. */
struct text { uint8_t *at; size_t len, room; };

static inline void put(struct text *text, const void *bytes, size_t len) {
    if (text->room - text->len < len && !(text->at = (uint8_t *)realloc(text->at, text->room = 2 * text->room + len))) abort();
    if (len > 0) memcpy(text->at + text->len, bytes, len);
    text->len += len;
}

/* Puts short words, with values as printf has them. */
static inline void say(struct text *text, const char *words, ...) {
    char said[128];
    va_list values;
    va_start(values, words);
    int len = vsnprintf(said, sizeof said, words, values);
    va_end(values);
    if (len < 0 || len >= (int)sizeof said) abort();
    put(text, said, (size_t)len);
}

/* How items are spelled in checks/tables/answers.tsv. */
static inline void put_text(struct text *out, lp_text text) { put(out, text.at, text.len); }

static inline void put_within(struct text *out, const char *front, lp_text text) {
    say(out, "%s<", front);
    put_text(out, text);
    say(out, ">");
}

static inline void put_view(struct text *out, lp_view view) {
    put_within(out, view.copied ? "C" : "S", view.text);
}

static inline void put_fault(struct text *out, const lp_line *line) {
    static const char *const names[] = {
        "no fault", "DuplicateTag", "MeasurementValueInvalid", "FieldSetMissing", "IntegerValueInvalid", "UIntegerValueInvalid",
        "TimestampValueInvalid", "EndsWithBackslash", "rest", "TagSetMalformed", "TakeWhile1",
    };
    static const char *const sides[] = { "", " Above", " Below" };
    say(out, "%s%s", names[line->fault], sides[line->side]);
    if (line->fault_text.len > 0) put_within(out, " ", line->fault_text);
}

/* Reads items of short texts. */
struct reader { lp_lines lines; lp_line line; lp_part parts[32]; uint8_t bytes[1024]; };

static inline bool begin(struct reader *reader, const void *text, size_t len, uint32_t dialect) {
    lp_empty_parts(reader->parts, COUNT(reader->parts));
    reader->line = lp_empty_line, reader->lines = lp_no_lines;
    return lp_lines_begin((const uint8_t *)text, len, dialect, &reader->lines);
}

static inline uint32_t next(struct reader *reader) {
    lp_room room = { reader->bytes, sizeof reader->bytes };
    return lp_lines_next(&reader->lines, &room, &reader->line, reader->parts, COUNT(reader->parts));
}

/* A call that writes something of a line. */
typedef uint32_t writer(const lp_line *line, const lp_part *parts, size_t parts_len, uint8_t *out, size_t room, size_t *len);

/* lp_line_write in the dialect of the Rust crate. */
static inline uint32_t write_line(const lp_line *line, const lp_part *parts, size_t parts_len, uint8_t *out, size_t room, size_t *len) {
    return lp_line_write(LP_CRATE, line, parts, parts_len, out, room, len);
}
#endif
