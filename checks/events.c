/* Compares, of every text of at most so many bytes over eleven that mean something after a front, in each dialect: the items that events tell, to
   a sink and one after another, and those of the blocks of lp_c, with the items of `parse_lines_in`; and the pieces that the splitter finds
   by jumps with those that are found here byte by byte. These are a hundred million calls, for which Python would take five minutes more;
   `events.py` has the fronts, and calls this. */
#include "lp_checks.h"

#include <stdio.h>
#include <stdlib.h>
#include <string.h>

/* `m` is in names and begins no value; `1` and `i` are in names and in values. */
static const char BYTES[] = {'m', ',', '=', ' ', '"', '\\', '\n', '1', 'i', '#', '\t'};

enum { KINDS = sizeof BYTES, TEXT = 256, ROOM = 1 << 12, ENTRIES = 64 };

/* Items, an entry each. */
struct items { uint64_t count, ends[ENTRIES]; uint8_t out[ROOM]; };

static struct items by_events, by_pull, by_blocks, by_parse, by_jumps, by_bytes;
static uint64_t texts, lines, faults;

enum dialect { CRATE, STRICT, NEWLINE_DELIMITED, DIALECTS };

static const char *const NAMES[DIALECTS] = {"crate's", "strict", "newline-delimited"};

static bool fail(const char *what, const char *text, size_t len, uint32_t dialect) {
    fprintf(stderr, "events: in the %s dialect other %s of the text of the bytes", NAMES[dialect], what);
    for (size_t at = 0; at < len; at++) fprintf(stderr, " %02x", (unsigned)text[at]);
    fputc('\n', stderr);
    return false;
}

static size_t len_of(const struct items *items) { return items->count ? (size_t)items->ends[items->count - 1] : 0; }

static bool fits(const struct items *items) { return items->count <= ENTRIES && len_of(items) <= ROOM; }

static bool is_same(const struct items *items, const struct items *wanted) {
    return fits(items) && fits(wanted) && items->count == wanted->count &&
           !memcmp(items->ends, wanted->ends, wanted->count * sizeof wanted->ends[0]) &&
           !memcmp(items->out, wanted->out, len_of(wanted));
}

/* How long the first piece of a text is. */
static size_t first_piece(uint32_t dialect, const char *text, size_t len) {
    size_t blanks = 0, equals = 0, commas = 0;
    while (blanks < len && (text[blanks] == ' ' || text[blanks] == '\t')) blanks++;
    const bool is_comment = dialect == STRICT && blanks < len && text[blanks] == '#';
    const bool each_ends = dialect == NEWLINE_DELIMITED || is_comment;
    bool is_head = true, is_quoted = false, is_escaped = false;
    for (size_t at = 0; at < len; at++) {
        const char byte = text[at];
        if (byte == '\n' && (each_ends || (!is_quoted && !is_escaped))) return at;
        if (is_escaped || byte == '\\') is_escaped = !is_escaped;
        else if (is_quoted) is_quoted = byte != '"';
        else if (is_head) is_head = byte != ' ';
        else if (byte == '"') is_quoted = equals > commas;
        else equals += byte == '=', commas += byte == ',';
    }
    return len;
}

/* Cuts a text into its pieces, byte by byte. */
static void cut(uint32_t dialect, const char *text, size_t len, struct items *into) {
    size_t filled = 0;
    into->count = 0;
    for (size_t at = 0; at <= len; at++) {
        const size_t piece = first_piece(dialect, text + at, len - at);
        memcpy(into->out + filled, text + at, piece);
        into->ends[into->count++] = filled += piece;
        at += piece;
    }
}

static void count_items(void) {
    for (uint64_t place = 0; place < by_parse.count; place++) {
        const uint8_t *entry = by_parse.out + (place ? by_parse.ends[place - 1] : 0);
        if (memcmp(entry, "line ", 5)) faults++;
        else lines++;
    }
}

static bool compare(const char *text, size_t len) {
    const uint8_t *bytes = (const uint8_t *)text;
    for (uint32_t dialect = 0; dialect < DIALECTS; dialect++) {
        by_parse.count = lp_checks_items(LP_ITEMS, dialect, bytes, len, by_parse.out, ROOM, by_parse.ends, ENTRIES);
        by_events.count = lp_checks_items(LP_EVENTS, dialect, bytes, len, by_events.out, ROOM, by_events.ends, ENTRIES);
        by_pull.count = lp_checks_items(LP_PULLED, dialect, bytes, len, by_pull.out, ROOM, by_pull.ends, ENTRIES);
        by_blocks.count = rows_items(dialect, bytes, len, by_blocks.out, ROOM, by_blocks.ends, ENTRIES);
        by_jumps.count = rows_pieces(dialect, bytes, len, by_jumps.out, ROOM, by_jumps.ends, ENTRIES);
        cut(dialect, text, len, &by_bytes);
        if (!is_same(&by_events, &by_parse) || !is_same(&by_pull, &by_parse)) return fail("items are told", text, len, dialect);
        if (!is_same(&by_blocks, &by_parse)) return fail("items are in blocks", text, len, dialect);
        if (!is_same(&by_jumps, &by_bytes)) return fail("pieces come", text, len, dialect);
        count_items();
    }
    texts++;
    return true;
}

/* Each text of at most so many bytes after the first `len` bytes of `text`. */
static bool compare_each(char *text, size_t len, int most) {
    bool is_right = compare(text, len);
    for (size_t kind = 0; kind < KINDS && most > 0 && is_right; kind++) {
        text[len] = BYTES[kind];
        is_right = compare_each(text, len + 1, most - 1);
    }
    return is_right;
}

/* Whether all is the same of each text of at most so many bytes after a front, which is short; and how many texts, lines and faults these are. */
bool events_agree(const char *front, size_t len, int most, uint64_t told[3]);
bool events_agree(const char *front, size_t len, int most, uint64_t told[3]) {
    char text[TEXT];
    texts = lines = faults = 0;
    memcpy(text, front, len);
    const bool is_right = compare_each(text, len, most);
    told[0] = texts, told[1] = lines, told[2] = faults;
    return is_right;
}
