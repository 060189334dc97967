/* What must hold of every text, in each dialect, for libFuzzer. `checks/fuzz.sh` builds this and runs it. */
#include "lp_checks.h"
#include "influxdb_line_protocol.h"

#include <stdio.h>
#include <stdlib.h>
#include <string.h>

enum { TEXT = 1 << 12, ROOM = 1 << 17, ENTRIES = 1 << 14 };

#define MUST(c)                                       \
    do {                                              \
        if (!(c)) {                                   \
            fprintf(stderr, "broken: %s\n", #c);      \
            abort();                                  \
        }                                             \
    } while (0)

/* Entries of text, as the library reports them. */
struct report { uint64_t count, ends[ENTRIES]; uint8_t out[ROOM]; };

static size_t start_of(const struct report *report, uint64_t place) {
    return place ? (size_t)report->ends[place - 1] : 0;
}

static size_t len_of(const struct report *report, uint64_t place) {
    return (size_t)report->ends[place] - start_of(report, place);
}

static const uint8_t *entry(const struct report *report, uint64_t place) { return report->out + start_of(report, place); }

static bool is_same(const struct report *a, uint64_t at, const struct report *b, uint64_t bt) {
    return len_of(a, at) == len_of(b, bt) && !memcmp(entry(a, at), entry(b, bt), len_of(a, at));
}

static bool is_text(const struct report *report, uint64_t place, const char *text) {
    return len_of(report, place) == strlen(text) && !memcmp(entry(report, place), text, strlen(text));
}

static bool begins(const struct report *report, uint64_t place, const char *text) {
    return len_of(report, place) >= strlen(text) && !memcmp(entry(report, place), text, strlen(text));
}

/* Nothing was left out for lack of room. */
static void must_fit(const struct report *report) {
    MUST(report->count <= ENTRIES);
    MUST(report->count == 0 || report->ends[report->count - 1] <= ROOM);
}

static void read_items(uint32_t dialect, const uint8_t *text, size_t len, struct report *into) {
    into->count = lp_checks_items(LP_ITEMS, dialect, text, len, into->out, ROOM, into->ends, ENTRIES);
    must_fit(into);
}

static void read_shown(const uint8_t *text, size_t len, struct report *into) {
    into->count = lp_checks_items(LP_SHOWN, 0, text, len, into->out, ROOM, into->ends, ENTRIES);
    must_fit(into);
}

static void rebuild(uint32_t dialect, const uint8_t *text, size_t len, struct report *into) {
    into->count = rows_rebuilt(dialect, text, len, into->out, ROOM, into->ends, ENTRIES);
    MUST(into->count == 3);
    must_fit(into);
}

static struct report pieces, items, one, rebuilt, again, of_batch, all, shown, shown_again;
static uint8_t joined[ROOM + TEXT];

/* The pieces joined by newlines are the text. Each item is that of its piece alone. */
static void check_pieces(uint32_t dialect, const uint8_t *text, size_t len) {
    pieces.count = rows_pieces(dialect, text, len, pieces.out, ROOM, pieces.ends, ENTRIES);
    must_fit(&pieces);
    size_t at = 0;
    uint64_t item = 0;
    for (uint64_t place = 0; place < pieces.count; place++) {
        size_t piece = len_of(&pieces, place);
        MUST(piece <= len - at && !memcmp(text + at, entry(&pieces, place), piece));
        read_items(dialect, text + at, piece, &one);
        MUST(one.count <= 1);
        if (one.count == 1) {
            MUST(item < items.count && is_same(&one, 0, &items, item));
            item++;
        }
        at += piece;
        if (place + 1 < pieces.count) MUST(at < len && text[at++] == '\n');
    }
    MUST(at == len);
    MUST(item == items.count && items.count <= pieces.count && items.count <= len);
}

/* The batch alone reads back as the lines that were carried, and is written again unchanged; before the text its lines
   come first, and then the items of the text. */
static void check_batch(uint32_t dialect, const uint8_t *text, size_t len) {
    const uint8_t *batch = entry(&rebuilt, 0);
    size_t batch_len = len_of(&rebuilt, 0);
    read_items(dialect, batch, batch_len, &of_batch);
    for (uint64_t place = 0; place < of_batch.count; place++) MUST(begins(&of_batch, place, "line "));

    uint64_t lines = 0;
    for (uint64_t place = 0; place < items.count; place++) {
        lines += begins(&items, place, "line ");
        MUST(!is_text(&items, place, "out of memory"));
    }
    MUST(of_batch.count <= lines);
    char counts[64];
    snprintf(counts, sizeof counts, "%llu carried, %llu refused", (unsigned long long)of_batch.count,
             (unsigned long long)(items.count - of_batch.count));
    MUST(is_text(&rebuilt, 2, counts));
    MUST((len_of(&rebuilt, 1) == 0) == (items.count == of_batch.count));

    rebuild(dialect, batch, batch_len, &again);
    MUST(is_same(&again, 0, &rebuilt, 0) && len_of(&again, 1) == 0);

    memcpy(joined, batch, batch_len);
    memcpy(joined + batch_len, text, len);
    read_items(dialect, joined, batch_len + len, &all);
    MUST(all.count == of_batch.count + items.count);
    for (uint64_t place = 0; place < of_batch.count; place++) MUST(is_same(&all, place, &of_batch, place));
    for (uint64_t place = 0; place < items.count; place++) MUST(is_same(&all, of_batch.count + place, &items, place));
}

/* The events of the text tell its items, to a sink and one after another, and blocks of rows have them. */
static void check_events(uint32_t dialect, const uint8_t *text, size_t len) {
    for (int way = 0; way < 3; way++) {
        all.count = way < 2 ? lp_checks_items(way == 0 ? LP_EVENTS : LP_PULLED, dialect, text, len, all.out, ROOM, all.ends, ENTRIES)
                            : rows_items(dialect, text, len, all.out, ROOM, all.ends, ENTRIES);
        must_fit(&all);
        MUST(all.count == items.count);
        for (uint64_t place = 0; place < items.count; place++) MUST(is_same(&all, place, &items, place));
    }
}

/* A comment before the text changes no item. The newline that ends it is escaped, so no piece ends there in the crate's
   dialect; in the others it does. */
static void check_comment(uint32_t dialect, const uint8_t *text, size_t len) {
    memcpy(joined, "#\\\n", 3);
    memcpy(joined + 3, text, len);
    read_items(dialect, joined, len + 3, &all);
    MUST(all.count == items.count);
    for (uint64_t place = 0; place < items.count; place++) MUST(is_same(&all, place, &items, place));
}

/* What is shown of the batch is shown of the text, in the same order. Only the crate's dialect is shown. */
static void check_shown(const uint8_t *text, size_t len) {
    read_shown(text, len, &shown);
    read_shown(entry(&rebuilt, 0), len_of(&rebuilt, 0), &shown_again);
    uint64_t place = 0;
    for (uint64_t wanted = 0; wanted < shown_again.count; wanted++) {
        while (place < shown.count && !is_same(&shown, place, &shown_again, wanted)) place++;
        MUST(place < shown.count);
        place++;
    }
}

/* Runs or relays a text in parts, into `one` and `again`. */
static uint8_t run_or_relay(uint32_t way, uint32_t dialect, const uint8_t *text, size_t len, size_t part, struct lp_told *told) {
    static const char *const letters[] = {"", "s", "n"};
    static uint8_t refused[1];
    uint64_t kinds[LP_KINDS];
    *told = (struct lp_told){0};
    return lp_checks_relay(way, (const uint8_t *)letters[dialect], strlen(letters[dialect]), 0, text, len, text, 0, &part, 1, &told->reader,
                           one.out, ROOM, &part, 0, &told->out, again.out, ROOM, &part, 0, &told->err, refused, 0, &told->pieces, &told->ending, kinds);
}

/* A run writes what `rebuild` gives, and so does a relay, of the text in parts. */
static void check_run(uint32_t dialect, const uint8_t *text, size_t len) {
    static const size_t parts[] = {1, 7, TEXT};
    struct lp_told told;
    for (int i = 0; i < 6; i++) {
        MUST(run_or_relay(i < 3 ? LP_RUN : LP_RELAY, dialect, text, len, parts[i % 3], &told) == 0);
        MUST(told.out.bytes == len_of(&rebuilt, 0) && !memcmp(one.out, entry(&rebuilt, 0), told.out.bytes));
        MUST(told.err.bytes == len_of(&rebuilt, 1) && !memcmp(again.out, entry(&rebuilt, 1), told.err.bytes));
    }
}

/* Bytes that spell calls of the builder are written, and read without harm. */
static void check_builder(const uint8_t *bytes, size_t len) {
    uint64_t refused_at = UINT64_MAX;
    one.count = lp_checks_build(bytes, len, 0, false, &refused_at, one.out, ROOM, one.ends, ENTRIES);
    must_fit(&one);
    MUST(refused_at == UINT64_MAX);
    if (one.count == 1) read_items(false, one.out, (size_t)one.ends[0], &all);
}

int LLVMFuzzerTestOneInput(const uint8_t *bytes, size_t len);

int LLVMFuzzerTestOneInput(const uint8_t *bytes, size_t len) {
    static uint8_t text[TEXT];
    if (len > TEXT) return 0;
    if (len > 0) memcpy(text, bytes, len);
    check_builder(text, len);
    lp_lines lines = LP_NO_LINES;
    if (!lp_lines_begin(text, len, LP_CRATE, &lines)) {
        struct lp_told told;
        MUST(run_or_relay(LP_RUN, 0, text, len, TEXT, &told) == 2);
        MUST(told.out.bytes == 0 && told.err.bytes == 0);
        return 0;
    }
    for (uint32_t dialect = 0; dialect < 3; dialect++) {
        read_items(dialect, text, len, &items);
        check_pieces(dialect, text, len);
        check_events(dialect, text, len);
        rebuild(dialect, text, len, &rebuilt);
        check_batch(dialect, text, len);
        check_comment(dialect, text, len);
        if (dialect == 0) check_shown(text, len);
        check_run(dialect, text, len);
    }
    return 0;
}
