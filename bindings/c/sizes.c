/* Hands names, strings and copies of up to a million bytes and lines of up to a hundred thousand tags and fields over the border,
 * each to every call that may answer that memory is out, and rebuilds a text of four million bytes. What must come is composed
 * here, by the rules of docs/FORMAT.md. Each block that is lent has just the length that is needed. Then it reads and cuts a million
 * short lines, and sees that the time of each call grows as the text does. */
#include "growth.h"
#include "tests.h"

enum { LONGEST = 1048577 };
enum order { RISING, FALLING, REPEATED };

/* A line: how many bytes each of its names and strings has, and how many tags and fields it has; whether it has a timestamp; whether
 * names hold spaces, and strings quotes, which are spelled with a backslash; and how the keys of its tags come: the last one may repeat
 * the first. */
struct shape { size_t bytes, tags, fields; bool stamped, escaped; enum order order; };

/* What is lent to read two lines. */
struct lent { lp_row rows[2]; lp_part *parts; uint8_t *bytes; };

static bool must(bool holds, const char *what, const struct shape *shape) {
    if (!holds) fprintf(stderr, "sizes: %s is wrong: %zu bytes, %zu tags, %zu fields, stamped %d, escaped %d, order %d\n", what,
                        shape->bytes, shape->tags, shape->fields, shape->stamped, shape->escaped, (int)shape->order);
    return holds;
}

/* The name or string of this kind and number: letters, and six digits at the end where it is longer than they are. */
static const uint8_t *name_of(const struct shape *shape, char kind, size_t number) {
    static uint8_t name[LONGEST + 1];
    const uint8_t known = kind == 's' ? '"' : ' ';
    for (size_t at = 0; at < shape->bytes; at++) {
        name[at] = shape->escaped && at % 64 == 0 ? known : (uint8_t)('a' + ((size_t)kind + at) % 26);
    }
    if (shape->bytes > 6) snprintf((char *)name + shape->bytes - 6, 7, "%06zu", number);
    return name;
}

/* Puts that name or string, with its escapes where it is spelled. */
static void put_name(struct text *text, const struct shape *shape, char kind, size_t number, bool spelled) {
    const uint8_t *name = name_of(shape, kind, number);
    for (size_t at = 0; at < shape->bytes; at++) {
        if (spelled && (name[at] == ' ' || name[at] == '"')) put(text, "\\", 1);
        put(text, &name[at], 1);
    }
}

/* The number of the tag at this place. */
static size_t tag_number(const struct shape *shape, size_t at) {
    if (shape->order == FALLING) return shape->tags - 1 - at;
    return shape->order == REPEATED && at == shape->tags - 1 ? 0 : at;
}

/* The number of the tag at this place in the order of the keys, in which equal keys stay in their order. */
static size_t sorted_number(const struct shape *shape, size_t at) {
    return shape->order == REPEATED ? (at == 0 ? 0 : at - 1) : at;
}

/* Puts measurement and tags, with their escapes or without, the tags as they come or in the order of their keys. */
static void put_tags(struct text *text, const struct shape *shape, bool spelled, size_t (*number_of)(const struct shape *, size_t)) {
    put_name(text, shape, 'm', 0, spelled);
    for (size_t at = 0; at < shape->tags; at++) {
        const size_t number = number_of(shape, at);
        put(text, ",", 1);
        put_name(text, shape, 'k', number, spelled);
        put(text, "=", 1);
        put_name(text, shape, 'v', number, spelled);
    }
}

/* Puts measurement and tags: as they are spelled, or without escapes and in the order of their keys. */
static void put_series(struct text *text, const struct shape *shape, bool spelled) {
    put_tags(text, shape, spelled, spelled ? tag_number : sorted_number);
}

/* Puts a line: its series; its fields, by turns a string, in these quotes, and an integer; and a timestamp, if it has one. */
static void put_line(struct text *text, const struct shape *shape, const char *quote) {
    put_series(text, shape, true);
    for (size_t at = 0; at < shape->fields; at++) {
        put(text, at ? "," : " ", 1);
        put_name(text, shape, 'f', at, true);
        put(text, "=", 1);
        if (at % 2) {
            say(text, "-%zui", at);
            continue;
        }
        say(text, "%s", quote);
        put_name(text, shape, 's', at, true);
        say(text, "%s", quote);
    }
    if (shape->stamped) put(text, " -7", 3);
}

/* Whether a text that holds an escape and more is a copy: one escape alone is a part of the input. */
static bool has_copies(const struct shape *shape) { return shape->escaped && shape->bytes > 1; }

static bool shows(const lp_view *view, const struct shape *shape, char kind, size_t number) {
    return view->copied == has_copies(shape) && view->text.len == shape->bytes &&
           memcmp(view->text.at, name_of(shape, kind, number), shape->bytes) == 0;
}

static bool shows_parts(const lp_part *parts, const struct shape *shape) {
    bool good = true;
    for (size_t at = 0; at < shape->tags; at++) {
        size_t number = tag_number(shape, at);
        good &= parts[at].kind == LP_TAG && shows(&parts[at].key, shape, 'k', number) && shows(&parts[at].text, shape, 'v', number);
    }
    parts += shape->tags;
    for (size_t at = 0; at < shape->fields; at++) {
        good &= shows(&parts[at].key, shape, 'f', at) && parts[at].kind == (at % 2 ? LP_INTEGER : LP_STRING);
        good &= at % 2 ? parts[at].integer == -(int64_t)at : shows(&parts[at].text, shape, 's', at);
    }
    return good;
}

static bool shows_line(const lp_line *line, const lp_part *parts, const struct shape *shape) {
    return line->tags == shape->tags && line->fields == shape->fields && line->has_tag_set == (shape->tags > 0) &&
           line->has_timestamp == shape->stamped && line->timestamp == (shape->stamped ? -7 : 0) &&
           shows(&line->measurement, shape, 'm', 0) && shows_parts(parts, shape);
}

/* Reads the line by itself, with nothing lent, then a byte too little, then just enough. */
static bool reads_next(const struct text *text, const struct shape *shape, struct lent *lent) {
    const size_t parts_len = shape->tags + shape->fields;
    const size_t copied = has_copies(shape) ? (1 + 2 * shape->tags + shape->fields + (shape->fields + 1) / 2) * shape->bytes : 0;
    lp_lines lines = LP_NO_LINES;
    lp_line *line = &lent->rows[0].line;
    bool good = must(lp_lines_begin(text->at, text->len, LP_CRATE, &lines), "lp_lines_begin", shape);
    lp_room room = { lent->bytes, 0 };
    good &= must(lp_lines_next(&lines, &room, line, lent->parts, 0) == LP_MORE_PARTS, "LP_MORE_PARTS", shape);
    good &= must(line->tags + line->fields == parts_len && line->copied_len == copied, "how much a line takes", shape);
    free(lent->parts), free(lent->bytes);
    lent->parts = lend(2 * parts_len * sizeof *lent->parts), lent->bytes = lend(2 * copied);
    lp_empty_parts(lent->parts, 2 * parts_len);
    room = (lp_room){ lent->bytes, copied ? copied - 1 : 0 };
    if (copied) good &= must(lp_lines_next(&lines, &room, line, lent->parts, parts_len) == LP_MORE_ROOM, "LP_MORE_ROOM", shape);
    room = (lp_room){ lent->bytes, copied };
    good &= must(lp_lines_next(&lines, &room, line, lent->parts, parts_len) == LP_LINE, "lp_lines_next", shape);
    good &= must(shows_line(line, lent->parts, shape), "the line of lp_lines_next", shape);
    return good & must(lp_lines_next(&lines, &room, line, lent->parts, parts_len) == LP_END, "LP_END", shape);
}

/* Reads the line twice in one block, with just enough lent. */
static bool reads_block(const struct text *twice, const struct shape *shape, struct lent *lent) {
    const size_t parts_len = shape->tags + shape->fields, copied = lent->rows[0].line.copied_len;
    lp_lines lines = LP_NO_LINES;
    size_t filled = 77;
    lp_room room = { lent->bytes, 2 * copied };
    bool good = must(lp_lines_begin(twice->at, twice->len, LP_STRICT, &lines), "lp_lines_begin", shape);
    good &= must(lp_lines_block(&lines, &room, lent->rows, 2, lent->parts, 2 * parts_len, &filled) == LP_LINE, "lp_lines_block", shape);
    good &= must(filled == 2 && lent->rows[1].parts_at == parts_len && room.len == 0, "what a block takes", shape);
    good &= must(shows_line(&lent->rows[0].line, lent->parts, shape), "the first row", shape);
    return good & must(shows_line(&lent->rows[1].line, lent->parts + parts_len, shape), "the second row", shape);
}

/* Reads a fault whose text has so many bytes, with a byte too little lent, and with just enough. */
static bool reads_fault(const struct shape *shape) {
    const size_t len = shape->bytes + 1;
    struct text text = { NULL, 0, 0 };
    lp_lines lines = LP_NO_LINES;
    lp_line line = LP_EMPTY_LINE;
    lp_part part = LP_EMPTY_PART;
    uint8_t *bytes = lend(len);
    say(&text, "m f=t ");
    put(&text, name_of(shape, 'm', 0), shape->bytes);
    bool good = must(lp_lines_begin(text.at, text.len, LP_CRATE, &lines), "lp_lines_begin", shape);
    good &= must(lp_lines_next(&lines, &(lp_room){ bytes, len - 1 }, &line, &part, 1) == LP_MORE_ROOM, "a fault without room", shape);
    good &= must(lp_lines_next(&lines, &(lp_room){ bytes, len }, &line, &part, 1) == LP_FAULT, "a fault", shape);
    good &= must(line.fault == LP_CANNOT_PARSE_ENTIRE_LINE && line.fault_text.len == len &&
                 memcmp(line.fault_text.at, text.at + 5, len) == 0, "the text of a fault", shape);
    free(bytes);
    free(text.at);
    return good;
}

/* lp_line_write by the strict rules. */
static uint32_t write_strict(const lp_line *line, const lp_part *parts, size_t parts_len, uint8_t *out, size_t room, size_t *len) {
    return lp_line_write(LP_STRICT, line, parts, parts_len, out, room, len);
}

/* Puts a text out into a buffer that is a byte too short, and into one of just its length. */
static bool puts_out(writer *write, const struct lent *lent, uint32_t wanted, const struct text *text, const char *what,
                     const struct shape *shape) {
    const lp_line *line = &lent->rows[0].line;
    const size_t parts_len = shape->tags + shape->fields;
    uint8_t *out = lend(text->len);
    size_t len = 77;
    bool good = write(line, lent->parts, parts_len, out, text->len - 1, &len) == LP_MORE_ROOM && len == text->len;
    len = 77;
    good &= write(line, lent->parts, parts_len, out, text->len, &len) == wanted && len == text->len;
    good &= memcmp(out, text->at, text->len) == 0;
    free(out);
    return must(good, what, shape);
}

/* Puts out the line; the base, as the line spells it, where the keys rise and no text is a copy, or without escapes, in the order of the keys;
 * the base of a line whose measurement and tags are said to be copies; and the key, with its escapes, in the order of the keys, of which the
 * repeated one has its two tags. */
static bool puts_all(const struct text *written, const struct shape *shape, struct lent *lent) {
    enum { SHOWN, KEY, BASE, UNESCAPED, OUTS };
    struct text outs[OUTS] = { { NULL, 0, 0 } };
    const uint32_t wanted = shape->order == REPEATED ? LP_FAULT : LP_WRITTEN;
    put_line(&outs[SHOWN], shape, "");
    put_tags(&outs[KEY], shape, true, sorted_number);
    if (shape->order == REPEATED) put_name(&outs[UNESCAPED], shape, 'k', 0, false);
    else put_series(&outs[UNESCAPED], shape, false);
    if (shape->order == RISING && !has_copies(shape)) put_series(&outs[BASE], shape, true);
    else put(&outs[BASE], outs[UNESCAPED].at, outs[UNESCAPED].len);
    bool good = puts_out(write_strict, lent, LP_WRITTEN, written, "lp_line_write", shape);
    good &= puts_out(lp_line_show, lent, LP_WRITTEN, &outs[SHOWN], "lp_line_show", shape);
    good &= puts_out(lp_line_base, lent, wanted, &outs[BASE], "lp_line_base", shape);
    good &= puts_out(lp_line_key, lent, LP_WRITTEN, &outs[KEY], "lp_line_key", shape);
    lent->rows[0].line.measurement.copied = true;
    for (size_t at = 0; at < shape->tags; at++) lent->parts[at].key.copied = lent->parts[at].text.copied = true;
    good &= puts_out(lp_line_base, lent, wanted, &outs[UNESCAPED], "lp_line_base of copies", shape);
    for (size_t at = 0; at < OUTS; at++) free(outs[at].at);
    return good;
}

/* Whether the line that is handed in is told as admitted; with this view in the place of one of its own it is not, and is not written. */
static bool is_admitted_but_with(const struct shape *shape, struct lent *lent, lp_view *place) {
    const lp_line *line = &lent->rows[0].line;
    const size_t parts_len = shape->tags + shape->fields;
    const lp_view kept = *place;
    bool admitted = false;
    size_t len = 77;
    uint8_t out = '~';
    bool good = lp_line_is_admitted(LP_CRATE, line, lent->parts, parts_len, &admitted) == LP_WRITTEN && admitted;
    *place = (lp_view)VIEW("a\t");
    good &= lp_line_is_admitted(LP_CRATE, line, lent->parts, parts_len, &admitted) == LP_WRITTEN && !admitted;
    good &= write_strict(line, lent->parts, parts_len, &out, 1, &len) == LP_NOT_ADMITTED && len == 77 && out == '~';
    *place = kept;
    return good;
}

/* Whether the line is admitted, and with a measurement, a last tag or a last field whose name is not. */
static bool is_tested(const struct shape *shape, struct lent *lent) {
    const size_t parts_len = shape->tags + shape->fields;
    bool good = is_admitted_but_with(shape, lent, &lent->rows[0].line.measurement);
    if (shape->tags > 0) good &= is_admitted_but_with(shape, lent, &lent->parts[shape->tags - 1].text);
    good &= is_admitted_but_with(shape, lent, &lent->parts[parts_len - 1].key);
    return must(good, "lp_line_is_admitted", shape);
}

/* Whether the base of the series that is handed in is safe: a space alone makes it unsafe, and so does a measurement, or a last value,
 * with a comma. */
static bool is_told_safe(const struct shape *shape, struct lent *lent) {
    lp_line *line = &lent->rows[0].line;
    const size_t parts_len = shape->tags + shape->fields;
    const bool wanted = !(shape->escaped && shape->bytes == 1);
    lp_view *last = shape->tags > 0 ? &lent->parts[shape->tags - 1].text : &line->measurement;
    const lp_view kept = *last;
    bool safe = !wanted;
    bool good = lp_line_is_base_safe(line, lent->parts, parts_len, &safe) == LP_WRITTEN && safe == wanted;
    last->text = (lp_text){ (const uint8_t *)"a,", 2 };
    safe = true;
    good &= lp_line_is_base_safe(line, lent->parts, parts_len, &safe) == LP_WRITTEN && !safe;
    *last = kept;
    return must(good, "lp_line_is_base_safe", shape);
}

/* The line is read, by itself and twice in a block, and handed in. */
static bool is_right(const struct shape *shape) {
    struct text twice = { NULL, 0, 0 };
    struct lent lent = { { LP_EMPTY_ROW, LP_EMPTY_ROW }, lend(0), lend(0) };
    put_line(&twice, shape, "\"");
    put(&twice, "\n", 1);
    const size_t len = twice.len;
    put_line(&twice, shape, "\"");
    const struct text once = { twice.at, len - 1, 0 }, written = { twice.at, len, 0 };
    bool good = reads_fault(shape) & reads_next(&once, shape, &lent);
    if (good) good = reads_block(&twice, shape, &lent);
    if (good) good = puts_all(&written, shape, &lent) & is_tested(shape, &lent) & is_told_safe(shape, &lent);
    free(twice.at);
    free(lent.parts);
    free(lent.bytes);
    return good;
}

/* A text of so many items, by turns a line and a fault; the batch and the fault lines that it is rebuilt to. */
static void put_items(size_t items, struct text *text, struct text *batch, struct text *faults) {
    for (size_t at = 1; at <= items; at += 2) {
        say(text, "m,host=a\\ %zu  up=T,f=%zui %zu\nm f=1i x%zu\n", at, at, at, at);
        say(batch, "m,host=a\\ %zu up=true,f=%zui %zu\n", at, at, at);
        say(faults, "item %zu: Could not parse entire line. Found trailing content: ' x%zu'\n", at + 1, at);
    }
}

/* Rebuilds a text of so many items into buffers of which one is a byte too short, and into ones of just their lengths. */
static bool rebuilds(size_t items) {
    struct text text = { NULL, 0, 0 }, batch = { NULL, 0, 0 }, faults = { NULL, 0, 0 };
    lp_counts counts = { 77, 77, 77, 77 };
    put_items(items, &text, &batch, &faults);
    uint8_t *out = lend(batch.len), *err = lend(faults.len);
    bool good = lp_rebuild(LP_CRATE, text.at, text.len, out, batch.len, err, faults.len - 1, &counts) == LP_MORE_ROOM;
    good &= counts.batch_len == batch.len && counts.faults_len == faults.len;
    good &= lp_rebuild(LP_STRICT, text.at, text.len, out, batch.len, err, faults.len, &counts) == LP_WRITTEN;
    good &= counts.batch_len == batch.len && memcmp(out, batch.at, batch.len) == 0 && counts.carried == items / 2;
    good &= counts.faults_len == faults.len && memcmp(err, faults.at, faults.len) == 0 && counts.refused == items / 2;
    if (!good) fprintf(stderr, "sizes: lp_rebuild of %zu items in %zu bytes is wrong\n", items, text.len);
    void *all[] = { text.at, batch.at, faults.at, out, err };
    for (size_t at = 0; at < 5; at++) free(all[at]);
    return good && (items < 100000 || text.len > 4000000);
}

static size_t items; /* how many a call gave */

static void call_next(const uint8_t *text, size_t len) {
    lp_lines lines = LP_NO_LINES;
    lp_line line = LP_EMPTY_LINE;
    lp_part part = LP_EMPTY_PART;
    lp_room room = { (uint8_t *)&part, 0 };
    lp_lines_begin(text, len, LP_CRATE, &lines);
    for (items = 0; lp_lines_next(&lines, &room, &line, &part, 1) == LP_LINE;) items++;
}

static void call_block(const uint8_t *text, size_t len) {
    lp_lines lines = LP_NO_LINES;
    lp_row rows[4] = { LP_EMPTY_ROW, LP_EMPTY_ROW, LP_EMPTY_ROW, LP_EMPTY_ROW };
    lp_part parts[4];
    lp_room room = { (uint8_t *)parts, 0 };
    size_t filled = 4;
    lp_empty_parts(parts, 4);
    lp_lines_begin(text, len, LP_CRATE, &lines);
    for (items = 0; filled == 4; items += filled) lp_lines_block(&lines, &room, rows, 4, parts, 4, &filled);
}

/* How many of these rows are portable lines. */
static size_t count_portable(const lp_offset_row *rows, size_t told) {
    size_t count = 0;
    for (size_t at = 0; at < told; at++) count += rows[at].verdict == 0;
    return count;
}

/* Reads rows, tells their keys and verdicts, and writes them again: a block counts if its lines begin with their keys, are portable, and come
 * back. */
static void call_offsets(const uint8_t *text, size_t len) {
    lp_offset_row rows[4];
    lp_offset_part parts[4];
    uint8_t out[64];
    lp_limits limits;
    lp_block block = { 1, 0, 0, 0, 0 };
    uint32_t answer = LP_LINE;
    lp_limits_default(&limits);
    for (items = 0; answer == LP_LINE;) {
        size_t told = 0;
        lp_rows_written written = { 0, 0, 0 };
        answer = lp_offsets_block(text, len, LP_CRATE, true, &block, (uint8_t *)parts, 0, rows, 4, parts, 4);
        lp_offsets_keys(text, len, rows, block.rows);
        bool good = block.rows == 0 || (rows[0].key == 1 && rows[block.rows - 1].key == 1);
        good &= lp_offsets_verdicts(text, len, rows, block.rows, &limits, &told) == LP_WRITTEN && count_portable(rows, told) == block.rows;
        good &= lp_offsets_write(LP_CRATE, text, len, text, 0, rows, block.rows, parts, block.parts, out, sizeof out, &written) == LP_WRITTEN;
        if (good && written.len == 7 * block.rows) items += block.rows;
    }
}

/* Reads rows that tell their verdicts at once. */
static void call_block_verdicts(const uint8_t *text, size_t len) {
    lp_offset_row rows[4];
    lp_offset_part parts[4];
    lp_limits limits;
    lp_block block = { 1, 0, 0, 0, 0 };
    uint32_t answer = LP_LINE;
    size_t told = 0;
    lp_limits_default(&limits);
    for (items = 0; answer == LP_LINE; items += count_portable(rows, told))
        answer = lp_offsets_block_verdicts(text, len, LP_STRICT, true, &block, (uint8_t *)parts, 0, rows, 4, parts, 4, &limits, &told);
}

static void call_piece(const uint8_t *text, size_t len) {
    lp_lines lines = LP_NO_LINES;
    lp_view piece;
    lp_lines_begin(text, len, LP_CRATE, &lines);
    for (items = 0; lp_lines_piece(&lines, &piece);) items += piece.text.len > 0;
}

static void call_cuts(const uint8_t *text, size_t len) {
    lp_cuts cuts;
    size_t at = 0, cut;
    lp_cuts_begin(LP_CRATE, SIZE_MAX, &cuts);
    for (items = 0; lp_cuts_next(&cuts, text + at, len - at, &cut) == LP_PIECE; at += cut + 1) items++;
}

/* Whether a million short lines come of each call that reads or cuts, or that writes many, in time that grows as the text does. */
static bool reads_evenly(void) {
    static const struct { const char *name; growth_call *call; } calls[] = {
        { "lp_lines_next", call_next }, { "lp_lines_block", call_block }, { "lp_offsets_block, or _keys, _verdicts or _write", call_offsets },
        { "lp_offsets_block_verdicts", call_block_verdicts }, { "lp_lines_piece", call_piece }, { "lp_cuts_next", call_cuts },
    };
    static const struct growth lines = { "", "m a=1i\n", "" };
    for (size_t at = 0; at < COUNT(calls); at++) {
        const bool even = growth_is_even(calls[at].call, &lines, 1000000);
        if (even && items == 1000000) continue;
        fprintf(stderr, "sizes: %s of many lines %s\n", calls[at].name, even ? "gives others" : "takes too long for more of them");
        return false;
    }
    return true;
}

int main(void) {
    static const struct shape sizes[] = {
        { 1, 1, 1, true, false, RISING }, { 65, 1, 1, true, false, RISING }, { 1025, 1, 1, true, false, RISING },
        { 65537, 1, 1, true, false, RISING }, { LONGEST, 1, 1, true, false, RISING }, { 8, 9, 9, true, false, RISING },
        { 8, 17, 17, true, false, RISING }, { 8, 1001, 1001, true, false, RISING }, { 8, 100001, 100001, true, false, RISING },
        { 65537, 17, 17, true, false, RISING }, { 8, 0, 5, false, false, RISING }, { 8, 0, 100001, false, false, RISING },
        { 8, 17, 17, false, false, RISING },
    };
    bool good = reads_evenly() && rebuilds(2) && rebuilds(160000);
    int lines = 0;
    for (size_t at = 0; at < 6 * COUNT(sizes); at++) {
        struct shape shape = sizes[at / 6];
        shape.escaped = at % 2 == 1;
        shape.order = (enum order)(at % 6 / 2);
        if (shape.order != RISING && shape.tags < 2) continue;
        good &= is_right(&shape);
        lines++;
    }
    printf("%d lines of up to %d bytes a name and 100001 tags and fields handed over, 4 MB rebuilt, and a million lines read and cut",
           lines, LONGEST);
    return !good;
}
