/* The calls of lp_c that read, write and rebuild, with the sums that lp_bench gives for the same texts. */
#include "driver.h"
#include "influxdb_line_protocol.h"
#include <stdlib.h>

enum { ROWS = 32, PART = 1 << 16 };

/* What is lent, for all texts: it grows where an item takes more. */
static lp_row rows[ROWS];
static lp_part *parts;
static uint8_t *bytes;
static size_t parts_len, bytes_len;

static size_t larger(size_t a, size_t b) { return a > b ? a : b; }

static void *grown(void *old, size_t size) {
    void *new = realloc(old, size);
    if (!new) abort();
    return new;
}

/* Lends at least so many parts and bytes. No row and no part keeps a text of the room that goes. */
static void lend(size_t parts_wanted, size_t bytes_wanted) {
    const lp_row empty = LP_EMPTY_ROW;
    if (parts_wanted > parts_len) parts = grown(parts, (parts_len = parts_wanted) * sizeof *parts);
    if (bytes_wanted > bytes_len) bytes = grown(bytes, bytes_len = bytes_wanted);
    for (size_t at = 0; at < ROWS; at++) rows[at] = empty;
    lp_empty_parts(parts, parts_len);
}

static void lend_more(uint32_t answer, const lp_line *line) {
    if (answer == LP_MORE_PARTS) lend(line->tags + line->fields, 0);
    else lend(0, line->copied_len);
}

static uint64_t of_part(const lp_part *part) {
    if (part->kind == LP_INTEGER) return (uint64_t)part->integer;
    if (part->kind == LP_UNSIGNED) return part->unsigned_integer;
    return part->kind == LP_BOOLEAN ? part->boolean : part->text.text.len;
}

static uint64_t of_item(uint32_t answer, const lp_line *line, const lp_part *own) {
    if (answer != LP_LINE) return 1;
    uint64_t sum = line->measurement.text.len + (uint64_t)line->timestamp;
    for (size_t at = 0; at < line->tags + line->fields; at++) sum += own[at].key.text.len + of_part(&own[at]);
    return sum;
}

static uint64_t by_next(const uint8_t *text, size_t len) {
    lp_lines lines = LP_NO_LINES;
    uint64_t sum = 0;
    lend(16 * ROWS, 256 * ROWS);
    if (!lp_lines_begin(text, len, LP_CRATE, &lines)) return 0;
    for (;;) {
        lp_room room = { bytes, bytes_len };
        uint32_t answer = lp_lines_next(&lines, &room, &rows[0].line, parts, parts_len);
        if (answer == LP_END) return sum;
        if (answer == LP_MORE_PARTS || answer == LP_MORE_ROOM) lend_more(answer, &rows[0].line);
        else sum += of_item(answer, &rows[0].line, parts);
    }
}

static uint64_t by_block(const uint8_t *text, size_t len) {
    lp_lines lines = LP_NO_LINES;
    uint64_t sum = 0;
    uint32_t answer = LP_LINE;
    lend(16 * ROWS, 256 * ROWS);
    if (!lp_lines_begin(text, len, LP_CRATE, &lines)) return 0;
    while (answer != LP_END) {
        lp_room room = { bytes, bytes_len };
        size_t filled = 0;
        answer = lp_lines_block(&lines, &room, rows, ROWS, parts, parts_len, &filled);
        for (size_t at = 0; at < filled; at++) sum += of_item(rows[at].answer, &rows[at].line, parts + rows[at].parts_at);
        if (filled == 0 && answer != LP_END) lend_more(answer, &rows[0].line);
    }
    return sum;
}

/* Rows and parts by offsets, as many as were asked for so far. */
static struct { lp_offset_row *rows; lp_offset_part *parts; size_t rows_len, parts_len; } offsets;

static void lend_offsets(size_t rows_wanted, size_t parts_wanted) {
    if (rows_wanted > offsets.rows_len) offsets.rows = grown(offsets.rows, (offsets.rows_len = rows_wanted) * sizeof *offsets.rows);
    if (parts_wanted > offsets.parts_len) offsets.parts = grown(offsets.parts, (offsets.parts_len = parts_wanted) * sizeof *offsets.parts);
}

/* A number is 0 if a text counts, and the length of a text is 0 if a number does. */
static uint64_t of_row(const lp_offset_row *row, const lp_offset_part *own) {
    if (row->answer != LP_LINE) return 1;
    uint64_t sum = row->measurement.len + (uint64_t)row->timestamp;
    for (size_t at = 0; at < row->tags + row->fields; at++) sum += own[at].key.len + own[at].text.len + own[at].number;
    return sum;
}

/* What rows tell beside their items: nothing; their keys; their verdicts, by a call after each block or by the block's own. */
enum more { NOTHING, KEYS, VERDICTS_AFTER, VERDICTS };

static uint32_t next_block(enum more more, const uint8_t *text, size_t len, lp_block *block) {
    lp_limits limits;
    size_t told;
    uint32_t answer, dialect = more < VERDICTS_AFTER ? LP_CRATE : LP_STRICT;
    if (more >= VERDICTS_AFTER) lp_limits_default(&limits);
    if (more == VERDICTS)
        return lp_offsets_block_verdicts(text, len, dialect, true, block, bytes, bytes_len, offsets.rows, ROWS, offsets.parts,
                                         offsets.parts_len, &limits, &told);
    answer = lp_offsets_block(text, len, dialect, true, block, bytes, bytes_len, offsets.rows, ROWS, offsets.parts, offsets.parts_len);
    if (more == KEYS) lp_offsets_keys(text, len, offsets.rows, block->rows);
    if (more == VERDICTS_AFTER) lp_offsets_verdicts(text, len, offsets.rows, block->rows, &limits, &told);
    return answer;
}

/* As many rows a call as `by_block` has. It tests itself whether the text is UTF-8. */
static uint64_t offsets_with(enum more more, const uint8_t *text, size_t len) {
    lp_block block = { 1, 0, 0, 0, 0 };
    uint64_t sum = 0;
    uint32_t answer = LP_LINE;
    lend(0, 256 * ROWS);
    lend_offsets(ROWS, 16 * ROWS);
    while (answer != LP_END) {
        answer = next_block(more, text, len, &block);
        for (size_t at = 0; at < block.rows; at++) sum += of_row(&offsets.rows[at], offsets.parts + offsets.rows[at].parts_at);
        if (block.rows == 0 && answer == LP_MORE_PARTS) lend_offsets(0, offsets.rows[0].tags + offsets.rows[0].fields);
        if (block.rows == 0 && answer == LP_MORE_ROOM) lend(0, offsets.rows[0].room_len);
    }
    return sum;
}

static uint64_t by_offsets(const uint8_t *text, size_t len) { return offsets_with(NOTHING, text, len); }
static uint64_t with_keys(const uint8_t *text, size_t len) { return offsets_with(KEYS, text, len); }
static uint64_t with_verdicts_after(const uint8_t *text, size_t len) { return offsets_with(VERDICTS_AFTER, text, len); }
static uint64_t with_verdicts(const uint8_t *text, size_t len) { return offsets_with(VERDICTS, text, len); }

/* The room of the call before is lent again, so that only the first call for a text is made twice. */
static uint64_t rebuilt(const uint8_t *text, size_t len) {
    static size_t batch, faults;
    lp_counts counts = { 0, 0, 0, 0 };
    uint32_t answer;
    lend(0, larger(batch + faults, 1));
    while ((answer = lp_rebuild(LP_CRATE, text, len, bytes, batch, bytes + batch, faults, &counts)) == LP_MORE_ROOM) {
        batch = larger(batch, counts.batch_len);
        faults = larger(faults, counts.faults_len);
        lend(0, batch + faults);
    }
    return answer == LP_WRITTEN ? counts.batch_len : 0;
}

/* How many pieces a text has that comes in parts. As each call does, it tests first whether the text is UTF-8. */
static uint64_t cuts(const uint8_t *text, size_t len) {
    lp_cuts state = LP_NO_CUTS;
    uint64_t pieces = 1;
    if (!is_utf8(text, len)) return 0;
    lp_cuts_begin(false, SIZE_MAX, &state);
    for (size_t at = 0; at < len;) {
        size_t end = at + (len - at < PART ? len - at : PART), cut = 0;
        while (at < end && lp_cuts_next(&state, text + at, end - at, &cut) == LP_PIECE) {
            at += cut + 1;
            pieces++;
        }
        at = end;
    }
    return pieces;
}

/* The lines of a text, and how many parts they have. Their copies lie in a room that is as long as the text, and so suffices. */
static struct { lp_row *rows; lp_part *parts; uint8_t *copies; size_t rows_len, rows_room, parts_len, parts_room; } kept;

/* Makes more places for rows and parts, all of them empty. */
static void lengthen(size_t rows_wanted, size_t parts_wanted) {
    const lp_row empty = LP_EMPTY_ROW;
    kept.rows = grown(kept.rows, rows_wanted * sizeof *kept.rows);
    kept.parts = grown(kept.parts, parts_wanted * sizeof *kept.parts);
    for (; kept.rows_room < rows_wanted; kept.rows_room++) kept.rows[kept.rows_room] = empty;
    if (kept.parts_room < parts_wanted) lp_empty_parts(kept.parts + kept.parts_room, parts_wanted - kept.parts_room);
    kept.parts_room = larger(kept.parts_room, parts_wanted);
}

static void read_lines(const uint8_t *text, size_t len) {
    lp_lines lines = LP_NO_LINES;
    uint32_t answer = lp_lines_begin(text, len, LP_CRATE, &lines) ? LP_LINE : LP_END;
    lp_room room = { kept.copies = grown(kept.copies, larger(len, 1)), len };
    kept.rows_len = kept.parts_len = 0;
    lend(0, 256 * ROWS);
    lengthen(larger(kept.rows_room, ROWS), larger(kept.parts_room, 16 * ROWS));
    while (answer != LP_END) {
        if (kept.rows_len == kept.rows_room) lengthen(2 * kept.rows_room, kept.parts_room);
        lp_row *row = &kept.rows[kept.rows_len];
        answer = lp_lines_next(&lines, &room, &row->line, kept.parts + kept.parts_len, kept.parts_room - kept.parts_len);
        if (answer == LP_MORE_PARTS) lengthen(kept.rows_room, 2 * kept.parts_room + row->line.tags + row->line.fields);
        if (answer != LP_LINE) continue;
        row->parts_at = kept.parts_len;
        kept.parts_len += row->line.tags + row->line.fields;
        kept.rows_len++;
    }
}

/* Writes the lines that were read, one by one, and gives how many bytes they take. */
static uint64_t by_write(const uint8_t *text, size_t len) {
    uint64_t sum = 0;
    if (!is_utf8(text, len)) return 0;
    for (size_t at = 0; at < kept.rows_len; at++) {
        const lp_line *line = &kept.rows[at].line;
        const lp_part *own = kept.parts + kept.rows[at].parts_at;
        size_t put = 0;
        uint32_t answer;
        while ((answer = lp_line_write(LP_CRATE, line, own, line->tags + line->fields, bytes, bytes_len, &put)) == LP_MORE_ROOM)
            lend(0, put);
        if (answer == LP_WRITTEN) sum += put;
    }
    return sum;
}

/* All lines of a text at once, without its faults. */
static size_t rows_read;

static void read_offsets(const uint8_t *text, size_t len) {
    uint32_t answer = LP_MORE_PARTS;
    kept.copies = grown(kept.copies, larger(len, 1));
    lend_offsets(ROWS, 16 * ROWS);
    while (answer != LP_END) {
        lp_block block = { 1, 0, 0, 0, 0 };
        answer = lp_offsets_block(text, len, LP_CRATE, true, &block, kept.copies, len, offsets.rows, offsets.rows_len, offsets.parts,
                                  offsets.parts_len);
        rows_read = block.rows;
        if (answer == LP_MORE_PARTS) lend_offsets(0, 2 * offsets.parts_len);
        else if (answer != LP_END) lend_offsets(2 * offsets.rows_len, 0);
    }
    size_t read = rows_read;
    rows_read = 0;
    for (size_t at = 0; at < read; at++)
        if (offsets.rows[at].answer == LP_LINE) offsets.rows[rows_read++] = offsets.rows[at];
}

/* Writes the lines that were read into a room of 64 KiB, which is written over. */
static uint64_t by_offsets_write(const uint8_t *text, size_t len) {
    lp_rows_written written = { 0, 0, 0 };
    uint64_t sum = 0;
    uint32_t answer = LP_MORE_ROOM;
    lend(0, PART);
    if (!is_utf8(text, len)) return 0;
    while (answer != LP_WRITTEN) {
        answer = lp_offsets_write(LP_CRATE, text, len, kept.copies, len, offsets.rows, rows_read, offsets.parts, offsets.parts_len, bytes,
                                  bytes_len, &written);
        sum += written.len;
        if (answer == LP_MORE_ROOM && written.need > bytes_len) lend(0, written.need);
        if (answer == LP_NOT_ADMITTED) written.row++;
        else if (answer != LP_MORE_ROOM && answer != LP_WRITTEN) return 0;
    }
    return sum;
}

/* What a line is grouped by: the longest that is put out has as many bytes as `bytes`. */
static uint64_t put_out(uint32_t (*put)(const lp_line *, const lp_part *, size_t, uint8_t *, size_t, size_t *), const lp_line *line,
                        const lp_part *own) {
    size_t len = 0;
    while (put(line, own, line->tags + line->fields, bytes, bytes_len, &len) == LP_MORE_ROOM) lend(0, len);
    return len;
}

/* The bases of all lines, of those that are safe to group by: the text of the series where that is the base. */
static uint64_t by_bases(const uint8_t *text, size_t len) {
    uint64_t sum = 0;
    read_lines(text, len);
    for (size_t at = 0; at < kept.rows_len; at++) {
        const lp_line *line = &kept.rows[at].line;
        const lp_part *own = kept.parts + kept.rows[at].parts_at;
        bool safe = false;
        if (lp_line_is_base_safe(line, own, line->tags + line->fields, &safe) != LP_WRITTEN || !safe) continue;
        sum += line->series_is_base ? line->series.len : put_out(lp_line_base, line, own);
    }
    return sum;
}

/* The keys of all lines: the start of the line where that is the key. */
static uint64_t by_keys(const uint8_t *text, size_t len) {
    uint64_t sum = 0;
    read_offsets(text, len);
    lp_offsets_keys(text, len, offsets.rows, rows_read);
    for (size_t at = 0; at < rows_read; at++) {
        const lp_offset_row *row = &offsets.rows[at];
        sum += row->key;
        if (row->key) continue;
        read_lines(text + row->line_at, row->stop_at - row->line_at);
        sum += put_out(lp_line_key, &kept.rows[0].line, kept.parts);
    }
    return sum;
}

const struct call calls[] = {
    { "lp_lines_next", by_next },
    { "lp_lines_block", by_block },
    { "lp_offsets_block", by_offsets },
    { "lp_offsets_keys", with_keys },
    { "bases", by_bases },
    { "keys", by_keys },
    { "lp_offsets_verdicts", with_verdicts_after },
    { "lp_offsets_block_verdicts", with_verdicts },
    { "lp_cuts_next", cuts },
    { "lp_rebuild", rebuilt },
    { "lp_line_write", by_write, read_lines },
    { "lp_offsets_write", by_offsets_write, read_offsets },
    { NULL, NULL },
};

bool is_utf8(const uint8_t *text, size_t len) {
    lp_lines lines = LP_NO_LINES;
    return lp_lines_begin(text, len, LP_CRATE, &lines);
}

uint64_t (*const build)(uint64_t count) = NULL;
