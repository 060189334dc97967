/* The pieces and the items of a text, and what is rebuilt of it, as lp_c gives them, in the form in which crates/lp_checks reports: each text
   of a line follows its length and a colon, and a part of the input has an S, a copy a C. */
#include "influxdb_line_protocol.h"
#include "lp_checks.h"

#include <inttypes.h>
#include <stdio.h>
#include <stdlib.h>
#include <string.h>

/* How the library is called, for a program that looks at each call. */
#ifndef ROWS_CALL
#define ROWS_CALL(call) (call)
#endif

/* So few rows that most texts of some lines take several blocks. */
enum { BLOCK_ROWS = 2 };

/* Entries that are reported one after another; what does not fit is counted alone. */
struct rows_report { uint8_t *out; size_t len, room; uint64_t *ends, count; size_t entries; };

static void rows_put(struct rows_report *report, const void *bytes, size_t len) {
    if (report->len <= report->room && len <= report->room - report->len) memcpy(report->out + report->len, bytes, len);
    report->len += len;
}

static void rows_end(struct rows_report *report) {
    if (report->count++ < report->entries) report->ends[report->count - 1] = report->len;
}

static void rows_say(struct rows_report *report, const char *words) { rows_put(report, words, strlen(words)); }

static void rows_text(struct rows_report *report, lp_text text) {
    char digits[32];
    snprintf(digits, sizeof digits, "%zu:", text.len);
    rows_say(report, digits);
    rows_put(report, text.at, text.len);
}

static void rows_view(struct rows_report *report, const lp_view *view) {
    rows_say(report, view->copied ? "C" : "S");
    rows_text(report, view->text);
}

static void rows_part(struct rows_report *report, const lp_part *part) {
    char number[32];
    rows_say(report, part->kind == LP_TAG ? "," : " ");
    rows_view(report, &part->key);
    rows_say(report, "=");
    switch (part->kind) {
    case LP_TAG: rows_view(report, &part->text); return;
    case LP_INTEGER: snprintf(number, sizeof number, "i%" PRId64, part->integer); rows_say(report, number); return;
    case LP_UNSIGNED: snprintf(number, sizeof number, "u%" PRIu64, part->unsigned_integer); rows_say(report, number); return;
    case LP_FLOAT: rows_say(report, "f"); rows_text(report, part->text.text); return;
    case LP_STRING: rows_say(report, "s"); rows_view(report, &part->text); return;
    default: rows_say(report, part->boolean ? "true" : "false");
    }
}

static void rows_line(struct rows_report *report, const lp_line *line, const lp_part *parts) {
    char time[32];
    rows_say(report, "line ");
    rows_text(report, line->series);
    rows_say(report, " ");
    rows_view(report, &line->measurement);
    if (line->has_tag_set && line->tags == 0) rows_say(report, ",");
    for (size_t place = 0; place < line->tags + line->fields; place++) rows_part(report, &parts[place]);
    if (!line->has_timestamp) return;
    snprintf(time, sizeof time, " at %" PRId64, line->timestamp);
    rows_say(report, time);
}

static void rows_fault(struct rows_report *report, const lp_line *line) {
    size_t len = 0;
    if (line->side != LP_NEITHER) rows_say(report, line->side == LP_ABOVE ? "Above " : "Below ");
    const size_t room = report->len < report->room ? report->room - report->len : 0;
    if (lp_fault_message(line, report->out + (report->room - room), room, &len) == LP_NOT_A_LINE) rows_say(report, "no fault");
    report->len += len;
}

/* Reports the pieces of a text, and gives how many there are. */
uint64_t rows_pieces(uint32_t dialect, const uint8_t *text, size_t len, uint8_t *out, size_t room, uint64_t *ends, size_t entries) {
    struct rows_report report = { out, 0, room, ends, 0, entries };
    lp_lines lines = LP_NO_LINES;
    lp_view piece = LP_NO_VIEW;
    if (!ROWS_CALL(lp_lines_begin(text, len, dialect, &lines))) return 0;
    while (ROWS_CALL(lp_lines_piece(&lines, &piece))) {
        rows_put(&report, piece.text.at, piece.text.len);
        rows_end(&report);
    }
    return report.count;
}

/* Reports what is rebuilt of a text: the lines, the faults, and how many items were carried and refused. No entry if memory was refused. */
uint64_t rows_rebuilt(uint32_t dialect, const uint8_t *text, size_t len, uint8_t *out, size_t room, uint64_t *ends, size_t entries) {
    struct rows_report report = { out, 0, room, ends, 0, entries };
    lp_counts counts = { 0, 0, 0, 0 };
    size_t at = room / 2;
    uint32_t answer = ROWS_CALL(lp_rebuild(dialect, text, len, out, at, out + at, room - at, &counts));
    if (answer == LP_MORE_ROOM && (at = counts.batch_len) <= room)
        answer = ROWS_CALL(lp_rebuild(dialect, text, len, out, at, out + at, room - at, &counts));
    if (answer != LP_WRITTEN) return 0;
    char words[64];
    memmove(out + counts.batch_len, out + at, counts.faults_len);
    report.len = counts.batch_len;
    rows_end(&report);
    report.len += counts.faults_len;
    rows_end(&report);
    snprintf(words, sizeof words, "%zu carried, %zu refused", counts.carried, counts.refused);
    rows_say(&report, words);
    rows_end(&report);
    return report.count;
}

/* Reports the items of a text, and gives how many there are. More is lent if a block asks for more; an answer that is neither of a
   block nor of an item ends the program. */
uint64_t rows_items(uint32_t dialect, const uint8_t *text, size_t len, uint8_t *out, size_t room, uint64_t *ends, size_t entries) {
    struct rows_report report = { out, 0, room, ends, 0, entries };
    lp_row rows[BLOCK_ROWS] = { LP_EMPTY_ROW, LP_EMPTY_ROW };
    size_t parts_len = 4, bytes_len = 4, filled = 0;
    lp_part *parts = malloc(parts_len * sizeof *parts);
    uint8_t *bytes = malloc(bytes_len);
    lp_lines lines = LP_NO_LINES;
    uint32_t answer = parts && bytes && lp_lines_begin(text, len, dialect, &lines) ? LP_LINE : LP_END;
    while (answer != LP_END) {
        lp_room left = { bytes, bytes_len };
        lp_empty_parts(parts, parts_len);
        answer = ROWS_CALL(lp_lines_block(&lines, &left, rows, BLOCK_ROWS, parts, parts_len, &filled));
        for (size_t at = 0; at < filled; at++) {
            if (rows[at].answer == LP_LINE) rows_line(&report, &rows[at].line, parts + rows[at].parts_at);
            else rows_fault(&report, &rows[at].line);
            rows_end(&report);
        }
        if (answer == LP_MORE_PARTS && filled == 0) {
            parts_len = rows[0].line.tags + rows[0].line.fields;
            parts = realloc(parts, parts_len * sizeof *parts);
        } else if (answer == LP_MORE_ROOM && filled == 0) {
            bytes_len = rows[0].line.copied_len;
            bytes = realloc(bytes, bytes_len);
        } else if (answer > LP_MORE_ROOM || !parts || !bytes) {
            fprintf(stderr, "rows: the answer %u\n", (unsigned)answer);
            exit(1);
        }
    }
    free(parts);
    free(bytes);
    return report.count;
}
