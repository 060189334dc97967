/* Compares the rows of checks/tables/answers.tsv with what the library gives for their texts, in each dialect. The head of that table says
 * how a row is spelled, and what each kind asks. Nothing is lent to read at first, and then just what is asked for. With -DLP_REFUSE it sees
 * that what reads requests no memory; without, threads compare all rows side by side, each with a cursor, rows, parts, room and buffers of
 * its own. The argument names the table. */
#include "tests.h"
#include <pthread.h>

#ifdef LP_REFUSE
enum { THREADS = 1 };
#else
enum { THREADS = 4 };
long lp_requests; /* of no call */
#endif
/* What is lent by offsets, and to write, is enough for each text of the table. If it is not, what is given is not what the row wants. The
 * answer WRONG is of no call: it differs from what each row wants. */
enum { PARTS = 32, ROWS = 2, BYTES = 1024, WRONG = 99 };

/* What a thread lends. */
static _Thread_local struct { lp_part *parts; uint8_t *bytes; size_t parts_len, bytes_len; uint8_t room[BYTES], written[BYTES], faults[BYTES]; } lent;

static void put_value(struct text *out, const lp_part *part) {
    if (part->kind == LP_INTEGER) say(out, "%lldi", (long long)part->integer);
    else if (part->kind == LP_UNSIGNED) say(out, "%lluu", (unsigned long long)part->unsigned_integer);
    else if (part->kind == LP_FLOAT) put_within(out, "f", part->text.text);
    else if (part->kind == LP_BOOLEAN) say(out, part->boolean ? "true" : "false");
    else put_view(out, part->text);
}

static void put_line(struct text *out, const lp_line *line, const lp_part *part) {
    put_view(out, line->measurement);
    for (size_t at = 0; at < line->tags + line->fields; at++, part++) {
        say(out, (part->kind == LP_TAG) != (at < line->tags) ? " out of its place: " : part->kind == LP_TAG ? "," : " ");
        put_view(out, part->key);
        say(out, "=");
        put_value(out, part);
    }
    if (line->has_timestamp) say(out, " at %lld", (long long)line->timestamp);
}

static void put_item(struct text *out, uint32_t answer, const lp_line *line, const lp_part *part) {
    if (answer == LP_LINE) put_line(out, line, part);
    else if (answer == LP_FAULT) put_fault(out, line);
    else say(out, "the answer %u", (unsigned)answer);
}

/* Lends so many parts, or so many bytes, which is more than was lent. */
static bool lend_parts(size_t len) {
    if (len <= lent.parts_len) return false;
    free(lent.parts);
    lent.parts = lend((lent.parts_len = len) * sizeof *lent.parts);
    lp_empty_parts(lent.parts, len);
    return true;
}

static bool lend_bytes(size_t len) {
    if (len <= lent.bytes_len) return false;
    free(lent.bytes);
    lent.bytes = lend(lent.bytes_len = len);
    return true;
}

static lp_lines begin_anew(lp_text text, uint32_t dialect) {
    lp_lines lines = LP_NO_LINES;
    free(lent.parts), free(lent.bytes);
    lent.parts = lend(0), lent.bytes = lend(0), lent.parts_len = lent.bytes_len = 0;
    expect(lp_lines_begin(text.at, text.len, dialect, &lines), "a text is no UTF-8");
    return lines;
}

/* Reads the next item. It takes its copies off the front of the room; where more is asked for, the room is as it was. */
static uint32_t read_next(lp_lines *lines, lp_line *line) {
    for (bool is_right = true; is_right;) {
        lp_room room = { lent.bytes, lent.bytes_len };
        uint32_t answer = lp_lines_next(lines, &room, line, lent.parts, lent.parts_len);
        size_t taken = answer == LP_LINE || answer == LP_FAULT ? line->copied_len : 0;
        is_right = room.at == lent.bytes + taken && room.len == lent.bytes_len - taken;
        if (answer == LP_MORE_PARTS) is_right &= lend_parts(line->tags + line->fields);
        else if (answer == LP_MORE_ROOM) is_right &= lend_bytes(line->copied_len);
        else return is_right ? answer : WRONG;
    }
    return WRONG;
}

/* The text of the series of a line, and nothing for a fault. */
static void put_series(struct text *out, uint32_t answer, const lp_line *line, const lp_part *part) {
    (void)part;
    if (answer == LP_LINE) put_text(out, line->series);
}

/* Writes what a call gives for a text. */
typedef void giver(struct text *out, lp_text text, uint32_t dialect);
typedef void putter(struct text *out, uint32_t answer, const lp_line *line, const lp_part *part);

static void give_each(struct text *out, lp_text text, uint32_t dialect, putter *put_one) {
    lp_lines lines = begin_anew(text, dialect);
    lp_line line = LP_EMPTY_LINE;
    uint32_t answer = read_next(&lines, &line);
    while (answer != LP_END) {
        put_one(out, answer, &line, lent.parts);
        if (answer != LP_LINE && answer != LP_FAULT) return;
        answer = read_next(&lines, &line);
        if (answer != LP_END) say(out, "|");
    }
}

static void give_items(struct text *out, lp_text text, uint32_t dialect) { give_each(out, text, dialect, put_item); }
static void give_series(struct text *out, lp_text text, uint32_t dialect) { give_each(out, text, dialect, put_series); }

/* A block that fills no row asks for more; one that fills some asks for more if the next item does not fit beside them. */
static void give_items_of(lp_lines lines, struct text *out) {
    lp_row rows[ROWS] = { LP_EMPTY_ROW, LP_EMPTY_ROW };
    uint32_t answer = LP_LINE;
    for (size_t item = 0, filled = 0; answer != LP_END && answer != WRONG;) {
        lp_room room = { lent.bytes, lent.bytes_len };
        answer = lp_lines_block(&lines, &room, rows, ROWS, lent.parts, lent.parts_len, &filled);
        for (size_t at = 0; at < filled; at++, item++) {
            if (item > 0) say(out, "|");
            put_item(out, rows[at].answer, &rows[at].line, lent.parts + rows[at].parts_at);
        }
        const lp_line *next_line = &rows[filled < ROWS ? filled : 0].line;
        if (answer == LP_MORE_PARTS && (filled > 0 || lend_parts(next_line->tags + next_line->fields))) continue;
        if (answer == LP_MORE_ROOM && (filled > 0 || lend_bytes(next_line->copied_len))) continue;
        if (answer != LP_LINE && answer != LP_END) put_item(out, answer = WRONG, NULL, NULL);
    }
}

static void give_items_of_blocks(struct text *out, lp_text text, uint32_t dialect) { give_items_of(begin_anew(text, dialect), out); }

static void give_items_of_wide_blocks(struct text *out, lp_text text, uint32_t dialect) {
    lp_lines lines = begin_anew(text, dialect);
    lend_parts(PARTS), lend_bytes(BYTES);
    give_items_of(lines, out);
}

/* A text of an item by offsets. */
static lp_view view_at(lp_text text, lp_span span, uint16_t copied) {
    return (lp_view){ { (copied ? lent.room : text.at) + span.at, span.len }, copied != 0 };
}

/* The line of a row by offsets and its parts, with pointers. */
static lp_line line_at(lp_text text, const lp_offset_row *row, const lp_offset_part *own, lp_part *parts) {
    lp_line line = LP_EMPTY_LINE;
    line.measurement = view_at(text, row->measurement, row->measurement_copied);
    line.tags = row->tags, line.fields = row->fields;
    line.timestamp = row->timestamp, line.has_timestamp = row->has_timestamp;
    for (size_t at = 0; at < line.tags + line.fields; at++, own++) {
        parts[at] = lp_empty_part;
        parts[at].key = view_at(text, own->key, own->key_copied);
        parts[at].text = view_at(text, own->text, own->text_copied);
        parts[at].kind = own->kind, parts[at].integer = (int64_t)own->number, parts[at].unsigned_integer = own->number;
        parts[at].boolean = own->number == 1;
    }
    return line;
}

/* The fault of a row by offsets has the text that the fault of its piece has, when that is read alone. */
static void put_fault_at(struct text *out, lp_text text, uint32_t dialect, const lp_offset_row *row) {
    lp_lines lines = begin_anew((lp_text){ text.at + row->piece.at, row->piece.len }, dialect);
    lp_line line = LP_EMPTY_LINE;
    read_next(&lines, &line);
    if (line.fault != row->fault || line.side != row->side) say(out, "another fault: ");
    put_fault(out, &line);
}

/* What is lent holds anything. */
static void give_items_by_offsets(struct text *out, lp_text text, uint32_t dialect) {
    lp_offset_part own[PARTS];
    lp_part parts[PARTS];
    lp_offset_row rows[ROWS];
    lp_block block = { 1, 0, 0, 0, 0 };
    uint32_t answer = LP_LINE;
    for (size_t item = 0; answer == LP_LINE;) {
        memset(rows, 0xa5, sizeof rows), memset(own, 0xa5, sizeof own), memset(lent.room, 0xa5, BYTES);
        answer = lp_offsets_block(text.at, text.len, dialect, true, &block, lent.room, BYTES, rows, ROWS, own, PARTS);
        for (size_t at = 0; at < block.rows; at++, item++) {
            if (item > 0) say(out, "|");
            lp_line line = line_at(text, &rows[at], own + rows[at].parts_at, parts);
            if (rows[at].answer == LP_FAULT) put_fault_at(out, text, dialect, &rows[at]);
            else put_item(out, rows[at].answer, &line, parts);
        }
    }
    if (answer != LP_END) put_item(out, answer, NULL, NULL);
}

static void give_pieces(struct text *out, lp_text text, uint32_t dialect) {
    lp_lines lines = begin_anew(text, dialect);
    lp_view piece = LP_NO_VIEW;
    while (lp_lines_piece(&lines, &piece)) put_within(out, piece.copied ? "a copy " : "", piece.text);
}

static void put_rest(struct text *out, const lp_lines *lines) {
    if (lines->ended) say(out, "-");
    else put_within(out, "", lines->rest);
}

static void give_rests_of_pieces(struct text *out, lp_text text, uint32_t dialect) {
    lp_lines lines = begin_anew(text, dialect);
    lp_view piece = LP_NO_VIEW;
    do put_rest(out, &lines);
    while (lp_lines_piece(&lines, &piece));
    put_rest(out, &lines);
}

static void give_rests_of_items(struct text *out, lp_text text, uint32_t dialect) {
    lp_lines lines = begin_anew(text, dialect);
    lp_line line = LP_EMPTY_LINE;
    uint32_t answer;
    put_rest(out, &lines);
    do {
        answer = read_next(&lines, &line);
        put_rest(out, &lines);
    } while (answer == LP_LINE || answer == LP_FAULT);
}

/* What a call writes for the first line, which is read into `line`. */
static uint32_t write_first(writer *write, lp_text text, uint32_t dialect, lp_line *line, lp_text *out) {
    lp_lines lines = begin_anew(text, dialect);
    uint32_t answer = read_next(&lines, line);
    *out = (lp_text){ lent.written, 0 };
    return answer == LP_LINE ? write(line, lent.parts, lent.parts_len, lent.written, BYTES, &out->len) : LP_NOT_A_LINE;
}

/* The text that a call writes for the first line. */
static void give_written(writer *write, struct text *out, lp_text text, uint32_t dialect) {
    lp_line line = LP_EMPTY_LINE;
    lp_text written;
    if (write_first(write, text, dialect, &line, &written) == LP_WRITTEN) put_text(out, written);
}

static void give_key(struct text *out, lp_text text, uint32_t dialect) { give_written(lp_line_key, out, text, dialect); }
static void give_shown(struct text *out, lp_text text, uint32_t dialect) { give_written(lp_line_show, out, text, dialect); }

static void put_message(struct text *out, const lp_line *line) {
    lp_text message = { lent.faults, 0 };
    uint32_t answer = lp_fault_message(line, lent.faults, BYTES, &message.len);
    if (answer == LP_WRITTEN) put_text(out, message);
    else say(out, "the answer %u", (unsigned)answer);
}

static void give_fault(struct text *out, lp_text text, uint32_t dialect) {
    lp_lines lines = begin_anew(text, dialect);
    lp_line line = LP_EMPTY_LINE;
    if (read_next(&lines, &line) == LP_FAULT) put_message(out, &line);
}

/* A base is a part of the text if the line says that its series is its base. */
static void give_base(struct text *out, lp_text text, uint32_t dialect) {
    lp_line line = LP_EMPTY_LINE;
    lp_text base;
    uint32_t answer = write_first(lp_line_base, text, dialect, &line, &base);
    if (answer == LP_WRITTEN) put_within(out, line.series_is_base ? "B" : "O", line.series_is_base ? line.series : base);
    else if (answer == LP_FAULT) {
        lp_line repeated = LP_EMPTY_LINE;
        repeated.fault = LP_DUPLICATE_TAG, repeated.fault_text = base;
        put_message(out, &repeated);
    }
}

static lp_counts rebuild(lp_text text, uint32_t dialect) {
    lp_counts counts = { 0, 0, 0, 0 };
    uint32_t answer = lp_rebuild(dialect, text.at, text.len, lent.written, BYTES, lent.faults, BYTES, &counts);
    expect(answer == LP_WRITTEN, "a text is not rebuilt");
    return counts;
}

static void give_rebuilt(struct text *out, lp_text text, uint32_t dialect) {
    lp_counts counts = rebuild(text, dialect);
    say(out, "%zu of %zu", counts.carried, counts.carried + counts.refused);
    put_within(out, " ", (lp_text){ lent.written, counts.batch_len });
}

/* The status of the program, which is 1 if an item is refused, and what it writes. */
static void give_run(struct text *out, lp_text text, uint32_t dialect) {
    lp_counts counts = rebuild(text, dialect);
    put_within(out, counts.refused > 0 ? "1 " : "0 ", (lp_text){ lent.written, counts.batch_len });
    put_within(out, " ", (lp_text){ lent.faults, counts.faults_len });
}

/* Whether a field is taken whose value is a float with this literal. */
static void give_float(struct text *out, lp_text text, uint32_t dialect) {
    const lp_part field = { VIEW("f"), { text, false }, 0, 0, LP_FLOAT, false };
    const lp_line line = { LP_NO_TEXT, VIEW("m"), LP_NO_TEXT, 0, 1, 0, 0, 0, 0, false, false, false };
    size_t len = 0;
    uint32_t answer = lp_line_write(dialect, &line, &field, 1, lent.written, BYTES, &len);
    if (answer == LP_WRITTEN || answer == LP_NOT_A_LINE) say(out, answer == LP_WRITTEN ? "true" : "false");
}

/* Whether the text has a number. */
static void give_number(struct text *out, lp_text text, uint32_t dialect) {
    double value = 0;
    (void)dialect;
    say(out, lp_float_value(text.at, text.len, &value) ? "true" : "false");
}

/* The kinds of rows: the calls that answer them, or none, and then the rows are passed over; and whether these calls request no memory. */
static const struct kind { const char *word; giver *gives[4]; bool is_light; } KINDS[] = {
    { "items", { give_items, give_items_of_blocks, give_items_of_wide_blocks, give_items_by_offsets }, true },
    { "pieces", { give_pieces }, true },
    { "rests_of_pieces", { give_rests_of_pieces }, true },
    { "rests_of_items", { give_rests_of_items }, true },
    { "series", { give_series }, true },
    { "base", { give_base }, false },
    { "key", { give_key }, false },
    { "shown", { give_shown }, false },
    { "rebuilt", { give_rebuilt }, false },
    { "run", { give_run }, false },
    { "float", { give_float, give_number }, false },
    { "columns", { NULL }, false },
    { "fault", { give_fault }, true },
    { "as_written", { NULL }, false },
};
/* The dialects, in the order of the answers of a row. */
static const char *const NAMES[] = { "the dialect of the crate", "the strict dialect", "the newline-delimited dialect" };

/* So many cells of a row are told: one more than it may have. */
enum { DIALECTS = COUNT(NAMES), CELLS = 2 + DIALECTS + 1 };

/* What a thread compares: how many rows of each kind, and answers in each dialect. */
struct run { size_t rows[COUNT(KINDS)], answers[DIALECTS]; bool is_right; };

/* Rows that are compared after those of the table: a text whose items take more at each step, one whose second line holds copies, one whose
 * lines both do, and lines with many tags and fields, of which one is at fault after them. */
#define MANY ",a=1,b=1,c=1,d=1,e=1,f=1,g=1,h=1,i=1 a=1,b=1,c=1,d=1,e=1"
#define MANY_SHOWN "S<m>,S<a>=S<1>,S<b>=S<1>,S<c>=S<1>,S<d>=S<1>,S<e>=S<1>,S<f>=S<1>,S<g>=S<1>,S<h>=S<1>,S<i>=S<1>" \
    " S<a>=f<1> S<b>=f<1> S<c>=f<1> S<d>=f<1> S<e>=f<1>"
#define STEPS_SHOWN "\tC<c pu>,C<h=ost>=C<A B>,S<zone>=S<w> S<msg>=C<a\"b> S<up>=true at 5|FieldSetMissing|IntegerValueInvalid Above " \
    "<99999999999999999999>|rest < rest>|S<last> S<f>=f<1>"
static const char MORE[] =
    "items\tc\\\\ pu,h\\\\=ost=A\\\\ B,zone=w msg=\"a\\\\\"b\",up=t 5\\nm 5\\n\\nm f=99999999999999999999i\\n# a comment\\nm f=1 rest\\nlast f=1"
    STEPS_SHOWN STEPS_SHOWN STEPS_SHOWN "\n"
    "items\tm f=1\\nc\\\\ pu,h\\\\=ost=A\\\\ B s=\"\\\\\"q\"\tS<m> S<f>=f<1>|C<c pu>,C<h=ost>=C<A B> S<s>=C<\"q>\n"
    "items\tc\\\\ pu f=1\\nm\\\\ em f=1\tC<c pu> S<f>=f<1>|C<m em> S<f>=f<1>\n"
    "items\tm" MANY "\\nm" MANY " rest\t" MANY_SHOWN "|rest < rest>\n";

static lp_text table;

/* Takes the escapes off a cell, in its place. False: an escape means nothing. */
static bool unescape(char *cell, lp_text *text) {
    static const char spelled[] = "ntr0\\", meant[] = "\n\t\r\0\\";
    char *end = cell;
    text->at = (const uint8_t *)cell;
    for (; *cell; cell++) {
        const char *found = *cell == '\\' && cell[1] ? strchr(spelled, cell[1]) : NULL;
        if (*cell == '\\' && !found) return false;
        *end++ = found ? meant[found - spelled] : *cell;
        cell += found != NULL;
    }
    text->len = (size_t)(end - (char *)text->at);
    return true;
}

/* Whether a call gives the answer that is wanted. The text is in a block of just its length. */
static bool gives(giver *give, lp_text text, uint32_t dialect, lp_text wanted) {
    uint8_t *copy = copy_of(text.at, text.len);
    struct text given = { NULL, 0, 0 };
    give(&given, (lp_text){ copy, text.len }, dialect);
    bool is_given = given.len == wanted.len && (given.len == 0 || memcmp(given.at, wanted.at, wanted.len) == 0);
    if (!is_given) printf("%s: the library gives %.*s\n", NAMES[dialect], (int)given.len, given.len ? (char *)given.at : "");
    free(given.at);
    free(copy);
    return is_given;
}

/* Whether the cells of a row, of which each ends in a NUL, are as the library says. */
static bool is_right(char **cells, size_t count, struct run *run) {
    size_t kind = 0;
    lp_text text, wanted;
    while (kind < COUNT(KINDS) && strcmp(KINDS[kind].word, cells[0]) != 0) kind++;
    bool good = kind < COUNT(KINDS) && count > 2 && count < CELLS && unescape(cells[1], &text);
    if (!good) return false;
    run->rows[kind]++;
    for (uint32_t dialect = 0; dialect < count - 2 && KINDS[kind].gives[0]; dialect++) {
        run->answers[dialect]++;
        good &= unescape(cells[2 + dialect], &wanted);
        long requests = lp_requests;
        for (size_t at = 0; at < 4 && KINDS[kind].gives[at]; at++) good &= gives(KINDS[kind].gives[at], text, dialect, wanted);
        good &= !KINDS[kind].is_light || lp_requests == requests;
    }
    return good;
}

/* Cuts a line at its tabs: how many cells it has, of which at most CELLS are told. */
static size_t cells_of(char *line, char **cells) {
    size_t count = 0;
    for (char *cell = line; cell && count < CELLS; count++) {
        cells[count] = cell;
        if ((cell = strchr(cell, '\t'))) *cell++ = '\0';
    }
    return count;
}

/* Compares each row, and prints the rows that are not as the library says. */
static void *compare(void *user) {
    struct run *run = user;
    char *cells[CELLS], *copy = copy_of(table.at, table.len), *line = copy, *end;
    run->is_right = true;
    for (size_t number = 1; (end = strchr(line, '\n')); line = end + 1, number++) {
        *end = '\0';
        if (line[0] == '\0' || line[0] == '#' || is_right(cells, cells_of(line, cells), run)) continue;
        printf("answers.tsv: line %zu, of the kind %s, is not as the library says\n", number, cells[0]);
        run->is_right = false;
    }
    run->is_right &= *line == '\0';
    free(copy), free(lent.parts), free(lent.bytes);
    return NULL;
}

/* Prints how many rows of each kind were compared, or were passed over. Whether there are some. */
static bool are_some(const struct run *run, bool compared) {
    bool good = true;
    const char *front = "";
    for (size_t at = 0; at < COUNT(KINDS); at++) {
        if ((KINDS[at].gives[0] != NULL) != compared) continue;
        printf("%s %zu %s", front, run->rows[at], KINDS[at].word);
        front = ",";
        good &= run->rows[at] > 0;
    }
    return good;
}

int main(int argc, char **argv) {
    static struct run runs[THREADS];
    static char bytes[1 << 20];
    FILE *file = argc == 2 ? fopen(argv[1], "r") : NULL;
    pthread_t threads[THREADS];
    if (!file) return fputs("usage: answers TABLE\n", stderr), 2;
    table = (lp_text){ (uint8_t *)bytes, fread(bytes, 1, sizeof bytes - sizeof MORE, file) + sizeof MORE };
    bool good = feof(file);
    strcat(bytes, MORE);
    fclose(file);
    for (int at = 0; at < THREADS; at++) good &= pthread_create(&threads[at], NULL, compare, &runs[at]) == 0;
    for (int at = 0; at < THREADS; at++) good &= pthread_join(threads[at], NULL) == 0 && runs[at].is_right && !memcmp(&runs[at], runs, sizeof *runs);
    printf("answers.tsv: compared");
    good &= are_some(runs, true);
    printf(", and %zu answers in %s and %zu in %s; passed over", runs->answers[LP_STRICT], NAMES[LP_STRICT], runs->answers[LP_NEWLINE_DELIMITED],
           NAMES[LP_NEWLINE_DELIMITED]);
    good &= are_some(runs, false);
    printf("\n");
    return !good || failed;
}
