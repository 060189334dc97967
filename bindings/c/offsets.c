/* Reads texts by offsets: rows that were worked out by hand, and random texts in each dialect, whole and as they come, with as little
 * lent as can be. Each whole text that is UTF-8 gives what lp_lines_next gives, and its rows, written again, what lp_rebuild gives. What
 * is lent holds anything before, and reading makes no request for memory. Rows are told their keys, which are compared with those of lines
 * that were worked out by hand, and with what lp_line_key puts out; and their verdicts, of a text for each clause, after reading and at once,
 * with other limits, and with each request for memory refused. Compile heap.c with -DLP_REFUSE. */
#include "tests.h"

enum { DIALECTS = 3, TEXTS = 4000, LONGEST = 60 };

static int stood;

/* What is lent, each block of just its length, and how far reading came. */
struct lent { lp_block block; uint8_t *room; lp_offset_row *rows; lp_offset_part *parts; size_t room_len, rows_len, parts_len; };

static struct lent lend_rows(size_t rows, size_t parts, size_t room) {
    return (struct lent){ { 1, 0, 0, 0, 0 }, lend(room), lend(rows * sizeof(lp_offset_row)), lend(parts * sizeof(lp_offset_part)), room, rows, parts };
}

static void take_back(struct lent lent) {
    free(lent.room), free(lent.rows), free(lent.parts);
}

static lp_text text_of(const char *text) { return (lp_text){ (const uint8_t *)text, strlen(text) }; }

static uint64_t newlines_in(const uint8_t *text, size_t from, size_t to) {
    uint64_t count = 0;
    for (size_t at = from; at < to; at++) count += text[at] == '\n';
    return count;
}

/* Reads a block. The line at its end is that at its start, and one more for each newline between them. */
static uint32_t read_block(lp_text text, uint32_t dialect, bool last, struct lent *lent) {
    lp_block before = lent->block, *block = &lent->block;
    uint32_t answer = lp_offsets_block(text.at, text.len, dialect, last, block, lent->room, lent->room_len, lent->rows, lent->rows_len, lent->parts,
                                       lent->parts_len);
    if (answer != LP_NOT_A_DIALECT)
        expect(block->line == before.line + newlines_in(text.at, before.at, block->at), "a block ends in another line");
    return answer;
}

/* Reads all rows of a text. */
static struct lent read_all(lp_text text, uint32_t dialect) {
    struct lent lent = lend_rows(64, 256, 256);
    expect(read_block(text, dialect, true, &lent) == LP_END && lent.block.at == text.len, "a text has more");
    return lent;
}

/* Reads the rows of a text that has two. */
static struct lent read_two(lp_text text, uint32_t dialect) {
    struct lent lent = lend_rows(2, 16, 64);
    expect(read_block(text, dialect, true, &lent) == LP_LINE && lent.block.rows == 2, "two rows are not read");
    return lent;
}

/* How many bytes at the start of a text are UTF-8: sequences of the shortest length, whose values are no surrogates, and at most 0x10ffff. */
static size_t utf8_front(const uint8_t *text, size_t len) {
    static const uint32_t LEAST[] = { 0, 0x80, 0x800, 0x10000 };
    for (size_t at = 0, more; at < len; at += 1 + more) {
        const uint8_t first = text[at];
        more = first < 0x80 ? 0 : first < 0xe0 ? 1 : first < 0xf0 ? 2 : 3;
        uint32_t value = first < 0x80 ? first : first & (0x3fu >> more);
        if ((first & 0xc0) == 0x80 || first >= 0xf8 || more > len - at - 1) return at;
        for (size_t next = at + 1; next <= at + more; next++) value = (text[next] & 0xc0) == 0x80 ? value << 6 | (text[next] & 0x3f) : UINT32_MAX >> 6;
        if (value < LEAST[more] || value > 0x10ffff || (value >= 0xd800 && value <= 0xdfff)) return at;
    }
    return len;
}

static void put_span(struct text *out, const uint8_t *text, const uint8_t *room, lp_span span, uint16_t copied) {
    say(out, "%c<", copied ? 'C' : 'S');
    put(out, (copied ? room : text) + span.at, span.len);
    say(out, ">");
}

/* A row and its parts, with the bytes of its piece, and where that begins after so many bytes and lines. */
static void put_row(struct text *out, const uint8_t *text, struct lent lent, const lp_offset_row *row, size_t before, uint64_t lines) {
    const lp_offset_part *part = lent.parts + row->parts_at;
    say(out, "%u at %zu in %llu: ", (unsigned)row->answer, before + row->piece.at, (unsigned long long)(lines + row->line));
    put_span(out, text, lent.room, row->piece, 0);
    if (row->answer == LP_FAULT) say(out, " %u %u stops %u", (unsigned)row->fault, (unsigned)row->side, row->stop_at - row->piece.at);
    if (row->answer == LP_NOT_UTF8) {
        size_t front = utf8_front(text + row->piece.at, row->piece.len);
        say(out, " stops %u", row->stop_at - row->piece.at);
        expect(front < row->piece.len && row->stop_at == row->piece.at + front, "bytes that are not UTF-8 are told at another place");
        expect(row->line_at == row->piece.at, "a piece that is not UTF-8 begins at another place");
    }
    if (row->answer == LP_LINE) put_span(out, text, lent.room, row->measurement, row->measurement_copied);
    else expect(row->measurement.at == 0 && row->measurement.len == 0 && row->room_len == 0, "a row without a line has a name, or takes room");
    for (uint32_t at = 0; row->answer == LP_LINE && at < row->tags + row->fields; at++, part++) {
        expect((part->kind == LP_TAG) == (at < row->tags), "a part is out of its place");
        put_span(out, text, lent.room, part->key, part->key_copied);
        if (part->kind == LP_TAG || part->kind == LP_STRING || part->kind == LP_FLOAT) {
            put_span(out, text, lent.room, part->text, part->text_copied);
            expect(part->number == 0, "a text has a number");
        } else say(out, "%u %llu", (unsigned)part->kind, (unsigned long long)part->number);
    }
    if (row->has_timestamp) say(out, " %lld", (long long)row->timestamp);
    expect(row->key == 0 && row->verdict == 0, "what is kept for later is not 0");
    say(out, "\n");
}

/* All rows of a text, with so many rows, and so many parts and bytes at first: more are lent where more is asked for. */
static char *all_rows(lp_text text, uint32_t dialect, size_t rows, size_t parts, size_t room) {
    struct text out = { NULL, 0, 0 };
    lp_block block = { 1, 0, 0, 0, 0 };
    for (uint32_t answer = LP_LINE; answer != LP_END;) {
        struct lent lent = lend_rows(rows, parts, room);
        lent.block = block;
        answer = read_block(text, dialect, true, &lent);
        block = lent.block;
        for (uint32_t at = 0; at < block.rows; at++) put_row(&out, text.at, lent, &lent.rows[at], 0, 0);
        if (answer == LP_MORE_PARTS && block.rows == 0) parts = lent.rows[0].tags + lent.rows[0].fields;
        else if (answer == LP_MORE_ROOM && block.rows == 0) room = lent.rows[0].room_len;
        else if (answer != LP_MORE_PARTS && answer != LP_MORE_ROOM && answer != LP_LINE)
            expect(answer == LP_END && block.at == text.len, "a whole text ends otherwise");
        take_back(lent);
    }
    put(&out, "", 1);
    return (char *)out.at;
}

/* The same of a text of which so many bytes more come each time. What is left is brought again, at another place in memory. */
static char *rows_as_they_come(lp_text text, uint32_t dialect, size_t step) {
    struct text out = { NULL, 0, 0 };
    size_t begin = 0, end = 0;
    uint64_t lines = 0;
    for (bool last = false; !last;) {
        end = end + step < text.len ? end + step : text.len;
        last = end == text.len;
        uint8_t *held = copy_of(text.at + begin, end - begin);
        struct lent lent = lend_rows(64, 256, 256);
        uint32_t answer = read_block((lp_text){ held, end - begin }, dialect, last, &lent);
        expect(answer == (last ? LP_END : LP_MORE_TEXT), "a text that comes stops otherwise");
        for (uint32_t at = 0; at < lent.block.rows; at++) put_row(&out, held, lent, &lent.rows[at], begin, lines);
        begin += lent.block.at;
        lines += lent.block.line - 1;
        take_back(lent);
        free(held);
    }
    put(&out, "", 1);
    return (char *)out.at;
}

/* The measurements and the counts of the items of a text, by lp_lines_next and by offsets. */
static void compare_with_next(lp_text text, uint32_t dialect) {
    static struct reader reader;
    const lp_line *line = &reader.line;
    if (!begin(&reader, text.at, text.len, dialect)) return;
    struct lent lent = read_all(text, dialect);
    uint32_t at = 0, answer;
    for (; (answer = next(&reader)) != LP_END && at < lent.block.rows; at++) {
        const lp_offset_row *row = &lent.rows[at];
        bool same = row->answer == answer && row->fault == line->fault && row->side == line->side && row->timestamp == line->timestamp &&
                    row->tags == line->tags && row->fields == line->fields && row->has_timestamp == line->has_timestamp;
        if (answer == LP_LINE)
            same = same && row->room_len == line->copied_len && row->measurement_copied == line->measurement.copied &&
                   row->measurement.len == line->measurement.text.len;
        expect(same, "a row is not as its item");
    }
    expect(answer == LP_END && at == lent.block.rows, "there are more rows than items, or fewer");
    take_back(lent);
}

/* Writes rows into a buffer of just so many bytes, which it gives. What is not filled is as it was. */
static uint8_t *written_rows(lp_text text, uint32_t dialect, struct lent lent, size_t room, lp_rows_written *written, uint32_t *answer) {
    uint8_t *out = lend(room);
    *answer = lp_offsets_write(dialect, text.at, text.len, lent.room, lent.room_len, lent.rows, lent.block.rows, lent.parts, lent.block.parts, out,
                               room, written);
    expect(written->len <= room, "more is written than was lent");
    expect(is_untouched(out, written->len, room), "a byte is written after those that are filled");
    return out;
}

/* The rows of a text are written again, all that can be, into buffers of so many bytes, or of one more line: that is what lp_rebuild
 * writes, and the lines of refused rows are those of the items that it refuses. */
static void write_again(lp_text text, uint32_t dialect, size_t room) {
    uint8_t batch[8 * LONGEST], faults[64 * LONGEST], all[8 * LONGEST];
    lp_counts counts;
    struct lent lent = read_all(text, dialect);
    size_t filled = 0, refused = 0;
    uint32_t answer = LP_MORE_ROOM;
    for (lp_rows_written written = { 0, 0, 0 }; answer != LP_WRITTEN;) {
        uint8_t *out = written_rows(text, dialect, lent, room, &written, &answer);
        memcpy(all + filled, out, written.len);
        filled += written.len;
        free(out);
        expect((answer == LP_MORE_ROOM) == (written.need != 0), "a need is told otherwise");
        if (answer == LP_MORE_ROOM && written.len == 0) room = written.need;
        else if (answer == LP_NOT_ADMITTED || answer == LP_NOT_A_LINE) {
            expect((answer == LP_NOT_A_LINE) == (lent.rows[written.row].answer != LP_LINE), "a row is refused for another reason");
            written.row++, refused++;
        } else if (answer != LP_MORE_ROOM) expect(answer == LP_WRITTEN && written.row == lent.block.rows, "rows end otherwise");
    }
    if (lp_rebuild(dialect, text.at, text.len, batch, sizeof batch, faults, sizeof faults, &counts) == LP_WRITTEN)
        expect(filled == counts.batch_len && memcmp(all, batch, filled) == 0 && refused == counts.refused, "a text is not rebuilt");
    take_back(lent);
}

/* What a row and a part that were read answer where this is another: it holds no line. */
#define REFUSES(place, other) do { \
        lp_offset_row kept_row = lent.rows[1]; \
        lp_offset_part kept_parts[3] = { lent.parts[1], lent.parts[2], lent.parts[3] }; \
        (place) = (other), written = (lp_rows_written){ 0, 9, 9 }; \
        free(written_rows(text, LP_CRATE, lent, 64, &written, &answer)); \
        expect(answer == LP_NOT_A_LINE && written.row == 1 && written.len == 6 && written.need == 0, #place " = " #other " passes"); \
        lent.rows[1] = kept_row, memcpy(lent.parts + 1, kept_parts, sizeof kept_parts); \
    } while (0)

/* Rows that hold no line, rows that are not admitted, little room, and no memory. */
static void write_rows(void) {
    static const lp_text text = TEXT("m f=1\nn,a\\ b=c g=2.5,s=\"\xc3\xa9\" 5\n\xff");
    const size_t all = text.len - 1; /* so many bytes have the lines */
    struct lent lent = lend_rows(3, 4, 3);
    lp_rows_written written;
    uint32_t answer;
    expect(read_block(text, LP_CRATE, true, &lent) == LP_LINE && lent.block.parts == 4 && lent.block.room == 3, "three rows are not read");
    for (size_t room = 0; room <= all + 1; room++) {
        size_t fits = room < 6 ? 0 : room < all ? 6 : all;
        written = (lp_rows_written){ 0, 9, 9 };
        uint8_t *out = written_rows(text, LP_CRATE, lent, room, &written, &answer);
        expect(written.len == fits && memcmp(out, text.at, fits) == 0, "other lines are written");
        expect(answer == (room < all ? LP_MORE_ROOM : LP_NOT_A_LINE) && written.row == (room < 6 ? 0 : room < all ? 1 : 2), "rows stop elsewhere");
        expect(written.need == (room < 6 ? 6 : room < all ? all - 6 : 0), "another need is told");
        free(out);
    }
    REFUSES(lent.rows[1].measurement.at, (uint32_t)text.len);
    REFUSES(lent.rows[1].measurement.len, UINT32_MAX);
    REFUSES(lent.rows[1].parts_at, 2);
    REFUSES(lent.rows[1].parts_at, UINT32_MAX);
    REFUSES(lent.rows[1].tags, UINT32_MAX);
    REFUSES(lent.rows[1].fields, 0);
    REFUSES(lent.rows[1].fields, 3);
    REFUSES(lent.parts[1].key.at, 1);
    REFUSES(lent.parts[1].kind, LP_STRING);
    REFUSES(lent.parts[2].kind, LP_TAG);
    REFUSES(lent.parts[2].kind, 6);
    REFUSES(lent.parts[2].key_copied, 1);
    REFUSES(lent.parts[2].text.len, 0);
    REFUSES(lent.parts[3].text.len, 1);
    lent.rows[1].measurement = (lp_span){ 5, 2 }, written = (lp_rows_written){ 1, 9, 9 };
    free(written_rows(text, LP_CRATE, lent, 64, &written, &answer));
    expect(answer == LP_NOT_ADMITTED && written.row == 1 && written.len == 0, "a measurement that holds a newline is written");
    written = (lp_rows_written){ 7, 9, 9 };
    free(written_rows(text, LP_CRATE, lent, 64, &written, &answer));
    expect(answer == LP_WRITTEN && written.row == 3 && written.len == 0, "rows are written past the last one");
    written = (lp_rows_written){ 0, 0, 9 };
    free(written_rows(text, 3, lent, 64, &written, &answer));
    expect(answer == LP_NOT_A_DIALECT && written.row == 0 && written.need == 9, "rows are written in a fourth dialect");
    lp_requests = 0, lp_refused = 0;
    free(written_rows(text, LP_CRATE, lent, 64, &written, &answer));
    expect(answer == LP_OUT_OF_MEMORY && written.row == 0 && written.len == 0, "a request that is refused is answered otherwise");
    lp_requests = 0, lp_refused = -1;
    take_back(lent);
}

static uint32_t draw(void) {
    static uint64_t state = 1;
    state = state * 6364136223846793005u + 1442695040888963407u;
    return (uint32_t)(state >> 33);
}

/* What a row tells: its key, or with limits its verdict. */
static uint64_t *told_of(lp_offset_row *row, const lp_limits *limits) { return limits ? &row->verdict : &row->key; }

/* Tells so many rows their keys, or with limits their verdicts: else they stay as they were. Gives how many are told. */
static size_t tell(lp_text text, struct lent lent, size_t rows, const lp_limits *limits) {
    size_t told = limits ? SIZE_MAX : rows;
    for (size_t at = 0; at < rows; at++) *told_of(&lent.rows[at], limits) = 0xa5a5 + at;
    lp_offset_row *before = copy_of(lent.rows, rows * sizeof *before);
    uint32_t answer = LP_WRITTEN;
    if (limits) answer = lp_offsets_verdicts(text.at, text.len, lent.rows, rows, limits, &told);
    else lp_offsets_keys(text.at, text.len, lent.rows, rows);
    expect(told <= rows && answer == (told == rows ? LP_WRITTEN : LP_OUT_OF_MEMORY), "an answer does not fit how many rows are told");
    for (size_t at = 0; at < told && at < rows; at++) *told_of(&before[at], limits) = *told_of(&lent.rows[at], limits);
    expect(memcmp(before, lent.rows, rows * sizeof *before) == 0, "a row is changed by what it tells");
    free(before);
    return told;
}

/* How many bytes are told as the key of each of two lines: lines and numbers that were worked out by hand. */
static const struct { const char *text; uint64_t keys[2]; } KEYS[] = {
    { "cpu,az=b,host=a usage=1\ncpu,host=a,az=b usage=1", { 15, 0 } },                    /* in order, and not */
    { "m f=1 5\n # c\n mem f=1", { 1, 3 } },                                             /* without tags, and after blanks and a comment */
    { "m\\,n\\ o,a\\=b=c\\,d f=1\nm=n,k=v f=1", { 17, 7 } },                             /* as they are written */
    { "m,a=x\\y f=1\nm,a=x\\\\y f=1", { 0, 8 } },                                        /* a backslash is written twice */
    { "m,a=b=c f=1\nm,a=b\\=c f=1", { 0, 8 } },                                          /* and an equals sign in a value escaped */
    { "m,a=1,a=1 f=1\nm,b=1,a=1,b=2 f=1", { 9, 0 } },                                     /* a key of the tags twice */
    { "m,a=b\tc f=1\n\\#m f=1", { 0, 0 } },                                             /* a name that is not admitted, or not so written */
    { "m,a\\ =1,b=2 f=1\nm,b\\ =1,a=2 f=1", { 11, 0 } },                                /* in the order of what the keys mean */
    { "m,a\\,=1,aA=2 f=1\nm,aA=2,a\\,=1 f=1", { 12, 0 } },                               /* and not of how they are written */
    { "m\xc3\xa8tre,\xc3\xbc=\xc3\xa9 f=1\nm,a=\xc3\xa9,z=1 f=1,s=\"a b\"", { 12, 10 } },   /* bytes that are no ASCII */
    { "m 5\n\xff f=1", { 0, 0 } },                                                       /* no lines */
    { "m,a=1 f=1\nm,a=1  f=1", { 5, 5 } },                                               /* more than a space after the series */
};

/* The rows of hand-made lines. */
static void known_keys(uint32_t dialect) {
    for (size_t at = 0; at < COUNT(KEYS); at++) {
        lp_text text = text_of(KEYS[at].text);
        struct lent lent = read_two(text, dialect);
        tell(text, lent, 2, NULL);
        for (int row = 0; row < 2; row++)
            if (lent.rows[row].key != KEYS[at].keys[row])
                printf("of %s line %d has %llu\n", KEYS[at].text, row, (unsigned long long)lent.rows[row].key), failed = 1;
        take_back(lent);
    }
}

/* A text for each clause that a short one breaks, and the servers that the clause concerns: with the other masks a verdict is 0. */
static const struct { const char *text; uint64_t bits; bool influx, victoria; } CLAUSES[] = {
    { "m f=1", 0, false, false },
    { "m,a=b\\ c,d=e f=1i,g=\"x y\",h=t 1590488773254000000", 0, false, false },
    { " m f=1", LP_CLAUSE_LEADING_BLANK, false, true },
    { "\tm f=1", LP_CLAUSE_LEADING_BLANK, false, true },
    { "m f=1 1000000 ", LP_CLAUSE_TRAILING_SPACE, false, true },
    { "m s=\"a\nb\"", LP_CLAUSE_NEWLINE, false, true },
    { "m\\=x f=1", LP_CLAUSE_MEASUREMENT_EQUALS, true, true },
    { "m\\\\x f=1", LP_CLAUSE_MEASUREMENT_ESCAPE, true, false },
    { "m\\\"x f=1", LP_CLAUSE_MEASUREMENT_ESCAPE, true, false },
    { "m,a=x\\\\y f=1", LP_CLAUSE_TAG_ESCAPE, true, false },
    { "m,z=z,a\\\\b=v f=1", LP_CLAUSE_TAG_ESCAPE, true, false },
    { "m,a,b=v f=1", LP_CLAUSE_TAG_KEY_COMMA, true, true },
    { "m,z=z,a=b=c f=1", LP_CLAUSE_TAG_VALUE_EQUALS, true, false },
    { "m,a==b f=1", LP_CLAUSE_TAG_VALUE_EQUALS, true, false },
    { "m,a=\\=b f=1", 0, false, false },
    { "m,a=1,a=2 f=1", LP_CLAUSE_REPEATED_TAG, true, true },
    { "m f=1,a\\\\b=1", LP_CLAUSE_FIELD_KEY_ESCAPE, true, false },
    { "m a,b=1", LP_CLAUSE_FIELD_KEY_COMMA, true, true },
    { "m f=1,a\"=1", LP_CLAUSE_FIELD_KEY_QUOTE, false, true },
    { "m f=1u", LP_CLAUSE_UNSIGNED, true, false },
    { "m f=1e400", LP_CLAUSE_INFINITE_FLOAT | LP_CLAUSE_ROUNDED_FLOAT, true, true },
    { "m f=1E3", LP_CLAUSE_ROUNDED_FLOAT, false, true },
    { "m f=1 9223372036854775807", LP_CLAUSE_TIME_OUT_OF_RANGE, true, false },
    { "m f=1 -9223372036854775807", LP_CLAUSE_TIME_OUT_OF_RANGE | LP_CLAUSE_TIME_NOT_KEPT, true, true },
    { "m,time=a f=1", LP_CLAUSE_TIME_NAME, true, false },
    { "m f=1,time=1", LP_CLAUSE_TIME_NAME, true, false },
    { "_series f=1", LP_CLAUSE_SYSTEM_NAME, true, false },
    { "m f=1,_name=1", LP_CLAUSE_SYSTEM_NAME, true, false },
    { "m f=1,f=2", LP_CLAUSE_REPEATED_FIELD, true, true },
    { "m,t=a#!~b f=1", LP_CLAUSE_KEY_SEPARATOR, true, false },
    { "m f=1,a\rb=1", LP_CLAUSE_CONTROL_BYTE, true, false },
    { "m,__name__=x f=1", LP_CLAUSE_NAME_LABEL, false, true },
    { "m f=1 999999", LP_CLAUSE_TIME_NOT_KEPT, false, true },
    { " m\\=x,a=1,a=2 f=1u,g=1e5", LP_CLAUSE_LEADING_BLANK | LP_CLAUSE_MEASUREMENT_EQUALS | LP_CLAUSE_REPEATED_TAG | LP_CLAUSE_UNSIGNED |
                                       LP_CLAUSE_ROUNDED_FLOAT, true, true },
};

static lp_limits defaults(void) {
    lp_limits limits;
    memset(&limits, 0xa5, sizeof limits);
    lp_limits_default(&limits);
    return limits;
}

/* Rows that are told verdicts as they are read must be those that are told after it. */
static void told_at_once(lp_text text, uint32_t dialect, struct lent wanted, const lp_limits *limits) {
    struct lent lent = lend_rows(64, 256, 256);
    lp_block *block = &lent.block;
    size_t told = SIZE_MAX;
    uint32_t answer = lp_offsets_block_verdicts(text.at, text.len, dialect, true, block, lent.room, 256, lent.rows, 64, lent.parts, 256, limits, &told);
    expect(answer == LP_END && told == wanted.block.rows && memcmp(block, &wanted.block, sizeof *block) == 0 &&
           memcmp(lent.rows, wanted.rows, told * sizeof *lent.rows) == 0, "rows are told otherwise at once");
    take_back(lent);
}

/* All texts one after another. */
static void known_verdicts(uint32_t dialect) {
    const lp_limits limits = defaults();
    struct text all = { NULL, 0, 0 };
    for (size_t at = 0; at < COUNT(CLAUSES); at++) say(&all, "%s\n", CLAUSES[at].text);
    uint8_t *copy = copy_of(all.at, all.len); /* of just its length */
    const lp_text text = { copy, all.len };
    struct lent lent = read_all(text, dialect);
    expect(lent.block.rows == COUNT(CLAUSES) && tell(text, lent, COUNT(CLAUSES), &limits) == COUNT(CLAUSES), "not all rows are told");
    for (size_t at = 0; at < COUNT(CLAUSES); at++) {
        uint64_t verdict = lent.rows[at].verdict;
        if (verdict != CLAUSES[at].bits) printf("on %s the verdict is %llu\n", CLAUSES[at].text, (unsigned long long)verdict), failed = 1;
        expect(((verdict & LP_OF_INFLUX1) != 0) == CLAUSES[at].influx, "a clause concerns InfluxDB, or does not");
        expect(((verdict & LP_OF_VICTORIA) != 0) == CLAUSES[at].victoria, "a clause concerns VictoriaMetrics, or does not");
    }
    told_at_once(text, dialect, lent, &limits);
    take_back(lent);
    free(all.at), free(copy);
}

/* Rows that have no line, or one of another dialect. */
static void no_lines(uint32_t dialect) {
    static const size_t wanted[] = { 5, 5, 6 };
    const lp_text text = TEXT("m 5\n\xff f=1\nm f=1u,\nm f=1\nm s=\"a\nb\"\n");
    const lp_limits limits = defaults();
    const uint64_t rest = dialect == LP_NEWLINE_DELIMITED ? LP_CLAUSE_NOT_A_LINE : LP_CLAUSE_NEWLINE;
    struct lent lent = read_all(text, dialect);
    size_t count = lent.block.rows;
    expect(count == wanted[dialect] && tell(text, lent, count, &limits) == count, "not all rows are told");
    for (size_t at = 0; at < count; at++)
        expect(lent.rows[at].verdict == (at == 3 ? 0 : at > 3 ? rest : LP_CLAUSE_NOT_A_LINE), "a row of no line has another verdict");
    told_at_once(text, dialect, lent, &limits);
    take_back(lent);
}

/* What a row tells where this is another, of the lines `m,a=é f=1` and `n f=1u`: its places are moved out of the text, or into a
 * character, or made those of no line. */
#define TELLS(place, other, wanted) do { \
        lp_offset_row kept_row = row; \
        (place) = (other); \
        expect(tell(text, lent, 2, limits) == 2 && *told_of(lent.rows, limits) == first, "a row is not told beside a forged one"); \
        expect(*told_of(&row, limits) == (wanted), #place " = " #other " tells another key or verdict"); \
        row = kept_row; \
    } while (0)
#define row lent.rows[1]

static void forged_keys(lp_text text, struct lent lent) {
    const lp_limits *limits = NULL;
    const uint64_t first = 6;
    TELLS(row.line, 7, 1);
    TELLS(row.stop_at, (uint32_t)text.len + 1, 0);
    TELLS(row.stop_at, UINT32_MAX, 0);
    TELLS(row.line_at, UINT32_MAX, 0);
    TELLS(row.line_at, (uint32_t)text.len, 0);
    TELLS(row.line_at, (uint32_t)text.len + 1, 0);
    TELLS(row.stop_at, row.line_at - 1, 0);
    TELLS(row.stop_at, row.line_at + 1, 1);
    TELLS(row.line_at, 4, 2); /* where a character begins */
    TELLS(row.line_at, 5, 0); /* in a character */
    TELLS(row.line_at, 0, 6);
    TELLS(row.answer, LP_FAULT, 0);
    TELLS(row.answer, LP_MORE_PARTS, 0);
    TELLS(row.answer, LP_NOT_UTF8, 0);
    row.line_at = 0;
    TELLS(row.stop_at, 5, 0); /* ends in a character */
    tell((lp_text){ text.at, 0 }, lent, 2, NULL);
    expect(lent.rows[0].key == 0 && row.key == 0, "keys lie in a text of no bytes");
    tell(text, lent, 0, NULL);
}

static void forged_verdicts(lp_text text, struct lent lent) {
    const lp_limits all = defaults(), *limits = &all;
    const uint64_t first = 0;
    TELLS(row.line_at, UINT32_MAX, LP_CLAUSE_UNSIGNED);
    TELLS(row.stop_at, 0, LP_CLAUSE_UNSIGNED);
    TELLS(row.answer, LP_FAULT, LP_CLAUSE_NOT_A_LINE);
    TELLS(row.answer, LP_NOT_UTF8, LP_CLAUSE_NOT_A_LINE);
    TELLS(row.answer, UINT32_MAX, LP_CLAUSE_NOT_A_LINE);
    TELLS(row.piece.len, 7, LP_CLAUSE_NOT_A_LINE);
    TELLS(row.piece.len, 5, 0);
    TELLS(row.piece.len, 0, LP_CLAUSE_NOT_A_LINE);
    TELLS(row.piece.len, UINT32_MAX, LP_CLAUSE_NOT_A_LINE);
    TELLS(row.piece.at, 12, LP_CLAUSE_NOT_A_LINE);
    TELLS(row.piece.at, 17, LP_CLAUSE_NOT_A_LINE);
    TELLS(row.piece.at, 18, LP_CLAUSE_NOT_A_LINE);
    TELLS(row.piece.at, UINT32_MAX, LP_CLAUSE_NOT_A_LINE);
    TELLS(row.piece, ((lp_span){ 0, 10 }), 0);
    TELLS(row.piece, ((lp_span){ 2, 5 }), LP_CLAUSE_NOT_A_LINE); /* ends in a character */
    TELLS(row.piece, ((lp_span){ 5, 5 }), LP_CLAUSE_NOT_A_LINE); /* begins in one */
    TELLS(row.piece, ((lp_span){ 0, 17 }), LP_CLAUSE_NOT_A_LINE); /* two lines */
    expect(tell((lp_text){ text.at, 0 }, lent, 2, limits) == 2 && lent.rows[0].verdict == 1 && row.verdict == 1, "a text of no bytes has lines");
    expect(tell(text, lent, 0, limits) == 0, "of no rows one is told");
}
#undef row

static void forged_rows(void) {
    uint8_t *copy = copy_of("m,a=\xc3\xa9 f=1\nn f=1u", 17); /* of just its length */
    const lp_text text = { copy, 17 };
    void (*const forge[])(lp_text, struct lent) = { forged_keys, forged_verdicts };
    for (int at = 0; at < 2; at++) {
        struct lent lent = read_two(text, LP_STRICT);
        forge[at](text, lent);
        take_back(lent);
    }
    free(copy);
}

/* Whether a name of a line that was read is admitted. */
static bool is_admitted_name(lp_view name, bool measurement) {
    bool good = name.text.len > 0 && name.text.at[name.text.len - 1] != '\\' && !(measurement && name.text.at[0] == '#');
    for (size_t at = 0; at < name.text.len; at++)
        good = good && name.text.at[at] != '\t' && name.text.at[at] != '\n' && !(measurement && name.text.at[at] == 0);
    return good;
}

/* The keys that rows tell of a text are what lp_line_key puts out of its lines, where their series stand so and all names are admitted. */
static void compare_keys(lp_text text, uint32_t dialect) {
    static struct reader reader;
    const lp_line *line = &reader.line;
    uint8_t key[8 * LONGEST];
    struct lent lent = read_all(text, dialect);
    long requests = lp_requests;
    tell(text, lent, lent.block.rows, NULL);
    expect(lp_requests == requests, "keys of rows ask for memory");
    for (uint32_t at = 0; at < lent.block.rows; at++) {
        size_t key_len = 0;
        const lp_span piece = lent.rows[at].piece;
        bool stands = begin(&reader, text.at + piece.at, piece.len, dialect) && next(&reader) == LP_LINE &&
                      lp_line_key(line, reader.parts, COUNT(reader.parts), key, sizeof key, &key_len) == LP_WRITTEN && key_len == line->series.len &&
                      memcmp(key, line->series.at, key_len) == 0 && is_admitted_name(line->measurement, true);
        for (size_t tag = 0; stands && tag < line->tags; tag++)
            stands = is_admitted_name(reader.parts[tag].key, false) && is_admitted_name(reader.parts[tag].text, false);
        expect(lent.rows[at].key == (stands ? key_len : 0), "a row tells another key than lp_line_key");
        stood += stands;
    }
    take_back(lent);
}

/* The verdict on `m,a=1,b=2 f=1 5000000` with other limits. */
static void limited(size_t line, size_t tags, int64_t earliest, int64_t latest, uint64_t wanted) {
    const lp_text text = TEXT("m,a=1,b=2 f=1 5000000");
    const lp_limits limits = { line, tags, earliest, latest };
    struct lent lent = read_all(text, LP_STRICT);
    expect(tell(text, lent, 1, &limits) == 1 && lent.rows[0].verdict == wanted, "by other limits a row has another verdict");
    told_at_once(text, LP_STRICT, lent, &limits);
    take_back(lent);
}

static void other_limits(void) {
    lp_limits limits = defaults();
    expect(limits.line == 262144 && limits.tags == 29 && limits.earliest == 1000000 && limits.latest == INT64_MAX, "the limits are others");
    limited(21, 2, 5000000, 5000000, 0); /* just within its limits */
    limited(20, 2, 5000000, 5000000, LP_CLAUSE_LONG_LINE);
    limited(21, 1, 5000000, 5000000, LP_CLAUSE_TOO_MANY_TAGS);
    limited(21, 2, 5000001, INT64_MAX, LP_CLAUSE_TIME_NOT_KEPT);
    limited(21, 2, INT64_MIN, 4999999, LP_CLAUSE_TIME_NOT_KEPT);
    limited(SIZE_MAX, SIZE_MAX, INT64_MIN, INT64_MAX, 0);
    limited(0, 0, INT64_MAX, INT64_MIN, LP_CLAUSE_LONG_LINE | LP_CLAUSE_TOO_MANY_TAGS | LP_CLAUSE_TIME_NOT_KEPT);
}

/* A short line, and one of 40 tags and fields, whose keys fall. */
static lp_text many_parts(struct text *text, const char *first) {
    say(text, "%s\nm", first);
    for (int left = 40; left > 0; left--) say(text, ",t%03d=v", left);
    for (int left = 40; left > 0; left--) say(text, "%cf%03d=1", left == 40 ? ' ' : ',', left);
    return (lp_text){ text->at, text->len };
}

/* With each request refused: the rows before it are told. */
static long refusals(void) {
    struct text many = { NULL, 0, 0 };
    const lp_text text = many_parts(&many, "m,t5=v,t4=v,t3=v,t2=v,t1=v f5=1,f4=1,f3=1,f2=1,f1=1");
    const lp_limits limits = defaults();
    struct lent lent = read_all(text, LP_STRICT);
    lp_requests = 0;
    expect(tell(text, lent, 2, &limits) == 2 && lent.rows[0].verdict == 0 && lent.rows[1].verdict == LP_CLAUSE_TOO_MANY_TAGS, "two rows have other verdicts");
    long requests = lp_requests;
    for (lp_refused = 0; lp_refused < requests; lp_refused++) {
        lp_requests = 0;
        size_t told = tell(text, lent, 2, &limits);
        expect(told < 2 && (told == 0 || lent.rows[0].verdict == 0), "a request is refused, and all rows are told");
    }
    lp_refused = -1;
    take_back(lent), free(many.at);
    return requests;
}

/* As it is read, a row is told that takes no memory, and the one after it is not. */
static void refused_at_once(void) {
    struct text many = { NULL, 0, 0 };
    const lp_text text = many_parts(&many, "m,b=1,a=2 f=1");
    const lp_limits limits = defaults();
    struct lent lent = lend_rows(2, 256, 1);
    size_t told = SIZE_MAX;
    lp_requests = lp_refused = 0;
    uint32_t answer = lp_offsets_block_verdicts(text.at, text.len, LP_STRICT, true, &lent.block, lent.room, 1, lent.rows, 2, lent.parts, 256, &limits, &told);
    lp_refused = -1;
    expect(answer == LP_LINE && lent.block.rows == 2 && told == 1 && lent.rows[0].verdict == 0 && lent.rows[1].verdict == 0, "a row is told without memory");
    answer = lp_offsets_block_verdicts(text.at, text.len, 3, true, &lent.block, lent.room, 1, lent.rows, 2, lent.parts, 256, &limits, &told);
    expect(answer == LP_NOT_A_DIALECT && told == 0, "by no dialect a row is told");
    take_back(lent), free(many.at);
}

/* Tells the verdict on one line, which takes no memory. */
static void tell_light(lp_text text, lp_limits limits, uint64_t wanted, const char *what) {
    struct lent lent = read_all(text, LP_STRICT);
    lp_requests = 0;
    expect(tell(text, lent, lent.block.rows, &limits) == 1 && lent.rows[0].verdict == wanted && lp_requests == 0, what);
    take_back(lent);
}

/* Few tags and fields take no memory. Nor does a line of many, which is read just once, if its keys rise and nothing in it means something to
 * a server. Its time and its limits are no reason to read it again. */
static void no_memory(void) {
    struct text many = { NULL, 0, 0 };
    lp_limits limits = defaults();
    tell_light(text_of("m,a=1,b=2,c=3,d=4,e=5,f=6,g=7,h=8 f=1,g=2i,h=\"x\",i=t 1000000"), limits, 0, "a short line takes memory");
    say(&many, "m");
    for (int at = 0; at < 20; at++) say(&many, ",t%02d=v", at);
    for (int at = 0; at < 20; at++) say(&many, "%cf%02d=%d.5", at ? ',' : ' ', at, at);
    say(&many, " 5");
    const lp_text text = { many.at, many.len };
    tell_light(text, limits, LP_CLAUSE_TIME_NOT_KEPT, "its time is kept, or a line that is read once takes memory");
    limits.line = limits.tags = 0, limits.earliest = 5;
    tell_light(text, limits, LP_CLAUSE_LONG_LINE | LP_CLAUSE_TOO_MANY_TAGS, "its limits are not broken, or a line that is read once takes memory");
    free(many.at);
}

static lp_text random_text(void) {
    static uint8_t text[LONGEST + 32];
    static const char *const words[] = { "m", ",", "=", " ", "\n", "\"", "\\", "1", "i", "a=1i", " f=", "u", "true", "#", "\t", "-2.5e3",
                                         "\xff", "\xe2\x82", "\xf0\x9f\x98\x80", "\xed\xa0", "m f=1\n", ",t=\\ v", " f=\"x\"", "9999999999999999999", "\xc3\xa9" };
    size_t len = 0, want = draw() % LONGEST;
    while (len < want) {
        const char *word = words[draw() % COUNT(words)];
        memcpy(text + len, word, strlen(word));
        len += strlen(word);
    }
    return (lp_text){ text, len };
}

static void compare(uint32_t dialect, lp_text text) {
    char *whole = all_rows(text, dialect, 64, 256, 256);
    char *few = all_rows(text, dialect, 1 + draw() % 3, 0, 0), *come = rows_as_they_come(text, dialect, 1 + draw() % 20);
    if (strcmp(whole, few) != 0) printf("with little lent:\n%s%s", whole, few), failed = 1;
    if (strcmp(whole, come) != 0) printf("as it comes:\n%s%s", whole, come), failed = 1;
    free(whole), free(few), free(come);
    compare_with_next(text, dialect);
}

/* Pieces that are not UTF-8, and how many of their bytes are before the first one with which they are none. */
static const struct { const char *piece; size_t front; } NOT_UTF8[] = {
    { "m f=1\xff", 5 },                           /* a byte that begins no character */
    { "\xbf", 0 },                                /* one that goes on without a beginning */
    { "m s=\"\xc3\xa9\xc3\" 1", 7 },             /* the second character ends early */
    { "m \xe2\x82\xac=1,b=\xe2\x82", 10 },      /* the text ends in a character */
    { "a\xc0\x80", 1 },                          /* a NUL of two bytes */
    { "a\xe0\x9f\xbf", 1 },                      /* a character of two bytes in three */
    { "a\xed\xa0\x80", 1 },                      /* half a pair of surrogates */
    { "a\xf0\x9f\x98\x80\xf4\x90\x80\x80", 5 }, /* past the last character */
    { " # c\xfe", 4 },                            /* in a comment */
};

/* Reads such a piece after a line, and after so many bytes that are UTF-8. */
static void not_utf8(uint32_t dialect) {
    static const size_t BEFORE[] = { 0, 55, 70, 1500, 5000 };
    for (size_t at = 0; at < COUNT(NOT_UTF8) * COUNT(BEFORE); at++) {
        const char *piece = NOT_UTF8[at / COUNT(BEFORE)].piece;
        const size_t len = strlen(piece), before = 6 + BEFORE[at % COUNT(BEFORE)];
        uint8_t *text = lend(before + len);
        memset(text, 'a', before), memcpy(text, "m f=1\n", 6), memcpy(text + before, piece, len);
        struct lent lent = read_two((lp_text){ text, before + len }, dialect);
        expect(lent.block.line == 2 && lent.rows[1].answer == LP_NOT_UTF8 && lent.rows[1].line_at == 6, "a piece that is not UTF-8 is read");
        expect(lent.rows[1].stop_at == before + NOT_UTF8[at / COUNT(BEFORE)].front, "another byte is the first with which a piece is not UTF-8");
        take_back(lent);
        free(text);
    }
}

/* The line at the end of a text: each newline ends one, and the end of the text none. */
static const struct { const char *text; uint64_t line; } ENDS[] = {
    { "", 1 }, { "m f=1", 1 }, { "m f=1\n", 2 }, { "m f=1\nn f=1", 2 }, { "\n\n", 3 }, { "# c", 1 }, { "m s=\"a\\\nb\"", 2 }, { "m f=1\n  ", 2 },
};

static void known_ends(uint32_t dialect) {
    for (size_t at = 0; at < COUNT(ENDS); at++) {
        struct lent lent = read_all(text_of(ENDS[at].text), dialect);
        if (lent.block.line != ENDS[at].line) printf("%s ends in line %llu\n", ENDS[at].text, (unsigned long long)lent.block.line), failed = 1;
        take_back(lent);
    }
}

/* Texts with their rows, in each dialect, or as in that of the crate: where the rules of docs/FORMAT.md put them. */
#define THREE "1 at 0 in 1: S< m f=1>S<m>S<f>S<1>\n8 at 7 in 2: S<\xff f=1> stops 0\n2 at 13 in 3: S<m f=9223372036854775808i> 4 1 stops 4\n"
static const struct { const char *text, *rows[DIALECTS]; } KNOWN[] = {
    { "cpu,host=A usage=64i,up=t 5\n\n# c\nm\n",
      { "1 at 0 in 1: S<cpu,host=A usage=64i,up=t 5>S<cpu>S<host>S<A>S<usage>1 64S<up>5 1 5\n2 at 33 in 4: S<m> 10 0 stops 1\n",
        NULL, NULL } },
    { "m s=\"a\nb\" 1\nn\\,o f=2.50,g=-064i",
      { "1 at 0 in 1: S<m s=\"a\nb\" 1>S<m>S<s>S<a\nb> 1\n1 at 12 in 3: S<n\\,o f=2.50,g=-064i>C<n,o>S<f>S<2.50>S<g>1 18446744073709551552\n",
        NULL,
        "2 at 0 in 1: S<m s=\"a> 3 0 stops 4\n2 at 7 in 2: S<b\" 1> 3 0 stops 4\n"
        "1 at 12 in 3: S<n\\,o f=2.50,g=-064i>C<n,o>S<f>S<2.50>S<g>1 18446744073709551552\n" } },
    { " m f=1\n\xff f=1\nm f=9223372036854775808i\nm f=1u,",
      { THREE "1 at 38 in 4: S<m f=1u,>S<m>S<f>2 1\n", THREE "2 at 38 in 4: S<m f=1u,> 8 0 stops 6\n",
        THREE "2 at 38 in 4: S<m f=1u,> 8 0 stops 6\n" } },
};

static void known_rows(uint32_t dialect) {
    for (size_t at = 0; at < COUNT(KNOWN); at++) {
        const char *wanted = KNOWN[at].rows[dialect] ? KNOWN[at].rows[dialect] : KNOWN[at].rows[0];
        char *rows = all_rows(text_of(KNOWN[at].text), dialect, 2, 1, 0);
        if (strcmp(rows, wanted) != 0) printf("dialect %u gives\n%s", (unsigned)dialect, rows), failed = 1;
        free(rows);
    }
}

static void no_dialect(void) {
    struct lent lent = lend_rows(1, 1, 1);
    const lp_block block = { 7, 3, 5, 6, 9 };
    lent.block = block;
    expect(read_block(text_of("m f=1"), 3, true, &lent) == LP_NOT_A_DIALECT && memcmp(&block, &lent.block, sizeof block) == 0, "a fourth dialect is read");
    take_back(lent);
}

int main(void) {
    for (int at = 0; at < TEXTS; at++) {
        const lp_text text = random_text();
        for (uint32_t dialect = 0; dialect < DIALECTS; dialect++) compare(dialect, text);
    }
    for (uint32_t dialect = 0; dialect < DIALECTS; dialect++) known_rows(dialect), not_utf8(dialect), known_ends(dialect), known_keys(dialect);
    no_dialect();
    expect(sizeof(lp_offset_part) == 32 && sizeof(lp_offset_row) == 88, "a row or a part has another size");
    expect(lp_requests == 0, "memory was asked for");
    write_rows(), forged_rows(), other_limits(), no_memory();
    for (uint32_t dialect = 0; dialect < DIALECTS; dialect++) no_lines(dialect);
    known_verdicts(LP_CRATE), known_verdicts(LP_STRICT);
    for (int at = 0; at < TEXTS; at++) {
        const lp_text text = random_text();
        for (uint32_t dialect = 0; dialect < DIALECTS; dialect++) write_again(text, dialect, draw() % (2 * LONGEST)), compare_keys(text, dialect);
    }
    expect(stood > 1000, "few lines begin with their keys");
    long requests = refusals();
    refused_at_once();
    expect(requests > 0, "no request can be refused");
    printf("%zu texts by offsets, and %d random ones, and as many written again, of which %d lines begin with their keys; %zu verdicts, and each of %ld "
           "requests refused", COUNT(KNOWN), TEXTS, stood, COUNT(CLAUSES), requests);
    return failed;
}
