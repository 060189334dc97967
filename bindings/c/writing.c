/* Hands in lines and texts to be written into buffers of each length up to what they need; then refuses each request for memory
 * in turn. Compile heap.c with -DLP_REFUSE. What must come is what the Rust crate gives. */
#include "tests.h"

static const lp_part PARTS[] = {
    { VIEW("h,o"), VIEW("x y=z"), 0, 0, LP_TAG, false },    { VIEW("k"), VIEW("v"), 0, 0, LP_TAG, false },
    { VIEW("i"), VIEW(""), -5, 0, LP_INTEGER, false },      { VIEW("u"), VIEW(""), 0, 7, LP_UNSIGNED, false },
    { VIEW("fl"), VIEW("1.5e3"), 0, 0, LP_FLOAT, false },   { VIEW("s"), VIEW("a\"b\\"), 0, 0, LP_STRING, false },
    { VIEW("t"), VIEW(""), 0, 0, LP_BOOLEAN, true },
};
/* It has no series text, so its measurement is said to be a copy: no base is a part of an input then. */
static const lp_line LINE = { LP_NO_TEXT, { TEXT("a b,c"), true }, LP_NO_TEXT, 2, 5, 0, 99, 0, 0, true, true, false };

/* Into buffers of each length. */
static bool writes(writer *write, const lp_line *line, const lp_part *parts, uint32_t wanted, const char *text) {
    const size_t len = strlen(text);
    bool good = true;
    for (size_t room = 0; room <= len + 1; room++) {
        uint8_t *out = lend(room);
        size_t told = 0, put = room < len ? 0 : len;
        good &= write(line, parts, 7, out, room, &told) == (room < len ? LP_MORE_ROOM : wanted) && told == len;
        good &= memcmp(out, text, put) == 0 && is_untouched(out, put, room);
        free(out);
    }
    return good;
}

/* Whether a call answers that what it is handed is no line, fault or clause, and leaves the room and the length as they were. */
static bool puts_none(writer *write, const lp_line *line) {
    uint8_t out[96];
    size_t told = 77;
    memset(out, '~', sizeof out);
    return write(line, PARTS, 7, out, sizeof out, &told) == LP_NOT_A_LINE && told == 77 && is_untouched(out, 0, sizeof out);
}

/* Refuses each request in turn: nothing is written, and the length is as it was. How many there are. */
static long refused(writer *write, const lp_line *line, const lp_part *parts, size_t parts_len, size_t len, bool *good) {
    uint8_t out[128];
    size_t told = 0;
    lp_requests = 0;
    *good &= write(line, parts, parts_len, out, sizeof out, &told) == LP_WRITTEN && told == len;
    long requests = lp_requests;
    for (long at = 0; at < requests; at++) {
        memset(out, '~', sizeof out);
        lp_requests = 0, lp_refused = at, told = 77;
        *good &= write(line, parts, parts_len, out, sizeof out, &told) == LP_OUT_OF_MEMORY && told == 77;
        *good &= is_untouched(out, 0, sizeof out);
    }
    lp_refused = -1;
    return requests;
}

/* What is no line is refused, and what holds a name that would not read back is not admitted. */
static bool is_tested(void) {
    static const struct { writer *write; size_t tags, fields; bool has_tag_set; const char *measurement; } REFUSED[] = {
        { write_line, 2, 0, true, "m" },     { lp_line_show, 2, 6, true, "m" }, { lp_line_base, 2, 5, false, "m" }, { lp_line_key, 2, 5, false, "m" },
        { lp_line_key, 3, 5, true, "m" },    { lp_line_key, 8, 5, true, "m" },  { write_line, 2, 5, true, "\xff" }, { lp_line_key, 2, 5, true, "\xff" },
    };
    lp_line line = LINE;
    bool admitted = false, good = lp_line_is_admitted(LP_CRATE, &LINE, PARTS, 7, &admitted) == LP_WRITTEN && admitted;
    for (size_t at = 0; at < COUNT(REFUSED); at++) {
        line.tags = REFUSED[at].tags, line.fields = REFUSED[at].fields, line.has_tag_set = REFUSED[at].has_tag_set;
        line.measurement.text = (lp_text){ (const uint8_t *)REFUSED[at].measurement, 1 };
        good &= puts_none(REFUSED[at].write, &line);
    }
    line = LINE;
    line.measurement.text = (lp_text)TEXT("a\\");
    return good && lp_line_is_admitted(LP_CRATE, &line, PARTS, 7, &admitted) == LP_WRITTEN && !admitted;
}

/* The places of the texts of LINE that are tried, and whether each of these texts may stand there, by docs/FORMAT.md; but where each
 * newline ends a line, no string may hold one. */
enum place { MEASUREMENT, TAG_KEY, TAG_VALUE, FIELD_KEY, STRING, PLACES };

static const struct { lp_text text; bool may_stand[PLACES]; } TRIED[] = {
    { TEXT(""), { false, false, false, false, true } },       { TEXT("a\nb"), { false, false, false, false, true } },
    { TEXT("\n"), { false, false, false, false, true } },     { TEXT("a\tb"), { false, false, false, false, true } },
    { TEXT("a\\"), { false, false, false, false, true } },    { TEXT("\\\\"), { false, false, false, false, true } },
    { TEXT("#a"), { false, true, true, true, true } },        { TEXT("a\0b"), { false, true, true, true, true } },
    { TEXT("a\\nb"), { true, true, true, true, true } },      { TEXT("a#"), { true, true, true, true, true } },
    { TEXT("a\r"), { true, true, true, true, true } },        { TEXT("\"a, =b\""), { true, true, true, true, true } },
};

/* The text in a place of a line. */
static lp_text *text_in(enum place place, lp_line *line, lp_part *parts) {
    if (place == MEASUREMENT) return &line->measurement.text;
    if (place == TAG_VALUE || place == STRING) return &parts[place == STRING ? 5 : 1].text.text;
    return &parts[place == FIELD_KEY ? 6 : 0].key.text;
}

/* Whether what was written is read as a line with the text in this place, and the text after it as if it stood alone. */
static bool reads_back(uint32_t dialect, enum place place, lp_text text, const uint8_t *written, size_t len) {
    struct reader reader;
    bool good = begin(&reader, written, len, dialect) && next(&reader) == LP_LINE && reader.line.tags == 2 && reader.line.fields == 5;
    const lp_text read = *text_in(place, &reader.line, reader.parts);
    good = good && read.len == text.len && memcmp(read.at, text.at, text.len) == 0;
    return good && next(&reader) == LP_LINE && reader.line.measurement.text.len == 1 && next(&reader) == LP_END;
}

/* Writes LINE with a text in a place: it reads back, or is refused, and then the buffer and the length are as they were, though no
 * room is lent. */
static bool is_as_told(uint32_t dialect, enum place place, lp_text text, bool may_stand) {
    uint8_t out[96];
    size_t told = 77;
    lp_line line = LINE;
    lp_part parts[7];
    memcpy(parts, PARTS, sizeof PARTS);
    memset(out, '~', sizeof out);
    *text_in(place, &line, parts) = text;
    bool admitted = !may_stand;
    bool good = lp_line_is_admitted(dialect, &line, parts, 7, &admitted) == LP_WRITTEN && admitted == may_stand;
    if (!may_stand) good &= lp_line_write(dialect, &line, parts, 7, out, 0, &told) == LP_NOT_ADMITTED && told == 77;
    good &= lp_line_write(dialect, &line, parts, 7, out, sizeof out, &told) == (may_stand ? LP_WRITTEN : LP_NOT_ADMITTED);
    if (!may_stand) return good && told == 77 && is_untouched(out, 0, sizeof out);
    good &= is_untouched(out, told, sizeof out);
    memcpy(out + told, "n g=t", 5);
    return good && reads_back(dialect, place, text, out, told + 5);
}

static bool are_as_told(void) {
    bool good = true;
    for (size_t at = 0; at < COUNT(TRIED); at++) {
        const lp_text text = TRIED[at].text;
        const bool has_newline = memchr(text.at, '\n', text.len) != NULL;
        for (int place = 0; place < PLACES; place++) {
            const bool may_stand = TRIED[at].may_stand[place];
            good &= is_as_told(LP_CRATE, (enum place)place, text, may_stand);
            good &= is_as_told(LP_STRICT, (enum place)place, text, may_stand);
            good &= is_as_told(LP_NEWLINE_DELIMITED, (enum place)place, text, may_stand && !has_newline);
        }
    }
    return good;
}

// [line_in_c]
#define VIEW_OF(text, size) { { (const uint8_t *)(text), (size) }, true } /* of no input, so it passes for a copy */

/* Writes that a user of this name came, and gives how long the line is. 0: nothing is written, as no line can hold the name, or as
 * `room` is too short. */
static size_t write_login(const char *user, uint8_t *out, size_t room) {
    const lp_part parts[] = {
        { VIEW_OF("user", 4), VIEW_OF(user, strlen(user)), 0, 0, LP_TAG, false },
        { VIEW_OF("ok", 2), LP_NO_VIEW, 0, 0, LP_BOOLEAN, true },
    };
    lp_line line = LP_EMPTY_LINE;
    size_t len = 0;
    line.measurement = (lp_view)VIEW_OF("login", 5);
    line.has_tag_set = true, line.tags = 1, line.fields = 1;
    return lp_line_write(LP_CRATE, &line, parts, 2, out, room, &len) == LP_WRITTEN ? len : 0;
}
// [end]

/* A user whose name has a newline in it begins no line. */
static bool are_logins(void) {
    static const char wanted[] = "login,user=guest\\ 2 ok=true\n";
    uint8_t out[64];
    const size_t len = write_login("guest 2", out, sizeof out);
    return write_login("guest\npayments", out, sizeof out) == 0 && equals(out, len, wanted);
}

/* Whether each call refuses a dialect of this number, and leaves what it was handed as it was. */
static bool is_no_dialect(uint32_t number) {
    static const lp_text text = TEXT("m f=1i\n"), broken = TEXT("\xff");
    static const lp_cuts no_cuts = LP_NO_CUTS;
    static const lp_counts counted = { 1, 2, 3, 4 };
    struct reader reader;
    uint8_t out[96];
    lp_cuts cuts = no_cuts;
    lp_counts counts = counted;
    size_t told = 77;
    bool admitted = true;
    memset(out, '~', sizeof out);
    bool good = lp_line_write(number, &LINE, PARTS, 7, out, sizeof out, &told) == LP_NOT_A_DIALECT;
    good &= lp_line_write(number, &lp_empty_line, PARTS, 7, out, sizeof out, &told) == LP_NOT_A_DIALECT && told == 77;
    good &= lp_line_is_admitted(number, &lp_empty_line, PARTS, 7, &admitted) == LP_NOT_A_DIALECT && admitted;
    good &= lp_rebuild(number, text.at, text.len, out, 48, out + 48, 48, &counts) == LP_NOT_A_DIALECT;
    good &= lp_rebuild(number, broken.at, broken.len, out, 48, out + 48, 48, &counts) == LP_NOT_A_DIALECT;
    good &= memcmp(&counts, &counted, sizeof counts) == 0 && is_untouched(out, 0, sizeof out);
    good &= !begin(&reader, text.at, text.len, number) && reader.lines.rest.at == lp_no_lines.rest.at && reader.lines.ended;
    return good & !lp_cuts_begin(number, 5, &cuts) & (memcmp(&cuts, &no_cuts, offsetof(lp_cuts, escaped)) == 0);
}

static bool are_no_dialects(void) {
    static const uint32_t numbers[] = { LP_NEWLINE_DELIMITED + 1, 0x100, 0x10000, 0x80000000, UINT32_MAX };
    struct reader reader;
    bool good = lp_version() == 30000 && !begin(&reader, "\xff", 1, LP_CRATE) && reader.lines.ended;
    for (size_t at = 0; at < COUNT(numbers); at++) good &= is_no_dialect(numbers[at]);
    return good;
}

/* Whether a call answers so of a line, and puts this text out. */
static bool puts_out(writer *write, const lp_line *line, const lp_part *parts, size_t parts_len, uint32_t wanted, const char *text) {
    uint8_t out[128];
    size_t len = 0;
    return write(line, parts, parts_len, out, sizeof out, &len) == wanted && equals(out, len, text);
}

/* Lines that are read; whether their series is their base, as it stands, and whether the base is safe to group by; what lp_line_base answers
 * and puts out; and the key. Of `m,b=2,a=1` and `m,a=1\,b\=2` the bases are the same, and the keys are not; of `m,\,=v` and `m,,=v` the keys
 * are. */
static const struct { const char *text; bool is_own, is_safe; uint32_t answer; const char *base, *key; } SERIES[] = {
    /* Keys that rise, also where one begins as the one before it, and a name that is one escape alone. */
    { "m f=t", true, true, LP_WRITTEN, "m", "m" },
    { "m,a=1,ab=2,b=3 f=t", true, true, LP_WRITTEN, "m,a=1,ab=2,b=3", "m,a=1,ab=2,b=3" },
    { "m,\\,=v,e=\\= f=t", true, false, LP_WRITTEN, "m,\\,=v,e=\\=", "m,\\,=v,e=\\=" },
    { "\\ ,a=1 f=t", true, false, LP_WRITTEN, "\\ ,a=1", "\\ ,a=1" },
    { "m,z=1,\xc3\xa9=2 f=t", true, true, LP_WRITTEN, "m,z=1,\xc3\xa9=2", "m,z=1,\xc3\xa9=2" },
    { "m,\\,=v f=t", true, false, LP_WRITTEN, "m,\\,=v", "m,\\,=v" },
    { "m,,=v f=t", true, false, LP_WRITTEN, "m,,=v", "m,\\,=v" },
    { "\\  f=t", true, false, LP_WRITTEN, "\\ ", "\\ " },
    /* Keys that are equal, or fall, by bytes. */
    { "m,a=1,a=2 f=t", false, true, LP_FAULT, "a", "m,a=1,a=2" },
    { "foo,tag=2,tag=1 f=t", false, true, LP_FAULT, "tag", "foo,tag=2,tag=1" },
    { "foo,tag=1,tag=2 f=t", false, true, LP_FAULT, "tag", "foo,tag=1,tag=2" },
    { "m,a=1,b=2,b=3 f=t", false, true, LP_FAULT, "b", "m,a=1,b=2,b=3" },
    { "m,b=1,a=2,b=0,a=1 f=t", false, true, LP_FAULT, "b", "m,a=2,a=1,b=1,b=0" },
    { "m,ab=1,a=2 f=t", false, true, LP_WRITTEN, "m,a=2,ab=1", "m,a=2,ab=1" },
    { "m,b=1,a=2,c=3 f=t", false, true, LP_WRITTEN, "m,a=2,b=1,c=3", "m,a=2,b=1,c=3" },
    { "m,-=1,\\,=2 f=t", false, false, LP_WRITTEN, "m,,=2,-=1", "m,\\,=2,-=1" },
    { "m,b=2,a=1 f=t", false, true, LP_WRITTEN, "m,a=1,b=2", "m,a=1,b=2" },
    { "m,aa=1,a=1,\xc3\xa9=1,B=1 f=t", false, true, LP_WRITTEN, "m,B=1,a=1,aa=1,\xc3\xa9=1", "m,B=1,a=1,aa=1,\xc3\xa9=1" },
    { "m,i=9,h=8,g=7,f=6,e=5,d=4,c=3 f=t", false, true, LP_WRITTEN, "m,c=3,d=4,e=5,f=6,g=7,h=8,i=9", "m,c=3,d=4,e=5,f=6,g=7,h=8,i=9" },
    /* A copy in the measurement, a key and a value. */
    { "m\\ n,a=1 f=t", false, true, LP_WRITTEN, "m n,a=1", "m\\ n,a=1" },
    { "m\\,n f=t", false, false, LP_WRITTEN, "m,n", "m\\,n" },
    { "m,a\\ b=1,c=2 f=t", false, true, LP_WRITTEN, "m,a b=1,c=2", "m,a\\ b=1,c=2" },
    { "m,k\\=l=v f=t", false, false, LP_WRITTEN, "m,k=l=v", "m,k\\=l=v" },
    { "m,a=1\\ 2,b=3 f=t", false, true, LP_WRITTEN, "m,a=1 2,b=3", "m,a=1\\ 2,b=3" },
    { "m,a=1\\,b\\=2 f=t", false, false, LP_WRITTEN, "m,a=1,b=2", "m,a=1\\,b\\=2" },
    { "m,k\\,l=\\=\\  f=t", false, true, LP_WRITTEN, "m,k,l== ", "m,k\\,l=\\=\\ " },
    { "m,a=x\\y f=t", false, true, LP_WRITTEN, "m,a=x\\y", "m,a=x\\\\y" },
    { "m,a=x\\\\y f=t", false, true, LP_WRITTEN, "m,a=x\\y", "m,a=x\\\\y" },
};

/* Each series is as its row says, and a fault has none. */
static bool are_series(void) {
    struct reader reader;
    const lp_line *line = &reader.line;
    bool good = true;
    for (size_t at = 0; at < COUNT(SERIES); at++) {
        bool safe = !SERIES[at].is_safe;
        bool right = begin(&reader, SERIES[at].text, strlen(SERIES[at].text), LP_CRATE) && next(&reader) == LP_LINE;
        right &= line->series_is_base == SERIES[at].is_own;
        right &= lp_line_is_base_safe(line, reader.parts, 10, &safe) == LP_WRITTEN && safe == SERIES[at].is_safe;
        right &= puts_out(lp_line_base, line, reader.parts, 10, SERIES[at].answer, SERIES[at].base);
        right &= puts_out(lp_line_key, line, reader.parts, 10, LP_WRITTEN, SERIES[at].key);
        right &= !line->series_is_base || equals(line->series.at, line->series.len, SERIES[at].base);
        if (!right) printf("the series of %s is another; ", SERIES[at].text);
        good &= right;
    }
    good &= begin(&reader, "m,a=1 f=t\nm,a=1", 15, LP_CRATE) && next(&reader) == LP_LINE && line->series_is_base;
    return good && next(&reader) == LP_FAULT && !line->series_is_base;
}
/* The tags of a key that are many and fall are sorted with memory, which is refused in turn too. How many requests there are. */
static long are_sorted(bool *good) {
    static const char keys[] = "xwvutsrqponmlkjihgfedcba";
    enum { MANY = sizeof keys - 1 };
    const lp_line line = { LP_NO_TEXT, VIEW("m"), LP_NO_TEXT, MANY, 0, 0, 0, 0, 0, true, false, false };
    lp_part parts[MANY];
    char wanted[1 + 4 * MANY + 1] = "m";
    for (size_t at = 0; at < MANY; at++) {
        parts[at] = PARTS[1];
        parts[at].key.text = (lp_text){ (const uint8_t *)&keys[at], 1 };
        snprintf(wanted + 1 + 4 * at, 5, ",%c=v", keys[MANY - 1 - at]);
    }
    *good &= puts_out(lp_line_key, &line, parts, MANY, LP_WRITTEN, wanted);
    return refused(lp_line_key, &line, parts, MANY, strlen(wanted), good);
}

/* Names that no line can hold have a key too, in which they are written as others are. */
static bool is_key_of_any_name(void) {
    const lp_part tag = { LP_NO_VIEW, VIEW("\t\\"), 0, 0, LP_TAG, false };
    const lp_line line = { LP_NO_TEXT, VIEW("#\n\\"), LP_NO_TEXT, 1, 0, 0, 0, 0, 0, true, false, false };
    return puts_out(lp_line_key, &line, &tag, 1, LP_WRITTEN, "#\n\\\\,=\t\\\\");
}

/* With four fields a line that is not admitted is refused without memory. */
static bool is_refused_at_once(void) {
    uint8_t out[96];
    size_t told = 77;
    lp_line line = LINE;
    line.fields = 4;
    line.measurement.text.len = 0;
    lp_requests = 0, lp_refused = 0;
    const uint32_t answer = lp_line_write(LP_STRICT, &line, PARTS, 7, out, sizeof out, &told);
    lp_refused = -1;
    return answer == LP_NOT_ADMITTED && told == 77 && lp_requests == 0;
}

/* With nine tags a test may ask for memory: where it is refused, and where there is no series, nothing is told. */
static bool is_nothing_told(void) {
    const lp_part parts[] = { PARTS[1], PARTS[1], PARTS[1], PARTS[1], PARTS[1], PARTS[1], PARTS[1], PARTS[1], PARTS[1], PARTS[2] };
    lp_line line = LINE;
    bool told = true, good = true;
    line.tags = 9, line.fields = 1;
    lp_requests = 0, lp_refused = 0;
    good &= lp_line_is_base_safe(&line, parts, 10, &told) == LP_OUT_OF_MEMORY && told;
    lp_requests = 0;
    good &= lp_line_is_admitted(LP_CRATE, &line, parts, 10, &told) == LP_OUT_OF_MEMORY && told;
    lp_refused = -1;
    line.tags = 10;
    good &= lp_line_is_base_safe(&line, parts, 10, &told) == LP_NOT_A_LINE && told;
    return good & (lp_line_is_admitted(LP_CRATE, &line, parts, 10, &told) == LP_NOT_A_LINE) & told;
}

static uint32_t message(const lp_line *line, const lp_part *parts, size_t parts_len, uint8_t *out, size_t room, size_t *len) {
    (void)parts, (void)parts_len;
    return lp_fault_message(line, out, room, len);
}

/* Each fault has its message, into rooms of each length, without memory; a text of a fault that names none is left out of it. */
static bool are_messages(void) {
    static const struct { uint32_t fault; const char *front, *back; } MESSAGES[] = {
        { LP_DUPLICATE_TAG, "Must not contain duplicate tags, but \"", "\" was repeated" },
        { LP_MEASUREMENT_VALUE_INVALID, "Invalid measurement was provided", NULL },
        { LP_FIELD_SET_MISSING, "No fields were provided", NULL },
        { LP_INTEGER_VALUE_INVALID, "Unable to parse integer value '", "'" },
        { LP_UINTEGER_VALUE_INVALID, "Unable to parse unsigned integer value '", "'" },
        { LP_TIMESTAMP_VALUE_INVALID, "Unable to parse timestamp value '", "'" },
        { LP_ENDS_WITH_BACKSLASH, "Measurements, tag keys and values, and field keys may not end with a backslash", NULL },
        { LP_CANNOT_PARSE_ENTIRE_LINE, "Could not parse entire line. Found trailing content: '", "'" },
        { LP_TAG_SET_MALFORMED, "Tag Set Malformed", NULL },
        { LP_GENERIC_PARSING_ERROR, "A generic parsing error occurred: TakeWhile1", NULL },
    };
    static const char *const texts[] = { "q\xc3\xa9", "" };
    bool good = true;
    lp_requests = 0;
    for (size_t at = 0; at < 2 * COUNT(MESSAGES); at++) {
        const char *text = texts[at % 2], *back = MESSAGES[at / 2].back;
        char wanted[128];
        lp_line line = LP_EMPTY_LINE;
        line.fault = MESSAGES[at / 2].fault, line.fault_text = (lp_text){ (const uint8_t *)text, strlen(text) };
        snprintf(wanted, sizeof wanted, "%s%s%s", MESSAGES[at / 2].front, back ? text : "", back ? back : "");
        good &= writes(message, &line, PARTS, LP_WRITTEN, wanted);
    }
    return good & (lp_requests == 0);
}

/* What is no fault has no message. */
static bool is_no_message(uint32_t fault, lp_text text) {
    lp_line line = LP_EMPTY_LINE;
    line.fault = fault, line.fault_text = text;
    return puts_none(message, &line);
}

static bool are_no_messages(void) {
    const uint32_t next = LP_GENERIC_PARSING_ERROR + 1;
    const lp_text text = TEXT("q"), broken = TEXT("\xc3");
    return is_no_message(LP_NONE, text) && is_no_message(next, text) && is_no_message(UINT32_MAX, text) &&
           is_no_message(LP_INTEGER_VALUE_INVALID, broken) && is_no_message(LP_FIELD_SET_MISSING, broken);
}

static uint64_t clause;

static uint32_t clause_message(const lp_line *line, const lp_part *parts, size_t parts_len, uint8_t *out, size_t room, size_t *len) {
    (void)line, (void)parts, (void)parts_len;
    return lp_clause_message(clause, out, room, len);
}

/* What is not the bit of one clause has no message. */
static bool is_no_clause(uint64_t bits) {
    clause = bits;
    return puts_none(clause_message, &LINE);
}

/* Each clause that a server reads otherwise has a message of its own, without memory. */
static bool are_clauses(void) {
    static const struct { uint64_t clause; const char *text; } KNOWN[] = {
        { LP_CLAUSE_NOT_A_LINE, "what is there is not one line for the strict reader" },
        { LP_CLAUSE_REPEATED_TAG, "two tags have one key" },
        { LP_CLAUSE_TIME_NOT_KEPT, "the timestamp is before or after what is kept" },
    };
    static char texts[64][96];
    uint64_t all = LP_OF_INFLUX1 | LP_OF_VICTORIA;
    bool good = true;
    lp_requests = 0;
    for (size_t at = 0; at < 3; at++) {
        clause = KNOWN[at].clause;
        good &= writes(clause_message, &LINE, PARTS, LP_WRITTEN, KNOWN[at].text);
    }
    for (size_t place = 0; place < 64; place++) {
        size_t len = 0;
        clause = UINT64_C(1) << place;
        if (!(all & clause)) good &= is_no_clause(clause);
        else good &= lp_clause_message(clause, (uint8_t *)texts[place], 95, &len) == LP_WRITTEN && len > 0 && len == strlen(texts[place]);
        for (size_t other = 0; other < place && len; other++) good &= strcmp(texts[other], texts[place]) != 0;
    }
    return good & is_no_clause(0) & is_no_clause(3) & is_no_clause(all) & is_no_clause(UINT64_MAX) & (lp_requests == 0);
}

/* What is empty is so in each of its two spellings: a difference shows in a field that is no padding. */
static bool are_empty(void) {
    const lp_line line = LP_EMPTY_LINE;
    const lp_lines lines = LP_NO_LINES;
    bool good = lp_no_text.at && lp_no_text.len == 0 && lp_no_view.text.at && lp_no_view.text.len == 0 && !lp_no_view.copied;
    good &= lp_empty_line.series.len == line.series.len && lp_empty_line.measurement.text.len == 0 && lp_empty_line.fault_text.at;
    good &= lp_empty_line.tags + lp_empty_line.fields + lp_empty_line.copied_len == 0 && lp_empty_line.timestamp == line.timestamp;
    good &= lp_empty_line.fault == LP_NONE && lp_empty_line.side == LP_NEITHER && !lp_empty_line.has_timestamp;
    good &= lp_empty_row.parts_at == 0 && lp_empty_row.answer == LP_END && lp_empty_row.line.series.at != NULL;
    good &= lp_empty_part.kind == LP_TAG && lp_empty_part.key.text.at && lp_empty_part.text.text.len == 0 && !lp_empty_part.boolean;
    return good && lp_no_lines.ended == lines.ended && lp_no_lines.rest.len == 0 && lp_no_lines.dialect == lines.dialect;
}

/* Texts that are rebuilt: the second item of one has no field, and a string of the other stays open at its newline. */
static bool is_rebuilt(void) {
    static const struct { uint32_t dialect; size_t carried; lp_text text; const char *batch, *faults; } REBUILT[] = {
        { LP_STRICT, 2, TEXT("m f=1i 5\nm f\n b,x=y  g=t\n"), "m f=1i 5\nb,x=y g=true\n", "item 2: No fields were provided\n" },
        { LP_NEWLINE_DELIMITED, 1, TEXT("m f=\"a\nb,x=y  g=t"), "b,x=y g=true\n", "item 1: No fields were provided\n" },
    };
    uint8_t batch[64], faults[64];
    lp_counts counts = { 0, 0, 0, 0 };
    bool good = true;
    for (size_t at = 0; at < COUNT(REBUILT); at++) {
        const lp_text text = REBUILT[at].text;
        good &= lp_rebuild(REBUILT[at].dialect, text.at, text.len, batch, 5, faults, 64, &counts) == LP_MORE_ROOM;
        good &= counts.batch_len == strlen(REBUILT[at].batch) && counts.faults_len == strlen(REBUILT[at].faults);
        good &= lp_rebuild(REBUILT[at].dialect, text.at, text.len, batch, 64, faults, 64, &counts) == LP_WRITTEN;
        good &= counts.carried == REBUILT[at].carried && counts.refused == 1 && equals(batch, counts.batch_len, REBUILT[at].batch);
        good &= equals(faults, counts.faults_len, REBUILT[at].faults);
    }
    return good && lp_rebuild(LP_CRATE, (const uint8_t *)"\xff", 1, batch, 64, faults, 64, &counts) == LP_NOT_UTF8;
}

int main(void) {
    lp_part repeated[7];
    memcpy(repeated, PARTS, sizeof PARTS);
    repeated[0].key = repeated[1].key;
    const struct { writer *write; const lp_part *parts; uint32_t answer; const char *text; } written[] = {
        { write_line, PARTS, LP_WRITTEN, "a\\ b\\,c,h\\,o=x\\ y\\=z,k=v i=-5i,u=7u,fl=1.5e3,s=\"a\\\"b\\\\\",t=true 99\n" },
        { lp_line_show, PARTS, LP_WRITTEN, "a\\ b\\,c,h\\,o=x\\ y\\=z,k=v i=-5i,u=7u,fl=1.5e3,s=a\\\"b\\,t=true 99" },
        { lp_line_base, PARTS, LP_WRITTEN, "a b,c,h,o=x y=z,k=v" }, { lp_line_base, repeated, LP_FAULT, "k" },
        { lp_line_key, PARTS, LP_WRITTEN, "a\\ b\\,c,h\\,o=x\\ y\\=z,k=v" }, { lp_line_key, repeated, LP_WRITTEN, "a\\ b\\,c,k=x\\ y\\=z,k=v" },
    };
    bool good = true;
    long requests = 0;
    for (size_t at = 0; at < COUNT(written); at++) {
        good &= writes(written[at].write, &LINE, written[at].parts, written[at].answer, written[at].text);
        if (written[at].parts == PARTS) requests += refused(written[at].write, &LINE, PARTS, 7, strlen(written[at].text), &good);
    }
    good &= is_tested() && are_as_told() && are_logins() && are_no_dialects() && are_series() && is_refused_at_once() && is_nothing_told();
    good &= is_rebuilt() && is_key_of_any_name() && are_messages() && are_no_messages() && are_clauses() && are_empty();
    requests += are_sorted(&good);
    printf("lines, bases, keys, messages and rebuilt texts written, each of %ld requests refused in turn\n", requests);
    return !good;
}
