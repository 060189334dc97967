/* Cuts texts that come in parts of each length, compares their cuts with those of the whole text, and sees that pieces are told that
 * are too long, that a search that was not begun touches nothing else, and that no request for memory is made. Compile heap.c
 * with -DLP_REFUSE. */
#include "tests.h"

static const char *const TEXTS[] = {
    "", "\n\n", "m f=1\nn f=2", "m f=\"a\nb\"\nn f=2\n", "m\\\nn f=\"\\\"\n\\\\\" 5\nn f=2", "m f=\"a\n\nb", "m a,b=\"\n",
    "# a=\"\nm f=1\n \t# b\\\nn f=\"x\"", "m,k=v\\ w a=\"=,\n\",b=1,c=\"\\\\\"\n\nn f=\"x\n\"\n", "m a=1,b=\"x y,z=\"\nn a=1",
    "m,host=a\\ b value=1,message=\"a long text that goes on, and on = and on,\n, up to its end\",other=2 1234567890\nn f=1",
};

// [cuts_in_c]
typedef void taker(void *user, const uint8_t *piece, size_t len);

/* Hands on each piece of a file that has less than `room` bytes, read into the buffer of so many, with a pointer of the caller's; the
 * others are passed over. */
static void each_piece(FILE *file, uint8_t *buffer, size_t room, taker *take, void *user) {
    lp_cuts cuts = LP_NO_CUTS;
    size_t held = 0, cut = 0, got; /* so many bytes of the piece that goes on are at the start of the buffer */
    lp_cuts_begin(LP_CRATE, room - 1, &cuts);
    while ((got = fread(buffer + held, 1, room - held, file)) > 0) {
        size_t start = 0, at = held, end = held + got;
        while (at < end) {
            uint32_t answer = lp_cuts_next(&cuts, buffer + at, end - at, &cut);
            at += cut;
            if (answer == LP_PIECE) take(user, buffer + start, at - start);
            if (at < end) start = ++at; /* after the newline */
            else if (answer == LP_TOO_LONG) start = at; /* nothing of it is kept */
        }
        held = end - start;
        memmove(buffer, buffer + start, held);
    }
    if (cuts.len < room) take(user, buffer, held); /* the last one, which no newline ends */
}
// [end]

struct taken { size_t pieces, bytes; };

static void count_piece(void *user, const uint8_t *piece, size_t len) {
    struct taken *taken = user;
    (void)piece;
    taken->pieces++;
    taken->bytes += len;
}

/* Whether a buffer of so many bytes gives each piece of a file that is shorter, and no other. */
static bool reads_file(const char *text, size_t room) {
    lp_lines lines = LP_NO_LINES;
    lp_view piece = LP_NO_VIEW;
    struct taken taken = { 0, 0 };
    size_t pieces = 0, bytes = 0;
    uint8_t *buffer = lend(room);
    FILE *file = tmpfile();
    if (!file || !lp_lines_begin((const uint8_t *)text, strlen(text), LP_CRATE, &lines)) return false;
    while (lp_lines_piece(&lines, &piece)) {
        pieces += piece.text.len < room;
        bytes += piece.text.len < room ? piece.text.len : 0;
    }
    fputs(text, file);
    rewind(file);
    each_piece(file, buffer, room, count_piece, &taken);
    fclose(file);
    free(buffer);
    return taken.pieces == pieces && taken.bytes == bytes;
}

/* Finds the place of each cut of a text that is handed in by so many bytes at once, and gives how many there are. Each part is a
 * block of just its length, so that the address sanitizer sees what is touched past it. */
static size_t cut_in_parts(const char *text, size_t len, size_t most, uint32_t dialect, size_t *places) {
    lp_cuts cuts = LP_NO_CUTS;
    size_t at = 0, count = 0, cut = 0;
    lp_cuts_begin(dialect, SIZE_MAX, &cuts);
    while (at < len) {
        size_t part_len = len - at < most ? len - at : most;
        uint8_t *part = copy_of(text + at, part_len);
        uint32_t answer = lp_cuts_next(&cuts, part, part_len, &cut);
        free(part);
        if (answer == LP_PIECE) places[count++] = at + cut;
        else if (answer != LP_MORE_TEXT || cut != part_len) return SIZE_MAX;
        at += cut + (answer == LP_PIECE);
    }
    return count;
}

/* Whether parts of each length have the cuts of the whole text. */
static bool equals_whole(const char *text, uint32_t dialect) {
    size_t len = strlen(text), places[32], wanted[32], pieces = 0;
    lp_lines lines = LP_NO_LINES;
    lp_view piece = LP_NO_VIEW;
    bool good = lp_lines_begin((const uint8_t *)text, len, dialect, &lines);
    while (lp_lines_piece(&lines, &piece)) wanted[pieces++] = (size_t)(piece.text.at + piece.text.len - (const uint8_t *)text);
    for (size_t most = 1; most <= len; most++)
        good = good && cut_in_parts(text, len, most, dialect, places) + 1 == pieces && !memcmp(places, wanted, (pieces - 1) * sizeof *places);
    return good;
}

/* Whether a call answers so. */
static bool gives(lp_cuts *cuts, const char *text, uint32_t answer, size_t at) {
    size_t cut = SIZE_MAX;
    return lp_cuts_next(cuts, (const uint8_t *)text, strlen(text), &cut) == answer && cut == at;
}

/* Whether pieces of more bytes than the limit are told, and no others. */
static bool tells_long(void) {
    lp_cuts cuts = LP_NO_CUTS;
    lp_cuts_begin(LP_CRATE, 5, &cuts);
    return gives(&cuts, "m f=1\n", LP_PIECE, 5) && gives(&cuts, "m f=10\nn", LP_TOO_LONG, 6)
        && gives(&cuts, "m f=", LP_MORE_TEXT, 4) && gives(&cuts, "\"a\n", LP_TOO_LONG, 3) && cuts.len == 7 && gives(&cuts, "\n", LP_TOO_LONG, 1)
        && gives(&cuts, "\"\nm", LP_TOO_LONG, 1) && cuts.len == 0 && gives(&cuts, "\n", LP_PIECE, 0);
}

/* Whether no more bytes are counted than a size_t may hold. */
static bool refuses_uncounted(void) {
    lp_cuts cuts = LP_NO_CUTS;
    cuts.len = SIZE_MAX - 1;
    return gives(&cuts, "ab", LP_OUT_OF_MEMORY, SIZE_MAX) && cuts.len == SIZE_MAX - 1 && gives(&cuts, "a", LP_MORE_TEXT, 1);
}

/* Whether searches that were never begun, over a text that none of them knows, answer some place of it. */
static bool is_safe_forged(void) {
    const char *text = TEXTS[COUNT(TEXTS) - 1];
    size_t len = strlen(text);
    for (uint32_t n = 0; n < 4096; n++) {
        lp_cuts cuts = { n & 1 ? SIZE_MAX : n, n % 5 * (SIZE_MAX / 8), n * 77777, SIZE_MAX - n, n % 4, n / 4 % 4, n / 32 % 4,
                         n / 16 & 1 };
        size_t at = n % len, cut = SIZE_MAX;
        uint32_t answer = lp_cuts_next(&cuts, (const uint8_t *)text + at, len - at, &cut);
        if (cut > len - at || (answer != LP_PIECE && answer != LP_MORE_TEXT && answer != LP_TOO_LONG)) return false;
    }
    return true;
}

int main(void) {
    size_t count = COUNT(TEXTS);
    for (size_t n = 0; n < count; n++) {
        bool is_read = reads_file(TEXTS[n], 1) && reads_file(TEXTS[n], 8) && reads_file(TEXTS[n], 200);
        bool is_cut = equals_whole(TEXTS[n], LP_CRATE) && equals_whole(TEXTS[n], LP_STRICT) && equals_whole(TEXTS[n], LP_NEWLINE_DELIMITED);
        if (is_read && is_cut) continue;
        printf("the parts of text %zu are not cut as the whole", n);
        return 1;
    }
    bool failed = !tells_long() || !refuses_uncounted() || !is_safe_forged();
    printf("%zu texts cut in parts, %ld requests for memory", count, lp_requests);
    return failed || lp_requests != 0;
}
