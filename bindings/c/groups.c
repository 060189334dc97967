/* Groups the lines of a text by series, and prints each series with its lines. Parts, room and keys grow with what the lines take. */
#include "influxdb_line_protocol.h"
#include <search.h>
#include <stdio.h>
#include <stdlib.h>
#include <string.h>

// [more_in_c]
/* What is lent for an item: so many parts, and so many bytes of room. It begins with { NULL, 0, NULL, 0 }. */
typedef struct lent { lp_part *parts; size_t parts_len; uint8_t *bytes; size_t bytes_len; } lent;

/* Lends so many parts and bytes. False: there is no memory. Nothing keeps a text of the room that goes. */
static bool lend(lent *lent, size_t parts_len, size_t bytes_len) {
    lp_part *parts = realloc(lent->parts, (parts_len + 1) * sizeof *parts); /* one more, so that no pointer is NULL */
    if (parts) lent->parts = parts, lent->parts_len = parts_len, lp_empty_parts(parts, parts_len);
    uint8_t *bytes = realloc(lent->bytes, bytes_len + 1);
    if (bytes) lent->bytes = bytes, lent->bytes_len = bytes_len;
    return parts && bytes;
}

/* Reads the next item, as lp_lines_next does, and lends more if it takes more. LP_OUT_OF_MEMORY: there is no more. */
static uint32_t read_item(lp_lines *lines, lent *lent, lp_line *line) {
    const lp_line empty = LP_EMPTY_LINE;
    bool is_lent = lent->parts || lend(lent, 8, 16);
    while (is_lent) {
        lp_room room = { lent->bytes, lent->bytes_len };
        uint32_t answer = lp_lines_next(lines, &room, line, lent->parts, lent->parts_len);
        if (answer == LP_MORE_PARTS) is_lent = lend(lent, line->tags + line->fields, lent->bytes_len);
        else if (answer == LP_MORE_ROOM) is_lent = lend(lent, lent->parts_len, line->copied_len);
        else return answer;
        *line = empty;
    }
    return LP_OUT_OF_MEMORY;
}
// [end]

// [groups_in_c]
/* The lines of a series: their texts, as they are written, one after another. */
typedef struct group { uint8_t *key, *text; size_t key_len, len; } group;

static int by_key(const void *one, const void *other) {
    const group *a = one, *b = other;
    int order = memcmp(a->key, b->key, a->key_len < b->key_len ? a->key_len : b->key_len);
    return order != 0 ? order : (a->key_len > b->key_len) - (a->key_len < b->key_len);
}

/* The group of the series of a line, in a tree of <search.h>: a new one, if it has none. NULL: there is no memory. */
static group *group_of(const lp_line *line, const lent *lent, void **groups) {
    group *made = calloc(1, sizeof *made), **kept = NULL;
    uint8_t none;
    if (made && lp_line_key(line, lent->parts, lent->parts_len, &none, 0, &made->key_len) == LP_MORE_ROOM) made->key = malloc(made->key_len);
    if (made && made->key && lp_line_key(line, lent->parts, lent->parts_len, made->key, made->key_len, &made->key_len) == LP_WRITTEN)
        kept = tsearch(made, groups, by_key);
    if (made && (!kept || *kept != made)) free(made->key), free(made); /* the series had a group before */
    return kept ? *kept : NULL;
}

/* Appends a line to its group, as it is written. False: it would not read back, or there is no memory. */
static bool add_line(group *group, const lp_line *line, const lent *lent) {
    uint8_t none, *text;
    size_t len = 0;
    if (lp_line_write(LP_STRICT, line, lent->parts, lent->parts_len, &none, 0, &len) != LP_MORE_ROOM) return false;
    if (!(text = realloc(group->text, group->len + len))) return false;
    group->text = text;
    if (lp_line_write(LP_STRICT, line, lent->parts, lent->parts_len, text + group->len, len, &len) != LP_WRITTEN) return false;
    group->len += len;
    return true;
}
// [end]

/* Groups the lines of a text. False: a line is at fault or is not written again, the text is no UTF-8, or there is no memory. */
static bool group_lines(const char *text, void **groups) {
    lp_lines lines = LP_NO_LINES;
    lp_line line = LP_EMPTY_LINE;
    lent lent = { NULL, 0, NULL, 0 };
    uint32_t answer = LP_LINE;
    bool good = lp_lines_begin((const uint8_t *)text, strlen(text), LP_STRICT, &lines);
    while (good && (answer = read_item(&lines, &lent, &line)) == LP_LINE) {
        group *group = group_of(&line, &lent, groups);
        good = group && add_line(group, &line, &lent);
    }
    free(lent.parts), free(lent.bytes);
    return good && answer == LP_END;
}

static void print_group(const void *node, VISIT visit, int depth) {
    const group *one = *(group *const *)node;
    (void)depth;
    if (visit != postorder && visit != leaf) return;
    printf("%.*s\n", (int)(one->key_len < 60 ? one->key_len : 60), (const char *)one->key);
    printf("%.*s", (int)(one->len < 300 ? one->len : 300), (const char *)one->text);
}

/* Prints the groups of a text, and frees them. */
static bool print_groups(const char *text) {
    void *groups = NULL;
    bool good = group_lines(text, &groups);
    twalk(groups, print_group);
    while (groups) {
        group *one = *(group **)groups;
        tdelete(one, &groups, by_key);
        free(one->key), free(one->text), free(one);
    }
    return good;
}

int main(void) {
    bool good = print_groups("cpu,host=a,az=b n=1i 1\ncpu n=4i\ncpu,az=b,host=a n=2i 2\n"
                             "cpu,b\\ 1=x,b\\ 2=x,b\\ 3=x,b\\ 4=x,b\\ 5=x,b\\ 6=x,b\\ 7=x,b\\ 8=x n=\"a text with \\\" and more\",k=1.5,l=t\n");
    return !good;
}
