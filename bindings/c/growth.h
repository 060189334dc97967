/* Whether the time of a call grows as its text does. A call that looks at all of a text for each of its parts takes a hundred times as
   long for ten times as many. */
#ifndef LP_GROWTH_H
#define LP_GROWTH_H
#include <stdbool.h>
#include <stddef.h>
#include <stdint.h>
#include <stdlib.h>
#include <string.h>
#include <time.h>

/* A text of any length: a head, copies of a part, and a tail. */
struct growth { const char *head, *part, *tail; };

/* A call over a text, whose time is measured. */
typedef void growth_call(const uint8_t *text, size_t len);

/* The text with so many copies of the part, and how long it is. */
static uint8_t *growth_text(const struct growth *growth, size_t count, size_t *len) {
    const size_t head = strlen(growth->head), part = strlen(growth->part), tail = strlen(growth->tail);
    uint8_t *text = malloc(head + count * part + tail + 1);
    if (!text) abort();
    memcpy(text, growth->head, head);
    for (size_t at = 0; at < count; at++) memcpy(text + head + at * part, growth->part, part);
    memcpy(text + head + count * part, growth->tail, tail + 1);
    *len = head + count * part + tail;
    return text;
}

/* The seconds of a processor that a call takes: the least of three times. */
static double growth_seconds(growth_call *call, const uint8_t *text, size_t len) {
    double least = 0;
    for (int round = 0; round < 3; round++) {
        const clock_t start = clock();
        call(text, len);
        const double taken = (double)(clock() - start) / CLOCKS_PER_SEC;
        if (round == 0 || taken < least) least = taken;
    }
    return least;
}

/* Whether a call over texts of up to so many parts takes at most thirty times as long for ten times as many. A millisecond more is no
   sign of growth. */
static bool growth_is_even(growth_call *call, const struct growth *growth, size_t most) {
    double before = 0;
    for (size_t count = most / 100; count <= most; count *= 10) {
        size_t len;
        uint8_t *text = growth_text(growth, count, &len);
        const double taken = growth_seconds(call, text, len);
        free(text);
        if (count > most / 100 && taken > 30 * before + 0.001) return false;
        before = taken;
    }
    return true;
}
#endif
