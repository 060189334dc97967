/* What driver.c times. library.c and callers.c each say it of one archive. */
#include <stdbool.h>
#include <stddef.h>
#include <stdint.h>

/* A call, and what reads before what it writes, if it writes what was read of a text: that is not timed. */
struct call {
    const char *name;
    uint64_t (*call)(const uint8_t *text, size_t len);
    void (*prepare)(const uint8_t *text, size_t len);
};

/* The calls over a text; the last one has no name. Each tests first whether the text is UTF-8. */
extern const struct call calls[];

/* That test alone. */
bool is_utf8(const uint8_t *text, size_t len);

/* Builds so many points, and gives how many bytes they take. NULL: no points are built. */
extern uint64_t (*const build)(uint64_t count);
