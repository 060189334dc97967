/* The pieces of a text that comes in parts, and its relay, of parts of 64 KiB and of one byte. */
#include "driver.h"

uint64_t lp_bench_stream(const uint8_t *text, size_t len, size_t part_len);
uint64_t lp_bench_relay(const uint8_t *text, size_t len, size_t part_len);
uint64_t lp_bench_relay_newline_delimited(const uint8_t *text, size_t len, size_t part_len);

enum { BLOCK = 1 << 16 };

static uint64_t stream(const uint8_t *text, size_t len) { return lp_bench_stream(text, len, BLOCK); }
static uint64_t stream_bytes(const uint8_t *text, size_t len) { return lp_bench_stream(text, len, 1); }
static uint64_t relay(const uint8_t *text, size_t len) { return lp_bench_relay(text, len, BLOCK); }
static uint64_t relay_lines(const uint8_t *text, size_t len) { return lp_bench_relay_newline_delimited(text, len, BLOCK); }
static uint64_t relay_bytes(const uint8_t *text, size_t len) { return lp_bench_relay(text, len, 1); }

const struct call calls[] = {
    { "stream", stream },
    { "stream bytes", stream_bytes },
    { "relay", relay },
    { "relay bytes", relay_bytes },
    { "relay newline-delimited", relay_lines },
    { NULL, NULL },
};

/* No call tests the whole text for UTF-8 first. */
bool is_utf8(const uint8_t *text, size_t len) {
    (void)text;
    (void)len;
    return true;
}

uint64_t (*const build)(uint64_t count) = NULL;
