/* The library's own calls, as lp_bench has them. */
#include "driver.h"

bool lp_bench_is_utf8(const uint8_t *text, size_t len);
uint64_t lp_bench_parse(const uint8_t *text, size_t len);
uint64_t lp_bench_bases(const uint8_t *text, size_t len);
uint64_t lp_bench_next_into(const uint8_t *text, size_t len);
uint64_t lp_bench_events(const uint8_t *text, size_t len);
uint64_t lp_bench_pull(const uint8_t *text, size_t len);
uint64_t lp_bench_numbers(const uint8_t *text, size_t len);
uint64_t lp_bench_split(const uint8_t *text, size_t len);
uint64_t lp_bench_rebuild(const uint8_t *text, size_t len);
uint64_t lp_bench_rebuild_strict(const uint8_t *text, size_t len);
uint64_t lp_bench_rebuild_newline_delimited(const uint8_t *text, size_t len);
uint64_t lp_bench_build(uint64_t count);

const struct call calls[] = {
    { "parse", lp_bench_parse },
    { "bases", lp_bench_bases },
    { "next_into", lp_bench_next_into },
    { "events", lp_bench_events },
    { "pull", lp_bench_pull },
    { "numbers", lp_bench_numbers },
    { "split", lp_bench_split },
    { "rebuild", lp_bench_rebuild },
    { "rebuild strict", lp_bench_rebuild_strict },
    { "rebuild newline-delimited", lp_bench_rebuild_newline_delimited },
    { NULL, NULL },
};

bool is_utf8(const uint8_t *text, size_t len) { return lp_bench_is_utf8(text, len); }

uint64_t (*const build)(uint64_t count) = lp_bench_build;
