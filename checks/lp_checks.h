/* The calls of crates/lp_checks. What each of them gives is said there. A slice is a pointer, which is never null, and a
   length. */
#ifndef LP_CHECKS_H
#define LP_CHECKS_H
#include <stdbool.h>
#include <stddef.h>
#include <stdint.h>

/* How many kinds of faults there are. */
enum { LP_KINDS = 19 };

/* The ways of lp_checks_items, and those of lp_checks_relay. */
enum { LP_ITEMS, LP_REUSED, LP_EVENTS, LP_PULLED, LP_BASES, LP_KEYS, LP_SHOWN, LP_COPIES };
enum { LP_RELAY, LP_RUN, LP_NOW, LP_INPUTS };

/* The steps of lp_checks_calls that push nothing. */
#define LP_NEXT SIZE_MAX
#define LP_FINISH (SIZE_MAX - 1)
#define LP_NEXT_TEXT (SIZE_MAX - 2)
#define LP_FINISH_TEXT (SIZE_MAX - 3)
#define LP_ALL (SIZE_MAX - 4)

/* What lp_checks_relay tells: of each device how many bytes it moved, how many calls it had, and how many of these were flushes; and how
   many items were carried and refused, and the exit status. */
struct lp_device { uint64_t bytes, calls, flushes; };
struct lp_ending { uint64_t carried, refused, status; };
struct lp_told { struct lp_device reader, out, err, pieces; struct lp_ending ending; };

uint64_t lp_checks_items(uint32_t way, uint32_t dialect, const uint8_t *text, size_t len, uint8_t *out, size_t room, uint64_t *ends,
                         size_t entries);
uint64_t lp_checks_calls(uint32_t dialect, bool is_bounded, size_t limit, const uint8_t *text, size_t len, const size_t *steps, size_t steps_len,
                         uint8_t *out, size_t room, uint64_t *ends, size_t entries);
uint64_t lp_checks_build(const uint8_t *program, size_t len, uint64_t reserved, bool again, uint64_t *refused_at,
                         uint8_t *out, size_t room, uint64_t *ends, size_t entries);
uint64_t lp_checks_point(const uint8_t *raw, size_t len, bool has_tag_set, const uint8_t *program, size_t program_len, uint8_t *out,
                         size_t room, uint64_t *ends, size_t entries);
uint64_t lp_checks_series(uint32_t dialect, size_t limit, size_t max_series, const uint8_t *text, size_t len, const size_t *lens,
                          size_t parts, uint8_t *out, size_t room, uint64_t *ends, size_t entries);
uint64_t lp_checks_influx(const uint8_t *text, size_t len, uint8_t *out, size_t room, uint64_t *ends, size_t entries);
uint64_t lp_checks_part_ends(uint32_t dialect, const uint8_t *text, size_t len, size_t count, uint64_t *places, size_t places_len);
uint8_t lp_checks_relay(uint32_t way, const uint8_t *letters, size_t letters_len, int64_t number, const uint8_t *input, size_t len,
                        const uint8_t *inputs, size_t inputs_len, const size_t *steps, size_t steps_len, struct lp_device *reader,
                        uint8_t *out, size_t room, const size_t *out_steps, size_t out_steps_len, struct lp_device *out_told,
                        uint8_t *err, size_t err_room, const size_t *err_steps, size_t err_steps_len, struct lp_device *err_told,
                        uint8_t *pieces, size_t pieces_room, struct lp_device *pieces_told, struct lp_ending *ending,
                        uint64_t kinds[LP_KINDS]);

/* What lp_c tells, in the form of these reports: rows.c has it. */
uint64_t rows_pieces(uint32_t dialect, const uint8_t *text, size_t len, uint8_t *out, size_t room, uint64_t *ends, size_t entries);
uint64_t rows_items(uint32_t dialect, const uint8_t *text, size_t len, uint8_t *out, size_t room, uint64_t *ends, size_t entries);
uint64_t rows_rebuilt(uint32_t dialect, const uint8_t *text, size_t len, uint8_t *out, size_t room, uint64_t *ends, size_t entries);
#endif
