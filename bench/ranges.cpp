/* The ranges of C++17 over lp_c, with the sums of callers.c. */
#include "influxdb_line_protocol.hpp"
#include <vector>
extern "C" {
#include "driver.h"
}

static std::uint64_t of_part(const lp_part &part) {
    std::uint64_t key = lp::view(part.key).size();
    if (part.kind == LP_INTEGER) return key + static_cast<std::uint64_t>(part.integer);
    if (part.kind == LP_UNSIGNED) return key + part.unsigned_integer;
    return key + (part.kind == LP_BOOLEAN ? part.boolean : lp::view(part.text).size());
}

static std::uint64_t by_ranges(const std::uint8_t *text, std::size_t len) {
    static std::vector<lp_part> parts(512, lp_part LP_EMPTY_PART);
    static std::vector<std::uint8_t> bytes(8192);
    std::uint64_t sum = 0;
    lp::items items({reinterpret_cast<const char *>(text), len}, lp::dialect::crate, parts, bytes);
    for (const auto &item : items) {
        sum += item ? item.name().size() + static_cast<std::uint64_t>(item.time().value_or(0)) : 1;
        for (const auto &part : item.tag_set()) sum += of_part(part);
        for (const auto &part : item.field_set()) sum += of_part(part);
    }
    return sum;
}

const struct call calls[] = {{"ranges", by_ranges, nullptr}, {nullptr, nullptr, nullptr}};
bool is_utf8(const std::uint8_t *text, std::size_t len) {
    lp_lines lines = LP_NO_LINES;
    return lp_lines_begin(text, len, LP_CRATE, &lines);
}
std::uint64_t (*const build)(std::uint64_t count) = nullptr;
