/* Reads the lines of a text, and prints the sum of each field over the lines of its series; then writes a line. */
#include "influxdb_line_protocol.hpp"
#include <cinttypes>
#include <cstdio>
#include <map>
#include <string>
#include <vector>

// [lines_in_cpp]
/* Adds the integers of each field to the sum of its series and its key. False: a line is at fault, or the text is no UTF-8. */
static bool add_lines(std::string_view text, std::map<std::string, std::int64_t> &sums) {
    std::vector<lp_part> parts(8); // lent for the tags and fields of a line
    std::vector<char> bytes(64);   // and for those of its texts that hold escapes, without them
    lp::items items(text, lp::dialect::newline_delimited, parts, bytes);
    bool is_read = true;
    for (const lp::item &item : items) {
        std::string series, message;
        if (item.answer == LP_MORE_PARTS || item.answer == LP_MORE_ROOM) {
            parts.resize(item.parts_needed), bytes.resize(item.room_needed), items.lend(parts, bytes); // the line comes again
        } else if (!item || lp::append_key(series, item) != LP_WRITTEN) {
            const lp::place place = items.where();
            lp::append_message(message, item); // it is empty where the text is no UTF-8
            std::printf("%" PRIu64 ":%zu: %s\n", place.stop_line, place.stop_column, message.c_str()), is_read = false;
        } else {
            for (const lp_part &field : item.field_set())
                if (field.kind == LP_INTEGER) sums[series + ' ' + std::string(lp::view(field.key))] += field.integer;
        }
    }
    return is_read;
}

/* The line of a login, with its newline; empty, where no line can hold the name: then it would not read back. */
static std::string login(std::string_view user) {
    const lp_part parts[] = {lp::tag("user", user), lp::boolean("ok", true)};
    std::string out;
    lp::append_line(out, lp::dialect::newline_delimited, lp::line("login", 1, 1), parts, 2);
    return out;
}
// [end]

int main() {
    std::map<std::string, std::int64_t> sums;
    if (add_lines("cpu,host=a,az=b n=1i\ncpu,az=b,host=a n=2i,k=5i\ncpu,host=a\\ b n=4i 7\nm 5\n", sums)) return 1; // the last is at fault
    for (const auto &[field, sum] : sums) std::printf("%s: %" PRId64 "\n", field.c_str(), sum);
    std::printf("%s%zu bytes of what no line can hold\n", login("guest one").c_str(), login("guest\npayments").size());
    return 0;
}
