/* InfluxDB line protocol for C++17: ranges over what influxdb_line_protocol.h reads, and calls that append what it writes to a string.
 *
 * It is this header alone, over the same library; that header says what each answer means, and what its types hold. It asks for no memory:
 * you lend what is read into, and `append` and what calls it resize the string that you hand in. It throws nothing; such a string may. An
 * empty std::string_view is a text of length 0, also if its pointer is null. */
#ifndef INFLUXDB_LINE_PROTOCOL_HPP
#define INFLUXDB_LINE_PROTOCOL_HPP
#include "influxdb_line_protocol.h"
#include <algorithm>
#include <cstddef>
#include <cstdint>
#include <iterator>
#include <optional>
#include <string_view>

namespace lp {

enum class dialect : std::uint32_t { crate = LP_CRATE, strict = LP_STRICT, newline_delimited = LP_NEWLINE_DELIMITED };

inline std::string_view view(const lp_text &text) noexcept { return {reinterpret_cast<const char *>(text.at), text.len}; }
inline std::string_view view(const lp_view &name) noexcept { return view(name.text); }
inline lp_text text(std::string_view of) noexcept {
    return of.empty() ? lp_text LP_NO_TEXT : lp_text{reinterpret_cast<const std::uint8_t *>(of.data()), of.size()};
}

/* Parts and the line of them, to be written: `line` takes how many of the parts are tags, and then fields. */
inline lp_view name(std::string_view of) noexcept { return {text(of), true}; }
inline lp_part tag(std::string_view key, std::string_view value) noexcept { return {name(key), name(value), 0, 0, LP_TAG, false}; }
inline lp_part integer(std::string_view key, std::int64_t value) noexcept { return {name(key), LP_NO_VIEW, value, 0, LP_INTEGER, false}; }
inline lp_part unsigned_integer(std::string_view key, std::uint64_t value) noexcept {
    return {name(key), LP_NO_VIEW, 0, value, LP_UNSIGNED, false};
}
inline lp_part real(std::string_view key, std::string_view literal) noexcept { return {name(key), name(literal), 0, 0, LP_FLOAT, false}; }
inline lp_part string(std::string_view key, std::string_view value) noexcept { return {name(key), name(value), 0, 0, LP_STRING, false}; }
inline lp_part boolean(std::string_view key, bool value) noexcept { return {name(key), LP_NO_VIEW, 0, 0, LP_BOOLEAN, value}; }
inline lp_line line(std::string_view measurement, std::size_t tags, std::size_t fields, std::optional<std::int64_t> timestamp = {}) noexcept {
    lp_line made = LP_EMPTY_LINE;
    made.measurement = name(measurement), made.tags = tags, made.fields = fields, made.has_tag_set = tags > 0;
    made.has_timestamp = timestamp.has_value(), made.timestamp = timestamp.value_or(0);
    return made;
}

/* An input range: `Of` has `next`, which is false at the end, and `now`, which gives what it read. */
template <class Of> class iterator {
    Of *of = nullptr;

public:
    using iterator_category = std::input_iterator_tag;
    using value_type = typename Of::value_type;
    using difference_type = std::ptrdiff_t;
    using reference = const value_type &;
    using pointer = const value_type *;
    iterator() noexcept = default;
    explicit iterator(Of &from) noexcept : of(from.next() ? &from : nullptr) {}
    reference operator*() const noexcept { return of->now(); }
    pointer operator->() const noexcept { return &of->now(); }
    iterator &operator++() noexcept { return of = of->next() ? of : nullptr, *this; }
    void operator++(int) noexcept { ++*this; }
    friend bool operator==(const iterator &one, const iterator &other) noexcept { return one.of == other.of; }
    friend bool operator!=(const iterator &one, const iterator &other) noexcept { return one.of != other.of; }
};

/* Some parts of a line. */
struct parts_range {
    const lp_part *first, *last;
    const lp_part *begin() const noexcept { return first; }
    const lp_part *end() const noexcept { return last; }
    std::size_t size() const noexcept { return static_cast<std::size_t>(last - first); }
};

/* An item, as the next step of its range leaves it no more. `answer` is LP_LINE or LP_FAULT; LP_MORE_PARTS or LP_MORE_ROOM, where the line
 * takes `parts_needed` parts or `room_needed` bytes and less was lent; or LP_NOT_UTF8, alone, where the text is not UTF-8. */
struct item : lp_line {
    std::uint32_t answer = LP_END;
    const lp_part *parts = nullptr;
    std::size_t parts_needed = 0, room_needed = 0;

    explicit operator bool() const noexcept { return answer == LP_LINE; }
    std::string_view name() const noexcept { return view(measurement); }
    parts_range tag_set() const noexcept { return {parts, parts + (*this ? tags : 0)}; }
    parts_range field_set() const noexcept { return {parts + (*this ? tags : 0), parts + (*this ? tags + fields : 0)}; }
    std::optional<std::int64_t> time() const noexcept { return has_timestamp ? std::optional(timestamp) : std::nullopt; }
};

/* Where an item lies in the text, in bytes from 0 on, and in which lines, from 1 on. Of a fault `stop` is the byte that could not be read, with
 * its line and its column, in bytes from 1 on; of a line it is the end. */
struct place {
    std::size_t begin = 0, end = 0, stop = 0;
    std::uint64_t line = 0, last_line = 0, stop_line = 0;
    std::size_t stop_column = 0;
};

/* The items of a text, read into the memory that is lent: containers of lp_part and of bytes, which have `data` and `size`. The range ends
 * after an item that takes more, but if more is lent before the next step, that begins with the same line. */
class items {
    lp_text text, before = LP_NO_TEXT; // all of it, and what was left before the item that was read last
    lp_lines left = LP_NO_LINES;
    lp_room lent = {nullptr, 0};
    lp_part *parts = nullptr, no_part = LP_EMPTY_PART;
    std::size_t parts_len = 0;
    std::uint8_t no_byte = 0;
    bool is_text, is_ended = false;
    item read;

public:
    using value_type = item;
    template <class Parts, class Bytes> items(std::string_view of, dialect rules, Parts &parts_lent, Bytes &bytes_lent) noexcept
        : text(lp::text(of)), is_text(lp_lines_begin(text.at, text.len, static_cast<std::uint32_t>(rules), &left)) {
        lend(parts_lent, bytes_lent);
    }
    items(const items &) = delete;
    items &operator=(const items &) = delete;

    template <class Parts, class Bytes> void lend(Parts &parts_lent, Bytes &bytes_lent) noexcept {
        static_assert(sizeof *bytes_lent.data() == 1, "the room is of bytes");
        parts_len = parts_lent.size(), parts = parts_len > 0 ? parts_lent.data() : &no_part;
        lent = {bytes_lent.size() > 0 ? reinterpret_cast<std::uint8_t *>(bytes_lent.data()) : &no_byte, bytes_lent.size()};
        lp_empty_parts(parts, parts_len), static_cast<lp_line &>(read) = LP_EMPTY_LINE; // no text is left of what was lent before
        is_ended = is_ended && !is_text;
    }
    bool next() noexcept {
        if (is_ended) return false;
        lp_room room = lent;
        before = left.rest;
        read.answer = is_text ? lp_lines_next(&left, &room, &read, parts, parts_len) : std::uint32_t{LP_NOT_UTF8};
        read.parts = parts;
        read.parts_needed = read.answer == LP_MORE_PARTS ? read.tags + read.fields : parts_len;
        read.room_needed = read.answer == LP_MORE_ROOM ? read.copied_len : lent.len;
        is_ended = read.answer != LP_LINE && read.answer != LP_FAULT;
        return read.answer != LP_END;
    }
    const item &now() const noexcept { return read; }

    /* Where the line or the fault lies that was read last. It counts the newlines of the text up to there. If there is none, or it takes 4 GiB
     * with what comes before it from the item before, all is 0. A fault is read again for it, by offsets. */
    place where() const noexcept {
        lp_offset_row row;
        lp_offset_part none;
        lp_block block = {1, 0, 0, 0, 0};
        std::uint8_t no_room;
        place found;
        const std::size_t from = static_cast<std::size_t>(before.at - text.at), len = left.ended ? before.len : before.len - left.rest.len - 1;
        if (read.answer == LP_LINE) {
            found.begin = static_cast<std::size_t>(read.series.at - text.at);
            found.end = found.stop = from + len;
        } else if (read.answer == LP_FAULT && len <= UINT32_MAX &&
                   lp_offsets_block(before.at, len, left.dialect, true, &block, &no_room, 0, &row, 1, &none, 0) == LP_LINE) {
            found.begin = from + row.line_at, found.end = from + row.piece.at + row.piece.len, found.stop = from + row.stop_at;
        } else return found;
        const std::string_view all = view(text);
        const auto line_of = [&](std::size_t at) { return 1 + static_cast<std::uint64_t>(std::count(all.begin(), all.begin() + at, '\n')); };
        found.line = line_of(found.begin), found.last_line = line_of(found.end), found.stop_line = line_of(found.stop);
        found.stop_column = found.stop - (all.substr(0, found.stop).rfind('\n') + 1) + 1;
        return found;
    }
    iterator<items> begin() noexcept { return iterator<items>(*this); }
    iterator<items> end() noexcept { return {}; }
};

/* Appends what `call` puts at a place of so many bytes: `out` is a std::string, or has its `data`, `size` and `resize`. Where the answer is
 * neither LP_WRITTEN nor LP_FAULT, `out` is as it was. */
template <class Out, class Call> std::uint32_t append(Out &out, Call call) {
    std::size_t before = out.size(), len = 0, room = 256;
    for (;; room = len) {
        out.resize(before + room);
        std::uint32_t answer = call(reinterpret_cast<std::uint8_t *>(out.data() + before), room, &len);
        if (answer == LP_MORE_ROOM && len > room) continue;
        out.resize(before + (answer == LP_WRITTEN || answer == LP_FAULT ? len : 0));
        return answer;
    }
}
template <class Out> std::uint32_t append_line(Out &out, dialect rules, const lp_line &line, const lp_part *parts, std::size_t parts_len) {
    return append(out, [&](auto at, auto room, auto len) {
        return lp_line_write(static_cast<std::uint32_t>(rules), &line, parts, parts_len, at, room, len);
    });
}
template <class Out> std::uint32_t append_key(Out &out, const item &of) {
    return append(out, [&](auto at, auto room, auto len) { return lp_line_key(&of, of.parts, of.tags + of.fields, at, room, len); });
}
template <class Out> std::uint32_t append_message(Out &out, const item &of) {
    return append(out, [&](auto at, auto room, auto len) { return lp_fault_message(&of, at, room, len); });
}
template <class Out> std::uint32_t append_clause(Out &out, std::uint64_t clause) {
    return append(out, [&](auto at, auto room, auto len) { return lp_clause_message(clause, at, room, len); });
}
} // namespace lp
#endif
