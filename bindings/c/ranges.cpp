/* Compares the rows of the table of answers with the ranges of influxdb_line_protocol.hpp, read with nothing lent at first, in each
 * dialect; writes each line that can be read, and reads it back; and sees what comes of what is empty, of bytes that are not UTF-8 and of
 * an end without more lent, and that a range takes no memory. */
#include "influxdb_line_protocol.hpp"
#include "tests.h"
#include <algorithm>
#include <array>
#include <cstdio>
#include <cstdlib>
#include <fstream>
#include <new>
#include <string>
#include <vector>

static std::size_t requests = 0;
void *operator new(std::size_t size) {
    requests++;
    if (void *at = std::malloc(size > 0 ? size : 1)) return at;
    throw std::bad_alloc();
}
void operator delete(void *at) noexcept { std::free(at); }
void operator delete(void *at, std::size_t) noexcept { std::free(at); }

static std::string name(const lp_view &view) { return (view.copied ? "C<" : "S<") + std::string(lp::view(view)) + '>'; }

static std::string value(const lp_part &part) {
    switch (part.kind) {
    case LP_INTEGER: return std::to_string(part.integer) + 'i';
    case LP_UNSIGNED: return std::to_string(part.unsigned_integer) + 'u';
    case LP_FLOAT: return "f<" + std::string(lp::view(part.text)) + '>';
    case LP_BOOLEAN: return part.boolean ? "true" : "false";
    default: return name(part.text);
    }
}

static std::string fault(const lp::item &item) {
    text out = {nullptr, 0, 0};
    put_fault(&out, &item);
    std::string said(reinterpret_cast<const char *>(out.at), out.len);
    std::free(out.at);
    return said;
}

static std::string shown(const lp::item &item) {
    if (!item) return fault(item);
    std::string out = name(item.measurement);
    for (const lp_part &tag : item.tag_set()) out += ',' + name(tag.key) + '=' + name(tag.text);
    for (const lp_part &field : item.field_set()) out += ' ' + name(field.key) + '=' + value(field);
    return item.time() ? out + " at " + std::to_string(*item.time()) : out;
}

/* The items of a text, shown by `take`. Nothing is lent at first, and then just what each line needs. */
template <class Take> static std::vector<std::string> items_of(std::string_view text, lp::dialect dialect, Take take) {
    std::vector<std::string> shown_items;
    std::vector<lp_part> parts;
    std::vector<std::uint8_t> bytes;
    lp::items items(text, dialect, parts, bytes);
    for (const lp::item &item : items) {
        if (item.answer == LP_MORE_PARTS || item.answer == LP_MORE_ROOM) {
            parts.resize(item.parts_needed), bytes.resize(item.room_needed), items.lend(parts, bytes);
        } else shown_items.push_back(item.answer == LP_NOT_UTF8 ? "not UTF-8" : take(item));
    }
    return shown_items;
}

/* An item, with no mark of copies. */
static std::string plain(std::string shown) {
    for (std::size_t at; (at = shown.find("C<")) != std::string::npos;) shown[at] = 'S';
    return shown;
}

/* Whether the line of an item, if it is admitted, reads back as itself. */
static bool reads_back(const lp::item &item, lp::dialect dialect) {
    std::string written;
    if (!item || lp::append_line(written, dialect, item, item.parts, item.tags + item.fields) == LP_NOT_ADMITTED) return written.empty();
    std::vector<std::string> read = items_of(written, dialect, shown);
    return read.size() == 1 && plain(read[0]) == plain(shown(item));
}

/* The places of the items of a text, each after its kind: the bytes, the lines, and where reading stopped. */
static std::string places(std::string_view text, lp::dialect dialect) {
    std::array<lp_part, 3> parts;
    std::array<char, 9> bytes;
    std::string out;
    lp::items items(text, dialect, parts, bytes);
    for (const lp::item &item : items) {
        const lp::place at = items.where();
        for (std::uint64_t one : {std::uint64_t{item.answer}, std::uint64_t{at.begin}, std::uint64_t{at.end}, at.line, at.last_line, std::uint64_t{at.stop},
                                  at.stop_line, std::uint64_t{at.stop_column}})
            out += std::to_string(one) + ' ';
        out.back() = '|';
    }
    return out;
}

/* Whether items tell their places: lines and faults after comments, of several lines, at the end and not; and one that takes more tells none. */
static bool tells_places() {
    const std::string_view text = "# c\n\n m f=1i\nm s=\"a\nb\",g=2x\n#\nm,a\\ =b f=1\nm f=\nm,a=b,c=d f=1,g=2";
    return items_of(text, lp::dialect::strict, shown).size() == 5
        && places(text, lp::dialect::strict) == "1 6 12 3 3 12 3 8|2 13 27 4 5 26 5 7|1 30 41 7 7 41 7 12|2 42 46 8 8 46 8 5|3 0 0 0 0 0 0 0|"
        && places("m", lp::dialect::crate) == "2 0 1 1 1 1 1 2|" && places("m f=\"\n\"\n", lp::dialect::crate) == "1 0 7 1 2 7 2 2|"
        && places("m f=\xff", lp::dialect::crate) == "8 0 0 0 0 0 0 0|" && places("", lp::dialect::crate).empty();
}

static std::string key(const lp::item &item) {
    std::string out = "key: ";
    return lp::append_key(out, item) == LP_WRITTEN ? out.substr(5) : "no key";
}

static std::string message(const lp::item &item) {
    std::string out;
    return lp::append_message(out, item) == LP_WRITTEN ? out : "no message";
}

/* What a kind of rows asks of a text. */
static std::string answer(const std::string &kind, std::string_view text, lp::dialect dialect) {
    if (kind != "items") return items_of(text, dialect, kind == "key" ? key : message).at(0);
    std::string out;
    for (const std::string &one : items_of(text, dialect, shown)) out += (out.empty() ? "" : "|") + one;
    for (const std::string &one : items_of(text, dialect, [&](const lp::item &item) { return std::string(reads_back(item, dialect) ? "" : "no"); }))
        out += one;
    return out;
}

static std::string unescaped(std::string_view cell) {
    static const std::string_view spelled = "ntr0\\", meant("\n\t\r\0\\", 5);
    std::string out;
    for (std::size_t at = 0; at < cell.size(); at++) out += cell[at] == '\\' ? meant.at(spelled.find(cell.at(++at))) : cell[at];
    return out;
}

/* Compares the rows of the kinds that these calls answer: how many there are, or 0, if one is not as the library says. */
static std::size_t compare(std::ifstream &table) {
    std::size_t compared = 0;
    for (std::string row; std::getline(table, row);) {
        std::vector<std::string> cells(1);
        for (char byte : row)
            if (byte == '\t') cells.emplace_back();
            else cells.back() += byte;
        if (cells[0] != "items" && cells[0] != "key" && cells[0] != "fault") continue;
        const std::string text = unescaped(cells[1]);
        for (std::size_t at = 2; at < cells.size(); at++) {
            std::string given = answer(cells[0], text, static_cast<lp::dialect>(at - 2));
            if (given != unescaped(cells[at])) return std::printf("%s: the library gives %s\n", row.c_str(), given.c_str()), 0;
        }
        compared++;
    }
    return compared;
}

/* Whether what is empty, by null too, is a text of length 0; and whether bytes that are not UTF-8 are one item. */
static bool takes_empty() {
    const lp_part parts[] = {lp::tag({}, {}), lp::string("f", {})};
    std::string out = "kept";
    const lp_line line = lp::line({}, 1, 1), of_string = lp::line("m", 0, 1);
    bool is_refused = lp::append_line(out, lp::dialect::strict, line, parts, 2) == LP_NOT_ADMITTED && out == "kept";
    bool is_written = lp::append_line(out, lp::dialect::strict, of_string, parts + 1, 1) == LP_WRITTEN && out == "keptm f=\"\"\n";
    is_written &= lp::append_clause(out, LP_CLAUSE_REPEATED_TAG) == LP_WRITTEN && out == "keptm f=\"\"\ntwo tags have one key";
    is_refused &= lp::append_clause(out, 0) == LP_NOT_A_LINE && out.size() == 32;
    return is_refused && is_written && items_of({}, lp::dialect::crate, shown).empty()
        && items_of("m f=\"\xff\"\nm f=1", lp::dialect::crate, shown) == std::vector<std::string>{"not UTF-8"};
}

/* Whether a range over what is lent on the stack takes no memory, ends at a line that takes more, and begins with it if more is lent. */
static bool takes_no_memory() {
    std::array<lp_part, 2> parts;
    std::array<lp_part, 3> more_parts;
    std::array<char, 8> bytes;
    std::size_t before = requests, lines = 0;
    lp::items items("m,a=b f=1\nm,a\\ b=c f=2\nm,a=b f=1,g=1\nm f", lp::dialect::strict, parts, bytes);
    auto is_line = [](const lp::item &item) { return bool(item); };
    lines += static_cast<std::size_t>(std::count_if(items.begin(), items.end(), is_line));
    bool is_ended = items.now().answer == LP_MORE_PARTS && items.now().parts_needed == 3 && items.begin() == items.end();
    items.lend(more_parts, bytes);
    lines += static_cast<std::size_t>(std::count_if(items.begin(), items.end(), is_line));
    return is_ended && lines == 3 && items.now().answer == LP_END && requests == before;
}

int main(int argc, char **argv) {
    std::ifstream table(argc == 2 ? argv[1] : "");
    std::size_t compared = compare(table);
    std::printf("%zu rows of answers by ranges of C++, and no request for memory", compared);
    return compared == 0 || !takes_empty() || !tells_places() || !takes_no_memory();
}
