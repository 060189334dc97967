package lineprotocol

// The library, by pkg-config; or by the tag lp_lib_dir, as lib_dir.go says.

/*
#cgo !lp_lib_dir pkg-config: influxdb_line_protocol
#include <stdlib.h>
#include "influxdb_line_protocol.h"

// What the library answers of a key, and how long that is.
typedef struct { size_t len; uint32_t answer; } key_answer;

static lp_view view_of(lp_span place, uint16_t copied, const uint8_t *text, const uint8_t *room) {
	const lp_view view = { { (copied ? room : text) + place.at, place.len }, copied != 0 };
	return view;
}

static lp_part tag_of(const lp_offset_part *part, const uint8_t *text, const uint8_t *room) {
	lp_part tag = LP_EMPTY_PART;
	tag.key = view_of(part->key, part->key_copied, text, room);
	tag.text = view_of(part->text, part->text_copied, text, room);
	return tag;
}

// Puts the key of the series of a row into `out`. What has pointers is made here, and none is kept.
static key_answer key_of_row(const lp_offset_row *row, const lp_offset_part *tags, const uint8_t *text, const uint8_t *room, uint8_t *out,
                             size_t out_len) {
	enum { FEW = 32 };
	lp_part few[FEW], *parts = row->tags > FEW ? malloc(row->tags * sizeof *parts) : few;
	lp_line line = LP_EMPTY_LINE;
	key_answer key = { 0, LP_OUT_OF_MEMORY };
	if (parts == NULL) return key;
	line.measurement = view_of(row->measurement, row->measurement_copied, text, room);
	line.tags = row->tags;
	line.has_tag_set = row->tags > 0;
	for (size_t at = 0; at < line.tags; at++) parts[at] = tag_of(&tags[at], text, room);
	key.answer = lp_line_key(&line, parts, line.tags, out, out_len, &key.len);
	if (parts != few) free(parts);
	return key;
}
*/
import "C"

import (
	"errors"
	"fmt"
	"math"
	"unsafe"
)

// Another major version of the library has other calls and structs, so a program over it ends as it starts.
func init() {
	if version := uint32(C.lp_version()); version/10000 != 3 {
		panic(fmt.Sprintf("lineprotocol: the library is of version %d.%d.%d: this module needs one of version 3", version/10000, version/100%100, version%100))
	}
}

// The first byte of a slice, for C, which wants a place also where there are no bytes.
func first(bytes []byte) *C.uint8_t {
	if len(bytes) == 0 {
		return &nothing
	}
	return (*C.uint8_t)(&bytes[0])
}

var nothing C.uint8_t

// A block is what one call of the library fills: rows of items, and their parts, with offsets into the text and the room. All of it is
// memory of Go's without pointers.
type block struct {
	rows   []C.lp_offset_row
	parts  []C.lp_offset_part
	room   []byte
	filled C.lp_block
	answer C.uint32_t
	// Which rows tell the keys of their series, and which tell verdicts, by these limits. told is what the library says of the latter.
	keys, verdicts telling
	limits         C.lp_limits
	told           C.size_t
}

// The rows before upto tell what was asked for of them. The last call was for run rows, of which so many were asked for.
type telling struct{ upto, run, asked int }

// ahead gives how many rows of these are to tell next: twice as many as the last time, if half of those were asked for, or else one. So few are
// told that no one asks for.
func (t *telling) ahead(rows, most int) int {
	if 2*t.asked < t.run {
		t.run = 1
	} else if t.run < most {
		t.run *= 2
	}
	if rows > t.run {
		return t.run
	}
	return rows
}

// came says that rows from this one on tell now. Those that the last call might have told too count as asked for.
func (t *telling) came(at, rows int) { t.upto, t.asked = at+rows, t.run-rows }

// The memory of a new block, which suffices for a few short lines: it grows as more come.
func newBlock() block {
	return block{rows: make([]C.lp_offset_row, 8), parts: make([]C.lp_offset_part, 32), room: make([]byte, 256),
		keys: telling{run: 1}, verdicts: telling{run: 1}, limits: defaultLimits()}
}

// grow gives the next call more of that which ran out in the last one, so that few calls read a large text.
func (b *block) grow() {
	switch rows, parts, room := len(b.rows), len(b.parts), len(b.room); {
	case b.answer == C.LP_LINE && rows < 512:
		b.rows = make([]C.lp_offset_row, grown(rows, 512))
	case b.answer == C.LP_MORE_PARTS && parts < 4096:
		b.parts = make([]C.lp_offset_part, grown(parts, 4096))
	case b.answer == C.LP_MORE_ROOM && room < 16<<10:
		b.room = make([]byte, grown(room, 16<<10))
	}
}

// grown gives eight times a number, or the most there may be if that is less.
func grown(number, most int) int {
	if number > most/8 {
		return most
	}
	return 8 * number
}

// The limits of servers whose options are as they come.
func defaultLimits() (limits C.lp_limits) {
	C.lp_limits_default(&limits)
	return limits
}

// The greatest part of a text that one call is given. Offsets have 32 bits.
const mostGiven = math.MaxInt32

// errDialect is of a number that no dialect has, and of what no call here gives.
var errDialect = errors.New("lineprotocol: no dialect has the number")

// read fills rows from the start of a text on, of which the first line has this number; last: the text ends there. It gives how many
// rows were filled, and how many bytes they and blank pieces take. The next piece goes on in the text that comes if both are 0.
func (b *block) read(text []byte, dialect Dialect, last bool, line uint64) (rows, taken int, err error) {
	b.grow()
	for {
		b.filled, b.keys.upto, b.verdicts.upto = C.lp_block{line: C.uint64_t(line)}, 0, 0
		b.answer = b.fill(text, dialect, last)
		if b.answer == C.LP_NOT_A_DIALECT || b.answer == C.LP_TOO_LONG {
			return 0, 0, errDialect
		}
		if b.filled.rows > 0 {
			break
		}
		// The row after the filled ones says how much its line takes.
		if b.answer == C.LP_MORE_PARTS {
			b.parts = make([]C.lp_offset_part, 2*(int(b.rows[0].tags)+int(b.rows[0].fields)))
		} else if b.answer == C.LP_MORE_ROOM {
			b.room = make([]byte, 2*int(b.rows[0].room_len))
		} else {
			break
		}
	}
	return int(b.filled.rows), int(b.filled.at), nil
}

// fill is the call of the library. If verdicts were asked for of most rows that told them, all rows tell theirs with it, since the strict rules
// read no line again for that.
func (b *block) fill(text []byte, dialect Dialect, last bool) C.uint32_t {
	if dialect != Strict || b.verdicts.run < len(b.rows) || 2*b.verdicts.asked < b.verdicts.run {
		return C.lp_offsets_block(first(text), C.size_t(len(text)), C.uint32_t(dialect), C.bool(last), &b.filled, first(b.room),
			C.size_t(len(b.room)), &b.rows[0], C.size_t(len(b.rows)), &b.parts[0], C.size_t(len(b.parts)))
	}
	answer := C.lp_offsets_block_verdicts(first(text), C.size_t(len(text)), C.uint32_t(dialect), C.bool(last), &b.filled, first(b.room),
		C.size_t(len(b.room)), &b.rows[0], C.size_t(len(b.rows)), &b.parts[0], C.size_t(len(b.parts)), &b.limits, &b.told)
	b.verdicts.came(0, int(b.told))
	return answer
}

// tellKeys lets rows from this one on tell their keys.
func (b *block) tellKeys(text []byte, at int) {
	rows := b.keys.ahead(int(b.filled.rows)-at, len(b.rows))
	C.lp_offsets_keys(first(text), C.size_t(len(text)), &b.rows[at], C.size_t(rows))
	b.keys.came(at, rows)
}

// tellVerdicts lets rows from this one on tell their verdicts: an error if not even this one can.
func (b *block) tellVerdicts(text []byte, at int) error {
	rows := b.verdicts.ahead(int(b.filled.rows)-at, len(b.rows))
	C.lp_offsets_verdicts(first(text), C.size_t(len(text)), &b.rows[at], C.size_t(rows), &b.limits, &b.told)
	b.verdicts.came(at, int(b.told))
	if b.told == 0 {
		return errMemory
	}
	return nil
}

// errChanged is of a line that is none any more.
var errChanged = errors.New("lineprotocol: the bytes of the line were changed after Next, and are not UTF-8")

// appendKey appends the key of the series of a row, which was read from this text.
func (b *block) appendKey(dst, text []byte, row *C.lp_offset_row) ([]byte, error) {
	for {
		free := dst[len(dst):cap(dst)]
		key := C.key_of_row(row, &b.parts[row.parts_at], first(text), first(b.room), first(free), C.size_t(len(free)))
		switch key.answer {
		case C.LP_WRITTEN:
			return dst[:len(dst)+int(key.len)], nil
		case C.LP_MORE_ROOM:
			dst = append(dst, make([]byte, int(key.len))...)[:len(dst)]
		case C.LP_OUT_OF_MEMORY:
			return dst, errMemory
		default:
			return dst, errChanged
		}
	}
}

// message gives what the library says of the first item of a piece: what is wrong with it. The library reads a copy, in memory of C's,
// since what it gives of a fault has pointers.
func message(piece []byte, dialect Dialect) string {
	text := C.CBytes(piece)
	defer C.free(text)
	room := C.malloc(C.size_t(len(piece)) + 1)
	defer C.free(room)
	lines, line := C.lp_no_lines, C.lp_empty_line
	if !C.lp_lines_begin((*C.uint8_t)(text), C.size_t(len(piece)), C.uint32_t(dialect), &lines) {
		return "the line is not UTF-8"
	}
	lent := C.lp_room{at: (*C.uint8_t)(room), len: C.size_t(len(piece) + 1)}
	var none C.lp_part = C.lp_empty_part
	if C.lp_lines_next(&lines, &lent, &line, &none, 0) != C.LP_FAULT {
		return "the line cannot be read"
	}
	told := make([]byte, 256+len(piece))
	var n C.size_t
	if C.lp_fault_message(&line, first(told), C.size_t(len(told)), &n) != C.LP_WRITTEN {
		return "the line cannot be read"
	}
	return string(told[:n])
}

// The words of a clause, or none if there is no such clause.
func clauseMessage(c Clause) string {
	var told [128]byte
	var n C.size_t
	if C.lp_clause_message(C.uint64_t(1)<<c, first(told[:]), C.size_t(len(told)), &n) != C.LP_WRITTEN {
		return ""
	}
	return string(told[:n])
}

// A search for the end of a piece that is too long, and the place that it found.
type search struct {
	cuts C.lp_cuts
	cut  C.size_t
}

// begin begins a search in the piece that comes next.
func (s *search) begin(dialect Dialect) {
	C.lp_cuts_begin(C.uint32_t(dialect), C.SIZE_MAX, &s.cuts)
}

// find goes on over the bytes that come next: the place of the newline that ends the piece, if it is one of them.
func (s *search) find(text []byte) (cut int, found bool) {
	found = C.lp_cuts_next(&s.cuts, first(text), C.size_t(len(text)), &s.cut) == C.LP_PIECE
	return int(s.cut), found
}

// A string of bytes that stay as they are while it is used.
func stringOf(bytes []byte) string { return *(*string)(unsafe.Pointer(&bytes)) }

// The bytes of a string, which must not be written.
func bytesOf(text string) []byte {
	if text == "" {
		return nil
	}
	return unsafe.Slice(*(**byte)(unsafe.Pointer(&text)), len(text))
}
