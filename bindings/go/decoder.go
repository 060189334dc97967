// Package lineprotocol reads and writes InfluxDB line protocol by a proved library. Its names are those of
// github.com/influxdata/line-protocol/v2/lineprotocol, so a program over that package changes its import. It is imported as
// yomskafi.example/lineprotocol/v3, and `go mod edit -replace` says in which folder it lies.
//
// What it does otherwise: a line is read as a whole, so a line with a fault gives none of its tags and fields, but the fault; each line
// after it is read as ever. The parts of a line may be asked for in any order. Raw gives a line as it came, Fault its fault, AppendSeriesKey
// the key of its series, and Verdict whether other servers read it so too. A line that is too long costs no memory beyond MaxLine. A line is
// written only if it reads back as it was given, and then whole.
//
// All that a Decoder gives are views of the memory of Go, as long as the next call of Next: copy what is to stay. No call takes memory once
// a decoder or an encoder has what its longest lines need. One call of the library serves up to 512 lines. Each is for one goroutine;
// many may go side by side.
package lineprotocol

// #include "influxdb_line_protocol.h"
import "C"

import (
	"bufio"
	"bytes"
	"errors"
	"fmt"
	"io"
	"math"
	"strconv"
	"time"
)

// Dialect is by whose rules lines are read.
type Dialect uint32

const (
	// Crate has the rules of the Rust crate influxdb-line-protocol 2.0.0.
	Crate Dialect = 0
	// Strict has them too, but a comment ends at its own newline, and a comma after a field has a field after it.
	Strict Dialect = 1
	// NewlineDelimited is strict, and each newline ends a line, whatever is open: whatever a line holds, each other line is read as if it
	// were alone. No string holds a newline. It is for lines of others.
	NewlineDelimited Dialect = 2
)

// Precision is the unit of a time.
type Precision byte

const (
	Nanosecond Precision = iota
	Microsecond
	Millisecond
	Second
)

var units = [...]time.Duration{time.Nanosecond, time.Microsecond, time.Millisecond, time.Second}

// Duration gives the unit as a duration. It panics if the precision is none of the four.
func (p Precision) Duration() time.Duration { return units[p] }

// number gives how many units after 1970 a time is, rounded down. False: no int64 holds that.
func (p Precision) number(at time.Time) (number int64, ok bool) {
	unit := int64(p.Duration())
	inSecond := int64(time.Second) / unit
	seconds, rest := at.Unix(), int64(at.Nanosecond())/unit
	number = seconds*inSecond + rest // the number of another time, if the product has more than 64 bits
	back := time.Unix(number/inSecond, number%inSecond*unit)
	return number, back.Unix() == seconds && int64(back.Nanosecond())/unit == rest
}

// ErrTimeRange is the error of a time that is out of range. Time of a Decoder gives it if no int64 of nanoseconds holds the time; EndLine of an
// Encoder, if no int64 of the unit of its precision does. It is an ErrValueOutOfRange.
var ErrTimeRange = fmt.Errorf("lineprotocol: the time is out of range: %w", ErrValueOutOfRange)

// MaxLine is how many bytes a line may have that NewDecoder reads, if SetMaxLine says nothing else.
const MaxLine = 16 << 20

// A Decoder reads lines one after another: those of a reader, or of bytes. A zero Decoder is as NewDecoder(nil) makes it: it has nothing to
// read, so Next gives false, and Err says why. Reset and ResetBytes give it something to read.
type Decoder struct {
	reader  io.Reader
	err     error
	failed  error // of the reader: err, once the lines that came before it are read
	dialect Dialect
	most    int
	// The bytes from at to end are not read yet; the first of them is in this line.
	buf     []byte
	at, end int
	line    uint64
	ended   bool
	// What the last call filled: of which text, which begins in this line, how many bytes and rows of it; and which row is read, and where
	// the next piece begins.
	block block
	text  []byte
	first uint64
	taken int
	rows  int
	row   int
	next  int
	// The next tag and the next field of the row, and its fault.
	tag, field int
	fault      *DecodeError
	// What NextFieldBytes has spelled of the line.
	spelled []byte
	// A piece that is too long is told, and passed over.
	front   []byte
	passing bool
	search  search
}

// NewDecoder makes a decoder that reads r to its end, in blocks. Lines have MaxLine bytes at most. If r is nil, there is nothing to read until
// Reset or ResetBytes is called: Next gives false, and Err an error. A new decoder takes less than 8 KiB for one short line, and more as more
// lines come; to read many texts, keep it, and call Reset for each.
func NewDecoder(r io.Reader) *Decoder {
	d := new(Decoder)
	d.Reset(r)
	return d
}

// ready gives a zero decoder its memory and its limits.
func (d *Decoder) ready() {
	if d.block.rows == nil {
		d.most, d.block = MaxLine, newBlock()
	}
}

// Reset begins anew with another reader, in the memory that the decoder has, by its dialect, its limits and its greatest length of a line. If r
// is nil, the decoder keeps no reader, and its memory, as in a sync.Pool.
func (d *Decoder) Reset(r io.Reader) {
	d.ready()
	buf := d.buf
	if d.reader == nil && d.ended { // they are those of ResetBytes
		buf = nil
	}
	*d = Decoder{reader: r, dialect: d.dialect, most: d.most, line: 1, buf: buf, block: d.block, row: -1, spelled: d.spelled}
}

// NewDecoderWithBytes makes a decoder that reads buf in place. It must stay as it is until all was read. No line is too long.
func NewDecoderWithBytes(buf []byte) *Decoder {
	d := new(Decoder)
	d.ResetBytes(buf)
	d.most = math.MaxInt
	return d
}

// ResetBytes begins anew with other bytes, in the memory that the decoder has, by its dialect, its limits and its greatest length of a line.
func (d *Decoder) ResetBytes(buf []byte) {
	d.ready()
	*d = Decoder{dialect: d.dialect, most: d.most, line: 1, buf: buf, end: len(buf), ended: true, block: d.block, row: -1, spelled: d.spelled}
}

// SetDialect says by whose rules lines are read: Crate if it is not called. It comes before the first Next.
func (d *Decoder) SetDialect(dialect Dialect) { d.dialect = dialect }

// SetMaxLine says how many bytes a line may have, its newline left out. A longer one is a fault, told as soon as more bytes have come.
func (d *Decoder) SetMaxLine(most int) {
	d.ready()
	if most < 0 {
		most = 0
	}
	d.most = most
}

// Err gives the error of the reader, if there was one, after Next gave false. Next gives all lines first that came whole before the error, with
// their newlines. It gives no line of which a part came: the rest might have changed it. No line comes after an error, until Reset.
func (d *Decoder) Err() error { return d.err }

// Next goes to the next line, also to one that has a fault. False: there is none, or the reader failed, as Err says.
func (d *Decoder) Next() bool {
	d.tag, d.field, d.fault, d.front, d.spelled = 0, 0, nil, nil, d.spelled[:0]
	for {
		row, end := d.row+1, d.taken
		if row < d.rows {
			end = int(d.block.rows[row].piece.at)
		}
		if end-d.next > d.most && d.passBlanks(end) {
			return true
		}
		if row < d.rows {
			d.begin(row)
			return true
		}
		if !d.fill() {
			return false
		}
		if d.front != nil {
			return true
		}
	}
}

// begin goes to a row of the block.
func (d *Decoder) begin(at int) {
	row := &d.block.rows[at]
	d.row, d.next = at, int(row.piece.at)+int(row.piece.len)+1
	if row.answer != C.LP_LINE || int(row.piece.len) > d.most {
		d.fault = d.faultOf(row)
	}
}

// passBlanks goes over the pieces before this place, which hold blanks and comments alone. True: one is too long, which is told.
func (d *Decoder) passBlanks(end int) bool {
	var search search
	search.begin(d.dialect)
	for d.next < end {
		piece := d.text[d.next:end]
		if cut, found := search.find(piece); found {
			piece = piece[:cut]
		}
		line := d.first + uint64(bytes.Count(d.text[:d.next], newline))
		d.next += len(piece) + 1
		if len(piece) > d.most {
			d.tell(piece, line)
			return true
		}
	}
	return false
}

// tell tells of a piece that is too long, which begins in this line.
func (d *Decoder) tell(piece []byte, line uint64) {
	d.front = piece[:d.most:d.most]
	d.fault = &DecodeError{Line: int64(line), Column: 1, Kind: TooLong, Err: tooLong}
}

// fill reads a block of lines, or finds one that is too long. False: no line is left.
func (d *Decoder) fill() bool {
	d.row, d.rows, d.next, d.taken = -1, 0, 0, 0
	if d.reader == nil && !d.ended {
		d.err = errNoInput
	}
	if d.passing {
		d.pass()
	}
	for d.err == nil && !(d.at == d.end && d.ended) {
		text := d.buf[d.at:d.end]
		if len(text) > mostGiven {
			text = text[:mostGiven]
		}
		last := d.ended && len(text) == d.end-d.at
		rows, taken, err := d.block.read(text, d.dialect, last, d.line)
		if err != nil {
			d.err = err
			break
		}
		d.text, d.first, d.rows, d.taken = text, d.line, rows, taken
		d.at += taken
		d.line = uint64(d.block.filled.line)
		if rows > 0 || taken > d.most {
			return true
		}
		if d.ended && !last && taken == 0 {
			d.err = errors.New("lineprotocol: a line of 2 GiB and more")
		}
		if !d.ended && d.grow() {
			return true
		}
	}
	return false
}

// grow reads on until the piece at hand ends. Each byte is searched once, however little comes at a time. True: it is too long, which is
// told, and it is passed over then.
func (d *Decoder) grow() bool {
	d.search.begin(d.dialect)
	for searched := 0; d.err == nil; {
		piece := d.buf[d.at:d.end]
		_, found := d.search.find(piece[searched:])
		if found || d.ended {
			break
		}
		if len(piece) > d.most {
			d.tell(piece, d.line)
			d.row, d.rows, d.next, d.taken = -1, 0, 0, 0
			d.passing = true
			d.take(piece)
			return true
		}
		searched = len(piece)
		d.more()
	}
	return false
}

// pass goes over the rest of a piece that is too long.
func (d *Decoder) pass() {
	for d.passing && d.err == nil {
		text := d.buf[d.at:d.end]
		cut, found := d.search.find(text)
		if found {
			text = text[:cut+1]
		}
		d.take(text)
		d.passing = !found && !d.ended
		if d.passing {
			d.more()
		}
	}
}

// take passes bytes.
func (d *Decoder) take(text []byte) {
	d.at += len(text)
	d.line += uint64(bytes.Count(text, newline))
}

var newline = []byte{'\n'}

// more reads more bytes, after those that are not read yet. The buffer grows if they fill it, and up to 64 KiB also if reads fill it. If the
// reader fails, the bytes that came with its error are read first: the error is told in the place of more.
func (d *Decoder) more() {
	if d.failed != nil {
		d.err = d.failed
		return
	}
	left := d.buf[d.at:d.end]
	switch size := len(d.buf); {
	case size == 0:
		d.buf = make([]byte, 1<<10)
	case len(left) == size || d.end == size && size < 64<<10:
		d.buf = make([]byte, 2*size)
	}
	d.at, d.end = 0, copy(d.buf, left)
	for tries := 0; tries < 100; tries++ {
		n, err := d.reader.Read(d.buf[d.end:])
		if n < 0 || n > len(d.buf)-d.end {
			d.err = bufio.ErrBadReadCount
			return
		}
		d.end += n
		if err == io.EOF {
			d.ended = true
			return
		}
		d.failed = err
		if err != nil || n > 0 {
			return
		}
	}
	d.err = io.ErrNoProgress
}

// faultOf makes the fault of a row.
func (d *Decoder) faultOf(row *C.lp_offset_row) *DecodeError {
	piece := d.view(row.piece, 0)
	if len(piece) > d.most {
		return &DecodeError{Line: int64(row.line), Column: 1, Kind: TooLong, Err: tooLong}
	}
	before := piece[:row.stop_at-row.piece.at]
	fault := &DecodeError{Line: int64(row.line) + int64(bytes.Count(before, newline)), Kind: NotUTF8, Err: notUTF8}
	fault.Column = len(before) - bytes.LastIndexByte(before, '\n')
	if row.answer != C.LP_NOT_UTF8 {
		fault.Kind, fault.Err = faultKinds[row.fault], faultText{append([]byte(nil), piece...), d.dialect}
	}
	return fault
}

// view gives the bytes at a place of the text, or of the room, if they were copied there.
func (d *Decoder) view(span C.lp_span, copied C.uint16_t) []byte {
	if copied != 0 {
		return d.block.room[span.at : span.at+span.len : span.at+span.len]
	}
	return d.text[span.at : span.at+span.len : span.at+span.len]
}

// The row of this line, or its fault.
func (d *Decoder) current() (*C.lp_offset_row, error) {
	if d.fault != nil {
		return nil, d.fault
	}
	if !d.hasRow() {
		return nil, errNoLine
	}
	return &d.block.rows[d.row], nil
}

// hasRow tells whether Next gave a row.
func (d *Decoder) hasRow() bool { return 0 <= d.row && d.row < d.rows }

var (
	errNoLine  = errors.New("lineprotocol: Next gave no line")
	errNoInput = errors.New("lineprotocol: the decoder has no reader and no bytes")
)

// Fault gives the fault of this line, or nil if it has none. Compare it with nil before you assign it to an error: an error that holds a nil
// *DecodeError is not nil. A fault stays as it is after Next.
func (d *Decoder) Fault() *DecodeError { return d.fault }

// Raw gives this line as it came, with the blanks and comments before it, and without the newline that ends it: of one that is too long
// its first bytes.
func (d *Decoder) Raw() []byte {
	if d.front != nil {
		return d.front
	}
	if !d.hasRow() {
		return nil
	}
	raw := d.view(d.block.rows[d.row].piece, 0)
	if len(raw) > d.most {
		raw = raw[:d.most:d.most]
	}
	return raw
}

// Line gives the number of the line of the input with which this one begins, from 1.
func (d *Decoder) Line() int64 {
	if d.front != nil {
		return d.fault.Line
	}
	if !d.hasRow() {
		return 0
	}
	return int64(d.block.rows[d.row].line)
}

// Measurement gives the measurement, or the fault of the line.
func (d *Decoder) Measurement() ([]byte, error) {
	row, err := d.current()
	if err != nil {
		return nil, err
	}
	return d.view(row.measurement, row.measurement_copied), nil
}

// AppendSeriesKey appends the key of the series of this line to dst, and gives the longer slice: a text that the series has alone, whatever
// its names hold. It is the measurement and the tags as line protocol has them, in the order of the tag keys, by bytes. Tags of equal keys
// stay in their order. Two lines have the same key exactly if they have the same measurement and, for each tag key, the same values in the
// same order; if each name is one that an Encoder writes, the key reads back as the series. So a map by keys groups lines by series.
//
// It gives the fault of the line, if it has one, or an error if Next gave no line, if memory was refused, or if you changed bytes of the line
// after Next so that they are not UTF-8; dst then comes back as it was. It may be called at any time before the next call of Next, and moves
// neither NextTag nor NextField. dst must share no memory with the text that is read.
//
// A key that stands in the line as it is is copied from there: one call of the library finds these keys of many lines, if most are asked for.
// Any other key is a call of its own. Its time goes by the length of the key, and by a sort of the tags that are out of order. No memory of
// Go's is taken if dst has room, as key[:0] has of a key before that was as long.
func (d *Decoder) AppendSeriesKey(dst []byte) ([]byte, error) {
	row, err := d.current()
	if err != nil {
		return dst, err
	}
	if d.row >= d.block.keys.upto {
		d.block.tellKeys(d.text, d.row)
	}
	d.block.keys.asked++
	if row.key != 0 {
		return append(dst, d.text[row.line_at:uint64(row.line_at)+uint64(row.key)]...), nil
	}
	return d.block.appendKey(dst, d.text, row)
}

// NextTag gives the next tag: its key is nil if there is none. Else it gives the fault of the line.
func (d *Decoder) NextTag() (key, value []byte, err error) {
	row, err := d.current()
	if err != nil {
		return nil, nil, err
	}
	if d.tag == int(row.tags) {
		return nil, nil, nil
	}
	part := &d.block.parts[int(row.parts_at)+d.tag]
	d.tag++
	return d.view(part.key, part.key_copied), d.view(part.text, part.text_copied), nil
}

// NextField gives the next field: its key is nil if there is none. Else it gives the fault of the line.
func (d *Decoder) NextField() (key []byte, value Value, err error) {
	row, err := d.current()
	if err != nil {
		return nil, Value{}, err
	}
	if d.field == int(row.fields) {
		return nil, Value{}, nil
	}
	part := &d.block.parts[int(row.parts_at)+int(row.tags)+d.field]
	d.field++
	return d.view(part.key, part.key_copied), d.value(part), nil
}

// NextFieldBytes gives the next field as NextField does, but its value in bytes, as NewValueFromBytes takes them: a string without quotes
// and escapes, a float as it is spelled, and any other value as it is written, without the letter of an integer.
func (d *Decoder) NextFieldBytes() (key []byte, kind ValueKind, value []byte, err error) {
	row, err := d.current()
	if err != nil || d.field == int(row.fields) {
		return nil, Unknown, nil, err
	}
	part := &d.block.parts[int(row.parts_at)+int(row.tags)+d.field]
	d.field++
	key = d.view(part.key, part.key_copied)
	switch part.kind {
	case C.LP_FLOAT:
		return key, Float, d.view(part.text, part.text_copied), nil
	case C.LP_STRING:
		return key, String, d.view(part.text, part.text_copied), nil
	}
	number, at := d.value(part), len(d.spelled)
	d.spelled = number.appendNumber(d.spelled)
	return key, number.kind, d.spelled[at:len(d.spelled):len(d.spelled)], nil
}

func (d *Decoder) value(part *C.lp_offset_part) Value {
	switch part.kind {
	case C.LP_INTEGER:
		return Value{kind: Int, number: uint64(part.number)}
	case C.LP_UNSIGNED:
		return Value{kind: Uint, number: uint64(part.number)}
	case C.LP_BOOLEAN:
		return Value{kind: Bool, number: uint64(part.number)}
	case C.LP_STRING:
		return Value{kind: String, bytes: d.view(part.text, part.text_copied)}
	}
	number, _ := strconv.ParseFloat(stringOf(d.view(part.text, part.text_copied)), 64)
	return Value{kind: Float, number: math.Float64bits(number)}
}

// Timestamp gives the number that the line has for its time. False: it has none, or a fault.
func (d *Decoder) Timestamp() (number int64, ok bool) {
	row, err := d.current()
	if err != nil {
		return 0, false
	}
	return int64(row.timestamp), row.has_timestamp != 0
}

// TimeBytes gives the number of the time as the line spells it, or nil if the line has none. Else it gives the fault of the line.
func (d *Decoder) TimeBytes() ([]byte, error) {
	row, err := d.current()
	if err != nil || row.has_timestamp == 0 {
		return nil, err
	}
	// Between the number and the end of such a line are spaces alone, and a space is before it.
	line := bytes.TrimRight(d.view(row.piece, 0), " ")
	return line[bytes.LastIndexByte(line, ' ')+1 : len(line) : len(line)], nil
}

// Time gives the time of the line, whose number is of this precision, or defaultTime if it has none. Else it gives the fault of the line,
// or ErrTimeRange if no int64 of nanoseconds holds the time. Each time of the years 1678 to 2261 is held. Timestamp gives the number of any time.
func (d *Decoder) Time(prec Precision, defaultTime time.Time) (time.Time, error) {
	row, err := d.current()
	if err != nil {
		return time.Time{}, err
	}
	if row.has_timestamp == 0 {
		return defaultTime, nil
	}
	number := int64(row.timestamp)
	unit := int64(prec.Duration())
	if number > math.MaxInt64/unit || number < math.MinInt64/unit {
		return time.Time{}, ErrTimeRange
	}
	return time.Unix(0, number*unit), nil
}
