package lineprotocol

// #include "influxdb_line_protocol.h"
import "C"

import (
	"errors"
	"fmt"
	"math"
	"strconv"
	"time"
)

// The errors of an Encoder, which an EncodeError wraps.
var (
	// ErrNotAdmitted is of a line that would not read back: a name is empty, holds a tab or a newline, or ends in a backslash.
	ErrNotAdmitted = errors.New("lineprotocol: the line would not read back")
	// ErrNotALine is of a line that is none. The words of the error say why: the line has no field, a text of it is not UTF-8, a field is NaN,
	// infinite or a zero Value, or all texts have 2 GiB or more.
	ErrNotALine = errors.New("lineprotocol: no line")
	// ErrOrder is of a call out of its order: StartLine, AddTag, AddField, EndLine.
	ErrOrder = errors.New("lineprotocol: a call out of its order")
	// ErrTagOrder is of a tag whose key does not come after that of the tag before it.
	ErrTagOrder = errors.New("lineprotocol: a tag out of its order")
)

var (
	errNoField = fmt.Errorf("%w: it has no field", ErrNotALine)
	errNotUTF8 = fmt.Errorf("%w: a text is not UTF-8", ErrNotALine)
	errTooLong = fmt.Errorf("%w: its texts have 2 GiB or more", ErrNotALine)
)

// An EncodeError says which line is not written, and why. The others are written.
type EncodeError struct {
	// Line is the number of the line, as StartLine began them, from 1.
	Line int64
	Err  error
}

// Error gives the number and the words.
func (e *EncodeError) Error() string { return fmt.Sprintf("line %d: %s", e.Line, e.Err) }

// Unwrap gives the words alone.
func (e *EncodeError) Unwrap() error { return e.Err }

// What may come next: a line, a tag or a field, or a field.
type state uint8

const (
	between state = iota
	tags
	fields
	dropped
)

// An Encoder writes lines. A line that would not read back as it was given is not written, and Err says so; the others are. Lines are
// gathered, and one call of the library writes many: Bytes and Err see to it that all that were ended are written, also amid a line.
type Encoder struct {
	dialect Dialect
	prec    Precision
	lax     bool
	err     *EncodeError
	state   state
	// The line that is begun: its number, where its text and its parts begin, and the key of its last tag.
	number   int64
	texts    int
	at       int
	last     C.lp_span
	row      C.lp_offset_row
	gathered gathered
	out      []byte
}

// SetDialect says in which dialect the lines read back: Crate if it is not called.
func (e *Encoder) SetDialect(dialect Dialect) { e.Bytes(); e.dialect = dialect }

// SetPrecision says of which unit timestamps are: Nanosecond if it is not called.
func (e *Encoder) SetPrecision(prec Precision) { e.prec = prec }

// SetLax says whether tags may come in any order. If not, which is so at first, each key comes after the one before it.
func (e *Encoder) SetLax(lax bool) { e.lax = lax }

// Err gives the error of the first line that was not written, an *EncodeError, or nil if there is none.
func (e *Encoder) Err() error {
	e.flush()
	if e.err == nil {
		return nil
	}
	return e.err
}

// ClearErr lets the error go.
func (e *Encoder) ClearErr() { e.flush(); e.err = nil }

// Reset lets go what was written, and a line that is begun.
func (e *Encoder) Reset() { e.SetBuffer(e.out[:0]) }

// SetBuffer appends what is written to buf from now on, and lets go what was written before, and a line that is begun.
func (e *Encoder) SetBuffer(buf []byte) {
	e.gathered.clear()
	e.err, e.state, e.number, e.out = nil, between, 0, buf
}

// Bytes gives what was written: each line that was ended and has no error. They are as they are until the next call.
func (e *Encoder) Bytes() []byte { e.flush(); return e.out }

// fail drops the line that is begun.
func (e *Encoder) fail(err error) {
	e.refuse(e.number, err)
	g := &e.gathered
	g.texts, g.parts = g.texts[:e.texts], g.parts[:e.at]
	e.state = dropped
}

// refuse keeps the error of the first line. That of a line which the library refuses is known later than that of a call out of its order.
func (e *Encoder) refuse(number int64, err error) {
	if e.err == nil || number < e.err.Line {
		e.err = &EncodeError{number, err}
	}
}

// StartLine begins a line of a measurement.
func (e *Encoder) StartLine(measurement string) { e.StartLineRaw(bytesOf(measurement)) }

// StartLineRaw does so of bytes.
func (e *Encoder) StartLineRaw(measurement []byte) {
	if e.state == tags || e.state == fields {
		e.fail(ErrOrder)
	}
	if e.gathered.isFull() {
		e.flush()
	}
	e.number++
	e.texts, e.at, e.state, e.gathered.over = len(e.gathered.texts), len(e.gathered.parts), tags, false
	e.row = C.lp_offset_row{line: C.uint64_t(e.number), parts_at: C.uint32_t(e.at)}
	e.row.measurement = e.gathered.text(measurement)
}

// AddTag adds a tag.
func (e *Encoder) AddTag(key, value string) { e.AddTagRaw(bytesOf(key), bytesOf(value)) }

// AddTagRaw does so of bytes.
func (e *Encoder) AddTagRaw(key, value []byte) {
	if e.state != tags {
		e.outOfOrder()
		return
	}
	g := &e.gathered
	if !e.lax && e.row.tags > 0 && string(g.bytes(e.last)) >= string(key) {
		e.fail(ErrTagOrder)
		return
	}
	e.last = g.text(key)
	g.parts = append(g.parts, C.lp_offset_part{key: e.last, text: g.text(value), kind: C.LP_TAG})
	e.row.tags++
}

// AddField adds a field. If its value is NaN, infinite or a zero Value, of which NewValue and FloatValue say false, the line is not written:
// ErrNotALine.
func (e *Encoder) AddField(key string, value Value) { e.AddFieldRaw(bytesOf(key), value) }

// AddFieldRaw does so of bytes.
func (e *Encoder) AddFieldRaw(key []byte, value Value) {
	if e.state != tags && e.state != fields {
		e.outOfOrder()
		return
	}
	g := &e.gathered
	part := C.lp_offset_part{key: g.text(key), number: C.uint64_t(value.number)}
	switch value.kind {
	case Int:
		part.kind = C.LP_INTEGER
	case Uint:
		part.kind = C.LP_UNSIGNED
	case Bool:
		part.kind = C.LP_BOOLEAN
	case String:
		part.kind, part.text = C.LP_STRING, g.text(value.bytes)
	case Float:
		number := value.FloatV()
		if math.IsNaN(number) || math.IsInf(number, 0) {
			e.fail(fmt.Errorf("%w: the field %q is %v", ErrNotALine, string(key), number))
			return
		}
		var literal [32]byte
		part.kind, part.text = C.LP_FLOAT, g.text(strconv.AppendFloat(literal[:0], number, 'g', -1, 64))
	default:
		e.fail(fmt.Errorf("%w: the field %q is a zero Value", ErrNotALine, string(key)))
		return
	}
	g.parts = append(g.parts, part)
	e.row.fields++
	e.state = fields
}

// EndLine ends a line, at a time, or without one if at.IsZero(). The line has the time as a number in the unit of SetPrecision, rounded down,
// as at.Unix() is: half a second before 1970 is -1 in seconds. The line is not written, and Err says why, if no int64 holds the number
// (ErrTimeRange), if the line has no field (ErrNotALine), or if no line was begun (ErrOrder). Each time of the years 1678 to 2261 can be written in
// nanoseconds, and any of the years 0 to 9999 in a greater unit.
func (e *Encoder) EndLine(at time.Time) {
	number, ok := e.prec.number(at)
	switch {
	case e.state == between:
		e.outOfOrder()
	case e.state == tags:
		e.fail(errNoField)
	case e.state == fields && e.gathered.over:
		e.fail(errTooLong)
	case e.state == fields && !ok && !at.IsZero():
		e.fail(fmt.Errorf("%w: %s in units of %v", ErrTimeRange, at.UTC().Format(time.RFC3339Nano), e.prec.Duration()))
	case e.state == fields:
		if !at.IsZero() {
			e.row.timestamp, e.row.has_timestamp = C.int64_t(number), 1
		}
		e.gathered.rows = append(e.gathered.rows, e.row)
	}
	e.state = between
}

// outOfOrder tells of a call out of its order, unless the line has an error before.
func (e *Encoder) outOfOrder() {
	switch e.state {
	case between:
		e.flush()
		e.refuse(e.number, ErrOrder)
	case tags, fields:
		e.fail(ErrOrder)
	}
}

// Lines that are gathered: their texts, and what says where these lie. All of it is memory of Go's without pointers.
type gathered struct {
	texts []byte
	rows  []C.lp_offset_row
	parts []C.lp_offset_part
	// Whether a text of the line that is begun found no place, since 32 bits do not hold where it would lie.
	over bool
}

const (
	mostRows  = 1024
	mostTexts = 256 << 10
)

func (g *gathered) isFull() bool { return len(g.rows) >= mostRows || len(g.texts) >= mostTexts }

func (g *gathered) clear() {
	g.texts, g.rows, g.parts = g.texts[:0], g.rows[:0], g.parts[:0]
}

func span(at, length int) C.lp_span { return C.lp_span{at: C.uint32_t(at), len: C.uint32_t(length)} }

// text gathers a text, and gives its place.
func (g *gathered) text(text []byte) C.lp_span {
	at := len(g.texts)
	if len(text) > mostGiven-at {
		g.over = true
		return C.lp_span{}
	}
	g.texts = append(g.texts, text...)
	return span(at, len(text))
}

// bytes gives the text at a place.
func (g *gathered) bytes(place C.lp_span) []byte { return g.texts[place.at : place.at+place.len] }

// flush writes the lines that were ended. A line that is begun stays.
func (e *Encoder) flush() {
	g := &e.gathered
	var written C.lp_rows_written
	for int(written.row) < len(g.rows) {
		e.grow(len(g.texts) + 32*len(g.parts) + 64*len(g.rows) - int(written.row))
		free := e.out[len(e.out):cap(e.out)]
		answer := C.lp_offsets_write(C.uint32_t(e.dialect), first(g.texts), C.size_t(len(g.texts)), &nothing, 0, &g.rows[0],
			C.size_t(len(g.rows)), &g.parts[0], C.size_t(len(g.parts)), first(free), C.size_t(len(free)), &written)
		if answer == C.LP_NOT_A_DIALECT {
			e.refuse(int64(g.rows[0].line), errDialect)
			break
		}
		e.out = e.out[:len(e.out)+int(written.len)]
		if answer == C.LP_MORE_ROOM {
			e.grow(int(written.need))
		} else if answer != C.LP_WRITTEN {
			e.refuse(int64(g.rows[written.row].line), writeErrors[answer])
			written.row++
		}
	}
	if e.state == tags || e.state == fields {
		g.rows = g.rows[:0]
	} else {
		g.clear()
	}
}

var writeErrors = map[C.uint32_t]error{C.LP_NOT_ADMITTED: ErrNotAdmitted, C.LP_NOT_A_LINE: errNotUTF8, C.LP_OUT_OF_MEMORY: errMemory}

var errMemory = errors.New("lineprotocol: a request for memory was refused")

// grow makes room for so many bytes more.
func (e *Encoder) grow(more int) {
	if cap(e.out)-len(e.out) < more {
		bigger := make([]byte, len(e.out), 2*cap(e.out)+more)
		copy(bigger, e.out)
		e.out = bigger
	}
}
