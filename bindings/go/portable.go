package lineprotocol

// #include "influxdb_line_protocol.h"
import "C"

import (
	"fmt"
	"math/bits"
)

// Servers are those to which a line is portable or not: each is a bit.
type Servers uint8

const (
	// Influx1 is InfluxDB 1.x.
	Influx1 Servers = 1 << iota
	// Victoria is VictoriaMetrics.
	Victoria
	// AllServers are both.
	AllServers = Influx1 | Victoria
)

// The bits of the clauses that concern these servers.
func (to Servers) mask() (mask Verdict) {
	if to&Influx1 != 0 {
		mask |= C.LP_OF_INFLUX1
	}
	if to&Victoria != 0 {
		mask |= C.LP_OF_VICTORIA
	}
	return mask
}

// A Clause is one of what is portable, named by what breaks it. Its number is the place of its bit in a Verdict.
type Clause uint8

// The clauses, in the order in which First looks at them.
const (
	// ClauseNotALine: what is there is not one line for the strict reader.
	ClauseNotALine Clause = iota
	// ClauseLeadingBlank: a space or a tab comes before the line.
	ClauseLeadingBlank
	// ClauseTrailingSpace: a space ends the line.
	ClauseTrailingSpace
	// ClauseNewline: the line holds a newline: in a string, or escaped.
	ClauseNewline
	// ClauseMeasurementEquals: an equals sign is escaped in the measurement.
	ClauseMeasurementEquals
	// ClauseMeasurementEscape: a backslash or a quote is escaped in the measurement.
	ClauseMeasurementEscape
	// ClauseTagEscape: a backslash is escaped in a tag key or a tag value.
	ClauseTagEscape
	// ClauseTagKeyComma: a comma is bare in a tag key.
	ClauseTagKeyComma
	// ClauseTagValueEquals: an equals sign is bare in a tag value.
	ClauseTagValueEquals
	// ClauseRepeatedTag: two tags have one key.
	ClauseRepeatedTag
	// ClauseFieldKeyEscape: a backslash or a quote is escaped in a field key.
	ClauseFieldKeyEscape
	// ClauseFieldKeyComma: a comma is bare in a field key.
	ClauseFieldKeyComma
	// ClauseFieldKeyQuote: a field key holds a quote.
	ClauseFieldKeyQuote
	// ClauseLongSeries: the series, four bytes and a field key are longer than 65,535 bytes.
	ClauseLongSeries
	// ClauseUnsigned: a value is an unsigned integer.
	ClauseUnsigned
	// ClauseInfiniteFloat: a float is too large for a finite number.
	ClauseInfiniteFloat
	// ClauseRoundedFloat: a float has an exponent, or takes over 310 bytes.
	ClauseRoundedFloat
	// ClauseLeadingNul: the first field key begins with a byte 0.
	ClauseLeadingNul
	// ClauseTimeOutOfRange: the timestamp is the greatest of 64 bits, or one of the two least.
	ClauseTimeOutOfRange
	// ClauseTagCount: the tags are 100, 200, 400, 800 and so on.
	ClauseTagCount
	// ClauseTimeName: a tag key or a field key is `time`.
	ClauseTimeName
	// ClauseSystemName: the measurement or a field key is a name of the server's own.
	ClauseSystemName
	// ClauseRepeatedField: two fields have one key.
	ClauseRepeatedField
	// ClauseKeySeparator: the series holds `#!~`.
	ClauseKeySeparator
	// ClauseControlByte: the measurement or a field key holds a byte 0 or a carriage return.
	ClauseControlByte
	// ClauseNameLabel: a tag key is `__name__`.
	ClauseNameLabel
	// ClauseLongTagKey: a tag key is longer than 256 bytes.
	ClauseLongTagKey
	// ClauseLongTagValue: a tag value is longer than 16,384 bytes.
	ClauseLongTagValue
	// ClauseLongMetricName: the measurement, a byte and a field key are longer than 16,384 bytes.
	ClauseLongMetricName
	// ClauseLongLabels: the series, a byte and a field key are longer than 32,000 bytes.
	ClauseLongLabels
	// ClauseTooManyTags: there are more tags than the limit.
	ClauseTooManyTags
	// ClauseLongLine: the line is longer than the limit.
	ClauseLongLine
	// ClauseTimeNotKept: the timestamp is before or after what is kept.
	ClauseTimeNotKept
)

// String says what breaks the clause.
func (c Clause) String() string {
	if words := clauseMessage(c); words != "" {
		return words
	}
	return fmt.Sprintf("Clause(%d)", uint8(c))
}

// A Verdict says which clauses of what is portable a line breaks: it has the bit of each. It is 0 if the servers read the line as the strict
// reader does, and that of ClauseNotALine alone if the strict reader reads no line, or more than one.
type Verdict uint64

// Portable tells whether the line breaks no clause that concerns these servers: they read it as the strict reader does.
func (v Verdict) Portable(to Servers) bool { return v&to.mask() == 0 }

// First gives the first clause that is broken of those that concern these servers. False: the line is portable to them.
func (v Verdict) First(to Servers) (c Clause, ok bool) {
	v &= to.mask()
	return Clause(bits.TrailingZeros64(uint64(v)) & 63), v != 0
}

// Breaks tells whether a clause is broken.
func (v Verdict) Breaks(c Clause) bool { return c < 64 && v>>c&1 != 0 }

// Limits are what the options of a server change.
type Limits struct {
	// Line is how many bytes a line may have, and Tags how many tags.
	Line, Tags int
	// Earliest and Latest are the first and the last timestamp that is kept, in nanoseconds.
	Earliest, Latest int64
}

// DefaultLimits gives those of servers whose options are as they come: lines of 262,144 bytes, 29 tags, and timestamps from 1,000,000 on.
func DefaultLimits() Limits {
	limits := defaultLimits()
	return Limits{int(limits.line), int(limits.tags), int64(limits.earliest), int64(limits.latest)}
}

// SetLimits says by which limits Verdict tells of this line and of those that come: DefaultLimits if it is not called. A number of bytes or of
// tags that is less than 0 is taken as 0.
func (d *Decoder) SetLimits(limits Limits) {
	d.ready()
	d.block.limits = C.lp_limits{line: size(limits.Line), tags: size(limits.Tags)}
	d.block.limits.earliest, d.block.limits.latest = C.int64_t(limits.Earliest), C.int64_t(limits.Latest)
	d.block.verdicts.upto = 0
}

func size(number int) C.size_t {
	if number < 0 {
		return 0
	}
	return C.size_t(number)
}

// Verdict tells which clauses of what is portable this line breaks, with the blanks before it. The line is read again for that, by the strict
// rules, whatever the dialect.
//
// It gives the fault of the line, if it has one, or an error if Next gave no line or memory was refused; the verdict is that of
// ClauseNotALine then. It may be called at any time before the next call of Next, and moves neither NextTag nor NextField.
//
// One call of the library tells of many lines, if most are asked for. No memory of Go's is taken. A line of more than eight tags or four
// fields, or with an escape, may take some of C's, within the call.
func (d *Decoder) Verdict() (Verdict, error) {
	row, err := d.current()
	if err == nil && d.row >= d.block.verdicts.upto {
		err = d.block.tellVerdicts(d.text, d.row)
	}
	if err != nil {
		return 1 << ClauseNotALine, err
	}
	d.block.verdicts.asked++
	return Verdict(row.verdict), nil
}
