// Reads texts by the Go package of bindings/go and by InfluxDB 1.x's ParsePoints, and compares what both make of each line. A difference
// of no kind of bindings/go/testdata/differences.tsv is a failure. checks/go_beside.sh runs this.
package beside

import (
	"bytes"
	"fmt"
	"math"
	"reflect"
	"sort"
	"strconv"
	"strings"
	"time"
	"unsafe"

	"github.com/influxdata/influxdb/models"

	"yomskafi.example/lineprotocol/v3"
)

// The time of a point whose line has none.
const noTime = 1234567890

// A point as a reader gives it: names and strings without escapes, values as line protocol has them.
type point struct {
	name         string
	tags, fields []part
	at           int64
}

type part struct{ key, value string }

// String shows a point as the table does.
func (p *point) String() string {
	s := "<" + p.name + ">"
	for _, tag := range p.tags {
		s += ",<" + tag.key + ">=<" + tag.value + ">"
	}
	before := " "
	for _, field := range p.fields {
		s += before + "<" + field.key + ">=" + field.value
		before = ","
	}
	if p.at != noTime {
		s += fmt.Sprintf(" at %d", p.at)
	}
	return s
}

func float(x float64) string { return strconv.FormatFloat(x, 'g', -1, 64) }

// An item is a line as the Decoder gives it: where in the text its piece begins, and its point or its fault.
type item struct {
	at    int
	raw   []byte
	point *point
	fault *lineprotocol.DecodeError
}

// One decoder for each dialect.
var decoders [3]*lineprotocol.Decoder

func init() {
	for dialect := range decoders {
		decoders[dialect] = lineprotocol.NewDecoderWithBytes(nil)
		decoders[dialect].SetDialect(lineprotocol.Dialect(dialect))
	}
}

// decode reads a text by the Decoder.
func decode(text []byte, dialect lineprotocol.Dialect) (items []item) {
	d := decoders[dialect]
	d.ResetBytes(text)
	for d.Next() {
		one := item{raw: d.Raw(), fault: d.Fault()}
		one.at = int(uintptr(unsafe.Pointer(&one.raw[0])) - uintptr(unsafe.Pointer(&text[0])))
		if one.fault == nil {
			one.point = decoded(d)
		}
		items = append(items, one)
	}
	return items
}

// decoded gives the point of a decoder's line.
func decoded(d *lineprotocol.Decoder) *point {
	name, _ := d.Measurement()
	p := &point{name: string(name)}
	for key, value, _ := d.NextTag(); key != nil; key, value, _ = d.NextTag() {
		p.tags = append(p.tags, part{string(key), string(value)})
	}
	for key, value, _ := d.NextField(); key != nil; key, value, _ = d.NextField() {
		shown := value.String()
		switch value.Kind() {
		case lineprotocol.String:
			shown = `"` + value.StringV() + `"`
		case lineprotocol.Float:
			shown = float(value.FloatV())
		}
		p.fields = append(p.fields, part{string(key), shown})
	}
	at, _ := d.Time(lineprotocol.Nanosecond, time.Unix(0, noTime))
	p.at = at.UnixNano()
	return p
}

// parse reads a text by ParsePoints: its points, and what it says of the lines that it refuses; "panic" if it panics.
func parse(text []byte) (points []*point, words string) {
	defer func() {
		if recover() != nil {
			points, words = nil, "panic"
		}
	}()
	read, err := models.ParsePointsWithPrecision(append([]byte(nil), text...), time.Unix(0, noTime), "ns")
	if err != nil {
		words = err.Error()
	}
	for _, one := range read {
		p := &point{name: string(one.Name()), at: one.UnixNano()}
		for _, tag := range one.Tags() {
			p.tags = append(p.tags, part{string(tag.Key), string(tag.Value)})
		}
		for it := one.FieldIterator(); it.Next(); {
			p.fields = append(p.fields, part{string(it.FieldKey()), parsedValue(it)})
		}
		points = append(points, p)
	}
	return points, words
}

// parsedValue shows the value at which an iterator is.
func parsedValue(it models.FieldIterator) string {
	var value interface{}
	var err error
	switch it.Type() {
	case models.Integer:
		value, err = it.IntegerValue()
		value = fmt.Sprintf("%di", value)
	case models.Unsigned:
		value, err = it.UnsignedValue()
		value = fmt.Sprintf("%du", value)
	case models.Float:
		var x float64
		x, err = it.FloatValue()
		value = float(x)
	case models.Boolean:
		value, err = it.BooleanValue()
	case models.String:
		value = `"` + it.StringValue() + `"`
	default:
		return "empty"
	}
	if err != nil {
		return err.Error()
	}
	return fmt.Sprint(value)
}

// A difference between the two readers: of one line, whose piece is raw; or, if it is of cuts, of how ParsePoints reads a whole text, raw,
// and how it reads each of the Decoder's lines alone.
type difference struct {
	dialect lineprotocol.Dialect
	cuts    bool
	raw     []byte
	fault   *lineprotocol.DecodeError
	// The points of the Decoder and of ParsePoints, nil if there are none, and what the latter says.
	ours, theirs *point
	words        string
}

func (d *difference) String() string {
	if d.cuts {
		return fmt.Sprintf("dialect %d: ParsePoints reads %q otherwise than line by line", d.dialect, d.raw)
	}
	return fmt.Sprintf("dialect %d: %q is %q, %q; by ParsePoints %q, %q", d.dialect, d.raw, d.ours, d.fault, d.theirs, d.words)
}

// differences compares what both make of a text.
func differences(text []byte, dialect lineprotocol.Dialect) (found []*difference) {
	var alone []*point
	var said []string
	for _, one := range decode(text, dialect) {
		end := one.at + len(one.raw)
		if end < len(text) {
			end++ // the newline
		}
		points, words := parse(text[one.at:end])
		if words != "" {
			said = append(said, words)
		}
		alone = append(alone, points...)
		d := &difference{dialect: dialect, raw: one.raw, fault: one.fault, ours: one.point, words: words}
		if len(points) > 0 {
			d.theirs = points[0]
		}
		if len(points) > 1 || !reflect.DeepEqual(d.ours, d.theirs) {
			found = append(found, d)
		}
	}
	points, words := parse(text)
	if words != "panic" && (!reflect.DeepEqual(points, alone) || words != strings.Join(said, "\n")) {
		found = append(found, &difference{dialect: dialect, cuts: true, raw: text})
	}
	return found
}

// unknown gives a difference over a text that is of no kind, if there is one.
func unknown(text []byte, dialect lineprotocol.Dialect) *difference {
	for _, one := range differences(text, dialect) {
		if kindOf(one) == "" {
			return one
		}
	}
	return nil
}

// A kind of difference: its name in the table, and whether a difference is of it.
type kind struct {
	name string
	is   func(d *difference) bool
}

// kindOf gives the first kind that a difference is of, or "".
func kindOf(d *difference) string {
	for _, kind := range kinds {
		if kind.is(d) {
			return kind.name
		}
	}
	return ""
}

var kinds []kind

func init() {
	kinds = []kind{
		// The cuts of a text.
		{"comment", func(d *difference) bool {
			return d.cuts && d.dialect != lineprotocol.Crate && hasComment(d.raw) || !d.cuts && d.theirs == nil && d.words == "" && hasComment(d.raw)
		}},
		{"newline_in_string", func(d *difference) bool {
			return d.cuts && d.dialect == lineprotocol.NewlineDelimited &&
				!reflect.DeepEqual(pieces(d.raw, lineprotocol.Strict), pieces(d.raw, d.dialect))
		}},
		// Lines that ParsePoints refuses.
		{"hundred_tags", refused("panic", func(p *point) bool { return len(p.tags)%100 == 0 })},
		{"unsigned", refused("invalid number", func(p *point) bool {
			return anyPart(p.fields, func(field part) bool { return field.value[0] != '"' && strings.HasSuffix(field.value, "u") })
		})},
		{"float_range", refused("invalid float", func(p *point) bool {
			return anyPart(p.fields, func(field part) bool { return strings.HasSuffix(field.value, "Inf") })
		})},
		{"time_range", refused("time outside range", func(p *point) bool {
			return p.at == math.MaxInt64 || p.at < math.MinInt64+2
		})},
		{"key_length", refused("max key length exceeded", func(p *point) bool { return len(p.String()) > 65535 })},
		{"tag_twice", refused("duplicate tags", func(p *point) bool {
			seen := map[string]bool{}
			return anyPart(p.tags, func(tag part) bool { twice := seen[tag.key]; seen[tag.key] = true; return twice })
		})},
		{"tag_key_comma", refused("missing tag", func(p *point) bool {
			return anyPart(p.tags, func(tag part) bool { return strings.Contains(tag.key, ",") })
		})},
		{"tag_value_equals", refused("invalid tag format", func(p *point) bool {
			return anyPart(p.tags, func(tag part) bool { return strings.Contains(tag.value[1:], "=") })
		})},
		{"field_key_comma", func(d *difference) bool { return onlyOurs(d) && hasKeyWithComma(d.ours) }},
		{"last_comma", func(d *difference) bool {
			return onlyOurs(d) && d.dialect == lineprotocol.Crate && only(d.raw, lineprotocol.Strict) == nil
		}},
		// Lines that the Decoder refuses.
		{"not_utf8", func(d *difference) bool { return onlyTheirs(d) && d.fault.Kind == lineprotocol.NotUTF8 }},
		{"backslash_last", func(d *difference) bool { return onlyTheirs(d) && d.fault.Kind == lineprotocol.EndsWithBackslash }},
		{"space_last", func(d *difference) bool {
			line := bytes.TrimRight(d.raw, " ")
			return onlyTheirs(d) && len(line) < len(d.raw) && only(line, d.dialect) != nil && unknown(line, d.dialect) == nil
		}},
		{"after_string", func(d *difference) bool {
			return onlyTheirs(d) && d.fault.Kind == lineprotocol.CannotParseEntireLine && bytes.HasSuffix(beforeRest(d), []byte(`"`))
		}},
		{"blank_in_name", func(d *difference) bool { return onlyTheirs(d) && bytes.ContainsAny(d.raw, "\t\x00\n") }},
		{"bare_point", func(d *difference) bool {
			return onlyTheirs(d) && anyPart(d.theirs.fields, func(field part) bool { return field.value[0] != '"' }) && barePoint(d.raw)
		}},
		{"comma_and_quote", func(d *difference) bool {
			return onlyTheirs(d) && bytes.Contains(d.raw, []byte(`"`)) && hasKeyWithComma(d.theirs)
		}},
		// Lines that both read.
		{"tag_order", func(d *difference) bool {
			return both(d) && reflect.DeepEqual(sorted(d.ours, ""), sorted(d.theirs, ""))
		}},
		{"two_backslashes", func(d *difference) bool { return sameButFor(d, `\`) && bytes.Contains(d.raw, []byte(`\\`)) }},
		{"escaped_quote", func(d *difference) bool { return sameButFor(d, `\`) && bytes.Contains(d.raw, []byte(`\"`)) }},
		{"escaped_equals", func(d *difference) bool { return sameButFor(d, `\`) && strings.Contains(d.ours.name, `\=`) }},
		{"first_zero", func(d *difference) bool { return sameButFor(d, "\x00\\") && d.ours.fields[0].key[0] == 0 }},
	}
}

func onlyOurs(d *difference) bool   { return !d.cuts && d.ours != nil && d.theirs == nil }
func onlyTheirs(d *difference) bool { return !d.cuts && d.ours == nil && d.theirs != nil }
func both(d *difference) bool       { return d.ours != nil && d.theirs != nil }

// refused makes the test of a kind of line that ParsePoints refuses by these words, and whose point is so.
func refused(words string, is func(p *point) bool) func(*difference) bool {
	return func(d *difference) bool {
		said := d.words[strings.LastIndex(d.words, "': ")+1:]
		return onlyOurs(d) && strings.Contains(said, words) && is(d.ours)
	}
}

func anyPart(parts []part, is func(part) bool) bool {
	for _, one := range parts {
		if is(one) {
			return true
		}
	}
	return false
}

func hasKeyWithComma(p *point) bool {
	return anyPart(p.fields, func(field part) bool { return strings.Contains(field.key, ",") })
}

// only gives the point of a text of one line, if it has one.
func only(text []byte, dialect lineprotocol.Dialect) *point {
	items := decode(text, dialect)
	if len(items) != 1 {
		return nil
	}
	return items[0].point
}

// pieces gives the pieces of a text.
func pieces(text []byte, dialect lineprotocol.Dialect) (all []string) {
	for _, one := range decode(text, dialect) {
		all = append(all, string(one.raw))
	}
	return all
}

// hasComment tells whether a line begins with '#' after blanks.
func hasComment(text []byte) bool {
	for _, line := range bytes.Split(text, []byte("\n")) {
		if bytes.HasPrefix(bytes.TrimLeft(line, " \t\x00"), []byte("#")) {
			return true
		}
	}
	return false
}

// beforeRest gives what of a line the Decoder had read where it stopped.
func beforeRest(d *difference) []byte {
	rest := strings.TrimSuffix(strings.TrimPrefix(d.fault.Err.Error(), "Could not parse entire line. Found trailing content: '"), "'")
	return bytes.TrimSuffix(d.raw, []byte(rest))
}

// barePoint tells whether a point has no digit before it or after it.
func barePoint(text []byte) bool {
	isDigit := func(at int) bool { return at >= 0 && at < len(text) && text[at] >= '0' && text[at] <= '9' }
	for at, char := range text {
		if char == '.' && (!isDigit(at-1) || !isDigit(at+1)) {
			return true
		}
	}
	return false
}

// sameButFor tells whether both points are the same once these bytes are gone from all names.
func sameButFor(d *difference, without string) bool {
	return both(d) && reflect.DeepEqual(sorted(d.ours, without), sorted(d.theirs, without))
}

// sorted gives a point without these bytes in its names, and its tags in order.
func sorted(p *point, without string) *point {
	strip := func(name string) string {
		return strings.Map(func(char rune) rune {
			if strings.ContainsRune(without, char) {
				return -1
			}
			return char
		}, name)
	}
	same := &point{name: strip(p.name), at: p.at}
	for _, tag := range p.tags {
		same.tags = append(same.tags, part{strip(tag.key), strip(tag.value)})
	}
	for _, field := range p.fields {
		same.fields = append(same.fields, part{strip(field.key), field.value})
	}
	sort.Slice(same.tags, func(i, j int) bool {
		return same.tags[i].key < same.tags[j].key || same.tags[i].key == same.tags[j].key && same.tags[i].value < same.tags[j].value
	})
	return same
}
