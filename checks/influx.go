// For checks/influx.sh: what InfluxDB 1.x's parser reads of a line, beside the reader of crates/lp_influx, which is proved to read what the
// definitions of that crate say. It is called by crates/lp_checks.
//
//	influx compare SEED COUNT DEPTH   compares them on COUNT random texts and on all of up to DEPTH bytes
//	influx rows                       prints what the parser reads of the worked lines, as statements on the definition
//
// The parser gives no point of a line that it refuses or panics at. Here it gives none either if a value of a field cannot be read, or is not
// finite: where its two scans of the fields find other fields, it checks no value of the second. There it also reads numbers that Go alone
// spells so, as 1_0 and 0x1p4, which the definition leaves out; no text here has them.
package main

// #include "lp_checks.h"
import "C"

import (
	"bytes"
	"fmt"
	"math"
	"math/rand"
	"os"
	"sort"
	"strconv"
	"strings"
	"time"

	"github.com/influxdata/influxdb/models"
)

type tag struct{ key, value string }

// A field: its value is an i, u, f, b or s, with its text. A float is the double that its literal stands for.
type field struct {
	key     string
	kind    byte
	text    string
	literal string
}

type point struct {
	name   string
	tags   []tag
	fields []field
	time   *int64
}

// The parser.

// A point without a time has this one.
const noTime = 1234567890

// valueOf gives the value of the field that the iterator is at, and whether there is one.
func valueOf(next models.FieldIterator) (byte, string, bool) {
	switch next.Type() {
	case models.Integer:
		value, err := next.IntegerValue()
		return 'i', fmt.Sprint(value), err == nil
	case models.Unsigned:
		value, err := next.UnsignedValue()
		return 'u', fmt.Sprint(value), err == nil
	case models.Float:
		value, err := next.FloatValue()
		return 'f', double(value), err == nil && !math.IsInf(value, 0) && !math.IsNaN(value)
	case models.Boolean:
		value, err := next.BooleanValue()
		return 'b', fmt.Sprint(value), err == nil
	case models.String:
		return 's', next.StringValue(), true
	}
	return 0, "", false
}

func double(value float64) string {
	return strconv.FormatFloat(value, 'g', -1, 64)
}

// parsed is the point that the parser gives of a text.
func parsed(text []byte) (found *point) {
	defer func() {
		if recover() != nil {
			found = nil
		}
	}()
	points, err := models.ParsePointsWithPrecision(append([]byte(nil), text...), time.Unix(0, noTime), "ns")
	if err != nil || len(points) != 1 {
		return nil
	}
	made := &point{name: string(points[0].Name())}
	for _, each := range points[0].Tags() {
		made.tags = append(made.tags, tag{string(each.Key), string(each.Value)})
	}
	for next := points[0].FieldIterator(); next.Next(); {
		kind, value, ok := valueOf(next)
		if !ok {
			return nil
		}
		made.fields = append(made.fields, field{key: string(next.FieldKey()), kind: kind, text: value})
	}
	if at := points[0].UnixNano(); at != noTime {
		made.time = &at
	}
	return made
}

// The reader of crates/lp_influx.

// Where the call takes a text from, and puts what it reads of it.
var given, told [1 << 18]byte

// partOf takes a part of what was read: its letter, and its number or its text.
func partOf(read []byte) (letter byte, text string, rest []byte) {
	colon := bytes.IndexByte(read, ':')
	letter, text, rest = read[0], string(read[1:colon]), read[colon+1:]
	if strings.IndexByte("mtvkfs", letter) >= 0 {
		size, err := strconv.Atoi(text)
		if err != nil {
			panic(err)
		}
		text, rest = string(rest[:size]), rest[size:]
	}
	return letter, text, rest
}

// put adds a part to a point.
func (p *point) put(letter byte, text string) {
	switch letter {
	case 'm':
		p.name = text
	case 't':
		p.tags = append(p.tags, tag{key: text})
	case 'v':
		p.tags[len(p.tags)-1].value = text
	case 'k':
		p.fields = append(p.fields, field{key: text})
	case 'a':
		at, err := strconv.ParseInt(text, 10, 64)
		if err != nil {
			panic(err)
		}
		p.time = &at
	default:
		p.fields[len(p.fields)-1].set(letter, text)
	}
}

// set gives a field its value.
func (f *field) set(kind byte, text string) {
	f.kind, f.text = kind, text
	switch kind {
	case 'f':
		value, err := strconv.ParseFloat(text, 64)
		if err != nil {
			panic(err)
		}
		f.text, f.literal = double(value), text
	case 'b':
		f.text = fmt.Sprint(text == "1")
	}
}

// defined is the point that the reader gives of a text.
func defined(text []byte) *point {
	var end C.uint64_t
	size := copy(given[:], text)
	count := C.lp_checks_influx((*C.uint8_t)(&given[0]), C.size_t(size), (*C.uint8_t)(&told[0]), C.size_t(len(told)), &end, 1)
	if count == 0 {
		return nil
	}
	if size < len(text) || end == 0 || int(end) > len(told) {
		panic("there is no room, or no memory")
	}
	made := &point{}
	for left := told[:end]; len(left) > 0; {
		letter, value, rest := partOf(left)
		made.put(letter, value)
		left = rest
	}
	return made
}

// Both.

// said is a point as a text, its tags in the order of their keys.
func said(p *point) string {
	if p == nil {
		return "none"
	}
	tags := append([]tag(nil), p.tags...)
	sort.Slice(tags, func(i, j int) bool {
		return tags[i].key < tags[j].key || tags[i].key == tags[j].key && tags[i].value < tags[j].value
	})
	made := fmt.Sprintf("%q %q", p.name, tags)
	for _, each := range p.fields {
		made += fmt.Sprintf(" %q=%c%q", each.key, each.kind, each.text)
	}
	if p.time != nil && *p.time != noTime {
		made += fmt.Sprint(" ", *p.time)
	}
	return made
}

var texts, points int

// try compares both on a text. The parser may cut a text with a newline in two, so of such a text it does so if both give a point.
func try(text []byte) {
	own, theirs := defined(text), parsed(text)
	if bytes.IndexByte(text, '\n') >= 0 && (own == nil || theirs == nil) {
		return
	}
	if texts++; own != nil {
		points++
	}
	if said(own) != said(theirs) {
		fmt.Fprintf(os.Stderr, "influx: of %q the parser reads %s, and crates/lp_influx %s\n", text, said(theirs), said(own))
		os.Exit(1)
	}
}

// tryAll tries a front with all texts of so many bytes after it.
func tryAll(front []byte, depth int) {
	try(front)
	for _, b := range []byte("m, =\"\\1it") {
		if depth > 0 {
			tryAll(append(front, b), depth-1)
		}
	}
}

// Texts that lead to places that few short texts reach, and parts of which random texts are made.
var fronts = []string{"m a=", "m a=\"", "m,a=", "m a\\\\=\"", "m a\\\\=\"=1,b=\"", "m a=\"x\"", "m a=1,", "m a=1 ", "m,a=1,b", "m \t", "m \x00"}
var parts = []string{
	"m", ",", "=", " ", "\"", "\\", "1", "i", "t", "a", "b", ".", "-", "e", "0", "\t", "\x00", "u", "#", "\\,", "\\=", "\\ ", "\\\\", "\\\"", "a=1",
	"\"x\"", "=\"", ",b=", "=1", " 5", "true", "false", "1i", "2u", "1.5", "1e5", ".5", "5.", "é", "\\\\=\"", "\"=", "=1,", "-1i", "F", "TRUE", "\r",
	"99999999999999999999i", "1e400", "n", "N", " 9223372036854775806", " 9223372036854775807", " -9223372036854775806", "9223372036854775808i",
}

// What names, values and times of lines are made of.
var plain = []string{"m", "a", "b", "\\,", "\\=", "\\ ", "\"", "\\", "\\\\", "\\\"", "é", "#"}
var values = []string{
	"1", "1i", "t", "F", "True", "1.5", "-1.", "-.5e1", "1e5", "1e-400", "1e400", "007i", "\"\"", "\"a\"", "\"a\\\"b\"", "\"a\\\\\"", "\"a,b=1 \"", "\"\\\"",
	"\"x\"1", "9223372036854775807i", "-9223372036854775809i", "1u", "tru", "NaN", "123456789012345678901234567890", "\"a\nb\"", "\"\\\n,=\"", "+1", "\"a\\x\"",
}
var times = []string{"", "", " 5", " -1", "  7  ", " ", " \t3", " 9223372036854775806", " -9223372036854775807", " 1i", " -", " 5,"}

// word is a name of a few parts, of which most mean nothing.
func word(rng *rand.Rand) string {
	made := ""
	for n := rng.Intn(3); n >= 0; n-- {
		if rng.Intn(4) == 0 {
			made += parts[rng.Intn(len(parts))]
		} else {
			made += plain[rng.Intn(len(plain))]
		}
	}
	return made
}

// line is a text with the shape of a line.
func line(rng *rand.Rand) string {
	made := word(rng)
	for n := rng.Intn(3); n > 0; n-- {
		made += "," + word(rng) + "=" + word(rng)
	}
	divider := " "
	for n := rng.Intn(3); n >= 0; n-- {
		made += divider + word(rng) + "=" + values[rng.Intn(len(values))]
		divider = ","
	}
	return made + times[rng.Intn(len(times))]
}

// tryRandom tries random texts, the same for the same seed: half of them have the shape of a line.
func tryRandom(seed int64, count int) {
	rng := rand.New(rand.NewSource(seed))
	begins := []string{"", "m", "m a=", "m,a=b c="}
	for i := 0; i < count; i++ {
		text := begins[rng.Intn(len(begins))]
		if i%2 == 0 {
			text = line(rng)
		} else {
			for n := rng.Intn(14); n >= 0; n-- {
				text += parts[rng.Intn(len(parts))]
			}
		}
		try([]byte(text))
	}
}

// tryLong tries lines about the borders of a length and of a count.
func tryLong() {
	for size := 65520; size < 65540; size++ {
		try([]byte(strings.Repeat("m", size) + " f=1"))
		try([]byte("m,t=" + strings.Repeat("v", size-4) + " a=1,field=2"))
	}
	tags := "m"
	for count := 0; count < 420; count++ {
		try([]byte(tags + " f=1"))
		tags += fmt.Sprintf(",t%03d=v", count)
	}
}

func compare(seed int64, count, depth int) {
	tryAll(nil, depth)
	for _, front := range fronts {
		tryAll([]byte(front), depth-1)
	}
	tryLong()
	tryRandom(seed, count)
	fmt.Printf("influx: of %d texts, %d of them random of seed %d, the reader of crates/lp_influx and the parser read the same, a point of %d\n", texts, count, seed, points)
}

// The worked lines.

// quoted is a text as definitions spell it.
func quoted(text string) string {
	return "codes \"" + strings.NewReplacer("\\", "\\\\", "\"", "\\\"", "\t", "\\t").Replace(text) + "\""
}

// list is a list as definitions spell it.
func list(items []string) string {
	if len(items) == 0 {
		return "[]"
	}
	return strings.Join(items, " ∷ ") + " ∷ []"
}

// signed is a number as definitions spell it.
func signed(digits string) string {
	if strings.HasPrefix(digits, "-") {
		value, _ := strconv.ParseInt(digits, 10, 64)
		return fmt.Sprintf("(negsuc %d)", -(value + 1))
	}
	return "(pos " + digits + ")"
}

// valueSaid is a value as definitions spell it. The literal of a float is not among what the parser gives, so it is that of the text.
func valueSaid(each, own field) string {
	switch each.kind {
	case 'i':
		return "integer " + signed(each.text)
	case 'u':
		return "unsigned " + each.text
	case 'f':
		return "float (" + quoted(own.literal) + ")"
	case 'b':
		return "boolean " + each.text
	}
	return "string (" + quoted(each.text) + ")"
}

// pairSaid is a tag or a field as definitions spell it.
func pairSaid(key, value string) string {
	return "record { key = " + quoted(key) + "; value = " + value + " }"
}

// stated is a point as definitions spell it.
func stated(p, own *point) string {
	if p == nil {
		return "None"
	}
	var tags, fields []string
	for _, each := range p.tags {
		tags = append(tags, pairSaid(each.key, quoted(each.value)))
	}
	for i, each := range p.fields {
		fields = append(fields, pairSaid(each.key, valueSaid(each, own.fields[i])))
	}
	at := "None"
	if p.time != nil {
		at = "Some " + signed(fmt.Sprint(*p.time))
	}
	return fmt.Sprintf("Some (record {\n  measurement = %s;\n  tags = %s;\n  fields = %s;\n  timestamp = %s;\n})", quoted(p.name), list(tags), list(fields), at)
}

const head = `-- What the parser of InfluxDB 1.x reads of some lines, as statements on the definition. checks/influx.sh writes this file.
use Rattle.std.specs.Prelude.{⊤}
use Rattle.std.specs.{Float.float_is_finite, Float.Numeral.scan_numeral, Float.Parse.read_float}
use Rattle.std.proofs.Common.{◌≡◌, [], ◌∷◌, true, None, Some, refl, codes, negsuc, pos}
use lib.Ieee.{round}
use Rattle.lp_format.specs.format.{boolean, boolean_at, float, float_at, integer, integer_at, string, unsigned, unsigned_at, without_escapes}
use Rattle.lp_influx.specs.format.InfluxFields.{after_fields, influx_value, literal, value_text}
use Rattle.lp_influx.specs.format.InfluxLines.{influx_line}
use Rattle.lp_influx.specs.format.InfluxNames.{until}

-- The definitions that have to be unfolded to compute the answers for these lines.
unfoldable on_lines : ⊤
unfolding influx_line until after_fields influx_value literal value_text integer_at float_at boolean_at unsigned_at without_escapes read_float
    scan_numeral float_is_finite round
on_lines = tt
`

// rows prints what the parser reads of the worked lines, one on each line of the input, as statements.
func rows() {
	fmt.Print(head)
	text, err := os.ReadFile("/dev/stdin")
	if err != nil {
		panic(err)
	}
	for i, line := range strings.Split(strings.TrimSuffix(string(text), "\n"), "\n") {
		try([]byte(line))
		fmt.Printf("\n-- %s\nline_%d : influx_line (%s) ≡ %s\nunfolding on_lines\nline_%d = refl\n", strings.TrimRight(line, " "), i+1, quoted(line), stated(parsed([]byte(line)), defined([]byte(line))), i+1)
	}
}

func main() {
	if len(os.Args) == 2 && os.Args[1] == "rows" {
		rows()
		return
	}
	var numbers []int
	for _, word := range os.Args[2:] {
		number, err := strconv.Atoi(word)
		if err != nil {
			panic(err)
		}
		numbers = append(numbers, number)
	}
	compare(int64(numbers[0]), numbers[1], numbers[2])
}
