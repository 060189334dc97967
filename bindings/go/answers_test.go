package lineprotocol

import (
	"os"
	"strconv"
	"strings"
	"testing"
)

// The rows of checks/tables/answers.tsv that ask for items or for a key, in each dialect of which they say something. The head of that table
// says how a row is spelled. LP_ANSWERS names the table, if this package is a copy.
func TestAnswers(t *testing.T) {
	answers := 0
	for number, row := range rowsOf(t, "LP_ANSWERS", "../../checks/tables/answers.tsv") {
		cells := strings.Split(row, "\t")
		ask := asks[cells[0]]
		if ask == nil {
			continue
		}
		for dialect, wanted := range cells[2:] {
			if got := ask(meant(cells[1]), Dialect(dialect)); got != meant(wanted) {
				t.Errorf("row %d, dialect %d: %q, and not %q", number+1, dialect, got, meant(wanted))
			}
			answers++
		}
	}
	if answers < 270 {
		t.Errorf("the table has %d answers", answers)
	}
	t.Logf("answers.tsv: %d answers are as the table has them", answers)
}

// The lines of a table: of the one that a variable of the environment names, or else of the one at a place.
func rowsOf(t *testing.T, variable, place string) []string {
	if named := os.Getenv(variable); named != "" {
		place = named
	}
	table, err := os.ReadFile(place)
	if err != nil {
		t.Fatal(err)
	}
	return strings.Split(string(table), "\n")
}

// What is asked of a text, by the kind of its row.
var asks = map[string]func(string, Dialect) string{"items": spelled, "key": firstKey}

// The key of the series of the first line of a text.
func firstKey(text string, dialect Dialect) string {
	d := NewDecoderWithBytes([]byte(text))
	d.SetDialect(dialect)
	d.Next()
	key, err := d.AppendSeriesKey(nil)
	if err != nil {
		return err.Error()
	}
	return string(key)
}

var escapes = strings.NewReplacer(`\n`, "\n", `\t`, "\t", `\r`, "\r", `\0`, "\x00", `\\`, `\`)

func meant(cell string) string { return escapes.Replace(cell) }

// The items of a text, as the table spells them.
func spelled(text string, dialect Dialect) string {
	d := NewDecoderWithBytes([]byte(text))
	d.SetDialect(dialect)
	var items []string
	for d.Next() {
		if fault := d.Fault(); fault != nil {
			items = append(items, spelledFault(d, fault))
		} else {
			items = append(items, spelledLine(d))
		}
	}
	return strings.Join(items, "|")
}

func mark(text []byte, copied bool) string {
	if copied {
		return "C<" + string(text) + ">"
	}
	return "S<" + string(text) + ">"
}

func spelledLine(d *Decoder) string {
	row := &d.block.rows[d.row]
	name, _ := d.Measurement()
	s := mark(name, row.measurement_copied != 0)
	for key, value, _ := d.NextTag(); key != nil; key, value, _ = d.NextTag() {
		part := &d.block.parts[int(row.parts_at)+d.tag-1]
		s += "," + mark(key, part.key_copied != 0) + "=" + mark(value, part.text_copied != 0)
	}
	for key, value, _ := d.NextField(); key != nil; key, value, _ = d.NextField() {
		part := &d.block.parts[int(row.parts_at)+int(row.tags)+d.field-1]
		s += " " + mark(key, part.key_copied != 0) + "="
		switch value.Kind() {
		case String:
			s += mark(value.BytesV(), part.text_copied != 0)
		case Float:
			s += "f<" + string(d.view(part.text, part.text_copied)) + ">"
		default:
			s += value.String()
		}
	}
	if number, ok := d.Timestamp(); ok {
		s += " at " + strconv.FormatInt(number, 10)
	}
	return s
}

var sides = [...]string{"", "Above", "Below"}

func spelledFault(d *Decoder, fault *DecodeError) string {
	words := fault.Err.Error()
	_, named, _ := strings.Cut(words, "'")
	named = strings.TrimSuffix(named, "'")
	side := sides[d.block.rows[d.row].side]
	switch fault.Kind {
	case CannotParseEntireLine:
		return "rest <" + named + ">"
	case GenericParsingError:
		return words[strings.LastIndex(words, " ")+1:]
	case IntegerValueInvalid:
		return "IntegerValueInvalid " + side + " <" + named + ">"
	case UintegerValueInvalid:
		return "UIntegerValueInvalid " + side + " <" + named + ">"
	case TimestampValueInvalid:
		return "TimestampValueInvalid " + side + " <" + named + ">"
	}
	s := ""
	for _, word := range strings.Split(string(fault.Kind), "_") {
		s += strings.ToUpper(word[:1]) + word[1:]
	}
	return s
}

// Bytes that are read whole, and in small parts, give the same lines, whatever they hold.
func FuzzDecoder(f *testing.F) {
	for _, row := range texts {
		f.Add([]byte(row.text), uint8(3), uint8(0), uint16(40))
	}
	f.Fuzz(func(t *testing.T, text []byte, size, dialect uint8, most uint16) {
		whole := NewDecoder(strings.NewReader(string(text)))
		parts := NewDecoder(&failing{text, int(size%16) + 1, nil})
		bytes := NewDecoderWithBytes(text)
		for _, d := range []*Decoder{whole, parts, bytes} {
			d.SetDialect(Dialect(dialect % 3))
			d.SetMaxLine(int(most))
		}
		a, b, c := told(whole), told(parts), told(bytes)
		if strings.Join(a, "\n") != strings.Join(b, "\n") || strings.Join(a, "\n") != strings.Join(c, "\n") {
			t.Errorf("whole: %q\nin parts: %q\nas bytes: %q", a, b, c)
		}
	})
}

func min(a, b int) int {
	if a < b {
		return a
	}
	return b
}
