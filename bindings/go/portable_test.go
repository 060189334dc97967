package lineprotocol

import (
	"bytes"
	"fmt"
	"math"
	"regexp"
	"strconv"
	"strings"
	"testing"
)

// A row of checks/portable_rows.txt: a text without the newline at its end, the bits of what it breaks by an oracle, and what each server
// and its parser make of it. The head of that table says how a row is spelled. LP_PORTABLE names the table, if this package is a copy.
type portableRow struct {
	text []byte
	bits Verdict
	told []string
}

func portableRows(t *testing.T) (rows []portableRow) {
	for _, row := range rowsOf(t, "LP_PORTABLE", "../../checks/portable_rows.txt") {
		if row == "" || row[0] == '#' {
			continue
		}
		cells := strings.Split(row, "\t")
		bits, err := strconv.ParseUint(cells[2], 10, 64)
		if err != nil {
			t.Fatal(err)
		}
		text := strings.TrimSuffix(textOfCell(cells[1]), "\n")
		rows = append(rows, portableRow{[]byte(text), Verdict(bits), cells[3:]})
	}
	if len(rows) < 200 {
		t.Fatalf("there are %d rows", len(rows))
	}
	return rows
}

var (
	manyTimes  = regexp.MustCompile(`\{([^{}]*)\*(\d+)\}`)
	escapeOf   = regexp.MustCompile(`\\(x[0-9a-f]{2}|.)`)
	meantBytes = map[string]string{"n": "\n", "t": "\t", "r": "\r", "0": "\x00", "\\": "\\"}
)

// The text that a cell stands for.
func textOfCell(cell string) string {
	cell = manyTimes.ReplaceAllStringFunc(cell, func(found string) string {
		parts := manyTimes.FindStringSubmatch(found)
		count, _ := strconv.Atoi(parts[2])
		var many strings.Builder
		for at := 0; at < count; at++ {
			many.WriteString(strings.ReplaceAll(parts[1], "@", fmt.Sprintf("%0*d", len(strconv.Itoa(count-1)), at)))
		}
		return many.String()
	})
	return escapeOf.ReplaceAllStringFunc(cell, func(found string) string {
		if found[1] == 'x' {
			number, _ := strconv.ParseUint(found[2:], 16, 8)
			return string([]byte{byte(number)})
		}
		return meantBytes[found[1:]]
	})
}

// The verdict of a text, or that of no line if the decoder does not read it as just one.
func verdictOf(t *testing.T, text []byte, limits Limits) Verdict {
	d := NewDecoderWithBytes(append(append([]byte(nil), text...), '\n'))
	d.SetDialect(Strict)
	d.SetLimits(limits)
	if !d.Next() || !bytes.Equal(d.Raw(), text) {
		return 1 << ClauseNotALine
	}
	verdict, err := d.Verdict()
	if (err != nil) != (d.Fault() != nil) {
		t.Errorf("%q: %v", text, err)
	}
	return verdict
}

func TestVerdictsOfRows(t *testing.T) {
	for _, row := range portableRows(t) {
		if verdict := verdictOf(t, row.text, DefaultLimits()); verdict != row.bits {
			t.Errorf("%.80q: %d, and not %d", row.text, verdict, row.bits)
		}
	}
}

// What is portable a server reads as the strict reader does. The rows were measured at such a time that no later timestamp is kept.
func TestPortableIsReadSo(t *testing.T) {
	limits := DefaultLimits()
	limits.Latest = 1796100000000000000
	for at, server := range []Servers{Influx1, Victoria} {
		portable, others := 0, 0
		for _, row := range portableRows(t) {
			isSame := row.told[2*at] == "same" && row.told[2*at+1] == "same"
			isPortable := verdictOf(t, row.text, limits).Portable(server)
			if isPortable && !isSame {
				t.Errorf("%.80q: %q", row.text, row.told)
			}
			if isPortable {
				portable++
			}
			if !isSame {
				others++
			}
		}
		if portable < 50 || others < 50 {
			t.Errorf("%d rows are portable, and %d are read otherwise", portable, others)
		}
	}
}

// The verdicts of many lines, of which some are asked for: all, few, the same one again, or ever others.
func TestVerdictsOfMany(t *testing.T) {
	var text []byte
	var wanted []Verdict
	for _, row := range portableRows(t) {
		if !row.bits.Breaks(ClauseNotALine) && len(row.text) < 300 {
			wanted = append(wanted, row.bits)
			text = append(append(text, row.text...), "\n\n# a comment\n"...)
		}
	}
	text = bytes.Repeat(text, 8)
	for _, every := range []int{1, 2, 3, 7, 100, 0} {
		d := NewDecoder(bytes.NewReader(text))
		d.SetDialect(Strict)
		lines := 0
		for ; d.Next(); lines++ {
			if every == 0 && lines%600 > 200 || every > 0 && lines%every > 0 {
				continue
			}
			for again := 0; again < 2; again++ {
				if verdict, err := d.Verdict(); err != nil || verdict != wanted[lines%len(wanted)] {
					t.Fatalf("%q: %d, and not %d: %v", d.Raw(), verdict, wanted[lines%len(wanted)], err)
				}
			}
		}
		if lines != 8*len(wanted) || d.Err() != nil {
			t.Errorf("%d lines, %v", lines, d.Err())
		}
	}
}

func TestVerdictOfFaults(t *testing.T) {
	d := NewDecoderWithBytes([]byte("m 5\n\xff f=1\nm f=1,\nmuch longer f=1"))
	d.SetMaxLine(8)
	if verdict, err := d.Verdict(); verdict != 1 || err != errNoLine {
		t.Errorf("%d, %v", verdict, err)
	}
	for at := 0; at < 4; at++ {
		d.Next()
		verdict, err := d.Verdict()
		if fault := d.Fault(); verdict != 1 || (at != 2 && err != fault) || (at == 2 && (fault != nil || err != nil)) {
			t.Errorf("%q: %d, %v", d.Raw(), verdict, err)
		}
	}
}

// The fields and the tags go on where they were, and limits count for the line that is read.
func TestVerdictAmongParts(t *testing.T) {
	d := NewDecoderWithBytes([]byte("m,a=1,b=2 f=1i,g=2i 5\nm,a=1,b=2 f=1u 5"))
	all := Limits{math.MaxInt, math.MaxInt, math.MinInt64, math.MaxInt64}
	d.SetLimits(all)
	d.Next()
	d.NextTag()
	for _, row := range []struct {
		limits Limits
		clause Clause
	}{
		{Limits{4, 2, 5, 5}, ClauseLongLine}, {Limits{-1, 2, 5, 5}, ClauseLongLine}, {Limits{100, 1, 5, 5}, ClauseTooManyTags},
		{Limits{100, -1, 5, 5}, ClauseTooManyTags}, {Limits{100, 2, 6, 9}, ClauseTimeNotKept}, {Limits{100, 2, -9, 4}, ClauseTimeNotKept},
	} {
		d.SetLimits(row.limits)
		if verdict, err := d.Verdict(); verdict != 1<<row.clause || err != nil || verdict.Portable(Victoria) || !verdict.Portable(Influx1) {
			t.Errorf("%v: %d, %v", row.limits, verdict, err)
		}
	}
	d.SetLimits(all)
	if verdict, _ := d.Verdict(); verdict != 0 {
		t.Errorf("%d", verdict)
	}
	if key, _, _ := d.NextTag(); string(key) != "b" {
		t.Errorf("%q", key)
	}
	d.Next()
	if verdict, _ := d.Verdict(); verdict != 1<<ClauseUnsigned {
		t.Errorf("%d", verdict)
	}
	d.SetLimits(Limits{100, 1, 5, 5})
	d.ResetBytes([]byte("m,a=1,b=2 f=1 5"))
	d.Next()
	if verdict, _ := d.Verdict(); verdict != 1<<ClauseTooManyTags {
		t.Errorf("%d", verdict)
	}
}

func TestClauses(t *testing.T) {
	verdict := Verdict(1<<ClauseUnsigned | 1<<ClauseRoundedFloat | 1<<ClauseRepeatedField)
	for _, row := range []struct {
		to    Servers
		first Clause
	}{{Influx1, ClauseUnsigned}, {Victoria, ClauseRoundedFloat}, {AllServers, ClauseUnsigned}} {
		if first, ok := verdict.First(row.to); first != row.first || !ok {
			t.Errorf("%v: %v, %v", row.to, first, ok)
		}
	}
	if first, ok := Verdict(1 << ClauseUnsigned).First(Victoria); ok || !Verdict(1<<ClauseUnsigned).Portable(Victoria) {
		t.Errorf("%v", first)
	}
	if !verdict.Breaks(ClauseRoundedFloat) || verdict.Breaks(ClauseNewline) || verdict.Breaks(64) || verdict.Portable(AllServers) {
		t.Error("a verdict breaks what it does not")
	}
	words := fmt.Sprint(ClauseNotALine, "; ", ClauseRepeatedField, "; ", ClauseTimeNotKept, "; ", Clause(63))
	if words != "what is there is not one line for the strict reader; two fields have one key; the timestamp is before or after what is kept; Clause(63)" {
		t.Error(words)
	}
	if limits := DefaultLimits(); limits != (Limits{262144, 29, 1000000, math.MaxInt64}) {
		t.Error(limits)
	}
}

func TestVerdictsTakeNoMemory(t *testing.T) {
	text := []byte(strings.Repeat("m,a=1,b=2 f=1,g=2u 1590488773254420000\n", 2000))
	d := NewDecoderWithBytes(text)
	taken := testing.AllocsPerRun(5, func() {
		d.ResetBytes(text)
		for d.Next() {
			if verdict, err := d.Verdict(); verdict != 1<<ClauseUnsigned || err != nil {
				t.Fatalf("%d, %v", verdict, err)
			}
		}
	})
	if taken > 0 {
		t.Errorf("%v requests", taken)
	}
}
