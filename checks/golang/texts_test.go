package beside

import (
	"math/rand"
	"os"
	"path/filepath"
	"regexp"
	"strconv"
	"strings"
	"testing"

	"yomskafi.example/lineprotocol/v3"
)

// LP_TOP names the folder of the repository, LP_CORPORA one with files of line protocol.
var top = os.Getenv("LP_TOP")

// A row of the table, which its head tells of.
type row struct{ kind, dialects, text, ours, theirs string }

var dialectNames = map[string][]lineprotocol.Dialect{
	"each":             {lineprotocol.Crate, lineprotocol.Strict, lineprotocol.NewlineDelimited},
	"Crate":            {lineprotocol.Crate},
	"NewlineDelimited": {lineprotocol.NewlineDelimited},
}

var bytesNames = strings.NewReplacer("⏎", "\n", "⇥", "\t", "␀", "\x00", "␍", "\r", "␣", " ", "[FF]", "\xff")

var manyTimes = regexp.MustCompile(`\{([^}]*)\}×(\d+)`)

// meant gives the text that a cell spells.
func meant(cell string) string {
	return bytesNames.Replace(manyTimes.ReplaceAllStringFunc(cell, func(spelled string) string {
		found := manyTimes.FindStringSubmatch(spelled)
		times, _ := strconv.Atoi(found[2])
		return strings.Repeat(found[1], times)
	}))
}

func table(t testing.TB) (rows []row) {
	text, err := os.ReadFile(filepath.Join(top, "bindings/go/testdata/differences.tsv"))
	if err != nil {
		t.Fatal(err)
	}
	for _, line := range strings.Split(string(text), "\n") {
		if line == "" || line[0] == '#' {
			continue
		}
		cells := strings.Split(line, "\t")
		if len(cells) != 6 {
			t.Fatalf("%q has %d cells", line, len(cells))
		}
		rows = append(rows, row{cells[0], cells[1], meant(cells[2]), meant(cells[3]), meant(cells[4])})
	}
	return rows
}

// decoderTells gives what the Decoder makes of a text, as the table has it.
func decoderTells(text string, dialect lineprotocol.Dialect) string {
	var told []string
	for _, one := range decode([]byte(text), dialect) {
		if one.fault != nil {
			told = append(told, "refused: "+one.fault.Err.Error())
		} else {
			told = append(told, one.point.String())
		}
	}
	return joined(told)
}

var ofLine = regexp.MustCompile(`(?s)unable to parse '.*': `)

// parserTells gives what ParsePoints makes of a text that has at most one line that it refuses.
func parserTells(text string) string {
	points, words := parse([]byte(text))
	var told []string
	for _, one := range points {
		told = append(told, one.String())
	}
	if words == "panic" {
		told = append(told, words)
	} else if words != "" {
		told = append(told, "refused: "+ofLine.ReplaceAllString(words, ""))
	}
	return joined(told)
}

func joined(told []string) string {
	if len(told) == 0 {
		return "nothing"
	}
	return strings.Join(told, " | ")
}

// Both readers make of each example what its row says, and the example has differences of its kind alone. Each kind has a row.
func TestTable(t *testing.T) {
	rows := table(t)
	seen := map[string]bool{}
	for _, row := range rows {
		seen[row.kind] = true
		if len(dialectNames[row.dialects]) == 0 {
			t.Errorf("%s: there is no dialect %q", row.kind, row.dialects)
		}
		for _, dialect := range dialectNames[row.dialects] {
			if told := decoderTells(row.text, dialect); told != row.ours {
				t.Errorf("%s, dialect %d: the Decoder makes of %.200q\n%.200s, and not\n%.200s", row.kind, dialect, row.text, told, row.ours)
			}
			found := differences([]byte(row.text), dialect)
			if len(found) == 0 {
				t.Errorf("%s, dialect %d: both make the same of %.200q", row.kind, dialect, row.text)
			}
			for _, one := range found {
				if kindOf(one) != row.kind {
					t.Errorf("%s, dialect %d: the example has a difference of the kind %q: %.400v", row.kind, dialect, kindOf(one), one)
				}
			}
		}
		if told := parserTells(row.text); told != row.theirs {
			t.Errorf("%s: ParsePoints makes of %.200q\n%.200s, and not\n%.200s", row.kind, row.text, told, row.theirs)
		}
	}
	for _, kind := range kinds {
		if !seen[kind.name] {
			t.Errorf("the table has no row of %s", kind.name)
		}
	}
	t.Logf("differences.tsv: %d rows of %d kinds", len(rows), len(kinds))
}

// want ends a test where a text has a difference of no kind.
func want(t testing.TB, text []byte, dialect lineprotocol.Dialect) {
	if found := unknown(text, dialect); found != nil {
		t.Fatal(found)
	}
}

// The words of random texts.
var words = [...]string{
	"m", ",", "=", " ", `"`, `\`, "\n", "1", "t", "i", "u", ".", "e", "-", "#", "\t", "\x00", "\r", "\xff", "é", "f=1", " f=1", ",t=v",
	"m f=1\n", `="`, "9223372036854775807", `\\`, `\"`, `\=`, `\,`, `\ `, " 5",
}

// inWords makes a text of a word for each byte.
func inWords(bytes []byte) (text []byte) {
	for _, one := range bytes {
		text = append(text, words[int(one)%len(words)]...)
	}
	return text
}

// Random texts of up to 24 words, half of them after the front of a line. LP_TEXTS says how many.
func TestRandomTexts(t *testing.T) {
	count, err := strconv.Atoi(os.Getenv("LP_TEXTS"))
	if err != nil {
		count = 20000
	}
	fronts := []string{"", "", "", "m f=", "m,t=", "m,t=v ", "m f=1 ", `m f="`}
	dice := rand.New(rand.NewSource(1))
	for ; count > 0; count-- {
		bytes := make([]byte, dice.Intn(24))
		dice.Read(bytes)
		text := append([]byte(fronts[dice.Intn(len(fronts))]), inWords(bytes)...)
		for dialect := range decoders {
			want(t, text, lineprotocol.Dialect(dialect))
		}
	}
}

// Escapes of the table of answers.
var escapes = strings.NewReplacer(`\n`, "\n", `\t`, "\t", `\r`, "\r", `\0`, "\x00", `\\`, `\`)

// seeds gives the texts of both tables, and lines of the corpora, two at a time.
func seeds(t testing.TB) (texts []string) {
	for _, row := range table(t) {
		if len(row.text) < 1000 {
			texts = append(texts, row.text)
		}
	}
	answers, err := os.ReadFile(filepath.Join(top, "checks/tables/answers.tsv"))
	if err != nil {
		t.Fatal(err)
	}
	for _, line := range strings.Split(string(answers), "\n") {
		if cells := strings.Split(line, "\t"); len(cells) > 2 && line[0] != '#' {
			texts = append(texts, escapes.Replace(cells[1]))
		}
	}
	corpora, _ := filepath.Glob(filepath.Join(os.Getenv("LP_CORPORA"), "*.lp"))
	for _, place := range corpora {
		corpus, err := os.ReadFile(place)
		if err != nil {
			t.Fatal(err)
		}
		lines := strings.SplitAfter(string(corpus), "\n")
		for at := 1; at < len(lines) && at < 40; at += 2 {
			texts = append(texts, lines[at-1]+lines[at])
		}
	}
	return texts
}

// A text is read in a dialect, as it is, or, if how is 128 and more, as the words for its bytes.
func FuzzBesideParsePoints(f *testing.F) {
	for _, text := range seeds(f) {
		for dialect := range decoders {
			f.Add([]byte(text), uint8(dialect))
		}
	}
	for how := 128; how < 131; how++ {
		f.Add([]byte("\x00\x02\x03\x14\x06\x17"), uint8(how))
	}
	f.Fuzz(func(t *testing.T, text []byte, how uint8) {
		if how >= 128 {
			text = inWords(text)
		}
		want(t, text, lineprotocol.Dialect(how%3))
	})
}
