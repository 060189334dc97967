package beside

import (
	"fmt"
	"math/rand"
	"os"
	"runtime"
	"strconv"
	"testing"

	"yomskafi.example/lineprotocol/v3"
)

// A server's parser: what it reads of a text, and what it is to read of a point. A value "any" may be any.
type server struct {
	name  string
	is    lineprotocol.Servers
	reads func(text []byte) []*point
	keeps func(p *point) *point
}

// The servers whose parsers are here. victoria_test.go adds one.
var servers = []server{{"InfluxDB 1.x", lineprotocol.Influx1, parsed, func(p *point) *point { return sorted(p, "") }}}

// parsed gives the points that ParsePoints reads, with their tags in order.
func parsed(text []byte) []*point {
	points, _ := parse(text)
	for at, p := range points {
		points[at] = sorted(p, "")
	}
	return points
}

// A reader is the strict reader of one text.
type reader struct{ *lineprotocol.Decoder }

func newReader() reader {
	d := lineprotocol.NewDecoderWithBytes(nil)
	d.SetDialect(lineprotocol.Strict)
	return reader{d}
}

// line gives the point of a text that is one line, with what of it is not portable; or nil.
func (r reader) line(text []byte) (*point, lineprotocol.Verdict) {
	r.ResetBytes(text)
	if !r.Next() || r.Fault() != nil || len(r.Raw()) != len(text) {
		return nil, 0
	}
	verdict, err := r.Verdict()
	if err != nil || verdict.Breaks(lineprotocol.ClauseNotALine) {
		return nil, 0
	}
	return decoded(r.Decoder), verdict
}

// A sound line that comes after each text.
const after = "after z=1 1590488773254000000"

// readsSo tells whether a parser reads a text as this point, with the line after it as ever.
func (s *server) readsSo(text []byte, p *point) bool {
	read := s.reads(append(append([]byte(nil), text...), "\n"+after...))
	return len(read) == 2 && isSame(s.keeps(p), read[0]) && read[1].String() == "<after> <z>=1 at 1590488773254000000"
}

func isSame(wanted, read *point) bool {
	if wanted.name != read.name || wanted.at != read.at || len(wanted.tags) != len(read.tags) || len(wanted.fields) != len(read.fields) {
		return false
	}
	for at, tag := range wanted.tags {
		if tag != read.tags[at] {
			return false
		}
	}
	for at, field := range wanted.fields {
		if field.key != read.fields[at].key || field.value != "any" && field.value != read.fields[at].value {
			return false
		}
	}
	return true
}

// A count of texts, and of a server.
type count struct {
	texts, lines int
	portable     [2]int
	// Lines that are read the same and are not portable, by the first clause that they break.
	spared [2][64]int
	// Portable texts that are read otherwise: how many, and some of them.
	wrong  int
	faults []string
}

func (c *count) add(other *count) {
	c.texts, c.lines, c.wrong = c.texts+other.texts, c.lines+other.lines, c.wrong+other.wrong
	c.faults = append(c.faults, other.faults...)
	c.faults = c.faults[:min(20, len(c.faults))]
	for at := range c.portable {
		c.portable[at] += other.portable[at]
		for clause := range c.spared[at] {
			c.spared[at][clause] += other.spared[at][clause]
		}
	}
}

// look reads a text by each parser.
func (c *count) look(r reader, text []byte) {
	c.texts++
	p, verdict := r.line(text)
	if p == nil {
		return
	}
	c.lines++
	for at, server := range servers {
		same := server.readsSo(text, p)
		clause, isBroken := verdict.First(server.is)
		switch {
		case !isBroken && same:
			c.portable[at]++
		case !isBroken:
			c.wrong++
			c.faults = append(c.faults, fmt.Sprintf("%s: %.300q", server.name, text))
		case same:
			c.spared[at][clause]++
		}
	}
}

// tell says what was counted.
func (c *count) tell(what string) string {
	told := fmt.Sprintf("%d %s, %d lines", c.texts, what, c.lines)
	for at, server := range servers {
		told += fmt.Sprintf("; portable to %s and read so, with a line after it: %d", server.name, c.portable[at])
	}
	return told
}

// tellSpared says which clauses lines break that are read the same.
func (c *count) tellSpared() (told []string) {
	for at, server := range servers {
		for clause, count := range c.spared[at] {
			if count != 0 {
				told = append(told, fmt.Sprintf("%s: %d: %v", server.name, count, lineprotocol.Clause(clause)))
			}
		}
	}
	return told
}

// work does jobs, and hands on what each counts.
func work(jobs <-chan int, counts chan<- *count, do func(job int, r reader, c *count)) {
	r := newReader()
	for job := range jobs {
		c := &count{}
		do(job, r, c)
		counts <- c
	}
}

// side does jobs side by side, of the numbers from 0 on, and gives the sum of what they count. After each it tells the sum so far.
func side(most int, do func(job int, r reader, c *count), tell func(sum *count)) *count {
	jobs, counts, sum := make(chan int, most), make(chan *count), &count{}
	for job := 0; job < most; job++ {
		jobs <- job
	}
	close(jobs)
	for left := runtime.GOMAXPROCS(0); left > 0; left-- {
		go work(jobs, counts, do)
	}
	for ; most > 0; most-- {
		sum.add(<-counts)
		tell(sum)
	}
	return sum
}

// The number of texts of a job.
const ofJob = 10000

// random looks at random texts.
func random(seed int64, texts int) *count {
	told := 0
	return side((texts+ofJob-1)/ofJob, func(job int, r reader, c *count) {
		m := maker{Rand: rand.New(rand.NewSource(seed<<20 + int64(job)))}
		for left := min(ofJob, texts-job*ofJob); left > 0; left-- {
			c.look(r, m.next())
		}
	}, func(sum *count) {
		if sum.texts >= told+500000 {
			told = sum.texts
			fmt.Fprintln(os.Stderr, "beside:", sum.tell(fmt.Sprintf("of %d random texts", texts)))
		}
	})
}

// short looks at each template with each word of at most so many letters.
func short(most int) *count {
	return side(len(templates), func(job int, r reader, c *count) {
		eachFilled(templates[job], most, func(text []byte) { c.look(r, text) })
	}, func(*count) {})
}

func number(t *testing.T, name string, otherwise int) int {
	text := os.Getenv(name)
	if text == "" {
		return otherwise
	}
	value, err := strconv.Atoi(text)
	if err != nil {
		t.Fatal(name, err)
	}
	return value
}

// Each line that is portable to a server is read by its parser as the strict reader reads it, and the line after it as ever. LP_SEED and
// LP_PORTABLE say which random texts and how many, LP_SHORT of how many letters the words are that are put into templates.
func TestPortable(t *testing.T) {
	counts := []*count{random(int64(number(t, "LP_SEED", 1)), number(t, "LP_PORTABLE", 100000)), short(number(t, "LP_SHORT", 3))}
	for at, what := range []string{"random texts", "short texts"} {
		c := counts[at]
		t.Log("portable: " + c.tell(what))
		for _, told := range c.tellSpared() {
			t.Logf("read the same, not portable, of %s: by %s", what, told)
		}
		for _, fault := range c.faults {
			t.Error("read otherwise, and portable: " + fault)
		}
		if c.wrong != 0 {
			t.Errorf("%d portable lines of %s are read otherwise", c.wrong, what)
		}
	}
}
