package beside

import (
	"encoding/json"
	"fmt"
	"math/rand"
	"os"
	"path/filepath"
	"strings"
	"testing"

	"yomskafi.example/lineprotocol/v3"
)

// A line for a running server: its text, and what the strict reader reads of it. A value is as line protocol has it, a string between quotes,
// without escapes.
type line struct {
	Text, Name   string
	Tags, Fields [][2]string
	At           *int64
}

// The latest time of lines for a server, so that the same ones come from a seed whenever it is, and the time of the lines of the same series,
// in a millisecond of their own.
const latest, another = 1700000000000000000, 1590488774000000777

// A chooser chooses lines that are portable to a server, each of which has names of its own there, and is asked for by them.
type chooser struct {
	server
	reader
	used  map[string]bool
	lines []line
}

// names gives the names under which a server has the fields of a point.
func (c *chooser) names(p *point) (names []string) {
	if c.is == lineprotocol.Influx1 {
		return []string{p.name}
	}
	for _, field := range p.fields {
		names = append(names, p.name+"_"+field.key)
	}
	return names
}

// isNew tells whether none of the names of a point is used.
func (c *chooser) isNew(p *point) bool {
	for _, name := range c.names(p) {
		if c.used[name] {
			return false
		}
	}
	return true
}

// portable gives the point of a text that is portable to the server, or nil.
func (c *chooser) portable(text []byte) *point {
	if p, verdict := c.line(text); p != nil && verdict.Portable(c.is) {
		return p
	}
	return nil
}

// renamed gives a text with more bytes at the end of its measurement.
func renamed(text []byte, more string) []byte {
	at := len(text) - len(strings.TrimLeft(string(text), " \t\x00"))
	for at < len(text) && text[at] != ',' && text[at] != ' ' {
		if text[at] == '\\' {
			at++
		}
		at++
	}
	at = min(at, len(text))
	return append(append(append([]byte(nil), text[:at]...), more...), text[at:]...)
}

// take takes a text, if it is portable, with another name where it must have one; and then a line of its series in another spelling.
func (c *chooser) take(text []byte) {
	text = append([]byte(nil), text...)
	p := c.portable(text)
	if p != nil && !c.isNew(p) {
		text = renamed(text, fmt.Sprintf(".%d", len(c.lines)))
		p = c.portable(text)
	}
	if p == nil || !c.isNew(p) || p.at == another {
		return
	}
	for _, name := range c.names(p) {
		c.used[name] = true
	}
	c.lines = append(c.lines, lineOf(text, p))
	other := respelled(p)
	if q := c.portable(other); q != nil && c.hasSeries(q, p) && !strings.HasPrefix(string(other), seriesOf(text)) {
		c.lines = append(c.lines, lineOf(other, q))
	}
}

func (c *chooser) hasSeries(p, q *point) bool {
	return p.name == q.name && fmt.Sprint(sorted(p, "").tags) == fmt.Sprint(sorted(q, "").tags)
}

// seriesOf gives the front of a text up to its first bare space.
func seriesOf(text []byte) string {
	for at := 0; at < len(text); at++ {
		if text[at] == ' ' {
			return string(text[:at+1])
		}
		if text[at] == '\\' {
			at++
		}
	}
	return string(text)
}

var escapedName, escapedKey = strings.NewReplacer(",", `\,`, " ", `\ `), strings.NewReplacer(",", `\,`, " ", `\ `, "=", `\=`)

// respelled gives a line of the same series, with its tags the other way round, and of the first field alone, at another time.
func respelled(p *point) []byte {
	text := escapedName.Replace(p.name)
	for at := len(p.tags) - 1; at >= 0; at-- {
		text += "," + escapedKey.Replace(p.tags[at].key) + "=" + escapedKey.Replace(p.tags[at].value)
	}
	value := p.fields[0].value
	if value[0] == '"' {
		value = `"other"`
	}
	return []byte(fmt.Sprintf("%s %s=%s %d", text, escapedKey.Replace(p.fields[0].key), value, another))
}

func lineOf(text []byte, p *point) line {
	l := line{Text: string(text), Name: p.name, Tags: pairs(p.tags), Fields: pairs(p.fields)}
	if p.at != noTime {
		l.At = &p.at
	}
	return l
}

func pairs(parts []part) [][2]string {
	made := [][2]string{}
	for _, one := range parts {
		made = append(made, [2]string{one.key, one.value})
	}
	return made
}

// choose gives lines for a server, of random texts.
func (s *server) choose(seed int64, count int) []line {
	c := chooser{server: *s, reader: newReader(), used: map[string]bool{}}
	limits := lineprotocol.DefaultLimits()
	limits.Latest = latest
	c.SetLimits(limits)
	m := maker{Rand: rand.New(rand.NewSource(seed<<20 - 1))}
	for len(c.lines) < count {
		c.take(m.next())
	}
	return c.lines[:count]
}

// Writes LP_LINES lines for each server, which portable texts are, to the folder LP_FOLDER, each an object of JSON.
func TestLines(t *testing.T) {
	count := number(t, "LP_LINES", 0)
	if count == 0 {
		t.Skip("LP_LINES says how many lines")
	}
	for at, name := range []string{"influx", "victoria"}[:len(servers)] {
		file, err := os.Create(filepath.Join(os.Getenv("LP_FOLDER"), name))
		if err != nil {
			t.Fatal(err)
		}
		written := json.NewEncoder(file)
		for _, one := range servers[at].choose(int64(number(t, "LP_SEED", 1)), count) {
			if err := written.Encode(one); err != nil {
				t.Fatal(err)
			}
		}
		if err := file.Close(); err != nil {
			t.Fatal(err)
		}
	}
}
