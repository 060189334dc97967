//go:build lp_refuse

package lineprotocol

import (
	"bytes"
	"errors"
	"fmt"
	"strings"
	"testing"
	"time"
)

// eachRefused runs a call once for each request that it makes, which is refused, and tells how many there were.
func eachRefused(t *testing.T, call func()) {
	t.Helper()
	defer refuse(-1)
	refuse(-1)
	call()
	many := requests()
	if many == 0 {
		t.Fatal("no memory is asked for")
	}
	for number := 0; number < many; number++ {
		refuse(number)
		call()
	}
	t.Logf("%d requests are refused", many)
}

// Lines of which the verdict and the key take memory, among those of which they take none. They come after so many that rows are told together.
func heavy() string {
	var text strings.Builder
	for i := 0; i < 1800; i++ {
		fmt.Fprintf(&text, "m,a=1 f=%du\n", i)
		if i > 1400 && i%150 == 0 {
			fmt.Fprintf(&text, "m,b\\=%d=1,a=2,c=3,d=4,e=5,f=6,g=7,h=8,i=9,j=10 f=1u,f=2\n", i)
		}
	}
	return text.String()
}

// No verdict and no key is another one where memory was refused: it is an error, and comes once there is memory. They are asked for of each
// line, or of those alone that take memory.
func TestRefusedRows(t *testing.T) {
	text := []byte(heavy())
	for _, of := range []struct {
		dialect Dialect
		all     bool
	}{{Strict, true}, {NewlineDelimited, true}, {Strict, false}} {
		d, verdicts, keys := NewDecoderWithBytes(nil), 0, 0
		d.SetDialect(of.dialect)
		eachRefused(t, func() {
			for d.ResetBytes(text); d.Next(); {
				isHeavy := bytes.HasPrefix(d.Raw(), []byte("m,b"))
				if isHeavy || of.all {
					verdicts, keys = verdicts+tellsVerdict(t, d, isHeavy), keys+tellsKey(t, d, isHeavy)
				}
			}
		})
		if keys == 0 || verdicts == 0 && !of.all {
			t.Errorf("%d keys and %d verdicts fail", keys, verdicts)
		}
	}
}

// tellsVerdict sees that the verdict of a line is right. It gives 1 if that failed once.
func tellsVerdict(t *testing.T, d *Decoder, isHeavy bool) (failed int) {
	wanted := Verdict(1 << ClauseUnsigned)
	if isHeavy {
		wanted |= 1 << ClauseRepeatedField
	}
	verdict, err := d.Verdict()
	if err == errMemory {
		failed = 1
		verdict, err = d.Verdict()
	}
	if verdict != wanted || err != nil {
		t.Fatalf("%q: %d, and not %d: %v", d.Raw(), verdict, wanted, err)
	}
	return failed
}

// tellsKey does so of the key, which is appended to a text that stays.
func tellsKey(t *testing.T, d *Decoder, isHeavy bool) (failed int) {
	wanted := "xm,a=1"
	if isHeavy {
		wanted = "xm,a=2,b" + string(d.Raw()[3:9]) + "=1,c=3,d=4,e=5,f=6,g=7,h=8,i=9,j=10"
	}
	key, err := d.AppendSeriesKey([]byte("x"))
	if err == errMemory && string(key) == "x" {
		failed = 1
		key, err = d.AppendSeriesKey(key)
	}
	if string(key) != wanted || err != nil {
		t.Fatalf("%q: %q, and not %q: %v", d.Raw(), key, wanted, err)
	}
	return failed
}

// Where memory was refused for a line, it is not written, and Err says so; the others are.
func TestRefusedLines(t *testing.T) {
	failures := 0
	eachRefused(t, func() {
		var e Encoder
		var lines []string
		for i := 1; i <= 40; i++ {
			e.StartLine("m")
			fields := []string{}
			for field := 0; field <= i%9; field++ {
				e.AddField(fmt.Sprint("f ", field), IntValue(1))
				fields = append(fields, fmt.Sprintf("f\\ %d=1i", field))
			}
			e.EndLine(time.Time{})
			lines = append(lines, "m "+strings.Join(fields, ",")+"\n")
		}
		var why *EncodeError
		if errors.As(e.Err(), &why) {
			if why.Err != errMemory {
				t.Fatal(why)
			}
			lines[why.Line-1] = ""
			failures++
		}
		if got, wanted := string(e.Bytes()), strings.Join(lines, ""); got != wanted {
			t.Fatalf("%q, and not %q", got, wanted)
		}
	})
	if failures == 0 {
		t.Error("nothing fails")
	}
}
