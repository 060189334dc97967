package lineprotocol

import (
	"bufio"
	"bytes"
	"compress/gzip"
	"errors"
	"fmt"
	"io"
	"math/rand"
	"reflect"
	"strings"
	"testing"
)

// A reader that gives its bytes in parts of so many, and its error once, beside the last of them, as http.MaxBytesReader and gzip do.
type failing struct {
	text []byte
	part int
	err  error
}

func (r *failing) Read(buf []byte) (int, error) {
	n := copy(buf[:min(r.part, len(buf))], r.text)
	r.text = r.text[n:]
	if len(r.text) > 0 {
		return n, nil
	}
	err := r.err
	r.err = io.EOF
	return n, err
}

// Lines that came whole are given, and then the error, wherever the reader fails, and however it gives the bytes before.
func TestLinesBeforeAnError(t *testing.T) {
	torn := errors.New("torn")
	text := "a,k=v f=1i 5\n\nb 5\n# c\nm s=\"x\ny\",f=2i\n\xff\nlast f=3i\n"
	for _, dialect := range []Dialect{Crate, Strict, NewlineDelimited} {
		for cut := 0; cut <= len(text); cut++ {
			whole := text[:strings.LastIndexByte(text[:cut], '\n')+1]
			if dialect != NewlineDelimited && strings.HasSuffix(whole, "m s=\"x\n") {
				whole = strings.TrimSuffix(whole, "m s=\"x\n") // the newline ends no line
			}
			before := NewDecoderWithBytes([]byte(whole))
			before.SetDialect(dialect)
			wanted := told(before)
			for _, part := range []int{1, 3, 16, 1000} {
				d := NewDecoder(&failing{[]byte(text[:cut]), part, torn})
				d.SetDialect(dialect)
				if got := told(d); !reflect.DeepEqual(got, wanted) || d.Err() != torn || d.Next() || d.Err() != torn {
					t.Fatalf("dialect %d of %q in parts of %d: %q, and not %q: %v", dialect, text[:cut], part, got, wanted, d.Err())
				}
			}
		}
	}
}

// A body that is longer than it may be gives the lines that it may have, as http.MaxBytesReader passes them on, and a packed one that is cut
// off gives all of its whole lines.
func TestLinesOfCutBodies(t *testing.T) {
	var text bytes.Buffer
	for i := 0; i < 10000; i++ {
		fmt.Fprintf(&text, "m,host=h%d f=%di %d\n", i, i*i, i)
	}
	tooLarge := errors.New("http: request body too large")
	for _, part := range []int{1000, 1 << 20} {
		d := NewDecoder(&failing{text.Bytes()[:5000], part, tooLarge})
		if got := told(d); len(got) != bytes.Count(text.Bytes()[:5000], newline) || d.Err() != tooLarge {
			t.Errorf("%d lines, %v", len(got), d.Err())
		}
	}
	var packed bytes.Buffer
	packer := gzip.NewWriter(&packed)
	packer.Write(text.Bytes())
	packer.Close()
	for _, cut := range []int{1000, packed.Len() / 2, packed.Len() - 8} {
		unpacked, err := gzip.NewReader(bytes.NewReader(packed.Bytes()[:cut]))
		if err != nil {
			t.Fatal(err)
		}
		came, _ := io.ReadAll(unpacked)
		unpacked.Reset(bytes.NewReader(packed.Bytes()[:cut]))
		d := NewDecoder(unpacked)
		if got := told(d); len(got) != bytes.Count(came, newline) || len(got) == 0 || d.Err() != io.ErrUnexpectedEOF {
			t.Errorf("%d lines of %d, %v", len(got), bytes.Count(came, newline), d.Err())
		}
	}
}

// A reader that says that it gave more bytes than there was room for, or less than none, is told; so is one that goes on giving nothing.
func TestBadReaders(t *testing.T) {
	for n, why := range map[int]error{-1: bufio.ErrBadReadCount, 0: io.ErrNoProgress, 1 << 30: bufio.ErrBadReadCount} {
		d := NewDecoder(io.MultiReader(strings.NewReader("m f=1i\n"), bad(n)))
		if got := told(d); len(got) != 1 || d.Err() != why || d.Next() {
			t.Errorf("%q, %v", got, d.Err())
		}
	}
}

type bad int

func (n bad) Read([]byte) (int, error) { return int(n), nil }

// A line that is too long is told before the error of its reader.
func TestLongLineBeforeAnError(t *testing.T) {
	torn := errors.New("torn")
	for _, part := range []int{1, 5, 100} {
		d := NewDecoder(&failing{[]byte("m f=1i\nm f=123456789"), part, torn})
		d.SetMaxLine(8)
		wanted := []string{`1 "m f=1i" "m" "f"=1i`, `2 "m f=1234" at line 2:1: the line is too long`}
		if got := told(d); !reflect.DeepEqual(got, wanted) || d.Err() != torn {
			t.Errorf("%q, %v", got, d.Err())
		}
	}
}

// Nothing to read is an error, and no line, until there is something. Settings made before stay.
func TestNothingToRead(t *testing.T) {
	for _, d := range []*Decoder{new(Decoder), NewDecoder(nil)} {
		d.SetDialect(NewlineDelimited)
		for i := 0; i < 2; i++ {
			verdict, err := d.Verdict()
			_, noKey := d.AppendSeriesKey(nil)
			if _, none := d.Measurement(); none != errNoLine || err != errNoLine || noKey != errNoLine || verdict != 1<<ClauseNotALine {
				t.Errorf("%v, %v, %v", none, err, noKey)
			}
			if d.Line() != 0 || d.Raw() != nil || d.Fault() != nil {
				t.Error("there is a line")
			}
			if d.Next() || d.Err() != errNoInput {
				t.Errorf("%v", d.Err())
			}
		}
		text := "m s=\"a\nn f=1i\n"
		wanted := []string{`1 "m s=\"a" at line 1:5: No fields were provided`, `2 "n f=1i" "n" "f"=1i`}
		d.ResetBytes([]byte(text))
		if got := told(d); !reflect.DeepEqual(got, wanted) || d.Err() != nil {
			t.Errorf("%q, %v", got, d.Err())
		}
		d.Reset(strings.NewReader(text))
		if got := told(d); !reflect.DeepEqual(got, wanted) || d.Err() != nil {
			t.Errorf("%q, %v", got, d.Err())
		}
		d.Reset(nil)
		if d.Next() || d.Err() != errNoInput {
			t.Errorf("%v", d.Err())
		}
	}
	var limited, small Decoder
	limited.SetLimits(Limits{Line: 100, Tags: 1, Latest: 9})
	limited.Reset(strings.NewReader("m,a=1,b=2 f=1 5"))
	if limited.Next(); limited.Fault() != nil {
		t.Error(limited.Fault())
	}
	if verdict, err := limited.Verdict(); verdict != 1<<ClauseTooManyTags || err != nil {
		t.Errorf("%d, %v", verdict, err)
	}
	small.SetMaxLine(3)
	small.ResetBytes([]byte("m f=1i"))
	if small.Next(); small.Fault() == nil || small.Fault().Kind != TooLong {
		t.Error(small.Fault())
	}
}

// What a decoder gives has no room after it: to append to it changes neither the text nor what comes.
func TestViewsHaveNoRoom(t *testing.T) {
	text := "m\\ 1,k\\ 1=v\\ 1,l=w f\\ 1=\"a\\\"b\",g=\"c\",h=1.5,i=2i 5\nlonger,a=b f=1i 77\nn f=1i\n5\n\xff\nm f=2i"
	wanted, source := told(limitedTo(text, 70)), []byte(text)
	d, got := NewDecoderWithBytes(source), []string{}
	d.SetMaxLine(70)
	add := func(views ...[]byte) {
		t.Helper()
		for _, view := range views {
			if cap(view) != len(view) {
				t.Errorf("%q has room for %d bytes", view, cap(view))
			}
			_ = append(view, "################"...)
		}
	}
	for d.Next() {
		add(d.Raw())
		if name, err := d.Measurement(); err == nil {
			add(name)
			number, _ := d.TimeBytes()
			add(number)
		}
		for key, value, _ := d.NextTag(); key != nil; key, value, _ = d.NextTag() {
			add(key, value)
		}
		for key, value, _ := d.NextField(); key != nil; key, value, _ = d.NextField() {
			add(key)
			if value.Kind() == String {
				add(value.BytesV())
			}
		}
		d.field = 0
		for key, _, data, _ := d.NextFieldBytes(); key != nil; key, _, data, _ = d.NextFieldBytes() {
			add(key, data)
		}
		d.tag, d.field = 0, 0
		got = append(got, item(d))
	}
	if string(source) != text || !reflect.DeepEqual(got, wanted) {
		t.Errorf("%q, and not %q", got, wanted)
	}
	for _, most := range []int{3, 8} {
		for d := limitedTo(text, most); d.Next(); {
			add(d.Raw())
		}
	}
	long := NewDecoder(strings.NewReader("m s=\"" + strings.Repeat("x", 1000)))
	long.SetMaxLine(8)
	for long.Next() {
		add(long.Raw())
	}
}

func limitedTo(text string, most int) *Decoder {
	d := NewDecoderWithBytes([]byte(text))
	d.SetMaxLine(most)
	return d
}

// A fault that is kept says the same after all was read, and after its text was changed.
func TestFaultsAreKept(t *testing.T) {
	var text, wanted []string
	for i := 0; i < 5000; i++ {
		text = append(text, fmt.Sprintf("m f=9%025di", i), fmt.Sprintf("m f=1i x%d", i), "\xff")
		wanted = append(wanted, fmt.Sprintf("at line %d:5: Unable to parse integer value '9%025d'", 3*i+1, i),
			fmt.Sprintf("at line %d:7: Could not parse entire line. Found trailing content: ' x%d'", 3*i+2, i),
			fmt.Sprintf("at line %d:1: the line is not UTF-8", 3*i+3))
	}
	source := []byte(strings.Join(text, "\n"))
	for _, d := range []*Decoder{NewDecoder(bytes.NewReader(source)), NewDecoderWithBytes(source)} {
		var faults []*DecodeError
		for d.Next() {
			faults = append(faults, d.Fault())
		}
		if d.reader == nil {
			for at := range source {
				source[at] = 'x'
			}
		}
		for i, fault := range faults {
			if fault.Error() != wanted[i] || len(faults) != len(wanted) {
				t.Fatalf("%d faults: %v, and not %s", len(faults), fault, wanted[i])
			}
		}
	}
}

// The buffer of a reader has 64 KiB at most while no line is longer than it.
func TestBufferStays(t *testing.T) {
	r := rand.New(rand.NewSource(4))
	var text bytes.Buffer
	for text.Len() < 16<<20 {
		fmt.Fprintf(&text, "m s=\"%s\"\n", strings.Repeat("x", r.Intn(60<<10)))
	}
	d := NewDecoder(&text)
	lines := 0
	for d.Next() {
		lines++
		if d.Fault() != nil || len(d.buf) > 64<<10 {
			t.Fatalf("line %d: %d bytes are held, %v", lines, len(d.buf), d.Fault())
		}
	}
	if lines < 400 || len(d.buf) != 64<<10 || d.Err() != nil {
		t.Errorf("%d lines, %d bytes are held, %v", lines, len(d.buf), d.Err())
	}
}

// A number of a line has 64 bits.
func TestLinesBeyond32Bits(t *testing.T) {
	d := NewDecoderWithBytes([]byte("\nm f=1i\nm 5"))
	d.line = 1 << 40
	for _, line := range []int64{1<<40 + 1, 1<<40 + 2} {
		if !d.Next() || d.Line() != line || d.Fault() != nil && d.Fault().Line != line {
			t.Errorf("line %d: %v", d.Line(), d.Fault())
		}
	}
}

// Bytes that were changed are told as that, and are no lack of memory.
func TestChangedBytes(t *testing.T) {
	for _, at := range []int{2, 4} {
		text := []byte("m,b=1,a=2 f=1i\nm f=1i")
		d := NewDecoderWithBytes(text)
		d.Next()
		text[at] = 0xff
		if key, err := d.AppendSeriesKey([]byte("x")); string(key) != "x" || err != errChanged || !strings.Contains(err.Error(), "changed") {
			t.Errorf("%q, %v", key, err)
		}
		if verdict, err := d.Verdict(); verdict != 1<<ClauseNotALine || err != nil {
			t.Errorf("%d, %v", verdict, err)
		}
		d.Next()
		if key, err := d.AppendSeriesKey(nil); string(key) != "m" || err != nil {
			t.Errorf("%q, %v", key, err)
		}
	}
}
