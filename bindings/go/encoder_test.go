package lineprotocol

import (
	"bytes"
	"errors"
	"math"
	"reflect"
	"strconv"
	"strings"
	"syscall"
	"testing"
	"time"
)

func value(t *testing.T, x interface{}) Value {
	v, ok := NewValue(x)
	if !ok {
		t.Fatal(x)
	}
	return v
}

// line makes a line without a time. Its parts are keys, each with a string, and so a tag, or with a Value, and so a field.
func line(e *Encoder, name string, parts ...interface{}) {
	e.StartLine(name)
	for at := 0; at < len(parts); at += 2 {
		switch part := parts[at+1].(type) {
		case string:
			e.AddTag(parts[at].(string), part)
		case Value:
			e.AddField(parts[at].(string), part)
		}
	}
	e.EndLine(time.Time{})
}

func TestEncoder(t *testing.T) {
	var e Encoder
	e.StartLine("wea,ther")
	e.AddTag("a b", "c=d")
	e.AddTag("host", "h1")
	e.AddField("i", value(t, int64(-5)))
	e.AddField("u", value(t, uint64(math.MaxUint64)))
	e.AddField("f", value(t, 1.5e300))
	e.AddField("b", value(t, true))
	e.AddField("s", value(t, "say \"hi\"\nto\\all"))
	e.EndLine(time.Unix(0, 7))
	line(&e, "m", "f", value(t, int64(1)))
	wanted := "wea\\,ther,a\\ b=c\\=d,host=h1 i=-5i,u=18446744073709551615u,f=1.5e+300,b=true,s=\"say \\\"hi\\\"\nto\\\\all\" 7\nm f=1i\n"
	if got := string(e.Bytes()); got != wanted || e.Err() != nil {
		t.Errorf("%s%v", got, e.Err())
	}
	if got := told(NewDecoderWithBytes(e.Bytes())); len(got) != 2 || !strings.Contains(got[0], `"wea,ther","a b"="c=d","host"="h1"`) {
		t.Errorf("%q", got)
	}
	e.Reset()
	if len(e.Bytes()) != 0 {
		t.Error("Reset leaves bytes")
	}
}

// Lines that are not written, each between two that are: what is wrong with it, and how it is made.
func TestEncoderRefuses(t *testing.T) {
	one, nan := IntValue(1), Value{kind: Float, number: math.Float64bits(math.NaN())}
	for _, row := range []struct {
		err  error
		make func(e *Encoder)
	}{
		{ErrNotAdmitted, func(e *Encoder) { line(e, "", "f", one) }},
		{ErrNotAdmitted, func(e *Encoder) { line(e, "m\n", "f", one) }},
		{ErrNotAdmitted, func(e *Encoder) { line(e, "#m", "f", one) }},
		{ErrNotAdmitted, func(e *Encoder) { line(e, "m", "k", "v\\", "f", one) }},
		{ErrNotAdmitted, func(e *Encoder) { line(e, "m", "a\tb", one) }},
		{ErrNotALine, func(e *Encoder) { line(e, "m\xff", "f", one) }},
		{ErrNotALine, func(e *Encoder) { line(e, "m", "f", Value{}) }},
		{ErrNotALine, func(e *Encoder) { line(e, "m", "f", nan) }},
		{ErrNotALine, func(e *Encoder) { line(e, "m") }},
		{ErrNotALine, func(e *Encoder) { e.StartLine("m"); e.AddTag("k", "v"); e.EndLine(time.Unix(0, 1)) }},
		{ErrOrder, func(e *Encoder) { e.StartLine("m") }},
		{ErrOrder, func(e *Encoder) { line(e, "m", "f", one, "k", "v") }},
		{ErrOrder, func(e *Encoder) { e.StartLine("m"); e.AddField("f", one) }},
		{ErrTagOrder, func(e *Encoder) { line(e, "m", "b", "v", "a", "v", "f", one) }},
		{ErrTagOrder, func(e *Encoder) { line(e, "m", "a", "v", "a", "w", "f", one) }},
	} {
		var e Encoder
		line(&e, "first", "k", "v", "f", one)
		row.make(&e)
		line(&e, "last", "k", "v", "f", one)
		var why *EncodeError
		if got := string(e.Bytes()); got != "first,k=v f=1i\nlast,k=v f=1i\n" || !errors.As(e.Err(), &why) || why.Line != 2 || !errors.Is(why, row.err) {
			t.Errorf("%v: %q, %v", row.err, got, e.Err())
		}
		e.ClearErr()
		if e.Err() != nil {
			t.Error("ClearErr leaves the error")
		}
	}
	var e Encoder
	e.AddTag("k", "v")
	if !errors.Is(e.Err(), ErrOrder) {
		t.Error(e.Err())
	}
	e.ClearErr()
	e.SetLax(true)
	line(&e, "m", "b", "v", "a", "v", "f", one)
	if got := string(e.Bytes()); got != "m,b=v,a=v f=1i\n" || e.Err() != nil {
		t.Errorf("%q, %v", got, e.Err())
	}
	e.SetDialect(NewlineDelimited)
	line(&e, "m", "s", value(t, "a\nb"))
	if got := string(e.Bytes()); got != "m,b=v,a=v f=1i\n" || !errors.Is(e.Err(), ErrNotAdmitted) {
		t.Errorf("%q, %v", got, e.Err())
	}
	e.SetDialect(9)
	line(&e, "m", "f", one)
	if got := string(e.Bytes()); got != "m,b=v,a=v f=1i\n" {
		t.Errorf("%q, %v", got, e.Err())
	}
}

// The words of what is no line say why.
func TestNotALineSaysWhy(t *testing.T) {
	infinite, _ := FloatValue(math.Inf(-1))
	type field []interface{}
	for _, row := range []struct {
		field field
		words string
	}{
		{field{"f g", Value{kind: Float, number: math.Float64bits(math.NaN())}}, `line 1: lineprotocol: no line: the field "f g" is NaN`},
		{field{"f g", infinite}, `line 1: lineprotocol: no line: the field "f g" is -Inf`},
		{field{"f g", Value{}}, `line 1: lineprotocol: no line: the field "f g" is a zero Value`},
		{field{"f g", Value{kind: String, bytes: []byte("\xff")}}, "line 1: lineprotocol: no line: a text is not UTF-8"},
		{field{}, "line 1: lineprotocol: no line: it has no field"},
	} {
		var e Encoder
		line(&e, "m", row.field...)
		if err := e.Err(); !errors.Is(err, ErrNotALine) || err.Error() != row.words || len(e.Bytes()) != 0 {
			t.Errorf("%v, and not %s", err, row.words)
		}
	}
}

// Err gives the error of the first line of those that are not written, whether a call or the library tells of it, and the others are written,
// whatever their place among those that one call of the library writes.
func TestFirstError(t *testing.T) {
	const many = 2500
	faults := []func(e *Encoder){
		func(e *Encoder) { e.AddTag("k", "v\\"); e.AddField("f", IntValue(1)); e.EndLine(time.Time{}) },           // ErrNotAdmitted
		func(e *Encoder) { e.AddTag("k", "v"); e.AddTag("a", "v"); e.EndLine(time.Time{}) },                       // ErrTagOrder
		func(e *Encoder) { e.AddTag("k", "\xff"); e.AddField("f", IntValue(1)); e.EndLine(time.Time{}) },          // ErrNotALine
		func(e *Encoder) { e.AddField("f", IntValue(1)); e.AddTag("k", "v"); e.EndLine(time.Time{}) },             // ErrOrder
		func(e *Encoder) { e.AddField("f", IntValue(1)); e.EndLine(time.Date(3000, 1, 1, 0, 0, 0, 0, time.UTC)) }, // ErrTimeRange
		func(e *Encoder) { e.AddField("f", Value{}); e.AddField("g", IntValue(1)); e.EndLine(time.Unix(0, 1)) },   // ErrNotALine
	}
	errs := []error{ErrNotAdmitted, ErrTagOrder, ErrNotALine, ErrOrder, ErrTimeRange, ErrNotALine}
	for first := range faults {
		var e Encoder
		wanted, refused := "", 0
		for line := 1; line <= many; line++ {
			e.StartLine("m" + strconv.Itoa(line))
			if line >= 150 && line%3 == 0 {
				faults[(first+refused)%len(faults)](&e)
				refused++
				continue
			}
			e.AddField("f", IntValue(1))
			e.EndLine(time.Time{})
			wanted += "m" + strconv.Itoa(line) + " f=1i\n"
		}
		var why *EncodeError
		if !errors.As(e.Err(), &why) || why.Line != 150 || !errors.Is(why, errs[first]) {
			t.Errorf("%v, and not %v", e.Err(), errs[first])
		}
		if string(e.Bytes()) != wanted {
			t.Errorf("%d bytes are written, and not %d", len(e.Bytes()), len(wanted))
		}
	}
	var e Encoder
	line(&e, "m\n", "f", IntValue(1))
	e.EndLine(time.Time{}) // out of its order, after the line
	if !errors.Is(e.Err(), ErrNotAdmitted) {
		t.Error(e.Err())
	}
}

// What was written may be asked for amid a line, which goes on, and is as it was.
func TestBytesAmidALine(t *testing.T) {
	for _, look := range []func(e *Encoder){
		func(e *Encoder) { e.Bytes() }, func(e *Encoder) { e.Err() }, func(e *Encoder) { e.ClearErr() }, func(e *Encoder) { e.SetDialect(Strict) },
	} {
		var e Encoder
		wanted := ""
		for line := 0; line < 3; line++ {
			e.StartLine("m")
			look(&e)
			e.AddTag("a", "1")
			look(&e)
			e.AddTag("b", "c d")
			look(&e)
			e.AddField("f", IntValue(int64(line)))
			look(&e)
			e.AddField("s", value(t, "x"))
			if got := string(e.Bytes()); got != wanted {
				t.Errorf("%q, and not %q", got, wanted)
			}
			e.EndLine(time.Time{})
			wanted += "m,a=1,b=c\\ d f=" + strconv.Itoa(line) + "i,s=\"x\"\n"
		}
		if got := string(e.Bytes()); got != wanted || e.Err() != nil {
			t.Errorf("%q, and not %q: %v", got, wanted, e.Err())
		}
	}
}

// Lines that were ended are written in the dialect in which they were ended.
func TestDialectOfLines(t *testing.T) {
	var e Encoder
	for _, dialect := range []Dialect{Crate, NewlineDelimited, Strict} {
		e.SetDialect(dialect)
		line(&e, "m", "s", value(t, "a\nb"))
	}
	var why *EncodeError
	if got := string(e.Bytes()); got != "m s=\"a\nb\"\nm s=\"a\nb\"\n" || !errors.As(e.Err(), &why) || why.Line != 2 || why.Err != ErrNotAdmitted {
		t.Errorf("%q, %v", got, e.Err())
	}
}

// What an encoder gathers goes by its longest line, and not by how much it writes, or by how many lines it drops.
func TestEncoderHoldsLittle(t *testing.T) {
	var e, dropping Encoder
	long := value(t, strings.Repeat("x", 10000))
	for i := 0; i < 3000; i++ {
		line(&e, "m", "s", long)
		if cap(e.gathered.texts) > 1<<20 || cap(e.gathered.rows) > 4096 {
			t.Fatalf("line %d: %d bytes and %d rows are held", i, cap(e.gathered.texts), cap(e.gathered.rows))
		}
		dropping.StartLine("m")
		dropping.AddTag("k", "v")
		dropping.EndLine(time.Time{}) // it has no field
		if cap(dropping.gathered.texts) > 1024 || cap(dropping.gathered.parts) > 64 {
			t.Fatalf("line %d: %d bytes and %d parts are held", i, cap(dropping.gathered.texts), cap(dropping.gathered.parts))
		}
	}
	if e.Err() != nil || len(e.Bytes()) != 3000*len("m s=\"\"\n")+3000*10000 {
		t.Errorf("%d bytes, %v", len(e.Bytes()), e.Err())
	}
}

// A text that 32 bits cannot place is an error of its line, wherever it stands, and is never written as an empty one.
func TestTooLongTexts(t *testing.T) {
	text, err := syscall.Mmap(-1, 0, 1<<31, syscall.PROT_READ, syscall.MAP_ANON|syscall.MAP_PRIVATE|syscall.MAP_NORESERVE)
	if err != nil {
		t.Skip(err)
	}
	defer syscall.Munmap(text)
	for place := 0; place < 5; place++ {
		e, texts, one := Encoder{}, [5][]byte{[]byte("m"), []byte("k"), []byte("v"), []byte("f"), []byte("s")}, IntValue(1)
		texts[place] = text
		e.StartLineRaw(texts[0])
		e.AddTagRaw(texts[1], texts[2])
		e.AddFieldRaw(texts[3], Value{kind: String, bytes: texts[4]})
		e.EndLine(time.Time{})
		line(&e, "n", "f", one)
		if got := string(e.Bytes()); got != "n f=1i\n" || !errors.Is(e.Err(), ErrNotALine) || !strings.HasSuffix(e.Err().Error(), "2 GiB or more") {
			t.Errorf("place %d: %q, %v", place, got, e.Err())
		}
	}
}

// Many lines, of which one is long, and all that a decoder reads is written again.
func TestEncoderMany(t *testing.T) {
	text := many()
	var e Encoder
	e.SetBuffer([]byte("# before\n"))
	d := NewDecoderWithBytes([]byte(text))
	lines := 0
	for d.Next() {
		name, err := d.Measurement()
		if err != nil {
			continue
		}
		e.StartLineRaw(name)
		for key, value, _ := d.NextTag(); key != nil; key, value, _ = d.NextTag() {
			e.AddTagRaw(key, value)
		}
		for key, value, _ := d.NextField(); key != nil; key, value, _ = d.NextField() {
			e.AddFieldRaw(key, value)
		}
		at, _ := d.Time(Nanosecond, time.Time{})
		e.EndLine(at)
		lines++
	}
	written := e.Bytes()
	if e.Err() != nil || lines != 3003 || !bytes.HasPrefix(written, []byte("# before\nm,host=h0 f=0i 0\n")) {
		t.Fatalf("%d lines, %v", lines, e.Err())
	}
	wanted := []string{}
	for _, line := range strings.SplitAfter(text, "\n") {
		if line != "x\n" {
			wanted = append(wanted, line)
		}
	}
	if got := strings.SplitAfter(string(written[len("# before\n"):]), "\n"); !reflect.DeepEqual(got, wanted) {
		t.Errorf("other lines are written")
	}
}

// No memory is taken for a line, once the encoder has what many need.
func TestEncoderAllocations(t *testing.T) {
	var e Encoder
	half, _ := FloatValue(0.5)
	pass := func() {
		e.Reset()
		for i := 0; i < 1000; i++ {
			e.StartLine("cpu")
			e.AddTag("host", "a")
			e.AddField("usage", half)
			e.AddField("n", IntValue(int64(i)))
			e.EndLine(time.Unix(0, int64(i)))
		}
		e.Bytes()
	}
	pass()
	if n := testing.AllocsPerRun(5, pass); n > 4 {
		t.Errorf("1,000 lines take memory %v times", n)
	}
}

// A line is written only if it is read back as it was given, and then the line after it is, in each dialect.
func FuzzEncoder(f *testing.F) {
	f.Add("m", "k", "v", "f", "s", int64(5), uint8(0))
	f.Add("we,a ther", "a=b", "c d", "\\x", "say \"hi\"\n", int64(-1), uint8(2))
	f.Add("#m", "", "\t", "e\\", "\xff", int64(0), uint8(1))
	f.Fuzz(func(t *testing.T, name, key, tag, field, text string, number int64, dialect uint8) {
		var e Encoder
		e.SetDialect(Dialect(dialect % 3))
		e.StartLine(name)
		e.AddTag(key, tag)
		given, _ := StringValue(text) // an encoder refuses what is not UTF-8
		e.AddField(field, given)
		e.AddField(field, IntValue(number))
		e.EndLine(time.Unix(0, number))
		refused := e.Err() != nil
		line(&e, "next", "f", IntValue(1))
		d := NewDecoderWithBytes(append(e.Bytes(), '\n'))
		d.SetDialect(Dialect(dialect % 3))
		if !refused {
			if !d.Next() {
				t.Fatalf("%q gives no line", e.Bytes())
			}
			m, _ := d.Measurement()
			k, v, _ := d.NextTag()
			a, s, _ := d.NextField()
			b, i, _ := d.NextField()
			at, has := d.Timestamp()
			if string(m) != name || string(k) != key || string(v) != tag || string(a) != field || string(b) != field ||
				s.StringV() != text || i.IntV() != number || at != number || !has {
				t.Errorf("%q reads otherwise", e.Bytes())
			}
		}
		if rest := told(d); len(rest) != 1 || !strings.HasSuffix(rest[0], `"next f=1i" "next" "f"=1i`) {
			t.Errorf("%q: %q", e.Bytes(), rest)
		}
	})
}
