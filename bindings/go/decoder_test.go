package lineprotocol

import (
	"bytes"
	"errors"
	"fmt"
	"io"
	"math"
	"reflect"
	"runtime"
	"strconv"
	"strings"
	"testing"
	"testing/iotest"
	"time"
)

// What a decoder gives of its lines, one after another.
func told(d *Decoder) (items []string) {
	for d.Next() {
		items = append(items, item(d))
	}
	return items
}

func item(d *Decoder) string {
	name, err := d.Measurement()
	if err != nil {
		return fmt.Sprintf("%d %q %v", d.Line(), d.Raw(), err)
	}
	var s strings.Builder
	fmt.Fprintf(&s, "%d %q %q", d.Line(), d.Raw(), name)
	for key, value, _ := d.NextTag(); key != nil; key, value, _ = d.NextTag() {
		fmt.Fprintf(&s, ",%q=%q", key, value)
	}
	for key, value, _ := d.NextField(); key != nil; key, value, _ = d.NextField() {
		fmt.Fprintf(&s, " %q=%v", key, value)
	}
	if number, ok := d.Timestamp(); ok {
		fmt.Fprintf(&s, " at %d", number)
	}
	return s.String()
}

// Each text with what comes of it, by the three dialects.
var texts = []struct {
	text  string
	items [3][]string
}{
	{"", [3][]string{}},
	{"\n\n# c\n \n", [3][]string{}},
	{"m,k=v f=1i,g=2u,h=1.5,s=\"a b\",b=T 7", [3][]string{
		0: {`1 "m,k=v f=1i,g=2u,h=1.5,s=\"a b\",b=T 7" "m","k"="v" "f"=1i "g"=2u "h"=1.5 "s"="a b" "b"=true at 7`},
	}},
	{"wea\\,ther,a\\ b=c\\=d k\\ 1=\"say \\\"hi\\\"\"", [3][]string{
		0: {`1 "wea\\,ther,a\\ b=c\\=d k\\ 1=\"say \\\"hi\\\"\"" "wea,ther","a b"="c=d" "k 1"="say \"hi\""`},
	}},
	{"x\nm f=1i\n", [3][]string{
		0: {`1 "x" at line 1:2: A generic parsing error occurred: TakeWhile1`, `2 "m f=1i" "m" "f"=1i`},
	}},
	{"m f=1i 9223372036854775808\nm f=9223372036854775808i\nm 5\nm f=1i x", [3][]string{
		0: {
			`1 "m f=1i 9223372036854775808" at line 1:8: Unable to parse timestamp value '9223372036854775808'`,
			`2 "m f=9223372036854775808i" at line 2:5: Unable to parse integer value '9223372036854775808'`,
			`3 "m 5" at line 3:4: No fields were provided`,
			`4 "m f=1i x" at line 4:7: Could not parse entire line. Found trailing content: ' x'`,
		},
	}},
	{"a f=1i\n\xff\xfe\nb f=2i", [3][]string{
		0: {`1 "a f=1i" "a" "f"=1i`, `2 "\xff\xfe" at line 2:1: the line is not UTF-8`, `3 "b f=2i" "b" "f"=2i`},
	}},
	// A newline within a string: one line in two dialects.
	{"m s=\"a\nb\"\nn f=1i", [3][]string{
		0: {`1 "m s=\"a\nb\"" "m" "s"="a` + "\n" + `b"`, `3 "n f=1i" "n" "f"=1i`},
		2: {
			`1 "m s=\"a" at line 1:5: No fields were provided`,
			`2 "b\"" at line 2:3: A generic parsing error occurred: TakeWhile1`,
			`3 "n f=1i" "n" "f"=1i`,
		},
	}},
	{"m s=\"a\n\n\" x\nn f=1i", [3][]string{
		0: {`1 "m s=\"a\n\n\" x" at line 3:2: Could not parse entire line. Found trailing content: ' x'`, `4 "n f=1i" "n" "f"=1i`},
		2: {
			`1 "m s=\"a" at line 1:5: No fields were provided`,
			`3 "\" x" at line 3:4: No fields were provided`,
			`4 "n f=1i" "n" "f"=1i`,
		},
	}},
}

func TestTexts(t *testing.T) {
	for _, row := range texts {
		for dialect, items := range row.items {
			if items == nil {
				items = row.items[0]
			}
			d := NewDecoderWithBytes([]byte(row.text))
			d.SetDialect(Dialect(dialect))
			if got := told(d); !reflect.DeepEqual(got, items) {
				t.Errorf("dialect %d of %q:\n%s\nwanted:\n%s", dialect, row.text, strings.Join(got, "\n"), strings.Join(items, "\n"))
			}
			for _, reader := range []io.Reader{iotest.OneByteReader(strings.NewReader(row.text)), iotest.DataErrReader(strings.NewReader(row.text))} {
				d := NewDecoder(reader)
				d.SetDialect(Dialect(dialect))
				if got := told(d); !reflect.DeepEqual(got, items) || d.Err() != nil {
					t.Errorf("dialect %d of %q from a reader: %q, %v", dialect, row.text, got, d.Err())
				}
			}
		}
	}
}

// Of what is not UTF-8 the place is its first byte that is not.
func TestNotUTF8Places(t *testing.T) {
	for _, row := range []struct {
		text, place string
		dialect     Dialect
	}{
		{"\xff", "1:1", Crate}, {"a f=1i\nm f=1\xff", "2:6", Crate}, {"m,t=\xc3 f=1", "1:5", Strict}, {"mé\xe2\x82", "1:4", Strict},
		{"m s=\"é\n\u20ac\xbf\"", "2:4", Crate}, {"m s=\"é\n\u20ac\xbf\"", "2:4", NewlineDelimited}, {"# c\nm f=1i\n# \xed\xa0\x80", "3:3", Strict},
	} {
		for _, d := range []*Decoder{NewDecoderWithBytes([]byte(row.text)), NewDecoder(iotest.OneByteReader(strings.NewReader(row.text)))} {
			d.SetDialect(row.dialect)
			places := []string{}
			for d.Next() {
				if fault := d.Fault(); fault != nil && fault.Kind == NotUTF8 {
					places = append(places, fmt.Sprintf("%d:%d", fault.Line, fault.Column))
				}
			}
			if len(places) != 1 || places[0] != row.place {
				t.Errorf("dialect %d of %q: %q, and not %s", row.dialect, row.text, places, row.place)
			}
		}
	}
}

// A text of many lines, one of them with more parts and one with more to copy than a block has room for.
func many() string {
	var b strings.Builder
	for i := 0; i < 3000; i++ {
		fmt.Fprintf(&b, "m,host=h%d f=%di %d\n", i, i, i)
	}
	b.WriteString("wide f=0i")
	for i := 1; i < 40000; i++ {
		fmt.Fprintf(&b, ",f=%di", i)
	}
	b.WriteString("\nm s=\"" + strings.Repeat("\\\"", 200000) + "\"\nx\nlast f=1i\n")
	return b.String()
}

func TestMany(t *testing.T) {
	text := many()
	whole := told(NewDecoderWithBytes([]byte(text)))
	if len(whole) != 3004 || !strings.HasPrefix(whole[3003], "3004 ") || !strings.Contains(whole[3000], `"f"=39999i`) ||
		strings.Count(whole[3001], `\\\"`) < 200000 {
		t.Fatalf("%d lines", len(whole))
	}
	for _, reader := range []io.Reader{strings.NewReader(text), iotest.HalfReader(strings.NewReader(text))} {
		if got := told(NewDecoder(reader)); !reflect.DeepEqual(got, whole) {
			t.Errorf("a reader gives other lines")
		}
	}
	d := NewDecoderWithBytes(nil)
	for i := 0; i < 2; i++ {
		d.ResetBytes([]byte(text))
		if got := told(d); !reflect.DeepEqual(got, whole) {
			t.Errorf("the second time it gives other lines")
		}
	}
}

func TestMaxLine(t *testing.T) {
	long := "m f=1i\nm s=\"" + strings.Repeat("x", 300000) + "\n\"\nn f=2i\nm f=12345i\nn f=3i"
	for _, reader := range []io.Reader{strings.NewReader(long), iotest.HalfReader(strings.NewReader(long)), iotest.OneByteReader(strings.NewReader(long))} {
		d := NewDecoder(reader)
		d.SetMaxLine(8)
		items := []string{
			`1 "m f=1i" "m" "f"=1i`,
			`2 "m s=\"xxx" at line 2:1: the line is too long`,
			`4 "n f=2i" "n" "f"=2i`,
			`5 "m f=1234" at line 5:1: the line is too long`,
			`6 "n f=3i" "n" "f"=3i`,
		}
		if got := told(d); !reflect.DeepEqual(got, items) || d.Err() != nil {
			t.Errorf("%q, %v", got, d.Err())
		}
		if len(d.buf) > 256<<10 {
			t.Errorf("it holds %d bytes", len(d.buf))
		}
	}
	d := NewDecoder(strings.NewReader("m f=1i"))
	d.SetMaxLine(0)
	if got := told(d); len(got) != 1 || !strings.HasSuffix(got[0], "the line is too long") {
		t.Errorf("%q", got)
	}
}

// A line that is too long is told before it ends.
func TestMaxLineAtOnce(t *testing.T) {
	r, w := io.Pipe()
	d := NewDecoder(r)
	d.SetMaxLine(8)
	go w.Write([]byte("m f=1i\nm f=12345678"))
	if !d.Next() || d.Fault() != nil || !d.Next() || d.Fault() == nil || d.Fault().Kind != TooLong {
		t.Fatal("the line is not told")
	}
	go func() { w.Write([]byte("90i\nn f=2i\n")); w.Close() }()
	if got := told(d); !reflect.DeepEqual(got, []string{`3 "n f=2i" "n" "f"=2i`}) {
		t.Errorf("%q", got)
	}
}

func TestReaderFails(t *testing.T) {
	failure := errors.New("torn")
	d := NewDecoder(io.MultiReader(strings.NewReader("m f=1i\nm f="), iotest.ErrReader(failure)))
	if got := told(d); !reflect.DeepEqual(got, []string{`1 "m f=1i" "m" "f"=1i`}) || d.Err() != failure {
		t.Errorf("%q, %v", got, d.Err())
	}
	if d.Next() {
		t.Error("it goes on after the failure")
	}
	d = NewDecoder(bad(0))
	if d.Next() || d.Err() != io.ErrNoProgress {
		t.Errorf("%v", d.Err())
	}
	d = NewDecoderWithBytes([]byte("m f=1i"))
	d.SetDialect(7)
	if d.Next() || d.Err() == nil {
		t.Error("a dialect that is none is read")
	}
}

// A decoder begins anew with bytes and with readers in turns, also after a fault and a failure, by its dialect and its limit.
func TestReset(t *testing.T) {
	d := NewDecoder(iotest.ErrReader(io.ErrUnexpectedEOF))
	d.SetDialect(NewlineDelimited)
	d.SetMaxLine(9)
	text, items := "m s=\"a\nn f=12345i\nn f=1i", []string{
		`1 "m s=\"a" at line 1:5: No fields were provided`,
		`2 "n f=12345" at line 2:1: the line is too long`,
		`3 "n f=1i" "n" "f"=1i`,
	}
	if d.Next() || d.Err() == nil {
		t.Error("a reader that fails gives a line")
	}
	for i := 0; i < 3; i++ {
		d.Reset(iotest.OneByteReader(strings.NewReader(text)))
		if got := told(d); !reflect.DeepEqual(got, items) || d.Err() != nil {
			t.Errorf("%q, %v", got, d.Err())
		}
		d.ResetBytes([]byte(text))
		if got := told(d); !reflect.DeepEqual(got, items) || d.Err() != nil {
			t.Errorf("%q, %v", got, d.Err())
		}
		d.Reset(strings.NewReader(text))
		d.Next()
	}
}

// Before the first line, and after the last, there is none.
func TestNoLine(t *testing.T) {
	d := NewDecoder(strings.NewReader("m f=1i 5"))
	d.SetMaxLine(-1)
	d.SetMaxLine(8)
	none := func() {
		t.Helper()
		_, a := d.Measurement()
		_, _, b := d.NextTag()
		_, _, c := d.NextField()
		_, e := d.Time(Second, time.Time{})
		_, f := d.TimeBytes()
		_, ok := d.Timestamp()
		if a == nil || b == nil || c == nil || e == nil || f == nil || ok || d.Raw() != nil || d.Line() != 0 || d.Fault() != nil {
			t.Error("there is a line")
		}
	}
	none()
	if !d.Next() || d.Fault() != nil {
		t.Error("there is no line")
	}
	for i := 0; i < 2; i++ {
		if d.Next() {
			t.Error("there is a second line")
		}
		none()
	}
}

func TestTime(t *testing.T) {
	now := time.Now()
	for _, row := range []struct {
		stamp string
		prec  Precision
		nanos int64
		err   error
	}{
		{" 5", Nanosecond, 5, nil}, {" 5", Second, 5e9, nil}, {" -7", Millisecond, -7e6, nil}, {" 3", Microsecond, 3e3, nil},
		{" 9223372036854775807", Nanosecond, math.MaxInt64, nil}, {" 9223372036854775807", Microsecond, 0, ErrTimeRange},
		{" -9223372036854775807", Second, 0, ErrTimeRange}, {"", Second, now.UnixNano(), nil},
	} {
		d := NewDecoderWithBytes([]byte("m f=1i" + row.stamp))
		d.Next()
		at, err := d.Time(row.prec, now)
		if err != row.err || err == nil && at.UnixNano() != row.nanos {
			t.Errorf("%q: %v, %v", row.stamp, at, err)
		}
	}
}

// The number is given as it is spelled, and nothing beside it, whatever is before and after it.
func TestTimeBytes(t *testing.T) {
	for _, row := range []struct {
		text, number string
		dialect      Dialect
	}{
		{"m f=1i 5", "5", Crate}, {"m f=1i  -007  ", "-007", Crate}, {"m f=1i -0", "-0", Strict}, {"m s=\" 5\" 6 ", "6", NewlineDelimited},
		{"m f=1i, 7", "7", Crate}, {"# c a=\"\nm f=1i 8", "8", Crate}, {"m s=\"\n 5\"  9", "9", Strict},
		{"m f=1i 9223372036854775807", "9223372036854775807", Crate},
	} {
		d := NewDecoderWithBytes([]byte(row.text))
		d.SetDialect(row.dialect)
		d.Next()
		number, err := d.TimeBytes()
		at, _ := d.Time(Nanosecond, time.Time{})
		read, _ := strconv.ParseInt(row.number, 10, 64)
		if err != nil || string(number) != row.number || cap(number) != len(number) || at.UnixNano() != read {
			t.Errorf("%q: %q, %v, %v", row.text, number, at, err)
		}
	}
	d := NewDecoderWithBytes([]byte("m f=1i\nm f=1i 99999999999999999999\nm s=\" 5\""))
	for row := 0; d.Next(); row++ {
		if number, err := d.TimeBytes(); number != nil || (err != nil) != (row == 1) {
			t.Errorf("row %d: %q, %v", row, number, err)
		}
	}
}

func TestValues(t *testing.T) {
	for _, x := range []interface{}{int64(math.MinInt64), uint64(math.MaxUint64), 1.5, true, false, "a\"b", ""} {
		v, ok := NewValue(x)
		if !ok || v.Interface() != x || !v.Equal(v) {
			t.Errorf("%v: %v, %v", x, v, ok)
		}
	}
	for _, x := range []interface{}{math.NaN(), math.Inf(1), 5, nil} {
		if v, ok := NewValue(x); ok {
			t.Errorf("%v is %v", x, v)
		}
	}
	if v, _ := NewValue([]byte("ab")); v.Kind() != String || string(v.BytesV()) != "ab" || v.Equal(IntValue(1)) || v.Kind().String() != "string" {
		t.Error(v)
	}
	for _, x := range []interface{}{"\xff", []byte("\xff")} {
		if v, ok := NewValue(x); ok {
			t.Errorf("%q is %v", x, v)
		}
	}
	mustPanic(t, func() { MustNewValue(5) })
	if v := MustNewValue(int64(5)); !v.Equal(IntValue(5)) {
		t.Error(v)
	}
	mustPanic(t, func() { MustNewValue("1").IntV() })
}

func mustPanic(t *testing.T, call func()) {
	t.Helper()
	defer func() {
		if recover() == nil {
			t.Error("it does not panic")
		}
	}()
	call()
}

// A field in bytes is the same value, and is written as it was; the bytes of a line are there until the next one.
func TestFieldBytes(t *testing.T) {
	text := []byte("m a=007i,b=-0,c=1.50e3,d=T,e=\"x \\\"y\\\\\",f=18446744073709551615u,g=\"\"\nx\nm a=1i")
	d, values := NewDecoderWithBytes(text), NewDecoderWithBytes(text)
	wanted := [][]string{{"7", "-0", "1.50e3", "true", `x "y\`, "18446744073709551615", ""}, nil, {"1"}}
	written := [][]string{{"7i", "-0", "1500", "true", `"x \"y\\"`, "18446744073709551615u", `""`}, nil, {"1i"}}
	for line := 0; d.Next() && values.Next(); line++ {
		var all [][]byte
		for {
			key, kind, data, err := d.NextFieldBytes()
			_, value, _ := values.NextField()
			if (err != nil) != (line == 1) {
				t.Errorf("line %d: %v", line, err)
			}
			if key == nil {
				break
			}
			made, err := NewValueFromBytes(kind, data)
			if err != nil || !made.Equal(value) || made.String() != written[line][len(all)] {
				t.Errorf("%s %s %q: %v, %v", key, kind, data, made, err)
			}
			all = append(all, data)
		}
		for i, data := range all {
			if string(data) != wanted[line][i] || len(all) != len(wanted[line]) {
				t.Errorf("line %d: %q", line, all)
			}
		}
	}
}

// Bytes of no value, and numbers out of range, also as faults of a line and as its time.
func TestValueErrors(t *testing.T) {
	for _, row := range []struct {
		kind ValueKind
		data string
		err  error
	}{
		{Int, "9223372036854775808", ErrValueOutOfRange}, {Uint, "18446744073709551616", ErrValueOutOfRange},
		{Float, "1e999", ErrValueOutOfRange}, {Int, "1i", errNotAValue}, {Uint, "-1", errNotAValue}, {Float, "nan", errNotAValue},
		{Float, "", errNotAValue}, {Bool, "yes", errNotAValue}, {String, "\xff", errNotAValue}, {Unknown, "1", errKind},
	} {
		if v, err := NewValueFromBytes(row.kind, []byte(row.data)); err != row.err || v.Kind() != Unknown {
			t.Errorf("%s %q: %v, %v", row.kind, row.data, v, err)
		}
	}
	text := "m f=9223372036854775808i\nm f=18446744073709551616u\nm f=1 9223372036854775808\nm f=\nm f=1 9223372036854775807"
	d := NewDecoderWithBytes([]byte(text))
	for line := 1; d.Next(); line++ {
		_, err := d.Time(Second, time.Time{})
		if errors.Is(err, ErrValueOutOfRange) != (line != 4) || err == nil {
			t.Errorf("line %d: %v", line, err)
		}
	}
}

func TestKindNames(t *testing.T) {
	for kind := String; kind <= Bool; kind++ {
		var read ValueKind
		name, err := kind.MarshalText()
		if err != nil || string(name) != kind.String() || read.UnmarshalText(name) != nil || read != kind {
			t.Errorf("%v: %q, %v, %v", kind, name, err, read)
		}
	}
	read := Int
	if _, err := Unknown.MarshalText(); err == nil || read.UnmarshalText([]byte("unknown")) == nil || read != Int {
		t.Error("an unknown kind has a name")
	}
}

// No memory is taken for a line, once the decoder has what the longest ones need.
func TestAllocations(t *testing.T) {
	text := bytes.Repeat([]byte("cpu,host=a\\ b,region=west usage=1.5,n=2i,s=\"a\\\"b\" 1590488773254420000\n"), 1000)
	d := NewDecoderWithBytes(text)
	pass := func() {
		d.ResetBytes(text)
		for d.Next() {
			item := 0
			for key, _, _ := d.NextTag(); key != nil; key, _, _ = d.NextTag() {
				item++
			}
			for kind := Unknown; kind != Int; item++ {
				_, kind, _, _ = d.NextFieldBytes()
			}
			for key, _, _ := d.NextField(); key != nil; key, _, _ = d.NextField() {
				item++
			}
			if item != 5 {
				t.Fatal(item)
			}
			if number, _ := d.TimeBytes(); len(number) != 19 {
				t.Fatalf("%q", number)
			}
		}
	}
	pass()
	if n := testing.AllocsPerRun(5, pass); n > 4 {
		t.Errorf("1,000 lines take memory %v times", n)
	}
}

// A new decoder that reads one line takes little memory, and one that is used again takes none.
func TestMemoryOfOneLine(t *testing.T) {
	for name, decoder := range lineReaders() {
		const runs, most = 100, 8 << 10
		var before, after runtime.MemStats
		lines := 0
		read := func() {
			for d := decoder(); d.Next(); lines++ {
				look(d)
			}
		}
		read()
		runtime.ReadMemStats(&before)
		for i := 0; i < runs; i++ {
			read()
		}
		runtime.ReadMemStats(&after)
		taken := (after.TotalAlloc - before.TotalAlloc) / runs
		if lines != runs+1 || taken > most || name == "again" && taken > 0 {
			t.Errorf("%s: %d lines, and a decoder takes %d bytes", name, lines, taken)
		}
	}
}

// Eight goroutines, each with a decoder of its own.
func TestGoroutines(t *testing.T) {
	text := many()
	whole := told(NewDecoderWithBytes([]byte(text)))
	done := make(chan bool)
	for i := 0; i < 8; i++ {
		go func() {
			done <- reflect.DeepEqual(told(NewDecoder(strings.NewReader(text))), whole)
		}()
	}
	for i := 0; i < 8; i++ {
		if !<-done {
			t.Error("a goroutine gets other lines")
		}
	}
}
