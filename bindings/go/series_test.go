package lineprotocol

import (
	"bytes"
	"errors"
	"fmt"
	"math/rand"
	"reflect"
	"sort"
	"strings"
	"testing"
)

// The key of the series of each line of a text, or "" in the place of a fault.
func keysOf(t *testing.T, text string, dialect Dialect) (keys []string) {
	t.Helper()
	d := NewDecoderWithBytes([]byte(text))
	d.SetDialect(dialect)
	for d.Next() {
		key, err := d.AppendSeriesKey(nil)
		var fault *DecodeError
		if errors.As(err, &fault) != (d.Fault() != nil) || (err == nil) != (d.Fault() == nil) {
			t.Errorf("%q: %q, %v", d.Raw(), key, err)
		}
		keys = append(keys, string(key))
	}
	return keys
}

func TestSeriesKeys(t *testing.T) {
	for _, row := range []struct{ text, keys string }{
		// Tags in any order, and fields and times of any kind.
		{"m,a=1,b=2 f=1i\nm,b=2,a=1 g=\"x\" 7\nm,b=2,a=1 f=t", "m,a=1,b=2|m,a=1,b=2|m,a=1,b=2"},
		// Two values of one key tell two series in their two orders, wherever they stand among the others.
		{"m,k=1,k=2 f=1i\nm,k=2,k=1 f=1i\nm,k=1,a=3,k=2 f=1i", "m,k=1,k=2|m,k=2,k=1|m,a=3,k=1,k=2"},
		// Names that hold what divides a base, and two spellings of one name.
		{"m,a=1\\,b\\=2 f=1i\nm,a=1,b=2 f=1i\nm,\\,=v f=1i\nm,,=v f=1i", "m,a=1\\,b\\=2|m,a=1,b=2|m,\\,=v|m,\\,=v"},
		{"a\\ b\\,c,k\\ 1=x\\=y f=1i\nm=n,k=c\\d f=1i\nm,k=c\\\\d f=1i", "a\\ b\\,c,k\\ 1=x\\=y|m=n,k=c\\\\d|m,k=c\\\\d"},
		// No tags; a name that is not admitted, as it holds a tab; and others than ASCII.
		{"m f=1i\nm,k=a\\\tb f=1i\nmètre,ü=é f=1i\nm,k=\x00 f=1i", "m|m,k=a\\\\\tb|mètre,ü=é|m,k=\x00"},
		{"m 5\nm f=1i\n\xff\n", "|m|"},
	} {
		for dialect := Crate; dialect <= NewlineDelimited; dialect++ {
			if keys := strings.Join(keysOf(t, row.text, dialect), "|"); keys != row.keys {
				t.Errorf("dialect %d of %q: %q, and not %q", dialect, row.text, keys, row.keys)
			}
		}
	}
}

// A key is asked for before, between and after the parts of a line, many times, and is appended to what is there.
func TestSeriesKeyAmongParts(t *testing.T) {
	d := NewDecoderWithBytes([]byte("m,b=1,a=2 f=1i,g=2i\nm 5\nn f=1i"))
	if key, err := d.AppendSeriesKey([]byte("x")); string(key) != "x" || err != errNoLine {
		t.Errorf("%q, %v", key, err)
	}
	room := make([]byte, 1, 64)
	for _, wanted := range []string{"\"m\",\"b\"=\"1\",\"a\"=\"2\" \"f\"=1i \"g\"=2i", "", "\"n\" \"f\"=1i"} {
		d.Next()
		before, err := d.AppendSeriesKey(room[:1])
		_, again := d.AppendSeriesKey(nil)
		if fault := d.Fault(); fault != nil {
			if err != fault || again != fault || len(before) != 1 || &before[0] != &room[0] {
				t.Errorf("%q, %v", before, err)
			}
			continue
		}
		d.NextTag()
		first := string(before)
		d.tag = 0
		if told := item(d); !strings.HasSuffix(told, wanted) {
			t.Errorf("%q, and not %q", told, wanted)
		}
		after, err := d.AppendSeriesKey(room[:1])
		if string(after) != first || err != nil || &after[0] != &room[0] {
			t.Errorf("%q, and not %q: %v", after, first, err)
		}
	}
}

// 10,000 tags, whose keys rise, fall, or are all the same.
func TestSeriesKeyOfManyTags(t *testing.T) {
	const many = 10000
	var rising, falling, equal, far strings.Builder
	for i := 0; i < many; i++ {
		fmt.Fprintf(&rising, ",k%05d=v\\ %d", i, i)
		fmt.Fprintf(&falling, ",k%05d=v\\ %d", many-1-i, many-1-i)
		fmt.Fprintf(&equal, ",k=%d", i)
		fmt.Fprintf(&far, "%s", strings.Repeat("x", 100))
	}
	text := "m" + falling.String() + " f=1i\nm" + equal.String() + " f=1i\nm" + rising.String() + " f=1i\nm,k=" + far.String() + " f=1i\n"
	wanted := []string{"m" + rising.String(), "m" + equal.String(), "m" + rising.String(), "m,k=" + far.String()}
	if keys := keysOf(t, text, Strict); !reflect.DeepEqual(keys, wanted) {
		t.Error("the keys are others")
	}
}

// The parts of names from which series are made: bytes that mean something, escapes, and some that mean nothing.
var partsOfNames = []string{"a", "b", "A", "\\,", "\\=", "\\ ", "=", "\\\\", "\\n", "\"", "#", "\\\t", "é", "\x00"}

type tag struct{ key, value string }

// The key of a series, made as its definition says.
func madeKey(measurement string, tags []tag) string {
	inMeasurement := strings.NewReplacer(",", "\\,", " ", "\\ ", "\\", "\\\\")
	inTag := strings.NewReplacer(",", "\\,", " ", "\\ ", "=", "\\=", "\\", "\\\\")
	sorted := append([]tag(nil), tags...)
	sort.SliceStable(sorted, func(i, j int) bool { return sorted[i].key < sorted[j].key })
	key := inMeasurement.Replace(measurement)
	for _, one := range sorted {
		key += "," + inTag.Replace(one.key) + "=" + inTag.Replace(one.value)
	}
	return key
}

// What two series share exactly if they are the same: the measurement, and the values of each key.
func madeSeries(measurement string, tags []tag) string {
	values := map[string][]string{}
	for _, one := range tags {
		values[one.key] = append(values[one.key], one.value)
	}
	return fmt.Sprintf("%q %q", measurement, values)
}

// The series of a line.
func seriesOf(d *Decoder) (measurement string, tags []tag) {
	name, _ := d.Measurement()
	for key, value, _ := d.NextTag(); key != nil; key, value, _ = d.NextTag() {
		tags = append(tags, tag{string(key), string(value)})
	}
	return string(name), tags
}

// Appends the key of a line, whose series this is, to others, and compares it.
func compareKey(t *testing.T, d *Decoder, keys []byte, name string, tags []tag) []byte {
	more, err := d.AppendSeriesKey(keys)
	if wanted := madeKey(name, tags); err != nil || string(more[len(keys):]) != wanted {
		t.Fatalf("%q: %q, and not %q: %v", d.Raw(), more[len(keys):], wanted, err)
	}
	return more
}

// The keys of 20,000 random series are as they are made here of the names that the decoder gives, and tell these series from each other.
func TestSeriesKeysOfMany(t *testing.T) {
	r := rand.New(rand.NewSource(1))
	name := func() (s string) {
		for n := 1 + r.Intn(3); n > 0; n-- {
			s += partsOfNames[r.Intn(len(partsOfNames))]
		}
		return s
	}
	var text bytes.Buffer
	for lines := 0; lines < 30000; lines++ {
		measurement, tags := name(), []string{}
		for n := r.Intn([]int{3, 4, 5, 40}[r.Intn(4)]); n > 0; n-- {
			tags = append(tags, ","+name()+"="+name())
		}
		fmt.Fprintf(&text, "%s%s f=1i\n", measurement, strings.Join(tags, ""))
		r.Shuffle(len(tags), func(i, j int) { tags[i], tags[j] = tags[j], tags[i] })
		fmt.Fprintf(&text, "%s%s f=1i\n", measurement, strings.Join(tags, ""))
	}
	d := NewDecoder(&text)
	d.SetDialect(NewlineDelimited)
	read, series, keys := 0, map[string]string{}, []byte(nil)
	for d.Next() && read < 20000 {
		if d.Fault() != nil {
			continue
		}
		read++
		name, tags := seriesOf(d)
		at := len(keys)
		keys = compareKey(t, d, keys, name, tags)
		key, same := string(keys[at:]), madeSeries(name, tags)
		if before, ok := series[key]; ok && before != same {
			t.Fatalf("%q is the key of %s and of %s", key, before, same)
		}
		series[key] = same
	}
	different := map[string]bool{}
	for _, one := range series {
		different[one] = true
	}
	if read != 20000 || len(different) != len(series) || len(series) < 5000 || d.Err() != nil {
		t.Errorf("%d lines, %d keys, %d series, %v", read, len(series), len(different), d.Err())
	}
}

// Keys that are asked for at some lines alone, or more than once, are those of these lines. Some stand there, some do not, some lines have
// faults, and there are more of them than a block has.
func TestSeriesKeysOfSome(t *testing.T) {
	r := rand.New(rand.NewSource(2))
	lines := []string{"m,a=%d f=1i\n", "\n m,a=\\=%d f=1i\n", "m,b=1,a=%d f=1i\n", "m,a=\\%d f=1i\n", "m %d\n", "\xff%d\n"}
	var text bytes.Buffer
	for i := 0; i < 3000; i++ {
		fmt.Fprintf(&text, lines[r.Intn(1+i/500)], i)
	}
	d := NewDecoderWithBytes(nil)
	for _, each := range []int{1, 2, 3, 8, 64, 700, 1} {
		asked := 0
		for d.ResetBytes(text.Bytes()); d.Next(); {
			if d.Fault() != nil || r.Intn(each) > 0 {
				continue
			}
			name, tags := seriesOf(d)
			for n := r.Intn(3); n >= 0; n-- {
				compareKey(t, d, nil, name, tags)
			}
			asked++
		}
		if asked == 0 || asked < 2000/(2*each) {
			t.Errorf("of one in %d lines %d keys are asked for", each, asked)
		}
	}
}

// A key takes no memory of Go's if there is room for it.
func TestSeriesKeyAllocations(t *testing.T) {
	text := bytes.Repeat([]byte("cpu,host=a\\ b,region=west,az=1 usage=1.5\nm"+strings.Repeat(",k=v", 100)+" f=1i\n"), 500)
	d, key, bytes := NewDecoderWithBytes(text), make([]byte, 0, 1024), 0
	pass := func() {
		d.ResetBytes(text)
		for d.Next() {
			var err error
			if key, err = d.AppendSeriesKey(key[:0]); err != nil {
				t.Fatal(err)
			}
			bytes += len(key)
		}
	}
	pass()
	if n := testing.AllocsPerRun(5, pass); n != 0 || cap(key) != 1024 {
		t.Errorf("the keys of 1,000 lines take memory %v times", n)
	}
}

// Whatever a text holds, the key of each of its lines is as it is made here.
func FuzzSeriesKeys(f *testing.F) {
	for _, row := range texts {
		f.Add([]byte(row.text), uint8(0))
	}
	f.Add([]byte("m,b=1,a=c\\ d,\\,=v\\,,\\== f=1i\nm#=,a=1,a=0 f=1i"), uint8(2))
	f.Fuzz(func(t *testing.T, text []byte, dialect uint8) {
		d := NewDecoderWithBytes(text)
		d.SetDialect(Dialect(dialect % 3))
		for d.Next() {
			if d.Fault() == nil {
				name, tags := seriesOf(d)
				compareKey(t, d, nil, name, tags)
			}
		}
	})
}
