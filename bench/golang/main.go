// Reads corpora by this library's package, from bytes and from a reader, and by InfluxDB 1.x's ParsePoints, and looks at each value; and
// writes their lines again by the package, and by InfluxDB's NewPoint and AppendString; and counts the points of each series. All go in turns
// in one run; the best round of each counts, by processor time. It prints MB/s, the ratio to InfluxDB's, and how often memory is taken for a
// point; and a second table of the counts by series.
//
//	golang FILE..
package main

import (
	"bytes"
	"fmt"
	"os"
	"path/filepath"
	"runtime"
	"strings"
	"syscall"
	"time"
	"unsafe"

	"github.com/influxdata/influxdb/models"

	"yomskafi.example/lineprotocol/v3"
)

const rounds = 9

// The processor time of this process.
func now() time.Duration {
	var t syscall.Timespec
	syscall.Syscall(syscall.SYS_CLOCK_GETTIME, 2, uintptr(unsafe.Pointer(&t)), 0)
	return time.Duration(t.Nano())
}

var sum int

// Looks at each value of the lines of a decoder, and counts them.
func look(d *lineprotocol.Decoder) (lines int) {
	for d.Next() {
		name, err := d.Measurement()
		if err != nil {
			continue
		}
		lines++
		sum += len(name)
		for key, value, _ := d.NextTag(); key != nil; key, value, _ = d.NextTag() {
			sum += len(key) + len(value)
		}
		for key, value, _ := d.NextField(); key != nil; key, value, _ = d.NextField() {
			sum += len(key)
			switch value.Kind() {
			case lineprotocol.Int:
				sum += int(value.IntV())
			case lineprotocol.Float:
				sum += int(value.FloatV())
			case lineprotocol.String:
				sum += len(value.BytesV())
			}
		}
		at, _ := d.Time(lineprotocol.Nanosecond, time.Time{})
		sum += at.Nanosecond()
	}
	return lines
}

// The next whole lines of a text, of 64 KiB at most, and what comes after them.
func nextPart(text []byte) (part, rest []byte) {
	part = text
	if len(part) > 64<<10 {
		part = part[:64<<10]
		part = part[:bytes.LastIndexByte(part, '\n')+1]
	}
	return part, text[len(part):]
}

// Counts the lines of each series, by its key, and gives how many series there are.
func countSeries(d *lineprotocol.Decoder) int {
	counts, key := map[string]*int{}, []byte(nil)
	for d.Next() {
		var err error
		if key, err = d.AppendSeriesKey(key[:0]); err == nil {
			count(counts, key)
		}
	}
	return len(counts)
}

// The same by the points of ParsePoints, and their keys.
func countPoints(text []byte) int {
	counts := map[string]*int{}
	for len(text) > 0 {
		var part []byte
		part, text = nextPart(text)
		points, _ := models.ParsePointsWithPrecision(part, time.Time{}, "n")
		for _, point := range points {
			count(counts, point.Key())
		}
	}
	return len(counts)
}

func count(counts map[string]*int, key []byte) {
	if counted := counts[string(key)]; counted != nil {
		*counted++
	} else {
		one := 1
		counts[string(key)] = &one
	}
}

// The same as look by ParsePoints, which is given whole lines of 64 KiB at a time.
func parsePoints(text []byte) (lines int) {
	for len(text) > 0 {
		var part []byte
		part, text = nextPart(text)
		points, _ := models.ParsePointsWithPrecision(part, time.Time{}, "n")
		lines += len(points)
		for _, point := range points {
			sum += len(point.Name())
			for _, tag := range point.Tags() {
				sum += len(tag.Key) + len(tag.Value)
			}
			for it := point.FieldIterator(); it.Next(); {
				sum += len(it.FieldKey())
				switch it.Type() {
				case models.Integer:
					number, _ := it.IntegerValue()
					sum += int(number)
				case models.Float:
					number, _ := it.FloatValue()
					sum += int(number)
				case models.String:
					sum += len(it.StringValue())
				}
			}
			sum += point.Time().Nanosecond()
		}
	}
	return lines
}

// A line to write, for both.
type line struct {
	name   string
	tags   []tag
	fields []field
	at     time.Time
	// For NewPoint.
	tagSet   models.Tags
	fieldSet models.Fields
}

type tag struct{ key, value string }

type field struct {
	key   string
	value lineprotocol.Value
}

// The lines of a text.
func linesOf(text []byte) (lines []line) {
	d := lineprotocol.NewDecoderWithBytes(text)
	for d.Next() {
		name, err := d.Measurement()
		if err != nil {
			continue
		}
		one := line{name: string(name), fieldSet: models.Fields{}}
		tags := map[string]string{}
		for key, value, _ := d.NextTag(); key != nil; key, value, _ = d.NextTag() {
			one.tags = append(one.tags, tag{string(key), string(value)})
			tags[string(key)] = string(value)
		}
		for key, value, _ := d.NextField(); key != nil; key, value, _ = d.NextField() {
			copied, _ := lineprotocol.NewValue(value.Interface())
			one.fields = append(one.fields, field{string(key), copied})
			one.fieldSet[string(key)] = value.Interface()
		}
		one.tagSet = models.NewTags(tags)
		one.at, _ = d.Time(lineprotocol.Nanosecond, time.Unix(0, 0))
		lines = append(lines, one)
	}
	return lines
}

// Writes lines by an encoder, which gathers some of them, and then is emptied.
func write(e *lineprotocol.Encoder, lines []line) (bytes int) {
	for i := range lines {
		one := &lines[i]
		e.StartLine(one.name)
		for _, tag := range one.tags {
			e.AddTag(tag.key, tag.value)
		}
		for _, field := range one.fields {
			e.AddField(field.key, field.value)
		}
		e.EndLine(one.at)
		if i%1000 == 999 || i == len(lines)-1 {
			bytes += len(e.Bytes())
			e.Reset()
		}
	}
	return bytes
}

// The same by NewPoint and AppendString.
func writePoints(buf []byte, lines []line) (bytes int) {
	for i := range lines {
		one := &lines[i]
		point, err := models.NewPoint(one.name, one.tagSet, one.fieldSet, one.at)
		if err != nil {
			continue
		}
		buf = append(point.AppendString(buf), '\n')
		if i%1000 == 999 || i == len(lines)-1 {
			bytes += len(buf)
			buf = buf[:0]
		}
	}
	return bytes
}

// Lets each way have its turn, and gives the least time of each, what it gave, and how often memory was taken.
func turns(ways ...func() int) (best []time.Duration, gave []int, taken []float64) {
	best, gave, taken = make([]time.Duration, len(ways)), make([]int, len(ways)), make([]float64, len(ways))
	for round := 0; round <= rounds; round++ {
		for i, way := range ways {
			var before, after runtime.MemStats
			runtime.GC()
			runtime.ReadMemStats(&before)
			from := now()
			gave[i] = way()
			took := now() - from
			runtime.ReadMemStats(&after)
			taken[i] = float64(after.Mallocs - before.Mallocs)
			if round > 0 && (best[i] == 0 || took < best[i]) {
				best[i] = took
			}
		}
	}
	return best, gave, taken
}

func rate(bytes int, took time.Duration) float64 { return float64(bytes) / 1e6 / took.Seconds() }

func main() {
	fmt.Println("| corpus | read bytes | read a reader | ParsePoints | times | write | NewPoint | times | memory taken for a point |")
	fmt.Println("|---|---|---|---|---|---|---|---|---|")
	series := "| corpus | series | keys, counted | ParsePoints, counted | times |\n|---|---|---|---|---|\n"
	for _, place := range os.Args[1:] {
		text, err := os.ReadFile(place)
		if err != nil {
			fmt.Fprintln(os.Stderr, err)
			os.Exit(2)
		}
		decoder := lineprotocol.NewDecoderWithBytes(nil)
		best, _, taken := turns(
			func() int { decoder.ResetBytes(text); return look(decoder) },
			func() int { return look(lineprotocol.NewDecoder(bytes.NewReader(text))) },
			func() int { return parsePoints(text) },
		)
		lines := linesOf(text)
		var encoder lineprotocol.Encoder
		encoder.SetLax(true)
		buf := make([]byte, 0, 1<<20)
		wrote, sizes, _ := turns(
			func() int { return write(&encoder, lines) },
			func() int { return writePoints(buf, lines) },
		)
		if encoder.Err() != nil {
			fmt.Fprintln(os.Stderr, place, encoder.Err())
		}
		counted, found, _ := turns(
			func() int { decoder.ResetBytes(text); return countSeries(decoder) },
			func() int { return countPoints(text) },
		)
		name, points := strings.TrimSuffix(filepath.Base(place), ".lp"), float64(len(lines))
		fmt.Printf("| `%s` | %.0f | %.0f | %.0f | %.1f | %.0f | %.0f | %.1f | %.2f, %.2f |\n", name,
			rate(len(text), best[0]), rate(len(text), best[1]), rate(len(text), best[2]), float64(best[2])/float64(best[0]),
			rate(sizes[0], wrote[0]), rate(sizes[1], wrote[1]), rate(sizes[0], wrote[0])/rate(sizes[1], wrote[1]), taken[0]/points, taken[2]/points)
		series += fmt.Sprintf("| `%s` | %d, %d | %.0f | %.0f | %.1f |\n", name, found[0], found[1], rate(len(text), counted[0]),
			rate(len(text), counted[1]), float64(counted[1])/float64(counted[0]))
	}
	fmt.Print("\n", series)
}
