package lineprotocol_test

import (
	"fmt"
	"io"
	"strings"
	"sync"
	"time"

	"yomskafi.example/lineprotocol/v3"
)

// [go_faults]

// Prints each line of r that can be read, and of each other where reading it stopped, and why.
func printLines(r io.Reader) error {
	d := lineprotocol.NewDecoder(r)
	d.SetDialect(lineprotocol.NewlineDelimited)
	for d.Next() {
		if fault := d.Fault(); fault != nil {
			fmt.Printf("line %d, column %d: %s: %q\n", fault.Line, fault.Column, fault.Err, d.Raw())
			continue
		}
		name, _ := d.Measurement()
		fmt.Printf("%s", name)
		for key, value, _ := d.NextTag(); key != nil; key, value, _ = d.NextTag() {
			fmt.Printf(",%s=%s", key, value)
		}
		for key, value, _ := d.NextField(); key != nil; key, value, _ = d.NextField() {
			fmt.Printf(" %s=%v", key, value)
		}
		fmt.Println()
	}
	return d.Err()
}

// [end]

func Example() {
	if err := printLines(strings.NewReader("cpu,host=a usage=0.5,n=2i 5\nm note=\"open\ndisk free=7u\n")); err != nil {
		fmt.Println(err)
	}
	// Output:
	// cpu,host=a usage=0.5 n=2i
	// line 2, column 8: No fields were provided: "m note=\"open"
	// disk free=7u
}

// [go_again]

var decoders = sync.Pool{New: func() any { return lineprotocol.NewDecoder(nil) }}

// Counts the lines of r that can be read. The memory of a decoder is used again by the next call.
func countLines(r io.Reader) (lines int, err error) {
	d := decoders.Get().(*lineprotocol.Decoder)
	defer decoders.Put(d)
	defer d.Reset(nil) // lets go of r
	for d.Reset(r); d.Next(); {
		if d.Fault() == nil {
			lines++
		}
	}
	return lines, d.Err()
}

// [end]

func ExampleDecoder_Reset() {
	for _, body := range []string{"cpu f=1i\nm 5\nmem f=2i", "disk f=3i\n"} {
		fmt.Println(countLines(strings.NewReader(body)))
	}
	// Output:
	// 2 <nil>
	// 1 <nil>
}

func ExampleDecoder() {
	// [go_reading]
	d := lineprotocol.NewDecoder(strings.NewReader("cpu,host=A usage=64i 5\nm 5\n"))
	for d.Next() {
		name, err := d.Measurement()
		fmt.Printf("%s %v\n", name, err)
	}
	// [end]

	// Output:
	// cpu <nil>
	//  at line 2:4: No fields were provided
}

func ExampleDecoder_AppendSeriesKey() {
	// [sums_in_go]
	d := lineprotocol.NewDecoder(strings.NewReader("cpu,host=a,az=b n=1i\ncpu,az=b,host=a n=2i\ncpu n=4i\n"))
	sums, series, err := map[string]int64{}, []byte(nil), error(nil)
	for d.Next() {
		if series, err = d.AppendSeriesKey(series[:0]); err != nil {
			fmt.Println(err)
			continue
		}
		for key, value, _ := d.NextField(); key != nil; key, value, _ = d.NextField() {
			if string(key) == "n" && value.Kind() == lineprotocol.Int {
				sums[string(series)] += value.IntV()
			}
		}
	}
	fmt.Println(sums, d.Err())
	// [end]

	// Output:
	// map[cpu:4 cpu,az=b,host=a:3] <nil>
}

func ExampleDecoder_TimeBytes() {
	d := lineprotocol.NewDecoder(strings.NewReader("cpu usage=64i 0005\ncpu usage=65i\n"))
	for d.Next() {
		number, err := d.TimeBytes()
		fmt.Printf("%q %v\n", number, err)
	}
	// Output:
	// "0005" <nil>
	// "" <nil>
}

func ExampleEncoder() {
	var e lineprotocol.Encoder
	e.SetPrecision(lineprotocol.Second)
	for _, host := range []string{"a", "b\\", "c d"} {
		e.StartLine("cpu")
		e.AddTag("host", host)
		e.AddField("n", lineprotocol.IntValue(2))
		e.EndLine(time.Unix(1590488773, 0))
	}
	fmt.Printf("%s%v\n", e.Bytes(), e.Err())
	// Output:
	// cpu,host=a n=2i 1590488773
	// cpu,host=c\ d n=2i 1590488773
	// line 2: lineprotocol: the line would not read back
}

func ExampleDecoder_Verdict() {
	// [portable_in_go]
	d := lineprotocol.NewDecoder(strings.NewReader("m f=1\nm f=1u\nm,a=x\\\\y f=1\nm f=1e3\n"))
	d.SetDialect(lineprotocol.NewlineDelimited)
	for d.Next() {
		verdict, err := d.Verdict()
		if clause, broken := verdict.First(lineprotocol.Influx1); broken {
			fmt.Printf("%s: %v %v\n", d.Raw(), clause, err)
		}
	}
	// [end]

	// Output:
	// m f=1u: a value is an unsigned integer <nil>
	// m,a=x\\y f=1: a backslash is escaped in a tag key or a tag value <nil>
}
