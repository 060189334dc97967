package lineprotocol

import (
	"bytes"
	"os"
	"testing"
)

// readFile lets a decoder read the file that LP_BENCH names, and looks at each line.
func readFile(b *testing.B, look func(*Decoder)) {
	place := os.Getenv("LP_BENCH")
	if place == "" {
		b.Skip("LP_BENCH names no file")
	}
	text, err := os.ReadFile(place)
	if err != nil {
		b.Fatal(err)
	}
	b.SetBytes(int64(len(text)))
	b.ReportAllocs()
	d := NewDecoderWithBytes(nil)
	for i := 0; i < b.N; i++ {
		for d.ResetBytes(text); d.Next(); {
			look(d)
		}
	}
}

var sum uint64

func look(d *Decoder) {
	name, _ := d.Measurement()
	sum += uint64(len(name))
	for key, value, _ := d.NextTag(); key != nil; key, value, _ = d.NextTag() {
		sum += uint64(len(key) + len(value))
	}
	for key, value, _ := d.NextField(); key != nil; key, value, _ = d.NextField() {
		sum += uint64(len(key)) + value.number
	}
	number, _ := d.Timestamp()
	sum += uint64(number)
}

// BenchmarkRead looks at each value.
func BenchmarkRead(b *testing.B) { readFile(b, look) }

// BenchmarkVerdicts asks for the verdict of each line.
func BenchmarkVerdicts(b *testing.B) {
	readFile(b, func(d *Decoder) {
		verdict, _ := d.Verdict()
		sum += uint64(verdict)
	})
}

// A line as a client writes it that sends each point by itself.
var oneLine = []byte("cpu,host=server01,region=eu usage=64i,idle=35.5 1590488773254420000\n")

// lineReaders are the ways to read one line: by a new decoder, from bytes and from a reader, and by one that is used again.
func lineReaders() map[string]func() *Decoder {
	r, used := bytes.NewReader(nil), NewDecoder(nil)
	return map[string]func() *Decoder{
		"bytes":  func() *Decoder { return NewDecoderWithBytes(oneLine) },
		"reader": func() *Decoder { r.Reset(oneLine); return NewDecoder(r) },
		"again":  func() *Decoder { r.Reset(oneLine); used.Reset(r); return used },
	}
}

// BenchmarkOneLine reads one line in each of these ways.
func BenchmarkOneLine(b *testing.B) {
	for name, decoder := range lineReaders() {
		b.Run(name, func(b *testing.B) {
			b.ReportAllocs()
			for i := 0; i < b.N; i++ {
				for d := decoder(); d.Next(); {
					look(d)
				}
			}
		})
	}
}
