package lineprotocol

import (
	"errors"
	"math"
	"math/big"
	"math/rand"
	"strconv"
	"strings"
	"testing"
	"time"
)

// How many units after 1970 a time is, rounded down, and whether an int64 holds that; by numbers of any length.
func unitsOf(at time.Time, prec Precision) (units int64, ok bool) {
	nanos := new(big.Int).Mul(big.NewInt(at.Unix()), big.NewInt(1e9))
	nanos.Add(nanos, big.NewInt(int64(at.Nanosecond())))
	number := nanos.Div(nanos, big.NewInt(int64(prec.Duration()))) // rounds down, as the divisor is positive
	return number.Int64(), number.IsInt64()
}

// What an encoder makes of lines at these times: the number of each, or "" where the line is not written.
func writtenTimes(t *testing.T, prec Precision, times []time.Time) (e *Encoder, numbers []string) {
	e = new(Encoder)
	e.SetPrecision(prec)
	for _, at := range times {
		e.StartLine("m")
		e.AddField("f", IntValue(1))
		before := len(e.Bytes())
		e.EndLine(at)
		line := string(e.Bytes()[before:])
		if err := e.Err(); (err == nil) != (line != "") || err != nil && !(errors.Is(err, ErrTimeRange) && errors.Is(err, ErrValueOutOfRange)) {
			t.Fatalf("%v: %q, %v", at, line, err)
		}
		e.ClearErr()
		numbers = append(numbers, strings.TrimSuffix(strings.TrimPrefix(line, "m f=1i "), "\n"))
	}
	return e, numbers
}

// Each year has the number that package time gives, or is out of range of an int64 of nanoseconds.
func TestYears(t *testing.T) {
	var times []time.Time
	for year := 0; year <= 9999; year++ {
		times = append(times, time.Date(year, 7, 1, 23, 59, 59, 123456789, time.UTC), time.Date(year, 1, 1, 0, 0, 0, 1, time.UTC))
	}
	counts := map[Precision]func(time.Time) int64{
		Nanosecond: time.Time.UnixNano, Microsecond: time.Time.UnixMicro, Millisecond: time.Time.UnixMilli, Second: time.Time.Unix,
	}
	earliest, latest := time.Unix(0, math.MinInt64), time.Unix(0, math.MaxInt64)
	for prec, count := range counts {
		_, numbers := writtenTimes(t, prec, times)
		for i, at := range times {
			wanted := strconv.FormatInt(count(at), 10)
			if prec == Nanosecond && (at.Before(earliest) || at.After(latest)) {
				wanted = ""
			}
			if numbers[i] != wanted {
				t.Fatalf("%v in units of %v: %q, and not %q", at, prec.Duration(), numbers[i], wanted)
			}
		}
	}
}

// Times are rounded down, and those before 1970 too.
func TestTimesAreRoundedDown(t *testing.T) {
	times := []time.Time{time.Unix(0, -1), time.Unix(0, -5e8), time.Unix(-1, 0), time.Unix(-1, 1), time.Unix(0, 0), time.Unix(0, 1), time.Unix(0, 999999999), time.Unix(1590488773, 254420001)}
	for prec, wanted := range []string{
		"-1 -500000000 -1000000000 -999999999 0 1 999999999 1590488773254420001", "-1 -500000 -1000000 -1000000 0 0 999999 1590488773254420",
		"-1 -500 -1000 -1000 0 0 999 1590488773254", "-1 -1 -1 -1 0 0 0 1590488773",
	} {
		if _, numbers := writtenTimes(t, Precision(prec), times); strings.Join(numbers, " ") != wanted {
			t.Errorf("in units of %v: %q, and not %q", Precision(prec).Duration(), numbers, wanted)
		}
	}
}

// The first and the last time of each unit are written, and none beyond them.
func TestTimesAtBounds(t *testing.T) {
	for prec := Nanosecond; prec <= Second; prec++ {
		unit, inSecond := prec.Duration(), int64(time.Second/prec.Duration())
		first := time.Unix(math.MinInt64/inSecond, math.MinInt64%inSecond*int64(unit))
		last := time.Unix(math.MaxInt64/inSecond, math.MaxInt64%inSecond*int64(unit)+int64(unit)-1)
		times, wanted := []time.Time{first, last}, "-9223372036854775808 9223372036854775807"
		if prec != Second { // whose bounds are those of a time.Time
			times, wanted = append(times, first.Add(-1), last.Add(1)), wanted+"  "
		}
		if _, numbers := writtenTimes(t, prec, times); strings.Join(numbers, " ") != wanted {
			t.Errorf("in units of %v: %q, and not %q", unit, numbers, wanted)
		}
	}
}

// An error names the time, and the line is left out alone.
func TestTimeRangeIsTold(t *testing.T) {
	var e Encoder
	for _, year := range []int{2000, 3000, 2001} {
		e.StartLine("m")
		e.AddField("f", IntValue(1))
		e.EndLine(time.Date(year, 1, 1, 0, 0, 0, 0, time.UTC))
	}
	if got := string(e.Bytes()); got != "m f=1i 946684800000000000\nm f=1i 978307200000000000\n" {
		t.Errorf("%q", got)
	}
	var why *EncodeError
	if err := e.Err(); !errors.As(err, &why) || why.Line != 2 || !errors.Is(err, ErrTimeRange) || !strings.HasSuffix(err.Error(), ": 3000-01-01T00:00:00Z in units of 1ns") {
		t.Error(err)
	}
}

// Random times of all sizes are written as they are counted here, and read back as they were, but for what is smaller than the unit.
func TestTimesThereAndBack(t *testing.T) {
	const many = 25000
	r := rand.New(rand.NewSource(3))
	for prec := Nanosecond; prec <= Second; prec++ {
		var times []time.Time
		for len(times) < many {
			seconds := int64(r.Uint64()) >> r.Intn(64)
			times = append(times, time.Unix(seconds, r.Int63n(1e9)))
		}
		e, numbers := writtenTimes(t, prec, times)
		d, held := NewDecoderWithBytes(e.Bytes()), 0
		for i, at := range times {
			units, ok := unitsOf(at, prec)
			if !ok {
				if numbers[i] != "" {
					t.Fatalf("%v in units of %v is %q", at, prec.Duration(), numbers[i])
				}
				continue
			}
			if numbers[i] != strconv.FormatInt(units, 10) || !d.Next() {
				t.Fatalf("%v in units of %v is %q, and not %d", at, prec.Duration(), numbers[i], units)
			}
			back, err := d.Time(prec, time.Time{})
			_, isHeld := unitsOf(at, Nanosecond)
			unit := int(prec.Duration())
			if number, ok := d.Timestamp(); !ok || number != units {
				t.Fatalf("%v reads back as %d", at, number)
			}
			wanted := time.Unix(at.Unix(), int64(at.Nanosecond()/unit*unit))
			if isHeld && (err != nil || !back.Equal(wanted)) || !isHeld && err != ErrTimeRange && !back.Equal(wanted) {
				t.Fatalf("%v reads back as %v, %v, and not %v", at, back, err, wanted)
			}
			if isHeld {
				held++
			}
		}
		if d.Next() || held < many/4 {
			t.Errorf("in units of %v %d times are held", prec.Duration(), held)
		}
	}
}
