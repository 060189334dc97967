package lineprotocol

import (
	"bytes"
	"errors"
	"fmt"
	"math"
	"strconv"
	"unicode/utf8"
)

// ValueKind is what a value is.
type ValueKind uint8

const (
	Unknown ValueKind = iota
	String
	Int
	Uint
	Float
	Bool
)

var kindNames = [...]string{"unknown", "string", "int", "uint", "float", "bool"}

// String gives the name of the kind.
func (k ValueKind) String() string {
	if int(k) < len(kindNames) {
		return kindNames[k]
	}
	return kindNames[Unknown]
}

// MarshalText gives the name of the kind. An unknown kind is an error.
func (k ValueKind) MarshalText() ([]byte, error) {
	if k == Unknown || int(k) >= len(kindNames) {
		return nil, errKind
	}
	return []byte(kindNames[k]), nil
}

// UnmarshalText takes the kind of this name.
func (k *ValueKind) UnmarshalText(name []byte) error {
	for kind := String; kind <= Bool; kind++ {
		if kindNames[kind] == string(name) {
			*k = kind
			return nil
		}
	}
	return errKind
}

var errKind = errors.New("lineprotocol: an unknown kind of value")

// Value is the value of a field. A string that was read is a view of the decoder's memory, until Next is called.
type Value struct {
	number uint64
	bytes  []byte
	kind   ValueKind
}

// NewValue makes a value of a Go value: int64, uint64, float64, bool, string or []byte, which is copied. False: it is of another type, a
// float that line protocol has no text for, or a string that is not UTF-8.
func NewValue(x interface{}) (Value, bool) {
	switch x := x.(type) {
	case int64:
		return IntValue(x), true
	case uint64:
		return UintValue(x), true
	case float64:
		return FloatValue(x)
	case bool:
		return BoolValue(x), true
	case string:
		return StringValue(x)
	case []byte:
		return StringValue(string(x))
	}
	return Value{}, false
}

// MustNewValue makes the same, and panics where NewValue gives false.
func MustNewValue(x interface{}) Value {
	v, ok := NewValue(x)
	if !ok {
		panic(fmt.Sprintf("lineprotocol: no value is made of %#v", x))
	}
	return v
}

// ErrValueOutOfRange is of a number that is out of the range of its kind. A DecodeError is it too where such a number is its fault.
var ErrValueOutOfRange = errors.New("lineprotocol: the number is out of range")

var errNotAValue = errors.New("lineprotocol: the bytes are no value of this kind")

// NewValueFromBytes makes a value of this kind from bytes as NextFieldBytes gives them: a number without the letter after it, or a string
// without quotes and escapes, which is not copied. It gives ErrValueOutOfRange where the number is too great or too small.
func NewValueFromBytes(kind ValueKind, data []byte) (v Value, err error) {
	v.kind = kind
	switch kind {
	case Int:
		var number int64
		number, err = strconv.ParseInt(string(data), 10, 64)
		v.number = uint64(number)
	case Uint:
		v.number, err = strconv.ParseUint(string(data), 10, 64)
	case Float:
		var number float64
		number, err = strconv.ParseFloat(string(data), 64)
		v.number = math.Float64bits(number)
		if err == nil && (math.IsNaN(number) || math.IsInf(number, 0)) {
			err = errNotAValue
		}
	case Bool:
		v.number, err = boolOf(data)
	case String:
		v.bytes = data
		if !utf8.Valid(data) {
			err = errNotAValue
		}
	default:
		err = errKind
	}
	if errors.Is(err, strconv.ErrRange) {
		err = ErrValueOutOfRange
	} else if err != nil && err != errKind {
		err = errNotAValue
	}
	if err != nil {
		v = Value{}
	}
	return v, err
}

func boolOf(data []byte) (uint64, error) {
	switch string(data) {
	case "t", "T", "true", "True", "TRUE":
		return 1, nil
	case "f", "F", "false", "False", "FALSE":
		return 0, nil
	}
	return 0, errNotAValue
}

// IntValue makes a signed integer.
func IntValue(x int64) Value { return Value{kind: Int, number: uint64(x)} }

// UintValue makes an unsigned integer.
func UintValue(x uint64) Value { return Value{kind: Uint, number: x} }

// FloatValue makes a float. False: line protocol has no text for it: a NaN or an infinity.
func FloatValue(x float64) (Value, bool) {
	return Value{kind: Float, number: math.Float64bits(x)}, !math.IsNaN(x) && !math.IsInf(x, 0)
}

// BoolValue makes a Boolean.
func BoolValue(x bool) Value {
	if x {
		return Value{kind: Bool, number: 1}
	}
	return Value{kind: Bool}
}

// StringValue makes a string. False: it is not UTF-8.
func StringValue(x string) (Value, bool) {
	return Value{kind: String, bytes: []byte(x)}, utf8.ValidString(x)
}

// Kind tells what the value is.
func (v Value) Kind() ValueKind { return v.kind }

// IntV gives a signed integer. It panics if the value is none, as the other methods of its kind do.
func (v Value) IntV() int64 { v.must(Int); return int64(v.number) }

// UintV gives an unsigned integer.
func (v Value) UintV() uint64 { v.must(Uint); return v.number }

// FloatV gives a float: the nearest one to what its literal says, or an infinity if that is too great.
func (v Value) FloatV() float64 { v.must(Float); return math.Float64frombits(v.number) }

// BoolV gives a Boolean.
func (v Value) BoolV() bool { v.must(Bool); return v.number != 0 }

// StringV gives a copy of a string.
func (v Value) StringV() string { v.must(String); return string(v.bytes) }

// BytesV gives the bytes of a string, which are not copied.
func (v Value) BytesV() []byte { v.must(String); return v.bytes }

func (v Value) must(kind ValueKind) {
	if v.kind != kind {
		panic(fmt.Sprintf("lineprotocol: a value is %s, and not %s", v.kind, kind))
	}
}

// Interface gives the value as a Go value: int64, uint64, float64, bool, string or nil.
func (v Value) Interface() interface{} {
	switch v.kind {
	case Int:
		return v.IntV()
	case Uint:
		return v.UintV()
	case Float:
		return v.FloatV()
	case Bool:
		return v.BoolV()
	case String:
		return v.StringV()
	}
	return nil
}

// Equal tells whether both are of one kind and have one number or text.
func (v Value) Equal(other Value) bool {
	return v.kind == other.kind && v.number == other.number && bytes.Equal(v.bytes, other.bytes)
}

// String gives the value as line protocol has it.
func (v Value) String() string { return string(v.AppendBytes(nil)) }

// AppendBytes appends the value as line protocol has it: a string within quotes and with escapes, an integer with its letter.
func (v Value) AppendBytes(dst []byte) []byte {
	switch v.kind {
	case Int:
		return append(v.appendNumber(dst), 'i')
	case Uint:
		return append(v.appendNumber(dst), 'u')
	case String:
		dst = append(dst, '"')
		for _, char := range v.bytes {
			if char == '"' || char == '\\' {
				dst = append(dst, '\\')
			}
			dst = append(dst, char)
		}
		return append(dst, '"')
	}
	return v.appendNumber(dst)
}

// appendNumber appends a value that is no string, without the letter of an integer.
func (v Value) appendNumber(dst []byte) []byte {
	switch v.kind {
	case Int:
		return strconv.AppendInt(dst, v.IntV(), 10)
	case Uint:
		return strconv.AppendUint(dst, v.UintV(), 10)
	case Float:
		return strconv.AppendFloat(dst, v.FloatV(), 'g', -1, 64)
	case Bool:
		return strconv.AppendBool(dst, v.BoolV())
	}
	return append(dst, kindNames[Unknown]...)
}
