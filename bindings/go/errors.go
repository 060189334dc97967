package lineprotocol

import "fmt"

// FaultKind is the kind of what is wrong with a line. Its names are those of `lp_relay --faults json`.
type FaultKind string

const (
	MeasurementValueInvalid FaultKind = "measurement_value_invalid"
	FieldSetMissing         FaultKind = "field_set_missing"
	IntegerValueInvalid     FaultKind = "integer_value_invalid"
	UintegerValueInvalid    FaultKind = "uinteger_value_invalid"
	TimestampValueInvalid   FaultKind = "timestamp_value_invalid"
	EndsWithBackslash       FaultKind = "ends_with_backslash"
	CannotParseEntireLine   FaultKind = "cannot_parse_entire_line"
	TagSetMalformed         FaultKind = "tag_set_malformed"
	GenericParsingError     FaultKind = "generic_parsing_error"
	NotUTF8                 FaultKind = "not_utf8"
	TooLong                 FaultKind = "too_long"
)

// The kinds at their numbers in the header, from 2 on.
var faultKinds = [...]FaultKind{
	2: MeasurementValueInvalid, FieldSetMissing, IntegerValueInvalid, UintegerValueInvalid, TimestampValueInvalid, EndsWithBackslash,
	CannotParseEntireLine, TagSetMalformed, GenericParsingError,
}

// A DecodeError says what is wrong with a line, and where reading it stopped. The other lines are read as ever.
type DecodeError struct {
	// Line is the line of the input in which reading stopped, from 1.
	Line int64
	// Column is the byte of that line at which it stopped, from 1: if the line is not UTF-8, the first byte that is not.
	Column int
	// Kind is what is wrong.
	Kind FaultKind
	// Err says it in words, which are those of the library.
	Err error
}

// Error gives the place and the words.
func (e *DecodeError) Error() string {
	return fmt.Sprintf("at line %d:%d: %s", e.Line, e.Column, e.Err)
}

// Unwrap gives the words alone.
func (e *DecodeError) Unwrap() error { return e.Err }

// Is tells whether the fault is this error: ErrValueOutOfRange, if a number is out of its range.
func (e *DecodeError) Is(target error) bool {
	switch e.Kind {
	case IntegerValueInvalid, UintegerValueInvalid, TimestampValueInvalid:
		return target == ErrValueOutOfRange
	}
	return false
}

// The words of a fault, which the library is asked for once they are read.
type faultText struct {
	piece   []byte
	dialect Dialect
}

func (f faultText) Error() string { return message(f.piece, f.dialect) }

// The words of a fault that are known.
type fixedText string

func (f fixedText) Error() string { return string(f) }

const (
	notUTF8 fixedText = "the line is not UTF-8"
	tooLong fixedText = "the line is too long"
)
