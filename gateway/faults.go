package main

import (
	"bytes"
	"encoding/json"
	"fmt"
	"strconv"
	"time"
	"unicode/utf16"
	"unicode/utf8"
)

// A fault is why a line is rejected, in the members of an object of `lp_relay --faults json`, after members of the gateway's own.
type fault struct {
	At         time.Time `json:"at"`
	DB         string    `json:"db"`
	Policy     string    `json:"rp,omitempty"`
	Precision  string    `json:"precision"`
	Server     string    `json:"server,omitempty"`
	Status     int       `json:"status,omitempty"`
	Item       int64     `json:"item,omitempty"`
	Line       int64     `json:"line,omitempty"`
	PieceLine  int64     `json:"piece_line,omitempty"`
	Length     int       `json:"length,omitempty"`
	LongerThan int       `json:"longer_than,omitempty"`
	Kind       string    `json:"kind"`
	Text       string    `json:"text"`
	StopLine   int64     `json:"stop_line,omitempty"`
	StopColumn int       `json:"stop_column,omitempty"`
	clause     string    // of a line that is not portable
	// The line as it came: one of these.
	Piece            string `json:"piece,omitempty"`
	PieceBase64      []byte `json:"piece_base64,omitempty"`
	PieceStart       string `json:"piece_start,omitempty"`
	PieceStartBase64 []byte `json:"piece_start_base64,omitempty"`
}

// appendLetter appends a rejected line as the file of rejected lines has it: an object of JSON on a line, without credentials. Of a line that is too long
// it has the first bytes. Lines of the spool that the server refused for one reason come as one text.
func (f *fault) appendLetter(letters []byte, to *target, raw []byte) []byte {
	f.DB, f.Policy, f.Precision = to.db(), to.Query.Get("rp"), to.Query.Get("precision")
	isStart, isText := f.LongerThan > 0, utf8.Valid(raw)
	switch {
	case isStart && isText:
		f.PieceStart = string(raw)
	case isStart:
		f.PieceStartBase64 = raw
	case isText:
		f.Piece, f.Length = string(raw), len(raw)
	default:
		f.PieceBase64, f.Length = raw, len(raw)
	}
	return append(appendJSON(letters, f), '\n')
}

// told returns the fault as an answer has it: without the line, and what all lines of the body share.
func (f *fault) told() map[string]any {
	m := map[string]any{"item": f.Item, "line": f.Line, "kind": f.Kind, "text": f.Text}
	if f.StopLine > 0 {
		m["stop_line"], m["stop_column"] = f.StopLine, f.StopColumn
	}
	return m
}

// appendJSON appends a value as JSON on one line, with escapes for all that a terminal would not show as a letter: controls, marks of direction.
func appendJSON(out []byte, value any) []byte {
	var text bytes.Buffer
	encoder := json.NewEncoder(&text)
	encoder.SetEscapeHTML(false)
	_ = encoder.Encode(value) // texts, numbers and a time have no error
	return appendShown(out, bytes.TrimSuffix(text.Bytes(), []byte{'\n'}))
}

// appendShown appends a text with \u escapes for characters that are not printed.
func appendShown(out, text []byte) []byte {
	for len(text) > 0 {
		if c := text[0]; ' ' <= c && c < 0x7f {
			out, text = append(out, c), text[1:]
			continue
		}
		r, size := utf8.DecodeRune(text)
		if strconv.IsPrint(r) {
			out = append(out, text[:size]...)
		} else {
			for _, unit := range utf16.Encode([]rune{r}) {
				out = fmt.Appendf(out, "\\u%04x", unit)
			}
		}
		text = text[size:]
	}
	return out
}

// cut returns the first bytes of a text, up to the end of a character, and how long the text is if it is longer.
func cut(text string, most int) string {
	if len(text) <= most {
		return text
	}
	end := most
	for end > 0 && !utf8.RuneStart(text[end]) {
		end--
	}
	return fmt.Sprintf("%s.. [%d bytes]", text[:end], len(text))
}
