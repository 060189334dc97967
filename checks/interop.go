// For checks/servers/interop.py: reads a text with the parser of InfluxDB 1.x, as its server does, and prints its points and its fault as
// JSON. A point without a timestamp has the time 1234567890.
package main

import (
	"encoding/json"
	"fmt"
	"io"
	"os"
	"time"

	"github.com/influxdata/influxdb/models"
)

type point struct {
	Name   string
	Tags   [][2]string
	Fields [][3]string
	Time   int64
}

// fields gives the key, the type and the value of each field.
func fields(read models.Point) [][3]string {
	found := [][3]string{}
	for next := read.FieldIterator(); next.Next(); {
		key := string(next.FieldKey())
		switch next.Type() {
		case models.Integer:
			value, err := next.IntegerValue()
			found = append(found, [3]string{key, "integer", said(value, err)})
		case models.Unsigned:
			value, err := next.UnsignedValue()
			found = append(found, [3]string{key, "unsigned", said(value, err)})
		case models.Float:
			value, err := next.FloatValue()
			found = append(found, [3]string{key, "float", said(value, err)})
		case models.Boolean:
			value, err := next.BooleanValue()
			found = append(found, [3]string{key, "boolean", said(value, err)})
		case models.String:
			found = append(found, [3]string{key, "string", next.StringValue()})
		}
	}
	return found
}

// said gives the text of a value, or why there is none.
func said(value interface{}, err error) string {
	if err != nil {
		return err.Error()
	}
	return fmt.Sprint(value)
}

func main() {
	text, err := io.ReadAll(os.Stdin)
	if err != nil {
		panic(err)
	}
	made := struct {
		Points []point
		Fault  string
	}{Points: []point{}}
	points, fault := models.ParsePointsWithPrecision(text, time.Unix(0, 1234567890), "ns")
	if fault != nil {
		made.Fault = fault.Error()
	}
	for _, read := range points {
		tags := [][2]string{}
		for _, tag := range read.Tags() {
			tags = append(tags, [2]string{string(tag.Key), string(tag.Value)})
		}
		made.Points = append(made.Points, point{string(read.Name()), tags, fields(read), read.UnixNano()})
	}
	if err := json.NewEncoder(os.Stdout).Encode(made); err != nil {
		panic(err)
	}
}
