//go:build victoria

package beside

import (
	"flag"
	"strconv"

	"victoria"
	"yomskafi.example/lineprotocol/v3"
)

func init() {
	servers = append(servers, server{"VictoriaMetrics", lineprotocol.Victoria, unmarshaled, numbers})
	if err := flag.Set("loggerLevel", "PANIC"); err != nil {
		panic(err)
	}
}

// unmarshaled gives the points that the parser of VictoriaMetrics reads. A point without a time has the time 0 there.
func unmarshaled(text []byte) (points []*point) {
	var rows influx.Rows
	rows.Unmarshal(string(text))
	for _, row := range rows.Rows {
		p := &point{name: row.Measurement, at: row.Timestamp}
		for _, tag := range row.Tags {
			p.tags = append(p.tags, part{tag.Key, tag.Value})
		}
		for _, field := range row.Fields {
			p.fields = append(p.fields, part{field.Key, float(field.Value + 0)})
		}
		points = append(points, p)
	}
	return points
}

// numbers gives a point with the doubles of its values, 0 for -0, and any for a string.
func numbers(p *point) *point {
	kept := &point{name: p.name, tags: p.tags, at: p.at}
	if p.at == noTime {
		kept.at = 0
	}
	for _, field := range p.fields {
		kept.fields = append(kept.fields, part{field.key, double(field.value)})
	}
	return kept
}

func double(value string) string {
	last := len(value) - 1
	switch {
	case value[0] == '"':
		return "any"
	case value == "true":
		return "1"
	case value == "false":
		return "0"
	case value[last] == 'i':
		whole, _ := strconv.ParseInt(value[:last], 10, 64)
		return float(float64(whole))
	case value[last] == 'u':
		whole, _ := strconv.ParseUint(value[:last], 10, 64)
		return float(float64(whole))
	case value == "-0":
		return "0"
	}
	return value
}
