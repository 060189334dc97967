package main

import (
	"bufio"
	"bytes"
	"compress/gzip"
	"context"
	"crypto/sha256"
	"errors"
	"fmt"
	"hash"
	"io"
	"math"
	"net"
	"net/http"
	"net/url"
	"strconv"
	"strings"
	"time"

	"yomskafi.example/lineprotocol/v3"
)

// How many rejected lines an answer tells, and how many bytes of each.
const mostTold, mostShown = 20, 200

// The units of precisions, in nanoseconds.
var units = map[string]int64{"n": 1, "ns": 1, "u": 1e3, "us": 1e3, "ms": 1e6, "s": 1e9, "m": 60e9, "h": 3600e9}

// A body is that of a request, unpacked, or a batch of plain TCP, and what becomes of its lines.
type body struct {
	*gateway
	stored
	by         *listener
	connection net.Conn
	held, made int64 // what the door holds for it; the bytes among these that are not of its text
	isAway     bool  // the door does not hold it any more
	source     io.Reader
	size       int64
	unit       int64  // of its times, in nanoseconds
	letters    []byte // the rejected lines, as their file has them
	sum        hash.Hash
	items      int64
	rejections map[[2]string]int64 // how many lines were rejected, by kind and clause
	rejected   int
	texts      []string         // what is wrong with the first of them
	faults     []map[string]any // the same as objects
}

// newBody makes a body that came now.
func (g *gateway) newBody(by *listener, connection net.Conn) *body {
	b := &body{gateway: g, by: by, connection: connection}
	b.at, b.freed = time.Now().UTC(), func() { g.door.leave(b) }
	b.hold()
	return b
}

// open finds the target of a request, the unit of its times, and its text.
func (b *body) open(r *http.Request) (err error) {
	given, encoding := r.URL.Query(), r.Header.Get("Content-Encoding")
	if isV2(r) {
		db, rp, _ := strings.Cut(given.Get("bucket"), "/")
		given["db"], given["rp"] = []string{db}, []string{rp}
	}
	names := []string{"db", "rp", "consistency", "precision"}
	b.to = &target{url.Values{}, http.Header{}}
	if len(b.secrets.Load().clients) == 0 { // else the credentials are for the gateway, and no server sees them
		names = append(names, "u", "p")
		if word := r.Header["Authorization"]; word != nil {
			b.to.Header["Authorization"] = word
		}
	}
	for _, name := range names {
		if value := given.Get(name); value != "" {
			b.to.Query.Set(name, value)
		}
	}
	source := bufio.NewReader(r.Body)
	b.source = source
	switch {
	case r.Method != http.MethodPost:
		err = &problem{405, "lines come by POST"}
	case given.Get("db") == "":
		err = &problem{400, "database is required"}
	case !b.setPrecision(given.Get("precision")):
		err = &problem{400, fmt.Sprintf("invalid precision %q (use n, u, ms, s, m or h)", given.Get("precision"))}
	case r.ContentLength > b.options.maxBody:
		err = errTooLarge
	case encoding != "" && encoding != "identity" && encoding != "gzip":
		err = &problem{415, "Content-Encoding: " + encoding}
	default:
		_, _ = source.Peek(1) // it takes nothing before its first byte has come
		err = b.door.hold(b, perRequest)
	}
	if err == nil && encoding == "gzip" {
		if b.source, err = gzip.NewReader(source); err != nil {
			err = firstOf(b.door.hold(b, 0), &problem{400, "gzip: " + err.Error()})
		}
	}
	return err
}

// setPrecision sets the unit of the times: as the client says, or else as the listener does. It tells whether there is such a unit.
func (b *body) setPrecision(precision string) bool {
	if precision == "" {
		precision = b.by.precision
	}
	if precision == "" {
		precision = "n"
	}
	b.unit = units[precision]
	if precision == "us" { // InfluxDB 1.x knows no such unit, and would take the times for nanoseconds
		precision = "u"
	}
	b.to.Query.Set("precision", precision)
	return b.unit != 0
}

// Read reads the text of a body. Its bytes are in flight once they came.
func (b *body) Read(into []byte) (int, error) {
	n, err := b.source.Read(into)
	b.size += int64(n)
	switch held := b.door.hold(b, int64(n)); {
	case held != nil:
		err = held
	case b.size > b.options.maxBody:
		err = errTooLarge
	case err != nil && err != io.EOF:
		err = &problem{400, "the body cannot be read: " + err.Error()}
	}
	return n, err
}

// sort reads a body to its end. A line without a time gets that of its arrival: it is the same point whenever it goes.
func (b *body) sort() error {
	stamp := strconv.AppendInt([]byte{' '}, b.at.UnixNano()/b.unit, 10)
	limits := lineprotocol.DefaultLimits()
	limits.Earliest, limits.Line = (limits.Earliest+b.unit-1)/b.unit, limits.Line-len(stamp)
	d := b.decoders.Get().(*lineprotocol.Decoder)
	defer b.decoders.Put(d)
	defer d.Reset(nil)
	d.SetDialect(b.by.rules)
	d.Reset(b)
	d.SetLimits(limits)
	for d.Next() {
		b.items++
		if f := b.faultOf(d); f == nil {
			b.pass(d, stamp)
		} else if b.reject(d, f); int64(len(b.letters)) > b.options.maxBodyRejected && b.by.scheme != "tcp" {
			return errTooLarge
		}
		if more := int64(len(b.lines)+len(b.letters)) - b.size - b.made; more > 4096 { // times, and what is kept of rejected lines
			b.made += more
			if err := b.door.hold(b, more); err != nil {
				return err
			}
		}
	}
	return d.Err()
}

// faultOf tells why a line is rejected, or nil.
func (b *body) faultOf(d *lineprotocol.Decoder) *fault {
	if fault, done := b.wrongIn(d); done {
		return fault
	}
	verdict, err := d.Verdict()
	clause, broken := verdict.First(b.options.to)
	number, _ := d.Timestamp()
	switch {
	case err != nil:
		return &fault{Kind: "out_of_memory", Text: err.Error()}
	case verdict.Breaks(lineprotocol.ClauseNotALine): // it would take in the lines after it
		return &fault{Kind: "not_portable", Text: lineprotocol.ClauseNotALine.String(), clause: lineprotocol.ClauseNotALine.String()}
	case broken:
		return &fault{Kind: "not_portable", Text: "not portable: " + clause.String(), clause: clause.String()}
	case b.options.to != 0 && (number > (math.MaxInt64-1)/b.unit || number < (math.MinInt64+2)/b.unit):
		text := "the timestamp is out of range in this precision"
		return &fault{Kind: "not_portable", Text: "not portable: " + text, clause: text}
	}
	return nil
}

// wrongIn tells what is wrong with a text that is no line, or that begins with a byte order mark.
func (b *body) wrongIn(d *lineprotocol.Decoder) (f *fault, isWrong bool) {
	if d.Line() == 1 && bytes.HasPrefix(d.Raw(), []byte("\ufeff")) {
		return &fault{Kind: "byte_order_mark", Text: "the body begins with a byte order mark"}, true
	}
	wrong := d.Fault()
	if wrong == nil {
		return nil, false
	}
	f = &fault{Kind: string(wrong.Kind), Text: wrong.Err.Error(), StopLine: wrong.Line, StopColumn: wrong.Column}
	if wrong.Kind == lineprotocol.TooLong {
		f.StopLine, f.StopColumn, f.LongerThan = 0, 0, b.options.maxLine
	}
	return f, true
}

func (b *body) pass(d *lineprotocol.Decoder, stamp []byte) {
	b.count++
	b.lines = append(b.lines, d.Raw()...)
	if _, ok := d.Timestamp(); !ok {
		b.lines = append(b.lines, stamp...)
	}
	b.lines = append(b.lines, '\n')
}

func (b *body) reject(d *lineprotocol.Decoder, f *fault) {
	if b.rejections == nil {
		b.rejections, b.sum = map[[2]string]int64{}, sha256.New()
	}
	f.At, f.Item, f.Line, f.PieceLine = b.at, b.items, d.Line(), d.Line()
	b.rejections[[2]string{f.Kind, f.clause}]++
	if b.rejected++; b.rejected <= mostTold {
		b.texts = append(b.texts, fmt.Sprintf("line %d: unable to parse '%.*s': %s", d.Line(), mostShown, d.Raw(), f.Text))
		b.faults = append(b.faults, f.told())
	}
	fmt.Fprintf(b.sum, "%d %s\n", d.Line(), d.Raw())
	f.Text = cut(f.Text, 200)
	b.letters = f.appendLetter(b.letters, b.to, d.Raw())
}

// keepRejected has the rejected lines in their file, unless they are there since an earlier try of the same body that could not be kept.
func (b *body) keepRejected() error {
	if b.rejected == 0 {
		return nil
	}
	if !b.retries.take(b.key()) {
		if err := b.gateway.rejected.append(b.letters); err != nil {
			return fmt.Errorf("cannot keep the rejected lines: %w", err)
		}
		b.metrics.reject(b.rejections)
	}
	return nil
}

// key identifies the rejected lines of a body, and where they were to go.
func (b *body) key() (key [sha256.Size]byte) {
	return sha256.Sum256(b.sum.Sum([]byte(b.to.Query.Encode())))
}

// take reads the lines of a body, keeps the rejected ones, and sends the others on. Nil is answered by 204. The caller must call leave.
func (b *body) take(ctx context.Context) error {
	err := b.sort()
	if err == nil {
		err = b.door.settle(b)
	}
	if err == nil { // before the others are sent: if this fails, nothing went out
		err = b.keepRejected()
	}
	if err != nil {
		return err
	}
	b.metrics.bytes.Add(b.size)
	if len(b.lines) > 0 {
		err = b.gateway.store(ctx, &b.stored)
	}
	if err == nil || statusOf(err) != 503 {
		b.metrics.accepted.Add(b.count)
	} else if b.rejected > 0 {
		b.retries.add(b.key())
	}
	return b.outcome(err)
}

// A partly is the answer to a body of which lines were rejected, with what is wrong with the first of them.
type partly struct {
	problem
	faults []map[string]any
}

// outcome returns the answer to a body: what came of sending its good lines, and what is wrong with the others.
func (b *body) outcome(err error) error {
	if b.rejected == 0 || err != nil && statusOf(err) != 400 {
		return err
	}
	text := strings.Join(b.texts, "\n")
	if err != nil {
		text += "\n" + strings.TrimPrefix(err.Error(), "partial write: ")
	}
	if len(b.lines) > 0 {
		text = fmt.Sprintf("partial write: %s dropped=%d", text, b.rejected)
	}
	return &partly{problem{400, text}, b.faults}
}

// Unwrap returns the problem alone.
func (p *partly) Unwrap() error { return &p.problem }

// isV2 tells whether a request is of the API of InfluxDB 2.
func isV2(r *http.Request) bool { return strings.HasPrefix(r.URL.Path, "/api/v2/") }

// answer answers as InfluxDB does: 1.x, or 2 where the path is of its API.
func answer(w http.ResponseWriter, r *http.Request, err error) {
	w.Header().Set("X-Influxdb-Version", "lp_gateway")
	if err == nil {
		w.WriteHeader(204)
		return
	}
	code, said := statusOf(err), map[string]any{"error": err.Error()}
	if isV2(r) {
		word := strings.NewReplacer("bad request", "invalid", " entity", "", " server", "", "service ", "")
		said = map[string]any{"code": word.Replace(strings.ToLower(http.StatusText(code))), "message": err.Error()}
	}
	if some := (*partly)(nil); errors.As(err, &some) {
		said["faults"] = some.faults
	}
	switch code {
	case 401:
		w.Header().Set("WWW-Authenticate", `Basic realm="lp_gateway"`)
	case 503:
		w.Header().Set("Retry-After", "1")
	}
	w.Header().Set("Content-Type", "application/json")
	w.WriteHeader(code)
	_, _ = w.Write(append(appendJSON(nil, said), '\n')) // a client that is gone is not told
}
