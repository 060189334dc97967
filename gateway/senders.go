package main

import (
	"context"
	"errors"
	"fmt"
	"net/url"
	"strings"
	"time"
)

// The waits before the server is asked again; the bytes and the files that go to it together; how many calls, and for how long, find the lines of a
// body that the server refuses; the longest text by which the server is tried: InfluxDB 1.x takes strings of 64 KiB.
const (
	shortest, longest     = 100 * time.Millisecond, 10 * time.Second
	batchBytes, batchMost = 1 << 20, 64
	mostCalls, mostSearch = 500, 5 * time.Second
	mostProbe             = 60000
)

// A sender sends what some lanes of a spool hold, in order.
type sender struct {
	*server
	wake    <-chan struct{}
	of      laneSet
	letters []byte // what the file of rejected lines does not have yet
	calls   int    // to the server, for the body at hand
	until   time.Time
	// What a sender needs of the world; the simulation has others.
	ask  func(ctx context.Context, to *target, lines []byte) error
	keep func(letters []byte) error
}

// newSender returns the sender with this number, which has its share of the lanes.
func newSender(s *server, number int) *sender {
	low, high := number*lanes/s.options.senders, (number+1)*lanes/s.options.senders
	x := &sender{server: s, wake: s.spool.wake[number], of: (1<<high - 1) &^ (1<<low - 1)}
	x.ask = func(ctx context.Context, to *target, lines []byte) error {
		s.rate.wait(ctx, len(lines))
		return s.post(ctx, to, lines)
	}
	x.keep = s.rejected.appendReserved
	return x
}

// run sends lines until ctx ends.
func (x *sender) run(ctx context.Context) {
	for wait := shortest; ctx.Err() == nil; {
		if err := x.sendAll(ctx); err == nil {
			wait = shortest
			select {
			case <-ctx.Done():
			case <-x.wake:
			}
		} else {
			x.metrics.retries.Add(1)
			x.log.printf("%s: lines stay in the spool: %v", x.name, err)
			sleep(ctx, wait)
			if wait *= 2; wait > longest {
				wait = longest
			}
		}
		sleep(ctx, time.Until(time.Unix(0, x.pause.Load())))
	}
}

// sendAll sends the lines of all entries that are there. Those of a database that takes no lines now stay, and the others are sent. An entry that cannot
// be read holds up its database for a minute, and then itself alone.
func (x *sender) sendAll(ctx context.Context) (left error) {
	if err := x.spool.settle(x.of); err != nil {
		return fmt.Errorf("what was sent cannot be noted: %w", err)
	}
	isSick := map[string]bool{}
	unread := map[*entry]bool{}
	isBlocked := false // by an entry that waits, and may be of any database
	skips := func(e *entry) bool {
		isBlocked = isBlocked || e.to == nil && len(isSick) > 0 && !unread[e]
		return isBlocked || unread[e] || e.to != nil && isSick[e.to.db()]
	}
	for at, alone := 0, 0; ctx.Err() == nil; alone-- {
		most := batchMost
		if alone > 0 {
			most = 1
		}
		entries, next := x.spool.some(x.of, at, most, skips)
		if len(entries) == 0 {
			return left
		}
		b, err := x.read(entries)
		if b == nil {
			e := entries[0]
			switch left = err; {
			case x.spool.isLost(e):
				unread[e] = true
			case e.to == nil: // it may be of any database
				return err
			default:
				isSick[e.to.db()] = true
			}
			continue
		}
		switch err := x.sendBatch(ctx, b); {
		case errors.As(err, new(*problem)) && len(b.entries) > 1: // each body by itself, so that none is rejected for another one
			alone = len(b.entries) + 1
			continue
		case err != nil && statusOf(err) == 500:
			isSick[b.to.db()], left = true, err
			continue
		case err != nil:
			return err
		}
		if len(b.entries) == len(entries) {
			at = next
		}
	}
	return left
}

// A batch is the lines that some lanes have of entries of one target: they go to the server together.
type batch struct {
	entries []*entry
	to      *target
	text    []byte
	lines   int64
}

// read reads a batch: the first of these entries, and others if they are short. It returns nil if the first one cannot be read.
func (x *sender) read(entries []*entry) (*batch, error) {
	b := &batch{}
	for _, e := range entries {
		text, lines, err := x.spool.read(e, x.of)
		if b.entries == nil && err != nil {
			return nil, err
		} else if err != nil || b.entries != nil && (len(b.text)+len(text) > batchBytes || e.to != b.to) {
			break
		}
		if b.to = e.to; b.text == nil {
			b.text = text
		} else {
			b.text = append(b.text, text...)
		}
		b.entries, b.lines = append(b.entries, e), b.lines+lines
	}
	return b, nil
}

// sendBatch sends a batch, and notes it. Only of a single body it finds the lines that the server refuses.
func (x *sender) sendBatch(ctx context.Context, b *batch) (err error) {
	x.letters = nil
	switch {
	case len(b.text) == 0:
	case len(b.entries) > 1:
		if err = x.ask(ctx, b.to, b.text); err == nil {
			x.metrics.stored.Add(b.lines)
		}
	default:
		x.calls, x.until = 0, time.Now().Add(mostSearch)
		err = x.sendLines(ctx, b.to, b.text)
	}
	if err == nil {
		err = x.keepLetters()
	}
	if err == nil {
		err = x.spool.note(b.entries, x.of)
	}
	return err
}

// sendLines sends lines of a body. The lines that the server refuses are found by halves, as its answer does not name all of them, and are kept as
// rejected. After an error the body is sent again, and so are those behind it: no point is left with an older value.
func (x *sender) sendLines(ctx context.Context, to *target, lines []byte) error {
	x.calls++
	err := x.ask(ctx, to, lines)
	var said *problem
	if err == nil {
		_, count := middle(lines)
		x.metrics.stored.Add(int64(count))
	}
	if !errors.As(err, &said) {
		return err
	}
	at, count := middle(lines)
	isPartly := said.code == 400 && !strings.HasSuffix(said.text, fmt.Sprintf(" dropped=%d", count)) || said.code == 413 || said.code == 500
	if count > 1 && isPartly && x.calls <= mostCalls && time.Now().Before(x.until) {
		if err := x.sendLines(ctx, to, lines[:at]); err != nil {
			return err
		}
		return x.sendLines(ctx, to, lines[at:])
	}
	if said.code == 500 && !x.isWell(ctx, to, len(lines)) {
		return err
	}
	return x.reject(to, lines, said)
}

// middle returns how many lines a text has, and a place between two of them: before the line in which the middle of the text is, or after this line
// if it is the first. The place is the end of the text if there is one line alone.
func middle(text []byte) (at, lines int) {
	d := decoderOf(text)
	defer strictDecoders.Put(d)
	for end := 0; d.Next(); lines++ {
		if end += len(d.Raw()) + 1; at == 0 || end <= len(text)/2 {
			at = end
		}
	}
	return at, lines
}

// isWell tells a database that cannot take a line from one that takes nothing now, as the server answers 500 in both cases: by a line of the gateway's
// own, as long as that line, for the default policy. No line of a client is sent again for that.
func (x *sender) isWell(ctx context.Context, to *target, length int) bool {
	if length > mostProbe {
		length = mostProbe
	}
	x.calls++
	query := url.Values{}
	for name, values := range to.Query {
		query[name] = values
	}
	query.Set("precision", "h")
	query.Del("rp")
	probe := fmt.Sprintf("lp_gateway_probe text=%q %d\n", strings.Repeat("x", length), time.Now().Unix()/3600)
	return x.ask(ctx, &target{query, to.Header}, []byte(probe)) == nil
}

// reject keeps lines of the spool that the server refuses, as texts of at most batchBytes or one line.
func (x *sender) reject(to *target, lines []byte, said *problem) error {
	at, count := middle(lines)
	if count > 1 && len(lines) > batchBytes {
		if err := x.reject(to, lines[:at], said); err != nil {
			return err
		}
		return x.reject(to, lines[at:], said)
	}
	x.metrics.refused.Add(int64(count))
	f := fault{At: time.Now().UTC(), Server: x.name, Kind: "refused_by_server", Text: said.text, Status: said.code}
	x.letters = f.appendLetter(x.letters, to, lines[:len(lines)-1])
	if len(x.letters) > batchBytes {
		return x.keepLetters()
	}
	return nil
}

// keepLetters has the rejected lines in their file.
func (x *sender) keepLetters() error {
	if len(x.letters) == 0 {
		return nil
	}
	err := x.keep(x.letters)
	x.letters = nil
	return err
}
