package main

import (
	"bytes"
	"context"
	"errors"
	"io"
	"net"
	"net/http"
	"net/url"
	"os"
	"sync"
	"time"
)

// serveLines takes lines over plain TCP, until the listener is closed and ctx ends. The group ends once all whole lines that came are kept, as far as
// this was possible.
func (g *gateway) serveLines(ctx context.Context, l *listener, opened net.Listener) *sync.WaitGroup {
	all := &sync.WaitGroup{}
	all.Add(1)
	go func() {
		defer all.Done()
		for {
			c, err := opened.Accept()
			if errors.Is(err, net.ErrClosed) {
				return
			} else if err != nil { // too many files are open, for example
				g.log.printf("tcp: %v", err)
				sleep(ctx, shortest)
				continue
			}
			g.door.enter(context.Background(), c)
			all.Add(1)
			go func() {
				defer all.Done()
				ended := make(chan struct{})
				go func() {
					select {
					case <-ctx.Done():
						_ = c.SetReadDeadline(time.Unix(1, 0))
					case <-ended:
					}
				}()
				(&feed{gateway: g, by: l, connection: c}).read(ctx)
				close(ended)
				g.door.watch(c, http.StateClosed)
				c.Close()
			}()
		}
	}()
	return all
}

// A feed is a connection of plain TCP, and the bytes of it that have no batch yet.
type feed struct {
	*gateway
	by         *listener
	connection net.Conn
	text       []byte
	whole      int // the bytes of whole lines
	lines      int // how many these are
	began      time.Time
	held       *body // these bytes, for the door
}

// read reads lines, in batches, until the connection or ctx ends. A batch ends by lines, by bytes or by time, or if too much is in flight. Nothing more
// is read while a batch is not kept.
func (f *feed) read(ctx context.Context) {
	part := make([]byte, 16<<10)
	f.held = f.newBody(f.by, f.connection)
	for isOver := false; !isOver; {
		until := time.Time{}
		if f.whole > 0 {
			until = f.began.Add(f.by.wait)
		}
		_ = f.connection.SetReadDeadline(until)
		if ctx.Err() != nil {
			_ = f.connection.SetReadDeadline(time.Unix(1, 0))
		}
		n, err := f.connection.Read(part)
		f.add(part[:n], f.options.maxLine)
		isOver = err != nil && (ctx.Err() != nil || !errors.Is(err, os.ErrDeadlineExceeded))
		if errors.Is(err, io.EOF) && len(f.text) > f.whole { // the last line may lack its newline
			f.whole, f.lines = len(f.text), f.lines+1
		}
		full := f.door.hold(f.held, int64(n))
		bytes, _ := f.door.state()
		isLate := time.Since(f.began) >= f.by.wait || bytes > f.options.maxInFlight/2
		if f.whole > 0 && (isOver || full != nil || isLate || f.lines >= f.by.lines || f.whole >= f.by.bytes) {
			f.end(ctx)
		} else if full != nil {
			f.log.printf("tcp: a connection is closed, since too many bytes are in flight")
			isOver = true
		}
	}
	f.door.leave(f.held)
}

// end ends a batch, and begins the next one.
func (f *feed) end(ctx context.Context) {
	f.door.leave(f.held)
	f.takeBatch(ctx, f.by, f.connection, f.text[:f.whole])
	f.text, f.whole, f.lines, f.began = append([]byte(nil), f.text[f.whole:]...), 0, 0, time.Now()
	f.held = f.newBody(f.by, f.connection)
	_ = f.door.hold(f.held, int64(len(f.text))) // if this fails, so does the next one
	f.door.watch(f.connection, http.StateIdle)
}

// add adds bytes. Of a line that is longer than `most` it keeps one byte more than that, so that the line is told as too long.
func (f *feed) add(part []byte, most int) {
	for len(part) > 0 {
		line, rest, isWhole := bytes.Cut(part, []byte{'\n'})
		part = rest
		if room := most + 1 - (len(f.text) - f.whole); len(line) > room {
			line = line[:room]
		}
		if len(f.text) == 0 {
			f.began = time.Now()
		}
		f.text = append(f.text, line...)
		if isWhole {
			f.text = append(f.text, '\n')
			f.whole, f.lines = len(f.text), f.lines+1
		}
	}
}

// takeBatch has a batch kept. It tries again, until ctx ends. The lines go to the spool in any case: nobody would hear what a server says of them.
func (g *gateway) takeBatch(ctx context.Context, l *listener, c net.Conn, text []byte) {
	for wait := shortest; ; wait *= 2 {
		b := g.newBody(l, c)
		b.isSpooled, b.to, b.source = true, &target{url.Values{}, http.Header{}}, bytes.NewReader(text)
		for name, values := range l.query {
			b.to.Query[name] = values
		}
		b.setPrecision("")
		err := b.take(context.Background())
		b.leave()
		isTaken := err == nil || statusOf(err) != 503
		g.metrics.tcp(isTaken)
		if isTaken {
			return
		}
		g.log.printf("tcp: a batch of %d bytes waits: %v", len(text), err)
		if ctx.Err() != nil {
			g.log.printf("tcp: a batch of %d bytes is lost, since the gateway ends", len(text))
			return
		}
		if wait > longest {
			wait = longest
		}
		sleep(ctx, wait)
	}
}
