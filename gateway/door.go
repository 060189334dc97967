package main

import (
	"context"
	"errors"
	"net"
	"net/http"
	"sync"
	"time"
)

// What a body has in flight beside its bytes; the bytes that the header of a request can have, to which net/http adds 4096 by itself; how long a client
// is waited for.
const perRequest, mostHeader, mostWait = 256 << 10, 8 << 10, time.Minute

// A door bounds what clients take of memory: connections, and bytes of bodies. If there are too many, it is not the last client that goes.
type door struct {
	mu              sync.Mutex
	connections     map[net.Conn]time.Time // when the last body of each was whole or answered, or when it came
	mostConnections int
	coming          map[*body]bool // the bodies that are not whole yet
	bytes, most     int64          // of all bodies, in flight
}

// enter takes a connection. In its place that one goes on which nothing was done for longest.
func (d *door) enter(ctx context.Context, c net.Conn) context.Context {
	d.mu.Lock()
	defer d.mu.Unlock()
	d.connections[c] = time.Now()
	if oldest := c; len(d.connections) > d.mostConnections {
		for each, since := range d.connections {
			if since.Before(d.connections[oldest]) {
				oldest = each
			}
		}
		delete(d.connections, oldest)
		go oldest.Close() // with TLS this may wait
	}
	return context.WithValue(ctx, d, c)
}

// watch is told that a connection was closed, or that something was done on it.
func (d *door) watch(c net.Conn, state http.ConnState) {
	d.mu.Lock()
	defer d.mu.Unlock()
	if state == http.StateClosed {
		delete(d.connections, c)
	} else if _, ok := d.connections[c]; ok && state == http.StateIdle {
		d.connections[c] = time.Now()
	}
}

// state returns how many bytes are in flight, and how many connections are open.
func (d *door) state() (bytes int64, connections int) {
	d.mu.Lock()
	defer d.mu.Unlock()
	return d.bytes, len(d.connections)
}

var errTooLarge, errBusy = &problem{413, "Request Entity Too Large"}, errors.New("too many bytes are in flight")

// hold has more bytes of a body in flight. If these are too many, the body that has held most for longest is answered by 503, of those that are not
// whole: so a body that comes slowly keeps no others out.
func (d *door) hold(b *body, more int64) error {
	d.mu.Lock()
	defer d.mu.Unlock()
	if b.isAway {
		return errBusy
	}
	d.coming[b] = true
	d.bytes, b.held = d.bytes+more, b.held+more
	if b.held > d.most {
		return errTooLarge
	}
	for d.bytes > d.most && !b.isAway {
		worst, weight := b, 0.0
		for each := range d.coming {
			if its := float64(each.held) * time.Since(each.at).Seconds(); its > weight {
				worst, weight = each, its
			}
		}
		delete(d.coming, worst)
		d.bytes, worst.held, worst.isAway = d.bytes-worst.held, 0, true
		if worst.connection != nil {
			_ = worst.connection.SetReadDeadline(time.Unix(1, 0)) // it waits no longer for bytes
		}
	}
	if b.isAway {
		return errBusy
	}
	return nil
}

// settle says that a body is whole.
func (d *door) settle(b *body) error {
	if b.connection != nil {
		d.watch(b.connection, http.StateIdle)
	}
	d.mu.Lock()
	defer d.mu.Unlock()
	delete(d.coming, b)
	if b.isAway {
		return errBusy
	}
	return nil
}

// leave says that the bytes of a body are not needed any more.
func (d *door) leave(b *body) {
	d.mu.Lock()
	defer d.mu.Unlock()
	delete(d.coming, b)
	d.bytes -= b.held
	b.held = 0
}
