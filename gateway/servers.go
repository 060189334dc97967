package main

import (
	"bytes"
	"compress/gzip"
	"context"
	"encoding/json"
	"errors"
	"fmt"
	"io"
	"net/http"
	"net/url"
	"path/filepath"
	"strconv"
	"strings"
	"sync"
	"sync/atomic"
	"time"
)

// A server is where lines are stored. Each has a spool and senders of its own, so one that is away does not hold up the others.
type server struct {
	*gateway
	name    string // host and port, and the path if there is one: it is no secret
	write   string // the URL of /write, without parameters
	user    *url.Userinfo
	client  http.Client
	spool   *spool
	rate    rate
	pause   atomic.Int64 // until when it asked not to be called, in nanoseconds
	metrics serverMetrics
}

// newServer makes a server of its URL, and opens its spool.
func newServer(g *gateway, text string) (*server, error) {
	address, err := url.Parse(text)
	if err != nil || address.Host == "" || address.Scheme != "http" && address.Scheme != "https" {
		return nil, errors.New("--server: not a URL such as http://127.0.0.1:8086")
	}
	s := &server{gateway: g, user: address.User, rate: rate{most: g.options.rate}}
	address.User, address.RawQuery, address.Fragment = nil, "", ""
	s.write = strings.TrimRight(address.String(), "/") + "/write"
	s.name = strings.TrimRight(address.Host+address.Path, "/")
	s.client = http.Client{Timeout: g.options.timeout, CheckRedirect: func(*http.Request, []*http.Request) error { return http.ErrUseLastResponse },
		Transport: &http.Transport{MaxIdleConnsPerHost: 64, IdleConnTimeout: time.Minute, Proxy: http.ProxyFromEnvironment}}
	disk, err := openFolder(filepath.Join(g.options.spool, strings.NewReplacer("/", "_", ":", "_").Replace(s.name)))
	if err == nil {
		s.spool, err = openSpool(disk, g.options.maxSpool, g.options.senders)
	}
	return s, err
}

// A problem is an answer that is not 204: its status, and why.
type problem struct {
	code int
	text string
}

func (p *problem) Error() string { return p.text }

// statusOf returns the status by which an error is answered: that of a problem, or else 503.
func statusOf(err error) int {
	p := &problem{code: 503}
	errors.As(err, &p)
	return p.code
}

// post sends lines to the server. It returns a *problem if the server does not store them, or not all; any other error means that it cannot say so now,
// so the lines must be sent again.
func (s *server) post(ctx context.Context, to *target, lines []byte) error {
	began := time.Now()
	status, err := s.call(ctx, to, lines)
	s.metrics.answered(status, time.Since(began))
	return err
}

// call makes one call, and returns the status of its answer too, or 0.
func (s *server) call(ctx context.Context, to *target, lines []byte) (status int, err error) {
	body := lines
	if s.options.gzip {
		packed := packers.Get().(*packer)
		defer packers.Put(packed)
		body = packed.pack(lines)
	}
	request, _ := http.NewRequestWithContext(ctx, http.MethodPost, s.write+"?"+to.Query.Encode(), bytes.NewReader(body)) // a URL
	own := s.authorize(request, to)
	if s.options.gzip {
		request.Header.Set("Content-Encoding", "gzip")
	}
	response, err := s.client.Do(request)
	if err != nil { // what it wraps is told, without the address, which may have a password
		return 0, fmt.Errorf("%s does not answer: %w", s.name, errors.Unwrap(err))
	}
	defer response.Body.Close()
	text, _ := io.ReadAll(io.LimitReader(response.Body, 1<<20))
	said := struct{ Error string }{strings.TrimSpace(string(text))}
	_ = json.Unmarshal(text, &said) // or else it is the text as it is
	s.waitAsAsked(response.Header.Get("Retry-After"))
	switch code := response.StatusCode; {
	case code/100 == 2:
		return code, nil
	case own && (code == 401 || code == 403): // the credentials are the gateway's, so the lines are not to blame
	case code == 500 && said.Error != "timeout", code/100 == 4 && code != 408 && code != 429: // InfluxDB says so if it has too much to do
		return code, &problem{code, said.Error}
	}
	return response.StatusCode, fmt.Errorf("%s answers %s: %s", s.name, response.Status, said.Error)
}

// authorize sets the credentials of a request: those of the gateway for this server if there are any, or else those of the client. It tells whether
// they are the gateway's.
func (s *server) authorize(request *http.Request, to *target) (own bool) {
	request.Header = to.Header.Clone()
	if request.Header == nil {
		request.Header = http.Header{}
	}
	if word := s.secrets.Load().forServer(s.name); word != "" {
		request.Header.Set("Authorization", word)
		return true
	}
	if s.user != nil {
		password, _ := s.user.Password()
		request.SetBasicAuth(s.user.Username(), password)
		return true
	}
	return false
}

// waitAsAsked takes note of Retry-After: seconds or a date. More than an hour counts as an hour.
func (s *server) waitAsAsked(text string) {
	until := time.Time{}
	if seconds, err := strconv.Atoi(text); err == nil && seconds > 0 {
		if seconds > 3600 {
			seconds = 3600
		}
		until = time.Now().Add(time.Duration(seconds) * time.Second)
	} else if date, err := http.ParseTime(text); err == nil {
		if until = date; until.After(time.Now().Add(time.Hour)) {
			until = time.Now().Add(time.Hour)
		}
	}
	if !until.IsZero() {
		s.pause.Store(until.UnixNano())
	}
}

// A packer packs lines by gzip, in the memory that it has.
type packer struct {
	to bytes.Buffer
	w  *gzip.Writer
}

var packers = sync.Pool{New: func() any {
	w, _ := gzip.NewWriterLevel(nil, gzip.BestSpeed) // the level is right
	return &packer{w: w}
}}

// pack returns the packed lines, which stay as they are until the next call.
func (p *packer) pack(lines []byte) []byte {
	p.to.Reset()
	p.w.Reset(&p.to)
	_, _ = p.w.Write(lines) // memory does not fail
	_ = p.w.Close()
	return p.to.Bytes()
}

// A rate limits how many bytes go out in a second. Zero is no limit.
type rate struct {
	most int64
	mu   sync.Mutex
	next time.Time // when the bytes that were let out are over
}

// wait waits until bytes may go out, or until ctx ends.
func (r *rate) wait(ctx context.Context, bytes int) {
	if r.most <= 0 {
		return
	}
	r.mu.Lock()
	now := time.Now()
	if r.next.Before(now) {
		r.next = now
	}
	pause := r.next.Sub(now)
	r.next = r.next.Add(time.Duration(float64(bytes) / float64(r.most) * float64(time.Second)))
	r.mu.Unlock()
	sleep(ctx, pause)
}

// sleep waits for a time, or until ctx ends.
func sleep(ctx context.Context, pause time.Duration) {
	if pause <= 0 {
		return
	}
	timer := time.NewTimer(pause)
	defer timer.Stop()
	select {
	case <-ctx.Done():
	case <-timer.C:
	}
}

// How long a server may take for lines before they go to its spool.
var patience = time.Second

// store hands lines to the server, or to the spool if the server does not take them at once, or if lines that came before are still there. A call that
// goes on after that holds up the senders until it ends, so no line that came later is stored before it. `uses` counts who reads the lines.
// It takes the room that the spool reserved.
func (s *server) store(ctx context.Context, room int64, b *stored) error {
	kept := make(chan keeping, 1) // what becomes of the lines while the call goes on
	isDirect := !b.isSpooled && s.pause.Load() < time.Now().UnixNano() && s.spool.tryDirect()
	if isDirect {
		if told, err := s.storeDirect(ctx, b, kept); told && (err == nil || statusOf(err)/100 == 4) {
			kept <- keeping{}
			s.spool.release(room)
			return err
		}
	}
	entries, err := s.spool.put(room, b.to, b.at, b.lines)
	if err != nil {
		if isDirect {
			kept <- s.spool.orphan()
		}
		s.log.printf("%s: lines cannot be kept: %v", s.name, err)
		return fmt.Errorf("cannot keep the lines: %w", err)
	}
	s.metrics.spooled.Add(1)
	kept <- keeping{entries: entries}
	return nil
}

// storeDirect calls the server past the spool, and returns its answer if it comes soon enough. If the server takes the lines in the end, the spool
// forgets them.
func (s *server) storeDirect(ctx context.Context, b *stored, kept <-chan keeping) (told bool, err error) {
	answered := make(chan error, 1)
	b.hold()
	go func() {
		defer b.leave()
		err := s.post(context.Background(), b.to, b.lines)
		if err == nil {
			s.metrics.stored.Add(b.count)
		}
		answered <- err
		s.spool.endDirect(<-kept, err == nil)
	}()
	timer := time.NewTimer(patience)
	defer timer.Stop()
	select {
	case err := <-answered:
		return true, err
	case <-ctx.Done(): // the client is gone
	case <-timer.C:
	}
	return false, nil
}

// A stored text is lines that go to servers: each ends with a newline. `leave` is called once nobody reads them any more.
type stored struct {
	to    *target
	at    time.Time
	lines []byte
	count int64
	uses  atomic.Int32
	freed func()
	// They go to the spool in any case.
	isSpooled bool
}

func (b *stored) hold() { b.uses.Add(1) }

func (b *stored) leave() {
	if b.uses.Add(-1) == 0 && b.freed != nil {
		b.freed()
	}
}

// store hands lines to all servers. It reserves room in each spool first, so a full one refuses them before any server has them.
func (g *gateway) store(ctx context.Context, b *stored) error {
	rooms := make([]int64, len(g.servers))
	for n, s := range g.servers {
		room, err := s.spool.reserve(len(b.lines))
		if err != nil {
			for m, other := range g.servers[:n] {
				other.spool.release(rooms[m])
			}
			return fmt.Errorf("cannot keep the lines: %w", err)
		}
		rooms[n] = room
	}
	if len(g.servers) == 1 {
		return g.servers[0].store(ctx, rooms[0], b)
	}
	errs := make([]error, len(g.servers))
	var all sync.WaitGroup
	for n, s := range g.servers {
		all.Add(1)
		go func(n int, s *server) {
			defer all.Done()
			errs[n] = s.store(ctx, rooms[n], b)
		}(n, s)
	}
	all.Wait()
	for _, err := range errs {
		if err != nil && statusOf(err) == 503 {
			return err
		}
	}
	return firstOf(errs...)
}
