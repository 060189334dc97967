package main

import (
	"context"
	"crypto/tls"
	"errors"
	"fmt"
	"io"
	"log"
	"net"
	"net/http"
	"os"
	"path/filepath"
	"runtime/debug"
	"sync"
	"sync/atomic"
	"time"

	"yomskafi.example/lineprotocol/v3"
)

// A gateway takes lines from clients, and has them in the servers or on the disk before it says so.
type gateway struct {
	options     *options
	listeners   []*listener
	servers     []*server
	secrets     atomic.Pointer[secrets]
	certificate atomic.Pointer[tls.Certificate]
	decoders    sync.Pool // of *lineprotocol.Decoder
	door        door
	rejected    rejectedFile
	retries     retries
	metrics     metrics
	log         *logger
	checked     struct { // when /health looked at the disk, and what it found
		sync.Mutex
		at  time.Time
		err error
	}
}

// newGateway makes a gateway, and opens its spools and files. What cannot be read or written is told now.
func newGateway(o *options, said io.Writer) (*gateway, error) {
	g := &gateway{options: o, log: &logger{to: said}}
	g.door = door{connections: map[net.Conn]time.Time{}, mostConnections: o.maxConnections, coming: map[*body]bool{}, most: o.maxInFlight}
	g.rejected = rejectedFile{path: o.rejected, most: o.maxRejected, log: g.log}
	g.metrics = metrics{requests: map[int]int64{}, rejected: map[[2]string]int64{}}
	g.decoders.New = func() any {
		d := lineprotocol.NewDecoder(nil)
		d.SetMaxLine(o.maxLine)
		return d
	}
	if err := g.reload(); err != nil {
		return nil, err
	}
	for _, text := range o.listen {
		l, err := o.readListener(text)
		if err == nil && l.scheme == "tcp" && len(g.secrets.Load().clients) > 0 && !l.isOpen {
			err = fmt.Errorf("--listen %s: a tcp listener cannot ask for credentials, and clients have some: add open=yes to take lines of all", text)
		}
		if err != nil {
			return nil, err
		}
		g.listeners = append(g.listeners, l)
	}
	for _, text := range o.servers {
		s, err := newServer(g, text)
		if err != nil {
			return nil, err
		}
		g.servers = append(g.servers, s)
	}
	return g, g.rejected.open()
}

// reload reads the credentials and the certificate again. After an error both are as they were.
func (g *gateway) reload() error {
	known, err := readSecrets(g.options.secrets)
	if err != nil {
		return err
	}
	if g.options.certificate != "" {
		pair, err := tls.LoadX509KeyPair(g.options.certificate, g.options.key)
		if err != nil {
			return err
		}
		g.certificate.Store(&pair)
	}
	g.secrets.Store(known)
	return nil
}

// routes returns what answers the requests that come by a listener.
func (g *gateway) routes(by *listener) http.Handler {
	mux := http.NewServeMux()
	write := func(w http.ResponseWriter, r *http.Request) {
		connection, _ := r.Context().Value(&g.door).(net.Conn)
		b := g.newBody(by, connection)
		defer b.leave()
		err := g.admit(r)
		if err == nil {
			err = b.open(r)
		}
		if err == nil {
			err = b.take(r.Context())
		}
		code := 204
		if err != nil {
			code = statusOf(err)
		}
		g.metrics.request(code)
		answer(w, r, err)
	}
	mux.HandleFunc("/write", write)
	mux.HandleFunc("/api/v2/write", write)
	mux.HandleFunc("/ping", func(w http.ResponseWriter, r *http.Request) { answer(w, r, nil) })
	mux.HandleFunc("/health", g.serveHealth)
	mux.HandleFunc("/metrics", g.serveMetrics)
	mux.HandleFunc("/", func(w http.ResponseWriter, r *http.Request) { answer(w, r, &problem{404, "there is no " + r.URL.Path}) })
	return mux
}

// admit tells why a request is not let in.
func (g *gateway) admit(r *http.Request) error {
	if !g.secrets.Load().admits(r) {
		return &problem{401, "authorization failed"}
	}
	return nil
}

// serveHealth answers /health: 503 if lines could not be kept now.
func (g *gateway) serveHealth(w http.ResponseWriter, r *http.Request) {
	said := map[string]any{"name": "lp_gateway", "status": "pass"}
	code := 200
	if err := g.health(); err != nil {
		said, code = map[string]any{"name": "lp_gateway", "status": "fail", "message": err.Error()}, 503
	}
	w.Header().Set("Content-Type", "application/json")
	w.WriteHeader(code)
	_, _ = w.Write(append(appendJSON(nil, said), '\n'))
}

// health tells why lines could not be kept now: a spool is full, or its disk takes no file. It looks at the disk at most once a second.
func (g *gateway) health() error {
	for _, s := range g.servers {
		room, err := s.spool.reserve(1)
		if err != nil {
			return fmt.Errorf("%s: %w", s.name, err)
		}
		s.spool.release(room)
	}
	g.checked.Lock()
	defer g.checked.Unlock()
	if time.Since(g.checked.at) < time.Second {
		return g.checked.err
	}
	g.checked.at, g.checked.err = time.Now(), nil
	for _, s := range g.servers {
		const name = "health.check"
		err := s.spool.disk.Create(name, func(w io.Writer) error { _, err := w.Write(make([]byte, perFile)); return err })
		if err = firstOf(err, s.spool.disk.Remove(name)); err != nil {
			g.checked.err = fmt.Errorf("%s: the spool cannot be written: %w", s.name, err)
		}
	}
	return g.checked.err
}

// web returns the server of HTTP for a listener. A client has mostWait for a body, for the next one, and to read an answer.
func (g *gateway) web(l *listener) *http.Server {
	return &http.Server{Handler: g.routes(l), ConnContext: g.door.enter, ConnState: g.door.watch, MaxHeaderBytes: mostHeader - 4096,
		ReadHeaderTimeout: 10 * time.Second, ReadTimeout: mostWait, IdleTimeout: mostWait, WriteTimeout: 2*mostWait + g.options.timeout,
		ErrorLog: log.New(g.log, "", 0)}
}

// open begins to listen.
func (g *gateway) open(l *listener) (net.Listener, error) {
	switch l.scheme {
	case "unix":
		return l.openUnix()
	case "https":
		config := &tls.Config{MinVersion: tls.VersionTLS12, NextProtos: []string{"http/1.1"},
			GetCertificate: func(*tls.ClientHelloInfo) (*tls.Certificate, error) { return g.certificate.Load(), nil }}
		plain, err := net.Listen("tcp", l.address)
		if err != nil {
			return nil, err
		}
		return tls.NewListener(plain, config), nil
	}
	return net.Listen("tcp", l.address)
}

// openUnix listens at a socket, in the place of one that an ended run has left.
func (l *listener) openUnix() (net.Listener, error) {
	if info, err := os.Lstat(l.address); err == nil && info.Mode()&os.ModeSocket != 0 {
		if c, err := net.Dial("unix", l.address); err == nil {
			c.Close()
			return nil, fmt.Errorf("another process listens at %s", l.address)
		}
		os.Remove(l.address)
	}
	_ = os.MkdirAll(filepath.Dir(l.address), 0o755)
	opened, err := net.Listen("unix", l.address)
	if err == nil {
		err = os.Chmod(l.address, l.mode)
	}
	return opened, err
}

// run answers requests until ctx ends, and then those that have begun. Each value of `again` has the credentials and the certificate read again.
func (g *gateway) run(ctx context.Context, again <-chan os.Signal) error {
	debug.SetMemoryLimit(g.options.maxMemory)
	failed := make(chan error, len(g.listeners))
	ending, stop := context.WithCancel(context.Background())
	defer stop()
	var ended []func(context.Context) error
	for _, l := range g.listeners {
		opened, err := g.open(l)
		if err != nil {
			return err
		}
		g.log.printf("listening at %s://%s", l.scheme, opened.Addr())
		if l.scheme == "tcp" {
			taken := g.serveLines(ending, l, opened)
			ended = append(ended, func(context.Context) error { opened.Close(); stop(); taken.Wait(); return nil })
			continue
		}
		web := g.web(l)
		ended = append(ended, web.Shutdown)
		go func() {
			if err := web.Serve(opened); !errors.Is(err, http.ErrServerClosed) {
				failed <- err
			}
		}()
	}
	sending := g.send(ctx)
	for {
		select {
		case <-again:
			if err := g.reload(); err != nil {
				g.log.printf("nothing is read again: %v", err)
				continue
			}
			g.log.printf("the credentials and the certificate are read again")
		case err := <-failed:
			return err
		case <-ctx.Done():
			err := g.end(ended)
			sending.Wait()
			return err
		}
	}
}

// send starts the senders, which end with ctx.
func (g *gateway) send(ctx context.Context) *sync.WaitGroup {
	all := &sync.WaitGroup{}
	for _, s := range g.servers {
		for n := 0; n < g.options.senders; n++ {
			all.Add(1)
			go func(x *sender) { x.run(ctx); all.Done() }(newSender(s, n))
		}
	}
	return all
}

// end has what was begun answered.
func (g *gateway) end(ended []func(context.Context) error) (err error) {
	ctx, cancel := context.WithTimeout(context.Background(), mostWait+g.options.timeout)
	defer cancel()
	for _, each := range ended {
		err = firstOf(err, each(ctx))
	}
	return err
}
