package main

import (
	"bufio"
	"bytes"
	"errors"
	"flag"
	"fmt"
	"io"
	"net/url"
	"os"
	"strings"
	"time"

	"yomskafi.example/lineprotocol/v3"
)

// Options are what the command line and the file of options say to `lp_gateway serve`.
type options struct {
	listen, servers           list
	spool, rejected           string
	secrets, certificate, key string
	dialect, portable         string
	maxSpool, maxRejected     int64
	maxBody, maxInFlight      int64
	maxBodyRejected           int64
	maxLine, maxConnections   int
	maxMemory                 int64
	senders                   int
	gzip                      bool
	rate                      int64
	timeout                   time.Duration
	to                        lineprotocol.Servers
	rules                     lineprotocol.Dialect
}

// A list is an option that can be given more than once.
type list []string

func (l *list) String() string         { return strings.Join(*l, " ") }
func (l *list) Set(value string) error { *l = append(*l, value); return nil }

var dialects = map[string]lineprotocol.Dialect{"strict": lineprotocol.Strict, "newline-delimited": lineprotocol.NewlineDelimited}
var portables = map[string]lineprotocol.Servers{"": 0, "influx1": lineprotocol.Influx1, "victoria": lineprotocol.Victoria, "all": lineprotocol.AllServers}

// flags returns the options of `serve` with their defaults.
func (o *options) flags(said io.Writer) *flag.FlagSet {
	f := flag.NewFlagSet("lp_gateway serve", flag.ContinueOnError)
	f.SetOutput(said)
	f.String("options", "", "read options from a `file`: a name and a value on each line")
	f.Var(&o.listen, "listen", "listen at a `URL`: http, https, unix or tcp; can be given more than once (default http://127.0.0.1:8087)")
	f.Var(&o.servers, "server", "send lines to the server at a `URL`; can be given more than once (default http://127.0.0.1:8086)")
	f.StringVar(&o.spool, "spool", "spool", "keep lines that a server does not take now in a `folder`")
	f.Int64Var(&o.maxSpool, "max-spool", 1<<30, "`bytes` of the disk that the spool of a server can take")
	f.StringVar(&o.rejected, "rejected", "rejected.jsonl", "append rejected lines to a `file`")
	f.Int64Var(&o.maxRejected, "max-rejected", 1<<30, "`bytes` that this file can have, with the one before it")
	f.StringVar(&o.secrets, "credentials", "", "read credentials of clients and for servers from a `file` that only its owner can read")
	f.StringVar(&o.certificate, "certificate", "", "`file` of the certificate of https listeners")
	f.StringVar(&o.key, "key", "", "`file` of the key of the certificate")
	f.StringVar(&o.dialect, "dialect", "strict", "read lines by these `rules`: strict or newline-delimited")
	f.StringVar(&o.portable, "portable", "", "reject lines that these `servers` read otherwise: influx1, victoria or all")
	f.IntVar(&o.maxLine, "max-line", 1<<20, "`bytes` that a line can have")
	f.Int64Var(&o.maxBody, "max-body", 25e6, "`bytes` that a body can have once it is unpacked")
	f.Int64Var(&o.maxBodyRejected, "max-body-rejected", 5e6, "`bytes` that the rejected lines of a body can take in their file")
	f.Int64Var(&o.maxInFlight, "max-in-flight", 64<<20, "`bytes` that all bodies at hand can have")
	f.IntVar(&o.maxConnections, "max-connections", 2000, "`number` of connections that can be open")
	f.Int64Var(&o.maxMemory, "max-memory", 160<<20, "`bytes` of memory from which on the program collects garbage eagerly")
	f.IntVar(&o.senders, "senders", 4, "`number` of calls that drain the spool of a server side by side: 1 to 16")
	f.BoolVar(&o.gzip, "gzip", false, "pack what goes to servers by gzip")
	f.Int64Var(&o.rate, "rate", 0, "`bytes` a second that the spool sends to a server at most (default: no limit)")
	f.DurationVar(&o.timeout, "timeout", 30*time.Second, "`time` that a server has for an answer")
	f.Usage = func() {
		fmt.Fprint(said, "usage: lp_gateway serve [--NAME VALUE]..\n\nEach option can also be a line `NAME VALUE` of the file of --options.\n\n")
		f.PrintDefaults()
	}
	return f
}

// parse reads options that come before, between or after other words, and returns the other words. Each word after -- is one.
func parse(f *flag.FlagSet, words []string) (others []string, err error) {
	for {
		if err = f.Parse(words); err != nil {
			return nil, err
		}
		rest := f.Args()
		if at := len(words) - len(rest); len(rest) == 0 || at > 0 && words[at-1] == "--" {
			return append(others, rest...), nil
		}
		others, words = append(others, rest[0]), rest[1:]
	}
}

// readOptions reads the words of a command line, after those of the file that they name. Lists have the values of both.
func readOptions(words []string, said io.Writer) (*options, error) {
	o := &options{}
	first := (&options{}).flags(io.Discard)
	_ = first.Parse(words) // the second time tells what is wrong
	if path := first.Lookup("options").Value.String(); path != "" {
		more, err := wordsOf(path)
		if err != nil {
			return nil, err
		}
		words = append(more, words...)
	}
	f := o.flags(said)
	if err := f.Parse(words); err != nil {
		return nil, err
	}
	if f.NArg() > 0 {
		return nil, fmt.Errorf("%q is not an option", f.Arg(0))
	}
	if o.listen == nil {
		o.listen = list{"http://127.0.0.1:8087"}
	}
	if o.servers == nil {
		o.servers = list{"http://127.0.0.1:8086"}
	}
	return o, o.check()
}

// wordsOf reads a file of options: on each line a name and a value. A line that begins with # is a comment.
func wordsOf(path string) (words []string, err error) {
	text, err := os.ReadFile(path)
	lines := bufio.NewScanner(bytes.NewReader(text))
	for lines.Scan() {
		line := strings.TrimSpace(lines.Text())
		if line == "" || line[0] == '#' {
			continue
		}
		name, value, _ := strings.Cut(line, " ")
		if name == "options" {
			return nil, errors.New("a file of options cannot name another one")
		}
		words = append(words, "--"+name+"="+strings.TrimSpace(value))
	}
	return words, firstOf(err, lines.Err())
}

// check tells the first option that has a wrong value.
func (o *options) check() error {
	var known, named bool
	o.to, known = portables[o.portable]
	o.rules, named = dialects[o.dialect]
	switch {
	case !named:
		return fmt.Errorf("--dialect is %q, and not strict or newline-delimited", o.dialect)
	case !known:
		return fmt.Errorf("--portable is %q, and not influx1, victoria or all", o.portable)
	case o.senders < 1 || o.senders > lanes:
		return fmt.Errorf("--senders is %d, and not 1 to %d", o.senders, lanes)
	case o.maxInFlight < o.maxBody+perRequest:
		return fmt.Errorf("--max-in-flight is %d, and one body of --max-body takes %d", o.maxInFlight, o.maxBody+perRequest)
	case o.maxRejected < 4*o.maxBodyRejected:
		return fmt.Errorf("--max-rejected is %d, and must be four times --max-body-rejected: %d", o.maxRejected, 4*o.maxBodyRejected)
	}
	return nil
}

// A listener is where clients come in, and how their lines are read if they do not say it.
type listener struct {
	scheme, address string
	precision       string
	rules           lineprotocol.Dialect
	mode            os.FileMode // of a Unix socket
	// Of plain TCP: where lines go, and when a batch ends.
	query      url.Values
	lines      int
	bytes      int
	wait       time.Duration
	isOpen     bool // takes lines though clients have credentials, which TCP cannot tell
	isLoopback bool
}

// readListener reads the URL of a listener.
func (o *options) readListener(text string) (*listener, error) {
	address, err := url.Parse(text)
	if err != nil {
		return nil, fmt.Errorf("--listen: %q is not a URL", text)
	}
	l := &listener{scheme: address.Scheme, address: address.Host, rules: o.rules, mode: 0o660, query: url.Values{},
		lines: 5000, bytes: 1 << 20, wait: time.Second}
	if l.scheme == "unix" {
		l.address = address.Path
	}
	given := address.Query()
	for name, values := range given {
		if err := l.set(name, values[0]); err != nil {
			return nil, fmt.Errorf("--listen %s: %w", text, err)
		}
	}
	switch {
	case l.scheme != "http" && l.scheme != "https" && l.scheme != "unix" && l.scheme != "tcp" || l.address == "":
		return nil, fmt.Errorf("--listen: %q does not begin with http://, https://, unix:/// or tcp:// and an address", text)
	case l.scheme == "https" && (o.certificate == "" || o.key == ""):
		return nil, errors.New("an https listener needs --certificate and --key")
	case l.scheme == "tcp" && l.query.Get("db") == "":
		return nil, fmt.Errorf("--listen %s: a tcp listener needs db=NAME", text)
	case l.scheme == "tcp" && given.Has("dialect") && l.rules != lineprotocol.NewlineDelimited:
		return nil, fmt.Errorf("--listen %s: over tcp each newline ends a line, so the dialect must be newline-delimited", text)
	}
	if l.scheme == "tcp" {
		l.rules = lineprotocol.NewlineDelimited
	}
	return l, nil
}

// set sets a parameter of the URL of a listener.
func (l *listener) set(name, value string) (err error) {
	known := true
	switch name {
	case "precision":
		l.precision = value
		known = units[value] != 0
	case "dialect":
		l.rules, known = dialects[value]
	case "mode":
		_, err = fmt.Sscanf(value, "%o", &l.mode)
	case "db", "rp":
		l.query.Set(name, value)
	case "lines":
		_, err = fmt.Sscan(value, &l.lines)
	case "bytes":
		_, err = fmt.Sscan(value, &l.bytes)
	case "seconds":
		var seconds float64
		_, err = fmt.Sscan(value, &seconds)
		l.wait = time.Duration(seconds * float64(time.Second))
	case "open":
		l.isOpen = value == "yes"
	default:
		return fmt.Errorf("%s is not a parameter", name)
	}
	if err != nil || !known || l.lines < 1 || l.bytes < 1 || l.wait <= 0 {
		return fmt.Errorf("%s cannot be %q", name, value)
	}
	return nil
}
