package main

import (
	"bytes"
	"compress/gzip"
	"context"
	"encoding/json"
	"fmt"
	"io"
	"net"
	"net/http"
	"net/http/httptest"
	"os"
	"path/filepath"
	"regexp"
	"strings"
	"sync"
	"testing"
	"time"

	"yomskafi.example/lineprotocol/v3"
)

// A stub is in the place of the server. It keeps what it takes, in order, but for the gateway's own line; it does not take lines with `conflict`
// or `panic`, as InfluxDB does not; while it is away, or sick, it takes nothing; `answers` has the status that bodies with a text are answered
// by; and it may ask for credentials.
type stub struct {
	*httptest.Server
	mu         sync.Mutex
	got        []string
	asked      []*http.Request
	away, sick bool
	answers    map[string]int
	password   string
	text       string // of these answers
	isPacked   bool   // bodies must be packed
}

func newStub(t *testing.T) *stub {
	s := &stub{}
	s.Server = httptest.NewServer(http.HandlerFunc(s.serve))
	t.Cleanup(s.Close)
	return s
}

func (s *stub) serve(w http.ResponseWriter, r *http.Request) {
	s.mu.Lock()
	defer s.mu.Unlock()
	text, _ := io.ReadAll(r.Body)
	if r.Header.Get("Content-Encoding") == "gzip" {
		text = unpack(text)
	} else if s.isPacked {
		text = []byte("not packed")
	}
	s.asked = append(s.asked, r)
	for part, code := range s.answers {
		if bytes.Contains(text, []byte(part)) {
			w.WriteHeader(code)
			fmt.Fprint(w, s.text)
			return
		}
	}
	switch {
	case s.password != "" && r.Header.Get("Authorization") != s.password && r.URL.Query().Get("p") != s.password:
		w.WriteHeader(401)
	case s.away:
		w.WriteHeader(503)
	case s.sick, bytes.Contains(text, []byte("panic")):
		w.WriteHeader(500)
	case r.URL.Query().Get("db") == "nowhere":
		w.WriteHeader(404)
		fmt.Fprint(w, `{"error":"database not found"}`)
	case bytes.Contains(text, []byte("conflict")):
		w.WriteHeader(400)
		fmt.Fprintf(w, `{"error":"partial write: field type conflict dropped=%d"}`, bytes.Count(text, []byte("conflict")))
	default:
		if !bytes.HasPrefix(text, []byte("lp_gateway_probe ")) {
			s.got = append(s.got, string(text))
		}
		w.WriteHeader(204)
	}
}

func (s *stub) set(away, sick bool) {
	s.mu.Lock()
	defer s.mu.Unlock()
	s.away, s.sick = away, sick
}

// answer has bodies with one of these texts answered by this status, and all others as ever.
func (s *stub) answer(code int, parts ...string) {
	s.mu.Lock()
	defer s.mu.Unlock()
	s.answers = map[string]int{}
	for _, part := range parts {
		s.answers[part] = code
	}
}

// times gives how often the stub was asked.
func (s *stub) times() int {
	s.mu.Lock()
	defer s.mu.Unlock()
	return len(s.asked)
}

// taken gives the lines that the stub took.
func (s *stub) taken() string {
	s.mu.Lock()
	defer s.mu.Unlock()
	return strings.Join(s.got, "")
}

// begin makes a gateway before a stub, of which nothing runs.
func begin(t *testing.T, s *stub, dir string, words ...string) (*gateway, error) {
	// A later word is for an earlier one.
	words = append([]string{"--server", s.URL + "/", "--rejected", filepath.Join(dir, "rejected"), "--spool", filepath.Join(dir, "spool")}, words...)
	o, err := readOptions(words, io.Discard)
	if err != nil {
		return nil, err
	}
	return newGateway(o, &logged)
}

// logged has what gateways log.
var logged safeBuffer

type safeBuffer struct {
	mu   sync.Mutex
	text bytes.Buffer
}

func (b *safeBuffer) Write(text []byte) (int, error) {
	b.mu.Lock()
	defer b.mu.Unlock()
	return b.text.Write(text)
}

// Reset forgets the text.
func (b *safeBuffer) Reset() {
	b.mu.Lock()
	defer b.mu.Unlock()
	b.text.Reset()
}

func (b *safeBuffer) String() string {
	b.mu.Lock()
	defer b.mu.Unlock()
	return b.text.String()
}

// start makes a gateway before a stub. It ends with the test, or before that.
func start(t *testing.T, s *stub, dir string, words ...string) (address string, end func()) {
	g, address, end := startAll(t, s, dir, words...)
	_ = g
	return address, end
}

func startAll(t *testing.T, s *stub, dir string, words ...string) (g *gateway, address string, end func()) {
	g, err := begin(t, s, dir, words...)
	if err != nil {
		t.Fatal(err)
	}
	ctx, cancel := context.WithCancel(context.Background())
	server := httptest.NewUnstartedServer(nil)
	server.Config = g.web(g.listeners[0])
	server.Start()
	sending := g.send(ctx)
	var once sync.Once
	end = func() {
		once.Do(func() {
			server.Close()
			cancel()
			sending.Wait()
			for _, each := range g.servers {
				each.spool.disk.(*folder).lock.Close()
			}
		})
	}
	t.Cleanup(end)
	return g, server.URL, end
}

// post gives the status of an answer, and its text.
func post(t *testing.T, address, body string, header ...string) string {
	request, err := http.NewRequest("POST", address, strings.NewReader(body))
	if err != nil {
		t.Fatal(err)
	}
	for _, each := range header {
		name, value, _ := strings.Cut(each, ": ")
		request.Header.Set(name, value)
	}
	response, err := http.DefaultClient.Do(request)
	if err != nil {
		t.Fatal(err)
	}
	defer response.Body.Close()
	text, err := io.ReadAll(response.Body)
	if err != nil {
		t.Fatal(err)
	}
	said := strings.TrimSpace(fmt.Sprint(response.StatusCode, " ", string(text)))
	return faultsOf.ReplaceAllString(said, "")
}

// The faults of an answer as objects: TestFaults has them.
var faultsOf = regexp.MustCompile(`"faults":.*?\}\],|,"faults":.*?\}\]`)

// get gives the text of an answer.
func get(t *testing.T, address string) string {
	response, err := http.Get(address)
	if err != nil {
		t.Fatal(err)
	}
	defer response.Body.Close()
	text, err := io.ReadAll(response.Body)
	if err != nil {
		t.Fatal(err)
	}
	return string(text)
}

// fault gives what the module says of a line.
func faultText(line string) string { return faultIn(lineprotocol.Crate, line) }

func faultIn(dialect lineprotocol.Dialect, line string) string {
	d := lineprotocol.NewDecoderWithBytes([]byte(line))
	d.SetDialect(dialect)
	d.Next()
	return d.Fault().Err.Error()
}

// unstamped drops the times of arrival.
func unstamped(text string) string { return arrivals.ReplaceAllString(text, "\n") }

var arrivals = regexp.MustCompile(` [0-9]{19}\n`)

func want(t *testing.T, what, got, wanted string) {
	t.Helper()
	if got != wanted {
		t.Errorf("%s: got\n%s\nwant\n%s", what, got, wanted)
	}
}

// refused gives the raw lines of the file of refused lines.
func rejected(t *testing.T, folder string) (all []string) {
	text, err := os.ReadFile(filepath.Join(folder, "rejected"))
	if err != nil {
		t.Fatal(err)
	}
	for _, line := range strings.SplitAfter(string(text), "\n") {
		var letter struct {
			Piece string
			Start string `json:"piece_start"`
			Bytes []byte `json:"piece_base64"`
		}
		if line != "" && json.Unmarshal([]byte(line), &letter) != nil || letter.Piece+letter.Start == "" && letter.Bytes == nil && line != "" {
			all = append(all, "no letter: "+line)
		} else if line != "" {
			all = append(all, letter.Piece+letter.Start+string(letter.Bytes))
		}
	}
	return all
}

func wait(t *testing.T, what string, condition func() bool) {
	for end := time.Now().Add(time.Minute); !condition(); time.Sleep(5 * time.Millisecond) {
		if time.Now().After(end) {
			t.Fatalf("not in time: %s", what)
		}
	}
}

func pack(text string) string {
	var packed bytes.Buffer
	w := gzip.NewWriter(&packed)
	io.WriteString(w, text)
	w.Close()
	return packed.String()
}

func TestAnswers(t *testing.T) {
	s, folder := newStub(t), t.TempDir()
	address, _ := start(t, s, folder, "--max-body", "1000", "--max-line", "100", "--max-body-rejected", "2500")
	write := address + "/write?db=x"
	long := "m s=\"" + strings.Repeat("x", 100) + `"`
	for _, row := range []struct{ body, answer string }{
		{"m f=1\n", ""},
		{"", ""},
		{"# it's \"\n\nm f=2", ""},
		{"m f=3\nm f=\nm s=\"a\nb\" 3\n", "partial write: line 2: unable to parse 'm f=': " + faultText("m f=") + " dropped=1"},
		{"m f=1\r\n", "line 1: unable to parse 'm f=1\r': " + faultText("m f=1\r")},
		{"\xff f=1", "line 1: unable to parse '\xff f=1': " + faultText("\xff")},
		{long, "line 1: unable to parse '" + long[:100] + "': the line is too long"},
		{"m f=4\n m=\" f=5", "partial write: line 2: unable to parse ' m=\" f=5': what is there is not one line for the strict reader dropped=1"},
		{"m f=\"open\nm f=6", "line 1: unable to parse 'm f=\"open\nm f=6': " + faultText("m f=\"")},
		{"\ufeffm f=9\nm f=9", "partial write: line 1: unable to parse '\ufeffm f=9': the body begins with a byte order mark dropped=1"},
		{"m f=7i,", "line 1: unable to parse 'm f=7i,': " + faultIn(lineprotocol.Strict, "m f=7i,")},
		{"# a=\"\nm f=8\n", ""},
		{"m conflict=1", "partial write: field type conflict dropped=1"},
		{"m f=\nm conflict=1", "partial write: line 1: unable to parse 'm f=': " + faultText("m f=") + "\nfield type conflict dropped=1 dropped=1"},
	} {
		wanted := "204"
		if row.answer != "" {
			wanted = "400 " + string(appendJSON(nil, map[string]string{"error": row.answer}))
		}
		want(t, fmt.Sprintf("%.40q", row.body), post(t, write, row.body), wanted)
	}
	want(t, "a body too large", post(t, write, strings.Repeat("m f=1\n", 200)), `413 {"error":"Request Entity Too Large"}`)
	want(t, "too much to keep", post(t, write, strings.Repeat("m\n", 100)), `413 {"error":"Request Entity Too Large"}`)
	want(t, "what goes on", unstamped(s.taken()), "m f=1\nm f=2\nm f=3\nm s=\"a\nb\" 3\nm f=4\nm f=9\nm f=8\n")
	want(t, "what is kept", fmt.Sprintf("%q", rejected(t, folder)), fmt.Sprintf("%q", []string{"m f=", "m f=1\r", "\xff f=1", long[:100], " m=\" f=5", "m f=\"open\nm f=6", "\ufeffm f=9", "m f=7i,", "m f="}))
}

// A quote that a line leaves open takes in no other line by the rules that end a line at each newline.
func TestDialect(t *testing.T) {
	s, folder := newStub(t), t.TempDir()
	address, _ := start(t, s, folder, "--dialect", "newline-delimited")
	want(t, "an open quote", post(t, address+"/write?db=x", "m f=\"open\nm f=6\nm f=7i,"),
		`400 {"error":"partial write: line 1: unable to parse 'm f=\"open': `+faultText("m f=\"")+
			`\nline 3: unable to parse 'm f=7i,': `+faultIn(lineprotocol.NewlineDelimited, "m f=7i,")+` dropped=2"}`)
	want(t, "what goes on", unstamped(s.taken()), "m f=6\n")
	_, err := begin(t, s, t.TempDir(), "--dialect", "crate")
	want(t, "another one", fmt.Sprint(err), `--dialect is "crate", and not strict or newline-delimited`)
}

func TestTargets(t *testing.T) {
	s, folder := newStub(t), t.TempDir()
	address, _ := start(t, s, folder, "--max-body", "1000")
	for _, row := range []struct{ path, header, answer, query string }{
		{"/write?db=x&rp=y&u=me&p=a+b&precision=us&q=1", "Authorization: Basic abc", "204", "db=x&p=a+b&precision=u&rp=y&u=me"},
		{"/api/v2/write?bucket=x/y&org=o&precision=s", "Authorization: Token a:b", "204", "db=x&precision=s&rp=y"},
		{"/write?db=nowhere", "A: b", `404 {"error":"database not found"}`, "db=nowhere&precision=n"},
	} {
		want(t, row.path, post(t, address+row.path, "m f=1", row.header), row.answer)
		asked := s.asked[len(s.asked)-1]
		want(t, "what is asked", asked.URL.Path+" "+asked.URL.Query().Encode(), "/write "+row.query)
		_, given, _ := strings.Cut(row.header, "Authorization: ")
		want(t, "the credentials", asked.Header.Get("Authorization"), given)
	}
	asked := len(s.asked)
	for _, row := range []struct{ path, body, header, answer string }{
		{"/write", "", "A: b", `400 {"error":"database is required"}`},
		{"/write?db=x&precision=d", "", "A: b", `400 {"error":"invalid precision \"d\" (use n, u, ms, s, m or h)"}`},
		{"/api/v2/write?bucket=x", "m", "A: b", `400 {"code":"invalid","message":"line 1: unable to parse 'm': ` + faultText("m") + `"}`},
		{"/api/v2/write?bucket=x", pack(strings.Repeat("m", 1001)), "Content-Encoding: gzip", `413 {"code":"request too large","message":"Request Entity Too Large"}`},
		{"/write?db=x", pack("m f=1")[:20], "Content-Encoding: gzip", `400 {"error":"the body cannot be read: unexpected EOF"}`},
		{"/write?db=x", "m f=1", "Content-Encoding: gzip", `400 {"error":"gzip: unexpected EOF"}`},
		{"/write?db=x", "m f=1", "Content-Encoding: br", `415 {"error":"Content-Encoding: br"}`},
		{"/query", "", "A: b", `404 {"error":"there is no /query"}`},
		{"/ping", "", "A: b", "204"},
	} {
		want(t, row.path, post(t, address+row.path, row.body, row.header), row.answer)
	}
	want(t, "gzip", post(t, address+"/write?db=x", pack("m f=1"), "Content-Encoding: gzip"), "204")
	want(t, "how often the server is asked", fmt.Sprint(len(s.asked)-asked), "1")
}

// What is not portable is refused, also by the time that it has in its precision.
func TestPortable(t *testing.T) {
	s, folder := newStub(t), t.TempDir()
	address, _ := start(t, s, folder, "--portable", "all", "--spool", filepath.Join(folder, "spool"))
	for _, row := range []struct{ precision, line, why string }{
		{"n", "m f=1,f=t", "two fields have one key"},
		{"n", "m f=1 999999", "the timestamp is before or after what is kept"},
		{"n", "m f=1 1000000", ""},
		{"u", "m f=1 999", "the timestamp is before or after what is kept"},
		{"u", "m f=1 1000", ""},
		{"s", "m f=1 0", "the timestamp is before or after what is kept"},
		{"s", "m f=1 9223372036", ""},
		{"s", "m f=1 9223372037", "the timestamp is out of range in this precision"},
		{"h", "m f=1 2562048", "the timestamp is out of range in this precision"},
	} {
		answer := "204"
		if row.why != "" {
			answer = fmt.Sprintf("400 {\"error\":\"line 1: unable to parse '%s': not portable: %s\"}", row.line, row.why)
		}
		want(t, row.precision+" "+row.line, post(t, address+"/write?db=x&precision="+row.precision, row.line), answer)
	}
}

// The spool keeps order over a restart, and what the server refuses of it is found.
func TestSpool(t *testing.T) {
	s, folder := newStub(t), t.TempDir()
	spool := filepath.Join(folder, "spool")
	s.set(true, false)
	address, end := start(t, s, folder, "--spool", spool)
	var wanted, poisons []string
	for n := 0; n < 20; n++ {
		before, after := fmt.Sprintf("m f=%d %d\n", n, n), fmt.Sprintf("m g=%d %d\n", n, n)
		poison := []string{"m panic=1 1", "m conflict=1 1", "m s=\"a\nconflict\" 1"}[n%3]
		want(t, "a body", post(t, address+"/write?db=x&p=secret", before+poison+"\n"+after), "204")
		wanted, poisons = append(wanted, before, after), append(poisons, poison)
	}
	want(t, "of another database", post(t, address+"/write?db=nowhere", "m f=1 1\nm f=2 2"), "204")
	want(t, "without a time", post(t, address+"/write?db=x&precision=h", "m f=1"), "204")
	wanted, poisons = append(wanted, fmt.Sprintf("m f=1 %d\n", time.Now().Unix()/3600)), append(poisons, "m f=1 1\nm f=2 2")
	end()
	if err := os.WriteFile(filepath.Join(spool, strings.NewReplacer("http://", "", ":", "_").Replace(s.URL), "00000000000000000000.part"), []byte("{}\nm f="), 0o600); err != nil {
		t.Fatal(err)
	}
	start(t, s, folder, "--spool", spool)
	s.set(false, true) // it answers 500 to all, and no line is to be blamed
	time.Sleep(100 * time.Millisecond)
	want(t, "what is refused of a sick server", fmt.Sprint(rejected(t, folder)), "[]")
	s.set(false, false)
	wait(t, "the spool is empty", func() bool { return inSpool(spool) == 0 })
	parts, _ := filepath.Glob(filepath.Join(spool, "*", "*.part"))
	want(t, "what was not finished", fmt.Sprint(parts), "[]")
	var came []string // each line once: some are sent again
	for _, line := range strings.SplitAfter(s.taken(), "\n") {
		if !strings.Contains(strings.Join(came, ""), line) {
			came = append(came, line)
		}
	}
	want(t, "what the server has", strings.Join(came, ""), strings.Join(wanted, ""))
	want(t, "what is refused", fmt.Sprintf("%q", rejected(t, folder)), fmt.Sprintf("%q", poisons))
	if text, _ := os.ReadFile(filepath.Join(folder, "rejected")); bytes.Contains(text, []byte("secret")) {
		t.Error("a password is kept with a refused line")
	}
}

// inSpool gives how many bodies are in a spool.
func inSpool(folder string) int {
	files, _ := filepath.Glob(filepath.Join(folder, "*", "*.batch"))
	return len(files)
}

// To tell a line that the server cannot take from a sick server, it is sent a line of the gateway's own, and no other line once more.
func TestProbe(t *testing.T) {
	s, folder := newStub(t), t.TempDir()
	spool := filepath.Join(folder, "spool")
	address, _ := start(t, s, folder, "--spool", spool)
	s.set(true, false)
	want(t, "a point, and its next value", post(t, address+"/write?db=x", "m f=1 5\nm f=2 5"), "204")
	panics := "m panic=\"" + strings.Repeat("x", 99) + "\" 6"
	want(t, "a line that the server cannot take", post(t, address+"/write?db=x&precision=s", panics), "204")
	s.set(false, false)
	wait(t, "the spool is empty", func() bool { return inSpool(spool) == 0 })
	want(t, "what the server has", s.taken(), "m f=1 5\nm f=2 5\n")
	want(t, "what is refused", fmt.Sprintf("%q", rejected(t, folder)), fmt.Sprintf("%q", []string{panics}))
	asked := s.asked[len(s.asked)-1]
	want(t, "the last call", fmt.Sprint(asked.URL.Query().Encode(), " ", asked.ContentLength > int64(len(panics))), "db=x&precision=h true")
}

// While a server answers 500 to all of a database, no line goes before one that came earlier: it would leave an older value in the end.
func TestSick(t *testing.T) {
	s, folder := newStub(t), t.TempDir()
	spool := filepath.Join(folder, "spool")
	address, _ := start(t, s, folder, "--spool", spool)
	s.answer(500, "f=1 ", "lp_gateway_probe")
	want(t, "a line for which the server fails", post(t, address+"/write?db=x", "m f=1 5"), "204")
	want(t, "the next value of the point", post(t, address+"/write?db=x&u=other", "m f=2 5"), "204")
	want(t, "a line of another database", post(t, address+"/write?db=y", "m f=3 5"), "204")
	wait(t, "what the server has", func() bool { return s.taken() == "m f=3 5\n" })
	asked := s.times()
	wait(t, "the server is asked again", func() bool { return s.times() > asked+2 })
	s.answer(500)
	wait(t, "the spool is empty", func() bool { return inSpool(spool) == 0 })
	want(t, "what the server has then", s.taken(), "m f=3 5\nm f=1 5\nm f=2 5\n")
	want(t, "what is refused", fmt.Sprint(rejected(t, folder)), "[]")
}

// Lines that the server refuses hold back no others for more than mostCalls calls, and those that it had to make then.
func TestManyRefused(t *testing.T) {
	s, folder := newStub(t), t.TempDir()
	spool := filepath.Join(folder, "spool")
	address, _ := start(t, s, folder, "--spool", spool)
	s.set(true, false)
	all, some := strings.Repeat("m conflict=1 1\n", 20000), strings.Repeat("m conflict=1 2\nm f=1 2\n", 2000)
	for _, body := range []string{all, some, "m f=3 3\n"} {
		want(t, "a body", post(t, address+"/write?db=x", body), "204")
	}
	asked := s.times()
	s.set(false, false)
	wait(t, "the spool is empty", func() bool { return inSpool(spool) == 0 })
	if more := s.times() - asked; more < mostCalls || more > mostCalls+50 {
		t.Errorf("the server was asked %d times", more)
	}
	text := strings.Join(rejected(t, folder), "\n")
	want(t, "lines that are refused", fmt.Sprint(strings.Count(text, "conflict=1 1"), " ", strings.Count(text, "conflict=1 2")), "20000 2000")
	stored := strings.Count(s.taken(), "m f=1 2\n")
	if stored == 0 || stored+strings.Count(text, "m f=1 2") != 2000 || !strings.HasSuffix(s.taken(), "m f=3 3\n") || strings.Contains(text, "m f=3") {
		t.Errorf("%d lines of 2000 are stored, and the last is %q", stored, s.taken()[len(s.taken())-10:])
	}
}

// Of a server that takes lines and does not answer the clients hear nothing but 204, and the lines come in order, each once.
func TestHangs(t *testing.T) {
	s, folder := newStub(t), t.TempDir()
	spool := filepath.Join(folder, "spool")
	address, _ := start(t, s, folder, "--spool", spool)
	s.mu.Lock()
	began := time.Now()
	want(t, "a client that waits", post(t, address+"/write?db=x", "m f=1 5"), "204")
	want(t, "it is answered after a second", fmt.Sprint(time.Since(began).Round(time.Minute), inSpool(spool)), "0s 1")
	want(t, "the next value", post(t, address+"/write?db=x", "m f=2 5"), "204")
	want(t, "what the spool has", fmt.Sprint(inSpool(spool)), "2")
	time.Sleep(3 * shortest) // for a sender that would not wait
	s.mu.Unlock()
	wait(t, "the spool is empty", func() bool { return inSpool(spool) == 0 })
	want(t, "what the server has", s.taken(), "m f=1 5\nm f=2 5\n")
}

// What a client sends that gives up is kept at once.
func TestGone(t *testing.T) {
	had := patience
	t.Cleanup(func() { patience = had }) // once the server has ended
	patience = time.Hour
	s, folder := newStub(t), t.TempDir()
	spool := filepath.Join(folder, "spool")
	address, _ := start(t, s, folder, "--spool", spool)
	s.mu.Lock()
	ctx, cancel := context.WithTimeout(context.Background(), shortest)
	defer cancel()
	request, _ := http.NewRequestWithContext(ctx, "POST", address+"/write?db=x", strings.NewReader("m f=1 5"))
	_, err := http.DefaultClient.Do(request)
	want(t, "it gives up", fmt.Sprint(err != nil), "true")
	wait(t, "its line is kept", func() bool { return inSpool(spool) == 1 })
	s.mu.Unlock()
	wait(t, "the server has it", func() bool { return inSpool(spool) == 0 && s.taken() == "m f=1 5\n" })
}

// raw opens a connection, and sends a text.
func raw(t *testing.T, address, text string) net.Conn {
	connection, err := net.Dial("tcp", strings.TrimPrefix(address, "http://"))
	if err != nil {
		t.Fatal(err)
	}
	t.Cleanup(func() { connection.Close() })
	io.WriteString(connection, text)
	return connection
}

// Connections on which nothing is done, and bodies that come slowly, keep no client out: each that is too many goes, the oldest or largest first.
func TestDoor(t *testing.T) {
	s, folder := newStub(t), t.TempDir()
	address, _ := start(t, s, folder, "--max-connections", "10", "--max-body", "100000", "--max-in-flight", "600000", "--spool", filepath.Join(folder, "spool"))
	const head = "POST /write?db=x HTTP/1.1\r\nHost: x\r\nContent-Length: 90000\r\n"
	for _, row := range []struct {
		what, text string
		count      int
		wanted     string
	}{
		{"connections", "", 30, ""},
		{"headers that do not end", head, 30, ""},
		{"bodies that do not begin", head + "\r\n", 30, ""},
		{"bodies that do not end", head + "\r\n" + strings.Repeat("#\n", 40000), 3, "HTTP/1.1 503"},
		{"a header too long", head + "A: " + strings.Repeat("a", mostHeader), 1, "HTTP/1.1 431"},
	} {
		var all []net.Conn
		for n := 0; n < row.count; n++ {
			all = append(all, raw(t, address, row.text))
			time.Sleep(5 * time.Millisecond)
		}
		began := time.Now()
		want(t, "a client beside "+row.what, post(t, address+"/write?db=x", "m f=1 1"), "204")
		want(t, "it is answered soon", fmt.Sprint(time.Since(began) < time.Second), "true")
		var connections int
		_, told, _ := strings.Cut(get(t, address+"/metrics"), "lp_gateway_connections ")
		if fmt.Sscan(told, &connections); connections > 10 {
			t.Errorf("%s: %d are open", row.what, connections)
		}
		told = ""
		for _, each := range all {
			each.SetReadDeadline(time.Now().Add(100 * time.Millisecond))
			answer, _ := io.ReadAll(each)
			told += string(answer)
			each.Close()
		}
		if row.wanted == "" && told != "" || !strings.HasPrefix(told, row.wanted) {
			t.Errorf("%s: they are answered %.100q", row.what, told)
		}
	}
	wait(t, "nothing is in flight", func() bool { return strings.Contains(get(t, address+"/metrics"), "in_flight_bytes 0\n") })
	s.mu.Lock() // bodies that are whole stay in flight
	go http.Post(address+"/write?db=x", "", strings.NewReader("m f=2 2\n"+strings.Repeat("#\n", 45000)))
	wait(t, "a body is whole", func() bool {
		return strings.Contains(get(t, address+"/metrics"), fmt.Sprint("in_flight_bytes ", perRequest+90008))
	})
	want(t, "a body beside it", post(t, address+"/write?db=x", strings.Repeat("#\n", 45000)), `503 {"error":"too many bytes are in flight"}`)
	s.mu.Unlock()
	wait(t, "nothing is in flight again", func() bool { return strings.Contains(get(t, address+"/metrics"), "in_flight_bytes 0\n") })
	// Each line gets a time of 20 bytes.
	want(t, "many short lines", post(t, address+"/write?db=x", pack(strings.Repeat("m f=1\n", 16000)), "Content-Encoding: gzip"), `413 {"error":"Request Entity Too Large"}`)
}

// The file of refused lines has a limit, and lines that came last.
func TestMostRefused(t *testing.T) {
	s, folder := newStub(t), t.TempDir()
	address, _ := start(t, s, folder, "--max-body-rejected", "1000", "--max-rejected", "4000")
	for n := 0; n < 100; n++ {
		post(t, address+"/write?db=x", fmt.Sprintf("x%d", n))
	}
	first, _ := os.ReadFile(filepath.Join(folder, "rejected.1"))
	last, _ := os.ReadFile(filepath.Join(folder, "rejected"))
	if len(first) > 2000 || len(first) < 1800 || len(last) > 2000 || !strings.HasSuffix(string(last), "\"piece\":\"x99\"}\n") {
		t.Errorf("the files have %d and %d bytes, and end with %.200q", len(first), len(last), last)
	}
	lines := strings.Count(string(first)+string(last), "\"piece\":\"x")
	want(t, "the oldest that is kept", fmt.Sprint(strings.Contains(string(first), fmt.Sprintf("\"piece\":\"x%d\"", 100-lines))), "true")
}

// Characters that a terminal would act on come to no answer, no log and no file.
func TestEscapes(t *testing.T) {
	s, folder := newStub(t), t.TempDir()
	address, _ := start(t, s, folder)
	const line = "m \u009b31m\u202e\u007f\U000e0001"
	answer := post(t, address+"/write?db=x", line)
	file, _ := os.ReadFile(filepath.Join(folder, "rejected"))
	for _, text := range []string{answer, string(file)} {
		if !strings.Contains(text, `m \u009b31m\u202e\u007f\udb40\udc01`) || strings.ContainsAny(text, "\u009b\u202e\u007f\U000e0001") {
			t.Errorf("not as escapes: %q", text)
		}
	}
	want(t, "what is kept", rejected(t, folder)[0], line)
	bad := httptest.NewServer(http.HandlerFunc(func(w http.ResponseWriter, r *http.Request) {
		http.Error(w, "x\nendpoint: all is well \x1b[31m", 502)
	}))
	address, end := start(t, &stub{Server: bad}, t.TempDir(), "--spool", filepath.Join(t.TempDir(), "spool"))
	want(t, "a line that stays", post(t, address+"/write?db=x", "m f=1 1"), "204")
	time.Sleep(3 * shortest)
	end()
	if text := logged.String(); !strings.Contains(text, `x\u000aendpoint: all is well \u001b[31m`) || strings.Contains(text, "\nendpoint: all") {
		t.Errorf("the log has %q", text)
	}
}

// What was begun is answered before the program ends.
func TestEnding(t *testing.T) {
	s := newStub(t)
	free, err := net.Listen("tcp", "127.0.0.1:0")
	if err != nil {
		t.Fatal(err)
	}
	free.Close()
	address := "http://" + free.Addr().String()
	g, err := begin(t, s, t.TempDir(), "--listen", address)
	if err != nil {
		t.Fatal(err)
	}
	ctx, cancel := context.WithCancel(context.Background())
	ended, answered := make(chan error), make(chan string)
	go func() { ended <- g.run(ctx, nil) }()
	wait(t, "it listens", func() bool {
		response, err := http.Get(address + "/ping")
		return err == nil && response.Body.Close() == nil
	})
	s.mu.Lock() // the server has no answer until it is told
	go func() {
		response, err := http.Post(address+"/write?db=x", "text/plain", strings.NewReader("m f=1"))
		if err == nil {
			response.Body.Close()
			answered <- response.Status
			return
		}
		answered <- err.Error()
	}()
	wait(t, "a body is at hand", func() bool { bytes, _ := g.door.state(); return bytes > perRequest })
	cancel()
	time.Sleep(100 * time.Millisecond)
	s.mu.Unlock()
	want(t, "what was begun", <-answered, "204 No Content")
	want(t, "how it ends", fmt.Sprint(<-ended), "<nil>")
}

// A spool is of one process: a second one would write over its files.
func TestOneSpool(t *testing.T) {
	s, folder := newStub(t), t.TempDir()
	address, end := start(t, s, folder)
	want(t, "a line", post(t, address+"/write?db=x", "m f=1 1"), "204")
	_, err := begin(t, s, folder)
	if err == nil || !strings.Contains(err.Error(), "another process has the spool ") {
		t.Errorf("a second gateway: %v", err)
	}
	end()
	start(t, s, folder)
}

// A server that has too much to do, or no time, is asked again by the spool: no client is, and no line is refused.
func TestBusy(t *testing.T) {
	for _, code := range []int{408, 429, 500, 503} {
		s, folder := newStub(t), t.TempDir()
		address, _ := start(t, s, folder, "--spool", filepath.Join(folder, "spool"))
		s.text = `{"error":"timeout"}`
		s.answer(code, "m")
		want(t, fmt.Sprint(code), post(t, address+"/write?db=x", "m f=1 5"), "204")
		wait(t, "it is asked again", func() bool { return s.times() > 2 })
		s.answer(503)
		wait(t, fmt.Sprint("the line after ", code), func() bool { return s.taken() == "m f=1 5\n" })
	}
}

// The spool keeps the credentials, which are the client's, and the time of arrival.
func TestKept(t *testing.T) {
	s, folder := newStub(t), t.TempDir()
	spool := filepath.Join(folder, "spool")
	address, _ := start(t, s, folder, "--spool", spool)
	s.password = "Token its password"
	s.set(true, false)
	before := time.Now()
	want(t, "credentials in a header", post(t, address+"/write?db=x", "m f=1", "Authorization: "+s.password), "204")
	want(t, "credentials in a URL", post(t, address+"/write?db=x&p=Token+its+password", "m f=2"), "204")
	after := time.Now()
	s.set(false, false)
	wait(t, "the spool is empty", func() bool { return inSpool(spool) == 0 })
	var values, times [2]int64
	if _, err := fmt.Sscanf(s.taken(), "m f=%d %d\nm f=%d %d\n", &values[0], &times[0], &values[1], &times[1]); err != nil || values != [2]int64{1, 2} {
		t.Errorf("the server has %q", s.taken())
	} else if times[0] < before.UnixNano() || times[1] <= times[0] || after.UnixNano() < times[1] {
		t.Errorf("of lines that came from %d to %d the server has %q", before.UnixNano(), after.UnixNano(), s.taken())
	}
}

// What the server refuses of the spool stays there while it cannot be kept elsewhere.
func TestRefusedLater(t *testing.T) {
	s, folder := newStub(t), t.TempDir()
	spool, refusedFile := filepath.Join(folder, "spool"), filepath.Join(folder, "rejected")
	address, _ := start(t, s, folder, "--spool", spool)
	s.set(true, false)
	want(t, "a line of another type", post(t, address+"/write?db=x", "m conflict=1 1"), "204")
	os.Remove(refusedFile)
	os.Mkdir(refusedFile, 0o700)
	asked := s.times()
	s.set(false, false)
	wait(t, "the server is asked more than once", func() bool { return s.times() > asked+2 })
	want(t, "what the spool has", fmt.Sprint(inSpool(spool)), "1")
	os.Remove(refusedFile)
	wait(t, "the spool is empty", func() bool { return inSpool(spool) == 0 })
	want(t, "what is kept", fmt.Sprintf("%q", rejected(t, folder)), `["m conflict=1 1"]`)
}

// Where nothing can be kept, nothing is sent, and the client is told to come again.
func TestFull(t *testing.T) {
	s, folder := newStub(t), t.TempDir()
	address, _ := start(t, s, folder, "--spool", filepath.Join(folder, "spool"), "--max-spool", "13500")
	refusedFile := filepath.Join(folder, "rejected")
	if err := os.WriteFile(refusedFile, []byte(`{"raw":"of a run that was killed`), 0o600); err != nil {
		t.Fatal(err)
	}
	want(t, "after a part of a line", post(t, address+"/write?db=x", "m"), `400 {"error":"line 1: unable to parse 'm': `+faultText("m")+`"}`)
	want(t, "what is kept", fmt.Sprintf("%q", rejected(t, folder)[1:]), `["m"]`)
	os.Remove(refusedFile)
	os.Mkdir(refusedFile, 0o700)
	if answer := post(t, address+"/write?db=x", "m f=1\nm"); !strings.HasPrefix(answer, `503 {"error":"cannot keep the rejected lines: open `) {
		t.Errorf("where refused lines cannot be kept: %s", answer)
	}
	s.set(true, false)
	want(t, "one body", post(t, address+"/write?db=x", "m f=2 2"), "204")
	want(t, "the next one", post(t, address+"/write?db=x", "m f=3 3"), "204")
	if answer := post(t, address+"/write?db=x", "m f=4 4"); !strings.HasPrefix(answer, `503 {"error":"cannot keep the lines: the spool is full: it would have `) {
		t.Errorf("where the spool is full: %s", answer)
	}
	s.set(false, false)
	wait(t, "the spool is sent", func() bool { return s.taken() == "m f=2 2\nm f=3 3\n" })
}

func unpack(packed []byte) []byte {
	r, err := gzip.NewReader(bytes.NewReader(packed))
	if err != nil {
		return nil
	}
	text, _ := io.ReadAll(r)
	return text
}
