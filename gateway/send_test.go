package main

import (
	"bytes"
	"encoding/json"
	"fmt"
	"io"
	"net"
	"net/http"
	"net/http/httptest"
	"os"
	"os/exec"
	"path/filepath"
	"regexp"
	"sort"
	"strings"
	"sync"
	"syscall"
	"testing"
	"time"
)

// The test program is lp_gateway too: so the tests run it as a process of its own, and kill it.
func TestMain(m *testing.M) {
	if len(os.Args) > 1 && (os.Args[1] == "send" || os.Args[1] == "serve") {
		os.Exit(run(os.Args[1:], os.Stdout, os.Stderr))
	}
	os.Exit(m.Run())
}

// A judge is a stub of InfluxDB 1.x that answers as docs/INTEROP.md has it measured, or as it is told. It notes, for each call, the code of its answer and the last
// word of each line, and the same of the lines that it stores.
type judge struct {
	*httptest.Server
	mu      sync.Mutex
	calls   []string
	stored  []string
	words   []string // Authorization, Content-Encoding
	answers []string // what the next calls are answered: a code, or close, cut, slow or hold; with `stored` after it the lines are stored
	limit   int
	isFull  bool
	release chan bool
}

const conflictText = `field type conflict: input field "f" on measurement "m" is type boolean, already exists as type float`

var stringsIn = regexp.MustCompile(`(?s)"(?:[^"\\]|\\.)*"`)
var linesIn = regexp.MustCompile(`(?s)(?:[^"\n\\]|\\.|"(?:[^"\\]|\\.)*")+(?:\n|$)`)

func newJudge(t *testing.T) *judge {
	j := &judge{release: make(chan bool)}
	j.Server = httptest.NewServer(http.HandlerFunc(j.serve))
	t.Cleanup(func() { j.CloseClientConnections(); j.Close() })
	return j
}

// judged returns the code and the text by which a body is answered, and the lines of it that are stored.
func (j *judge) judged(body string, lines []string) (code int, text string, kept []string) {
	switch {
	case j.limit > 0 && len(body) > j.limit:
		return 413, "Request Entity Too Large", nil
	case j.isFull && len(lines) > 0:
		return 500, "no space left on device", nil
	case strings.Contains(body, "boom"):
		return 500, "", nil
	case strings.Contains(body, "odd"):
		return 400, "odd", nil
	}
	var good, bad, types, old []string
	for _, line := range lines {
		switch outside := stringsIn.ReplaceAllString(line, `""`); {
		case strings.Contains(line, "bad"):
			bad = append(bad, "unable to parse '"+strings.TrimLeft(strings.TrimSuffix(line, "\n"), " ")+"': invalid\u009bnumber")
		case strings.Contains(outside, "f=t"):
			types = append(types, line)
		case strings.Contains(outside, "old"):
			old = append(old, line)
		default:
			good = append(good, line)
		}
	}
	switch { // of more faults the first one alone is told
	case types != nil:
		return 400, fmt.Sprintf("partial write: %s dropped=%d", conflictText, len(types)), good
	case old != nil:
		return 400, fmt.Sprintf("partial write: points beyond retention policy dropped=%d", len(old)), good
	case bad != nil && good != nil:
		return 400, "partial write: " + strings.Join(bad, "\n") + " dropped=0", good
	case bad != nil:
		return 400, strings.Join(bad, "\n"), nil
	}
	return 204, "", lines
}

func (j *judge) serve(w http.ResponseWriter, r *http.Request) {
	body, _ := io.ReadAll(r.Body)
	if r.Header.Get("Content-Encoding") == "gzip" {
		body = unpack(body)
	}
	lines := linesIn.FindAllString(string(body), -1)
	var words []string
	for _, line := range lines {
		all := strings.Fields(line)
		words = append(words, all[len(all)-1])
	}
	j.mu.Lock()
	code, text, kept := j.judged(string(body), lines)
	name := fmt.Sprint(code)
	if len(j.answers) > 0 {
		told := strings.Fields(j.answers[0])
		j.answers, name, kept, code, text = j.answers[1:], told[0], nil, 204, told[0]
		fmt.Sscan(name, &code)
		if len(told) > 1 {
			kept = lines
		}
	}
	j.calls = append(j.calls, name+":"+strings.Join(words, ","))
	j.words = append(j.words, r.Header.Get("Authorization")+r.Header.Get("Content-Encoding"))
	for _, line := range kept {
		all := strings.Fields(line)
		j.stored = append(j.stored, all[len(all)-1])
	}
	j.mu.Unlock()
	switch name {
	case "close":
		panic(http.ErrAbortHandler)
	case "cut":
		w.Header().Set("Content-Length", "1000")
		fmt.Fprint(w, "{")
		panic(http.ErrAbortHandler)
	case "slow":
		time.Sleep(2 * time.Second)
		panic(http.ErrAbortHandler)
	case "hold":
		<-j.release
	case "503":
		w.Header().Set("Retry-After", "1")
	}
	w.WriteHeader(code)
	if code != 204 && text == "" {
		fmt.Fprint(w, "Internal\nServer Error")
	} else if code != 204 {
		said, _ := json.Marshal(map[string]string{"error": text})
		w.Write(said)
	}
}

// A room is a folder of batches, and a server.
type room struct {
	*testing.T
	*judge
	dir  string
	url  string
	said safeBuffer
	more []string // options
}

func newRoom(t *testing.T, batches ...string) *room {
	r := &room{T: t, judge: newJudge(t), dir: filepath.Join(t.TempDir(), "spool [x] %d")}
	r.url = r.judge.URL + "/write?db=d&precision=ns"
	os.Mkdir(r.dir, 0o700)
	r.put(batches...)
	return r
}

// put puts batches into the folder: a name, a text, and so on.
func (r *room) put(batches ...string) {
	for n := 0; n < len(batches); n += 2 {
		if err := os.WriteFile(filepath.Join(r.dir, batches[n]+".lp"), []byte(batches[n+1]), 0o600); err != nil {
			r.Fatal(err)
		}
	}
}

// sends runs the command, and compares its status, the calls, the stored lines, the dead letters and the batches that are left.
func (r *room) sends(what string, status int, calls, stored, dead, left string) {
	r.Helper()
	r.said.Reset()
	words := append([]string{"send", "--spool", r.dir, "--url", r.url, "--wait", "1ms", "--tries", "3", "--timeout", "1s"}, r.more...)
	r.same(what, run(words, &r.said, &r.said), status, calls, stored, dead, left)
}

func (r *room) same(what string, got, status int, calls, stored, dead, left string) {
	r.Helper()
	r.mu.Lock()
	defer r.mu.Unlock()
	kept := append([]string(nil), r.stored...)
	sort.Slice(kept, func(i, j int) bool {
		return len(kept[i]) < len(kept[j]) || len(kept[i]) == len(kept[j]) && kept[i] < kept[j]
	})
	for n := 1; n < len(kept); n++ {
		for n < len(kept) && kept[n] == kept[n-1] && !strings.HasPrefix(kept[n], "f=") { // lines without a time are stored once
			kept = append(kept[:n], kept[n+1:]...)
		}
	}
	var letters, names []string
	paths, _ := filepath.Glob(escapeGlob(r.dir) + "/dead/*")
	for _, path := range paths {
		text, _ := os.ReadFile(path)
		letters = append(letters, string(text))
	}
	paths, _ = filepath.Glob(escapeGlob(r.dir) + "/*.lp")
	for _, path := range paths {
		names = append(names, filepath.Base(path))
	}
	had := fmt.Sprintf("%d\n%s\n%s\n%s%s", got, strings.Join(r.calls, " "), strings.Join(kept, " "), strings.Join(letters, ""), strings.Join(names, " "))
	if wanted := fmt.Sprintf("%d\n%s\n%s\n%s%s", status, calls, stored, dead, left); had != wanted {
		r.Errorf("%s: got\n%s\nwant\n%s\nit says\n%s", what, had, wanted, r.said.String())
	}
}

func (r *room) says(what, last string) {
	r.Helper()
	lines := strings.Split(strings.TrimSpace(r.said.String()), "\n")
	if got := lines[len(lines)-1]; !regexp.MustCompile("^lp_gateway: " + last + "$").MatchString(got) {
		r.Errorf("%s: the last line is %q, and not %q", what, got, last)
	}
}

const badLetter = "# 400 unable to parse: invalid number\n"
const conflictLetter = `{"error":"partial write: field type conflict: input field \"f\" on measurement \"m\" is type boolean, already exists as type float dropped=`
const faultLetter = "# 500 Internal Server Error\n"

// What becomes of lines.
func TestSendLines(t *testing.T) {
	r := newRoom(t, "b-000002", "m f=3 3\nm f=4 4\n", "b-000001", "m f=1 1\nm s=\"x\ny\" 2\n", "b-000010", "m f=5 5\n")
	r.sends("all is stored", 0, "204:1,2 204:3,4 204:5", "1 2 3 4 5", "", "")
	r.says("all is stored", "3 batches sent, 0 lines rejected, 0 batches left")
	r.sends("no batch is there", 0, "204:1,2 204:3,4 204:5", "1 2 3 4 5", "", "")

	r = newRoom(t, "a", "  m bad=1 1\nm f=2 2\nm,t=<&>\\\\u,u=é bad=1 3\nm s=\"x\nm f=2 2\n\\\"\t\" 4\nm s=\"bad\n \\\"y\" 5\n", "b", "m bad=1 6\nm s=\"bad\" 7\n")
	r.sends("lines are named", 1, "400:1,2,3,4,5 400:6,7", "2 4", badLetter+"  m bad=1 1\n"+badLetter+"m,t=<&>\\\\u,u=é bad=1 3\n"+badLetter+
		"m s=\"bad\n \\\"y\" 5\n"+badLetter+"m bad=1 6\n"+badLetter+"m s=\"bad\" 7\n", "")
	r.says("lines are named", "2 batches sent, 6 lines rejected, 0 batches left")

	// The lines of another type alone are sent first, and then the others, of which no fault was told.
	r = newRoom(t, "a", "m f=1 1\nm f=t 2\nm,t=u g=1,f=true 3\nm bad=1 4\nm old=5 5\nm f=6 6\n", "b", "m f=7 7\n")
	r.sends("a type hides other faults", 1, "400:1,2,3,4,5,6 400:2,3 400:1,4,5,6 400:1,4 400:5,6 400:5 204:6 204:7", "1 6 7",
		"# 400 "+conflictLetter+"2\"}\nm f=t 2\nm,t=u g=1,f=true 3\n"+badLetter+"m bad=1 4\n"+
			"# 400 {\"error\":\"partial write: points beyond retention policy dropped=1\"}\nm old=5 5\n", "")
	r = newRoom(t, "a", "m f=1 1\nm f=t 2\nm s=\"x, f=t,\n f=t\" 3\nm g=4 4\n")
	r.sends("a string has what is looked for", 1, "400:1,2,3,4 400:2 204:1,3,4", "1 3 4", "# 400 "+conflictLetter+"1\"}\nm f=t 2\n", "")
	r = newRoom(t, "a", "m f=1\nm f=t 2\nm s=\"x 1\ny\"\nm f=4 4\n")
	r.sends("lines have no time", 1, "400:f=1,2,y\",4 400:2 204:4", "4 y\" f=1", "# 400 "+conflictLetter+"1\"}\nm f=t 2\n"+
		"# may be stored: 400 "+conflictLetter+"1\"}\nm f=1\nm s=\"x 1\ny\"\n", "")

	r = newRoom(t, "a", "m bad=1 1\nm f=2 2")
	r.sends("the last line has no newline", 1, "400:1,2", "2", badLetter+"m bad=1 1\n", "")
	r = newRoom(t, "a", "m f=1 1\nx\nm f=t 3\n")
	r.sends("a batch has what is no line", 1, "400:1,x,3", "1 x", "# 400 "+conflictLetter+"1\"}\nm f=1 1\nx\nm f=t 3\n", "")
	r = newRoom(t, "a", "m f=1 1\nm f=2 2\nm f=3\nm s=\"xxxxxxxxxxxxxxxxxxxx\" 4\nm f=5 5\n")
	r.limit = 20
	r.sends("batches are too large", 1, "413:1,2,f=3,4,5 413:1,2,f=3 204:1,2 204:f=3 413:4,5 413:4 204:5", "1 2 5 f=3",
		"# 413 {\"error\":\"Request Entity Too Large\"}\nm s=\"xxxxxxxxxxxxxxxxxxxx\" 4\n", "")
}

// What is tried again, and what is left.
func TestSendAgain(t *testing.T) {
	r := newRoom(t, "a", "m f=1 1\n", "b", "m f=2 2\n")
	r.answers = []string{"500", "503"}
	began := time.Now()
	r.sends("the server fails for a while", 0, "500:1 503:1 204:1 204:2", "1 2", "", "")
	if time.Since(began) < time.Second {
		t.Error("Retry-After is not heeded")
	}
	r = newRoom(t, "a", "m f=1 1\n", "b", "m f=2 2\n")
	r.answers = []string{"429", "429", "close"}
	r.sends("the server fails for long", 75, "429:1 429:1 close:1", "", "", "a.lp b.lp")
	r.says("the server fails for long", "0 batches sent, 0 lines rejected, 2 batches left")
	r.answers = []string{"close", "cut"}
	r.sends("answers are cut off", 0, "429:1 429:1 close:1 close:1 cut:1 204:1 204:2", "1 2", "", "")
	r = newRoom(t, "a", "m f=1 1\n")
	r.answers = []string{"408", "slow"}
	r.sends("the server is slow, or has too much to do", 0, "408:1 slow:1 204:1", "1", "", "")
	r = newRoom(t, "a", "m f=1 1\n", "b", "m f=2 2\n")
	closed, _ := net.Listen("tcp", "127.0.0.1:0")
	closed.Close()
	r.url = "http://user:secret@" + closed.Addr().String() + "/write?u=user&p=secret"
	r.sends("no server is there", 75, "", "", "", "a.lp b.lp")
	if strings.Contains(r.said.String(), "secret") {
		t.Errorf("a password is told: %s", r.said.String())
	}
	for _, code := range []int{200, 302, 401, 403, 404} {
		r = newRoom(t, "a", "m f=1 1\n", "b", "m f=2 2\n")
		r.answers = []string{fmt.Sprint(code)}
		r.sends(fmt.Sprint(code), 2, fmt.Sprint(code, ":1"), "", "", "a.lp b.lp")
		r.says(fmt.Sprint(code), fmt.Sprint("a.lp: ", code, ".*"))
	}
	r = newRoom(t, "a", "m f=1 1\n", "b", "m f=2 2\n")
	r.answers = []string{"400", "400"}
	r.sends("each call is refused", 2, "400:1 400:", "", "", "a.lp b.lp")
}

// What is found where the server fails for a line.
func TestSendFaults(t *testing.T) {
	r := newRoom(t, "a", "m f=1 1\nm f=2 2\nm boom=3 3\nm f=4 4\n", "b", "m f=5 5\n")
	r.sends("a line makes the server fail", 1, "500:1,2,3,4 500:1,2,3,4 500:1,2,3,4 204: 204:1,2 500:3,4 500:3 204:4 204:5", "1 2 4 5", faultLetter+"m boom=3 3\n", "")
	r = newRoom(t, "a", "m boom=1 1\nm boom=2 2\n", "b", "m f=3 3\n")
	r.sends("all lines make the server fail", 1, "500:1,2 500:1,2 500:1,2 204: 500:1 500:2 204:3 500:1 500:2", "3",
		faultLetter+"m boom=1 1\n"+faultLetter+"m boom=2 2\n", "")
	r = newRoom(t, "a", "m f=1 1\nm odd=2 2\n", "b", "m odd=3 3\n")
	r.sends("a line is refused by an unknown text", 75, "400:1,2 204: 204:1 400:2 400:3 204:", "1", "# 400 {\"error\":\"odd\"}\nm odd=2 2\n", "b.lp")
	// Here the server fails for a line of each batch, and stores none between them: no more are tried, as it may be the server.
	r = newRoom(t)
	var calls, names []string
	for n := 101; n <= 130; n++ {
		r.put(fmt.Sprint(n), fmt.Sprintf("m boom=1 %d\n", n))
		if names = append(names, fmt.Sprint(n, ".lp")); n <= 126 {
			calls = append(calls, fmt.Sprintf("500:%d 204:", n))
		}
	}
	r.more = []string{"--tries", "1"}
	r.sends("the server fails for each line", 75, strings.Join(calls, " "), "", "", strings.Join(names, " "))
	r = newRoom(t, "a", "m f=1 1\nm f=2 2\n", "b", "m f=3 3\n")
	r.isFull = true
	run([]string{"send", "--spool", r.dir, "--url", r.url, "--wait", "1ms", "--tries", "1"}, io.Discard, &r.said)
	r.isFull, r.calls = false, nil
	r.sends("the server has room again", 0, "204:1 204:2 204:3", "1 2 3", "", "")
}

// Options come before, between and after files, and each word after -- is a file.
func TestSendOrder(t *testing.T) {
	r, files, err := readSend([]string{"a.lp", "--tries", "2", "b.lp", "--gzip", "--", "--c.lp"}, io.Discard)
	want(t, "what is read", fmt.Sprint(files, r.tries, r.gzip, err), "[a.lp b.lp --c.lp] 2 true <nil>")
}

// What the folders and files of a run are, and what it finds there.
func TestSendFolders(t *testing.T) {
	r := newRoom(t, "a b", "m f=1 1\n", "-c", "m f=2 2\nm bad=1 3\n")
	known := filepath.Join(t.TempDir(), "known")
	os.WriteFile(known, []byte("server token secret\n"), 0o600)
	sent := filepath.Join(t.TempDir(), "sent")
	r.more = []string{"--sent", sent, "--credentials", known, "--gzip"}
	r.sends("names are strange", 1, "400:2,3 204:1", "1 2", badLetter+"m bad=1 3\n", "")
	first, _ := os.ReadFile(filepath.Join(sent, "-c.lp"))
	second, _ := os.ReadFile(filepath.Join(sent, "a b.lp"))
	want(t, "stored lines are kept", string(first)+string(second), "m f=2 2\nm f=1 1\n")
	want(t, "credentials, and gzip", r.words[0], "Token secretgzip")
	// Dead letters of a batch of the same name.
	for n := 0; n < 2; n++ {
		r.put("a", "m bad=1 4\n")
		run([]string{"send", "--spool", r.dir, "--url", r.url}, io.Discard, &r.said)
	}
	r.more = nil
	r.sends("a batch has the name of another", 1-1, "400:2,3 204:1 400:4 400:4", "1 2", badLetter+"m bad=1 3\n"+badLetter+"m bad=1 4\n"+badLetter+"m bad=1 4\n", "")

	r = newRoom(t, "a", "m f=1 1\n", "b", "m f=2 2\n")
	os.Symlink("nowhere", filepath.Join(r.dir, "c.lp"))
	os.Remove(filepath.Join(r.dir, "b.lp"))
	os.Mkdir(filepath.Join(r.dir, "b.lp"), 0o700)
	os.Remove(filepath.Join(r.dir, "c.lp"))
	r.sends("a folder has the name of a batch", 0, "204:1", "1", "", "b.lp")
}

// A batch that cannot be read stays, and the others are sent. A file that cannot be read is an error, and stays.
func TestSendUnread(t *testing.T) {
	r := newRoom(t, "a", "m f=1 1\n", "b", "m f=2 2\n", "c", "m f=3 3\n")
	if os.Geteuid() == 0 { // root reads any file: a file system in memory of another process is one that it cannot
		os.Remove(filepath.Join(r.dir, "b.lp"))
		if err := os.Link("/proc/self/mem", filepath.Join(r.dir, "b.lp")); err != nil {
			os.Symlink("/proc/self/mem", filepath.Join(r.dir, "b.lp"))
		}
	} else {
		os.Chmod(filepath.Join(r.dir, "b.lp"), 0)
	}
	r.sends("a batch cannot be read", 2, "204:1 204:3", "1 3", "", "b.lp")
	r.says("a batch cannot be read", "b.lp: .*")
	good := filepath.Join(t.TempDir(), "good")
	os.WriteFile(good, []byte("m f=4 4\nm\nm f=5 5"), 0o600)
	back, _ := os.Getwd()
	os.Chdir(t.TempDir())
	t.Cleanup(func() { os.Chdir(back) })
	r = newRoom(t)
	status := run([]string{"send", "--url", r.url, "--wait", "1ms", "--dead", "dead", "/proc/self/mem", good}, io.Discard, &r.said)
	want(t, "a file cannot be read", fmt.Sprint(status, r.calls), "2 [204:4,5]")
	letters, _ := os.ReadFile("dead/good.lp")
	want(t, "its bad line", string(letters), "# good: at line 2:2: A generic parsing error occurred: TakeWhile1\nm\n")
	if _, err := os.Stat(good); err != nil {
		t.Error("a file that was sent is gone")
	}
	status = run([]string{"send", "--url", r.url, good}, io.Discard, &r.said)
	want(t, "all is read", fmt.Sprint(status, r.calls), "1 [204:4,5 204:4,5]")
	r.answers = []string{"503", "503"}
	status = run([]string{"send", "--url", r.url, "--tries", "2", "--wait", "1ms", good}, io.Discard, &r.said)
	left, _ := filepath.Glob(".lp_gateway-*/*.lp")
	want(t, "the server is away", fmt.Sprint(status, len(left)), "75 1")
}

// What killed relays have left, and what those that go on hold.
func TestSendLeft(t *testing.T) {
	r := newRoom(t)
	for n, name := range []string{"a.lp.lp_relay-1-0", fmt.Sprintf("b.lp.lp_relay-%d-0", os.Getpid()), "c.lp.lp_relay-1-0", "c.lp.lp_relay-1-1", "d.lp.lp_relay-1-0"} {
		os.WriteFile(filepath.Join(r.dir, name), []byte(fmt.Sprintf("m f=%d %d\nm f=", n, n)), 0o600)
	}
	r.put("c", "m f=9 9\n")
	held, _ := os.Open(filepath.Join(r.dir, "d.lp.lp_relay-1-0"))
	syscall.Flock(int(held.Fd()), syscall.LOCK_EX)
	r.sends("relays have left files", 0, "204:0 204:1 204:9 204:2 204:3", "0 1 2 3 9", "", "")
	held.Close()
	r.sends("a relay has ended", 0, "204:0 204:1 204:9 204:2 204:3 204:4", "0 1 2 3 4 9", "", "")
}

func TestSendWords(t *testing.T) {
	for _, row := range [][]string{{"send"}, {"send", "--spool", "none"}, {"send", "--spool", ".", "x"}, {"send", "--tries", "x", "f"}, {"send", "--tries", "0", "f"},
		{"send", "--credentials", "none", "f"}, {"send", "--url", "x", "f"}, {"no"}, {}} {
		var said bytes.Buffer
		want(t, fmt.Sprint(row), fmt.Sprint(run(row, &said, &said), said.Len() > 0), "2 true")
	}
}

// Several senders keep the lines of each series in order.
func TestSendSenders(t *testing.T) {
	r := newRoom(t)
	for n := 0; n < 5; n++ {
		text := ""
		for line := 0; line < 40; line++ {
			text += fmt.Sprintf("m,t=%d f=%d %d\n", line%8, n, n*100+line)
		}
		r.put(fmt.Sprint(n), text)
	}
	r.more = []string{"--senders", "4"}
	status := run(append([]string{"send", "--spool", r.dir, "--url", r.url}, r.more...), io.Discard, &r.said)
	last := map[string]int{}
	count := 0
	for _, call := range r.calls {
		for _, word := range strings.Split(strings.TrimPrefix(call, "204:"), ",") {
			at := 0
			fmt.Sscan(word, &at)
			series := fmt.Sprint(at % 100 % 8)
			if at < last[series] {
				t.Errorf("series %s: %d comes after %d", series, at, last[series])
			}
			last[series] = at
			count++
		}
	}
	want(t, "all lines are sent once", fmt.Sprint(status, count, len(r.names()), len(r.calls) > 5), "0 200 0 true")
}

func (r *room) names() []string { return (&sendRun{spool: r.dir}).names() }

// start starts a run as a process of its own.
func (r *room) start(before ...string) *exec.Cmd {
	program, _ := os.Executable()
	words := append(before, program, "send", "--spool", r.dir, "--url", r.url, "--wait", "1ms", "--tries", "3", "--timeout", "20s")
	command := exec.Command(words[0], words[1:]...)
	command.Stderr = &r.said
	if err := command.Start(); err != nil {
		r.Fatal(err)
	}
	return command
}

// A run that is killed while a call is under way: the call goes on, no other run begins before it has ended, and the next run reads its answer.
func TestSendKilled(t *testing.T) {
	r := newRoom(t, "a", "m f=1 1\n", "b", "m f=2 2\n")
	r.answers = []string{"hold stored"}
	first := r.start()
	wait(t, "the call is under way", func() bool { r.mu.Lock(); defer r.mu.Unlock(); return len(r.calls) == 1 })
	second := r.start()
	second.Wait()
	want(t, "another run is at work", fmt.Sprint(second.ProcessState.ExitCode(), strings.Contains(r.said.String(), "another run is at work")), "2 true")
	first.Process.Kill()
	first.Wait()
	second = r.start()
	second.Wait()
	want(t, "the call of a killed run is under way", fmt.Sprint(second.ProcessState.ExitCode()), "2")
	close(r.release)
	wait(t, "the call has ended", func() bool { c := r.start(); c.Wait(); return c.ProcessState.ExitCode() != 2 })
	r.same("a run is killed before the answer comes", 0, 0, "hold:1 204:2", "1 2", "", "")
}

// A run that is killed at each of its calls that change files: the next run makes the calls that are left, and leaves the same dead letters.
func TestSendEachEnd(t *testing.T) {
	if _, err := exec.LookPath("strace"); err != nil || exec.Command("strace", "-o", "/dev/null", "true").Run() != nil {
		t.Skip("there is no strace, or it may not watch")
	}
	kills := 0
	for _, call := range []string{"linkat", "renameat", "unlinkat", "fsync"} {
		for n := 1; n <= 12; n++ {
			r := newRoom(t, "a", "m f=1 1\nm bad=1 2\n", "b", "m f=3 3\nm f=t 4\n")
			first := r.start("strace", "-qq", "-o", "/dev/null", "-e", "trace="+call, "-e", fmt.Sprintf("inject=%s:signal=KILL:when=%d", call, n))
			first.Wait()
			if first.ProcessState.ExitCode() == 1 {
				break
			}
			kills++
			wait(t, "the call has ended", func() bool { c := r.start(); c.Wait(); return c.ProcessState.ExitCode() != 2 })
			r.same(fmt.Sprint(call, " ", n), 1, 1, "400:1,2 400:3,4 400:4 204:3", "1 3", badLetter+"m bad=1 2\n# 400 "+conflictLetter+"1\"}\nm f=t 4\n", "")
		}
	}
	if kills < 6 {
		t.Errorf("there were only %d kills", kills)
	}
}
