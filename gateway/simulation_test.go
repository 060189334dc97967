package main

import (
	"context"
	"errors"
	"flag"
	"fmt"
	"io"
	"math/rand"
	"net/http"
	"net/url"
	"os"
	"sort"
	"strings"
	"testing"
	"time"
)

// How many histories the simulation runs, and the number of the first one.
var histories = flag.Int("histories", 3000, "")
var firstHistory = flag.Int64("first", 1, "")

// A memory is a Disk of which a power cut loses what was not synced: each name that was made, changed or removed since the last Sync may be as before
// or as after, each by itself; bytes that are overwritten and not synced may be old, new or half. Each call can fail, or be the last before a cut.
type memory struct {
	random  *rand.Rand
	files   map[string]*bytesOfFile // as the process sees them
	durable map[string]*bytesOfFile // names that are on the device for sure: the files are synced before they have a name
	budget  int                     // so many calls until the cut, if it is not negative
	fails   float64                 // how likely a call fails
}

type bytesOfFile struct{ text []byte }

// A cut is the panic of a power cut, or of a kill.
type cut_ struct{}

var errDevice = errors.New("input/output error")

// step is called before each call.
func (m *memory) step() error {
	if m.budget == 0 {
		panic(cut_{})
	}
	m.budget--
	if m.random.Float64() < m.fails {
		return errDevice
	}
	return nil
}

// restart gives what is on the disk after a power cut, or after a kill, which loses nothing.
func (m *memory) restart(isPowerCut bool) {
	m.budget = -1
	if isPowerCut {
		names := map[string]bool{}
		for name := range m.files {
			names[name] = true
		}
		for name := range m.durable {
			names[name] = true
		}
		kept := map[string]*bytesOfFile{}
		for _, name := range sortedNames(names) {
			file := m.durable[name]
			if m.random.Intn(2) == 0 {
				file = m.files[name]
			}
			if file != nil {
				kept[name] = file
			}
		}
		m.files = kept
	}
	m.durable = map[string]*bytesOfFile{}
	for name, file := range m.files {
		m.durable[name] = file
	}
}

func sortedNames[V any](names map[string]V) (all []string) {
	for name := range names {
		all = append(all, name)
	}
	sort.Strings(all)
	return all
}

func (m *memory) Names() ([]string, error) { return sortedNames(m.files), nil }

func (m *memory) Size(name string) (int64, error) { return int64(len(m.files[name].text)), nil }

func (m *memory) Create(name string, write func(io.Writer) error) error {
	err := m.step()
	text := &strings.Builder{}
	if err = firstOf(err, write(text)); err != nil {
		return err
	}
	m.files[name] = &bytesOfFile{[]byte(text.String()[:m.random.Intn(text.Len()+1)])} // written, in part
	if err := m.step(); err != nil {
		delete(m.files, name)
		return err
	}
	m.files[name].text = []byte(text.String())
	return nil
}

func (m *memory) Read(name string, at int64, into []byte) error {
	if err := m.step(); err != nil {
		return err
	}
	file := m.files[name]
	if file == nil {
		return os.ErrNotExist
	}
	if n := copy(into, file.text[at:]); n < len(into) {
		return io.ErrUnexpectedEOF
	}
	return nil
}

func (m *memory) Overwrite(names []string, at int64, bytes []byte) (err error) {
	for _, n := range m.random.Perm(len(names)) {
		err = firstOf(err, m.overwrite(names[n], at, bytes))
	}
	return err
}

func (m *memory) overwrite(name string, at int64, bytes []byte) error {
	if err := m.step(); err != nil {
		return err
	}
	file := m.files[name]
	if file == nil {
		return os.ErrNotExist
	}
	some := m.random.Intn(len(bytes) + 1)
	copy(file.text[at:], bytes[:some])
	if err := m.step(); err != nil {
		return err
	}
	copy(file.text[at:], bytes)
	return nil
}

func (m *memory) Rename(from, to string) error {
	if err := m.step(); err != nil {
		return err
	}
	m.files[to] = m.files[from]
	delete(m.files, from)
	return nil
}

func (m *memory) Remove(name string) error {
	if err := m.step(); err != nil {
		return err
	}
	if m.files[name] == nil {
		return os.ErrNotExist
	}
	delete(m.files, name)
	return nil
}

func (m *memory) Sync() error {
	if err := m.step(); err != nil {
		return err
	}
	m.durable = map[string]*bytesOfFile{}
	for name, file := range m.files {
		m.durable[name] = file
	}
	return nil
}

// A world is a server whose answers get lost, the rejected lines, and what clients were told.
type world struct {
	random   *rand.Rand
	disk     *memory
	server   map[string]int // the value of each point
	rejected map[string]bool
	// The values of each point that were sent, in order.
	sent   map[string][]int
	acked  map[string]int // the last value of each point that was acknowledged
	owed   []string       // lines that the server refuses, and that were acknowledged
	lost   float64        // how likely an answer is lost
	isAway bool
	next   int
	log    []string
}

func (w *world) say(format string, values ...any) {
	w.log = append(w.log, fmt.Sprintf(format, values...))
}

// take has the server take lines: it stores them in order, but for those that it refuses. A line `sick` makes it fail, and it stores nothing.
func (w *world) take(_ context.Context, to *target, lines []byte) error {
	if w.disk.budget == 0 { // the cut comes before the call
		panic(cut_{})
	}
	if w.isAway || w.random.Float64() < w.lost/2 {
		w.say("away: %q", lines)
		return errors.New("away")
	}
	refused, some := 0, 0
	for _, line := range strings.SplitAfter(string(lines), "\n") {
		if strings.Contains(line, "sick=") {
			w.say("500: %q", lines)
			return &problem{500, "panic"}
		}
		if strings.Contains(line, "bad=") {
			refused++
		} else if line != "" && !strings.HasPrefix(line, "lp_gateway_probe") {
			some++
		}
	}
	for _, line := range strings.SplitAfter(string(lines), "\n") {
		var series string
		var value, at int
		if n, _ := fmt.Sscanf(line, "%s f=%d %d", &series, &value, &at); n == 3 {
			w.server[fmt.Sprint(to.db(), " ", series, " ", at)] = value
		}
	}
	switch {
	case w.random.Float64() < w.lost:
		w.say("lost answer: %q", lines)
		return errors.New("the answer is lost")
	case refused > 0 && some == 0:
		return &problem{400, fmt.Sprintf("partial write: type dropped=%d", refused)}
	case refused > 0:
		return &problem{400, "partial write: type dropped=1"}
	}
	w.say("204: %q", lines)
	return nil
}

// keep has rejected lines in their file, which is another disk here.
func (w *world) keep(letters []byte) error {
	if w.random.Float64() < w.disk.fails {
		return errDevice
	}
	w.rejected[string(letters)] = true
	return nil
}

// body makes a body of a client: points that other bodies have too, with greater values.
func (w *world) body() (to *target, text string, points []string, values []int) {
	db := fmt.Sprint("d", w.random.Intn(2))
	to = &target{url.Values{"db": {db}, "precision": {"n"}}, http.Header{}}
	for n := w.random.Intn(4) + 1; n > 0; n-- {
		w.next++
		series, at, field := fmt.Sprint("m,t=", w.random.Intn(5)), w.random.Intn(2), "f"
		switch w.random.Intn(20) {
		case 0:
			field = "bad"
		case 1:
			field = "sick"
		}
		text += fmt.Sprintf("%s %s=%d %d\n", series, field, w.next, at)
		point := "!" + field
		if field == "f" {
			point = fmt.Sprint(db, " ", series, " ", at)
		}
		points, values = append(points, point), append(values, w.next)
	}
	return to, text, points, values
}

// A process is one run of the gateway over the disk: a spool, and senders that take turns.
type process struct {
	*world
	server  *server
	senders []*sender
}

// run runs a process until a cut, or until its steps are over; or until nothing is in its spool.
func (w *world) run(steps int, drains bool) {
	defer func() {
		if r := recover(); r != nil {
			if _, ok := r.(cut_); !ok {
				panic(r)
			}
			w.say("cut")
		}
	}()
	p := &process{world: w}
	g := &gateway{options: &options{senders: 1 + w.random.Intn(3)}, log: &logger{to: io.Discard}}
	fails := w.disk.fails
	w.disk.fails = 0 // a file that cannot be read as the gateway starts is outside of the promise
	spool, err := openSpool(w.disk, 1<<30, g.options.senders)
	if w.disk.fails = fails; err != nil {
		w.say("not opened: %v", err)
		return
	}
	w.say("start with %d files", len(spool.queue))
	p.server = &server{gateway: g, name: "server", spool: spool}
	for n := 0; n < g.options.senders; n++ {
		x := newSender(p.server, n)
		x.ask, x.keep = w.take, w.keep
		p.senders = append(p.senders, x)
	}
	for n := 0; n < steps && !drains || drains && len(spool.queue) > 0; n++ {
		if n > 10000 {
			panic("the spool does not drain")
		}
		w.isAway = !drains && w.random.Intn(3) == 0
		if !drains && w.random.Intn(2) == 0 {
			p.hand(0)
		} else {
			p.turn()
		}
	}
}

// turn has a sender take its turn.
func (p *process) turn() { _ = p.senders[p.random.Intn(len(p.senders))].sendAll(context.Background()) }

// hand hands in a body of a client, as store does: past the spool if this is empty, or else, or if no answer comes in time, through it.
func (p *process) hand(depth int) {
	to, text, points, values := p.body()
	for n, point := range points {
		p.sent[point] = append(p.sent[point], values[n])
	}
	p.say("body: %q", text)
	spool := p.server.spool
	room, _ := spool.reserve(len(text))
	isDirect, isSlow := spool.tryDirect(), p.random.Intn(2) == 0
	if isDirect && !isSlow {
		err := p.take(context.Background(), to, []byte(text))
		if err == nil || statusOf(err)/100 == 4 {
			spool.release(room)
			spool.endDirect(keeping{}, false)
			if err == nil {
				p.acknowledge(points, values, true)
			}
			return
		}
	}
	entries, err := spool.put(room, to, time.Time{}, []byte(text))
	kept := keeping{entries: entries}
	if err == nil {
		p.acknowledge(points, values, false)
	} else if p.say("not kept: %v", err); isDirect {
		kept = spool.orphan()
	}
	if !isDirect {
		return
	}
	isStored := false
	if isSlow { // the call goes on while other bodies come
		for ; depth < 3 && p.random.Intn(2) == 0; depth++ {
			p.hand(depth + 1)
			p.turn()
		}
		isStored = p.take(context.Background(), to, []byte(text)) == nil
	}
	spool.endDirect(kept, isStored)
}

// acknowledge has a client hear that its lines are kept, or stored.
func (p *process) acknowledge(points []string, values []int, isStored bool) {
	p.say("acknowledged: %v", values)
	for n, point := range points {
		if !strings.HasPrefix(point, "!") {
			p.acked[point] = values[n]
		} else {
			p.owed = append(p.owed, fmt.Sprint(point[1:], "=", values[n], " "))
		}
	}
}

// wrong tells what was lost, or is older than what was acknowledged.
func (w *world) wrong() (all []string) {
	for _, point := range sortedNames(w.acked) {
		if w.server[point] < w.acked[point] {
			all = append(all, fmt.Sprintf("%s is %d, and %d was acknowledged", point, w.server[point], w.acked[point]))
		}
	}
	letters := strings.Join(sortedNames(w.rejected), "")
	for _, each := range w.owed {
		if !strings.Contains(letters, each) {
			all = append(all, each+"is not among the rejected lines")
		}
	}
	return all
}

// history runs a history by its number, and tells what is wrong in the end.
func history(number int64) (w *world, wrong []string) {
	random := rand.New(rand.NewSource(number))
	disk := &memory{random: random, files: map[string]*bytesOfFile{}, durable: map[string]*bytesOfFile{}, budget: -1}
	w = &world{random: random, disk: disk, server: map[string]int{}, rejected: map[string]bool{}, sent: map[string][]int{}, acked: map[string]int{}}
	for runs := random.Intn(4) + 1; runs > 0; runs-- {
		disk.fails, w.lost = float64(random.Intn(3))/20, float64(random.Intn(3))/5
		if disk.budget = -1; random.Intn(4) > 0 {
			disk.budget = random.Intn(150)
		}
		w.run(random.Intn(25), false)
		isPowerCut := random.Intn(2) == 0
		disk.restart(isPowerCut)
		w.say("restart after a power cut: %t", isPowerCut)
	}
	disk.fails, w.lost, w.isAway = 0, 0, false
	w.run(0, true)
	return w, w.wrong()
}

// For each order of bodies, kills, power cuts and failed calls, each acknowledged line ends in the server or among the rejected lines, and no point has
// an older value than one that was acknowledged.
func TestSimulation(t *testing.T) {
	for n := *firstHistory; n < *firstHistory+int64(*histories); n++ {
		if w, wrong := history(n); wrong != nil {
			t.Fatalf("history %d: %s\n%s", n, strings.Join(wrong, "; "), strings.Join(w.log, "\n"))
		}
	}
}
