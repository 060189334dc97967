package main

import (
	"bytes"
	"encoding/json"
	"errors"
	"fmt"
	"hash/crc32"
	"io"
	"math/bits"
	"net/http"
	"net/url"
	"strconv"
	"strings"
	"sync"
	"time"

	"yomskafi.example/lineprotocol/v3"
)

// The lines of a body are kept in lanes, by the hash of their series. All lines of a series are in one lane, in order, so lanes can be sent side by
// side. The number of lanes never changes, since files of an earlier run have lanes too.
const lanes = 16

// A laneSet is a set of lanes: one bit for each.
type laneSet uint16

const allLanes laneSet = 1<<lanes - 1

// What a file takes of the disk beside its bytes; the most bytes that its first line has.
const perFile, mostHead = 4096, 64 << 10

// A target is where lines go: the parameters of /write of InfluxDB 1.x, and the credentials of the client, if the server is to see them.
type target struct {
	Query  url.Values
	Header http.Header
}

// db returns the name of the database.
func (t *target) db() string { return t.Query.Get("db") }

// A head is the first line of a file of the spool. Done has one character for each lane, '1' once the server has its lines; it stands first, so that
// it can be overwritten in its place. Then come the lines of each lane, as many bytes as Sizes says.
type head struct {
	Done  string
	To    target
	At    time.Time
	Sizes [lanes]int64
	Lines [lanes]int64
}

// Where the characters of Done begin in a file.
const doneAt = int64(len(`{"Done":"`))

// An entry is a file of the spool: the lines of one body. A sender does not go past an entry that is not ready.
type entry struct {
	number, size int64
	at           time.Time
	to           *target // nil if the file could not be read yet
	left         laneSet // lanes whose lines the server does not have yet
	ready        bool
	unread       time.Time // since when it cannot be read
}

func (e *entry) name() string { return fmt.Sprintf("%020d.batch", e.number) }

// A spool keeps lines on a disk until a server has them. A file gets its name once its bytes are on the disk, so it is there whole or not at all.
// Sending needs no room on the disk: what was sent is noted by overwriting a few bytes of the file.
type spool struct {
	disk    Disk
	most    int64
	mu      sync.Mutex
	held    int64    // what its files take, with those that are being written and the room that bodies have
	last    int64    // the greatest number that was given
	part    int64    // the same of files that are being written
	queue   []*entry // in the order of their numbers
	gone    int      // how many entries were taken off the front of the queue
	direct  int      // calls that go to the server past the spool
	orphans int      // those of them whose lines are not in the spool, though their clients were answered
	debts   []debt
	paying  sync.Mutex // held while debts are settled
	failure error      // why the last file could not be written
	// The names of files that were removed after an error may not be gone on the device.
	isUnsure bool
	targets  map[string]*target
	wake     []chan struct{} // one for each sender
}

// openSpool reads what an earlier run left on a disk: lanes that are not sent yet. It removes files that were not finished.
func openSpool(disk Disk, most int64, senders int) (*spool, error) {
	s := &spool{disk: disk, most: most, targets: map[string]*target{}}
	for n := 0; n < senders; n++ {
		s.wake = append(s.wake, make(chan struct{}, 1))
	}
	names, err := disk.Names()
	open := map[string]laneSet{} // lanes of a database that have lines which are not sent
	for _, name := range names {
		number, wrong := strconv.ParseInt(strings.TrimSuffix(name, ".batch"), 10, 64)
		switch {
		case strings.HasSuffix(name, ".part"):
			err = firstOf(err, disk.Remove(name))
		case wrong == nil && strings.HasSuffix(name, ".batch"):
			size, gone := disk.Size(name)
			e := &entry{number: number, size: size + perFile, left: allLanes, ready: true}
			h, _, unread := s.readHead(e)
			for tries := 0; unread != nil && tries < 2; tries++ {
				h, _, unread = s.readHead(e)
			}
			if unread == nil {
				// A note may be on the disk though the note of an earlier file is not: both are sent again, and so the note must go first.
				e.left = h.left() | h.filled()&open[h.To.db()]
				if open[h.To.db()] |= e.left; e.left != h.left() {
					err = firstOf(err, disk.Overwrite([]string{name}, doneAt, e.left.notes()))
				}
			} else {
				e.unread = time.Unix(1, 0) // it holds up no others
			}
			if err = firstOf(err, gone); e.left == 0 {
				err = firstOf(err, disk.Remove(name))
				continue
			}
			s.queue, s.last, s.held = append(s.queue, e), number, s.held+e.size
		}
	}
	return s, err
}

// notes returns the notes of a file of which these lanes are not sent.
func (set laneSet) notes() (text []byte) {
	for lane := 0; lane < lanes; lane++ {
		text = append(text, '1'-byte(set>>lane&1))
	}
	return text
}

// filled returns the lanes that have lines.
func (h *head) filled() (set laneSet) {
	for lane, size := range h.Sizes {
		if size > 0 {
			set |= 1 << lane
		}
	}
	return set
}

// left returns the lanes that have lines and are not noted as sent.
func (h *head) left() laneSet {
	set := h.filled()
	for lane := range h.Sizes {
		if h.Done[lane] == '1' {
			set &^= 1 << lane
		}
	}
	return set
}

// readHead reads the first line of a file, and returns where its lines begin. It keeps the target of the entry.
func (s *spool) readHead(e *entry) (h *head, begin int64, err error) {
	size := e.size - perFile
	text := make([]byte, 0, 1024)
	for end := -1; end < 0; end = bytes.IndexByte(text, '\n') {
		more := int64(cap(text))
		if more > size {
			more = size
		}
		if int64(len(text)) == more {
			return nil, 0, fmt.Errorf("%s: the first line does not end", e.name())
		}
		text = make([]byte, more, 4*more)
		if err := s.disk.Read(e.name(), 0, text); err != nil {
			return nil, 0, err
		}
		if len(text) > mostHead && bytes.IndexByte(text, '\n') < 0 {
			return nil, 0, fmt.Errorf("%s: the first line is too long", e.name())
		}
	}
	text, _, _ = bytes.Cut(text, []byte{'\n'})
	h, begin = &head{}, int64(len(text)+1)
	err = json.Unmarshal(text, h)
	sum := begin
	for _, each := range h.Sizes {
		sum += each
	}
	if err == nil && (sum != size || len(h.Done) != lanes) {
		err = fmt.Errorf("%s: it has %d bytes, and not %d", e.name(), size, sum)
	}
	if err == nil {
		to := s.shared(&h.To)
		s.mu.Lock()
		if e.to == nil {
			e.at, e.to = h.At, to
		}
		s.mu.Unlock()
	}
	return h, begin, err
}

// shared returns the one target that is equal to a target.
func (s *spool) shared(to *target) *target {
	key, _ := json.Marshal(to) // texts have no error
	s.mu.Lock()
	defer s.mu.Unlock()
	if known := s.targets[string(key)]; known != nil {
		return known
	}
	if len(s.queue) == 0 {
		s.targets = map[string]*target{} // no entry has any of them
	}
	s.targets[string(key)] = to
	return to
}

// errFull is the error of a spool that has no more room.
var errFull = errors.New("the spool is full")

// reserve takes room for a body of so many bytes, or returns errFull. The caller must give the room to put, or back by release.
func (s *spool) reserve(size int) (room int64, err error) {
	room = int64(size) + perFile + 4096 // of its first line
	s.mu.Lock()
	defer s.mu.Unlock()
	if s.held+room > s.most {
		return 0, fmt.Errorf("%w: it would have %d bytes, and can have %d", errFull, s.held+room, s.most)
	}
	s.held += room
	return room, nil
}

// release gives room back.
func (s *spool) release(room int64) {
	s.mu.Lock()
	defer s.mu.Unlock()
	s.held -= room
}

// put has lines on the disk, and takes the room that reserve gave. A long text comes to several files. After an error nothing of it is in the spool.
func (s *spool) put(room int64, to *target, at time.Time, lines []byte) (entries []*entry, err error) {
	to = s.shared(to)
	var parts []string
	for len(lines) > 0 && err == nil {
		e, h := &entry{at: at, to: to}, &head{Done: strings.Repeat("0", lanes), To: *to, At: at}
		var part string
		var rest []byte
		if rest, part, err = s.write(e, h, lines); err == nil {
			lines, entries, parts = rest, append(entries, e), append(parts, part)
		}
	}
	if err == nil {
		err = s.name(entries, parts)
	} else {
		for n, part := range parts {
			_, entries[n].left = s.disk.Remove(part), 0
		}
	}
	s.mu.Lock()
	defer s.mu.Unlock()
	s.failure = err
	s.held -= room
	for _, e := range entries {
		if e.ready = true; e.left != 0 {
			s.held += e.size
		}
	}
	s.shorten()
	return entries, err
}

// write writes a file of an entry, without its name: as many lines as one file has. It returns the other lines.
func (s *spool) write(e *entry, h *head, lines []byte) (rest []byte, part string, err error) {
	order, rest, err := h.sort(lines)
	first, wrong := json.Marshal(h)
	e.left, e.size = h.filled(), int64(perFile+len(first)+1+len(lines)-len(rest))
	s.mu.Lock()
	s.part++
	part = fmt.Sprintf("%020d.part", s.part)
	s.mu.Unlock()
	if err = firstOf(err, wrong); err != nil {
		return nil, "", err
	}
	return rest, part, s.disk.Create(part, func(w io.Writer) error {
		_, err := w.Write(append(first, '\n'))
		for lane := 0; lane < lanes; lane++ {
			for _, piece := range order[lane] {
				if err == nil {
					_, err = w.Write(piece)
				}
			}
		}
		return err
	})
}

// name gives files their names, and entries their places in the queue: the queue is in the order of the numbers, also after the next start. After an
// error the files are removed. A file that cannot be removed keeps its place in the queue, so that it is not sent after lines that came later.
func (s *spool) name(entries []*entry, parts []string) (err error) {
	s.mu.Lock()
	named := 0
	for ; named < len(entries) && err == nil; named++ {
		e := entries[named]
		if now := time.Now().UnixNano(); now > s.last {
			s.last = now
		} else {
			s.last++
		}
		e.number = s.last
		if err = s.disk.Rename(parts[named], e.name()); err != nil {
			break
		}
		s.queue = append(s.queue, e)
	}
	s.mu.Unlock()
	if err == nil {
		err = s.disk.Sync()
	}
	if err == nil {
		return nil
	}
	isGone := make([]bool, len(entries))
	for n, e := range entries {
		if n < named {
			isGone[n] = s.disk.Remove(e.name()) == nil
		} else {
			_, isGone[n] = s.disk.Remove(parts[n]), true
		}
	}
	s.mu.Lock()
	defer s.mu.Unlock()
	s.isUnsure = true
	for n, e := range entries {
		if isGone[n] {
			e.left = 0
		}
	}
	return err
}

// shorten takes entries without lines off the front of the queue. The caller holds the lock.
func (s *spool) shorten() {
	for len(s.queue) > 0 && s.queue[0].left == 0 && s.queue[0].ready {
		s.queue[0] = nil
		s.queue, s.gone = s.queue[1:], s.gone+1
	}
	s.rouse()
}

// rouse wakes the senders. The caller holds the lock.
func (s *spool) rouse() {
	for _, each := range s.wake {
		select {
		case each <- struct{}{}:
		default:
		}
	}
}

// The most bytes of lines that a file has, if they are not one line.
const mostFile = 4 << 20

// sort finds the lane of each line that a file takes, and returns the pieces of the text that each lane has, and the rest of the text. The lines must be
// lines that the strict dialect reads.
func (h *head) sort(text []byte) (order [lanes][][]byte, rest []byte, err error) {
	d := decoderOf(text)
	defer strictDecoders.Put(d)
	var key []byte
	begin := 0
	for begin < mostFile && d.Next() {
		if key, err = d.AppendSeriesKey(key[:0]); err != nil {
			return order, nil, err
		}
		lane := crc32.Checksum(key, castagnoli) % lanes
		end := begin + len(d.Raw()) + 1
		if end > len(text) || text[end-1] != '\n' {
			return order, nil, errors.New("a line of the body has no end")
		}
		h.Sizes[lane] += int64(end - begin)
		h.Lines[lane]++
		order[lane] = join(order[lane], text[begin:end])
		begin = end
	}
	if begin == 0 && len(text) > 0 {
		err = errors.New("the body has no line")
	}
	return order, text[begin:], firstOf(err, d.Err())
}

// Decoders that read lines by the strict rules.
var strictDecoders = sync.Pool{New: func() any {
	d := lineprotocol.NewDecoderWithBytes(nil)
	d.SetDialect(lineprotocol.Strict)
	return d
}}

// decoderOf returns a decoder of these lines. The caller must put it back.
func decoderOf(text []byte) *lineprotocol.Decoder {
	d := strictDecoders.Get().(*lineprotocol.Decoder)
	d.ResetBytes(text)
	return d
}

var castagnoli = crc32.MakeTable(crc32.Castagnoli)

// join appends a piece to pieces, or makes the last one longer if the piece begins where that ends in the same text.
func join(pieces [][]byte, piece []byte) [][]byte {
	if n := len(pieces); n > 0 {
		if last := pieces[n-1]; len(last) < cap(last) && &last[:len(last)+1][len(last)] == &piece[0] {
			pieces[n-1] = last[:len(last)+len(piece)]
			return pieces
		}
	}
	return append(pieces, piece)
}

// tryDirect tells whether a call may go to the server past the spool: nothing is in the spool, and no call goes on whose client was told to come again.
// The caller must call endDirect after the call.
func (s *spool) tryDirect() bool {
	s.mu.Lock()
	defer s.mu.Unlock()
	if s.isUnsure { // a file that was removed could come back after lines that the server has by then
		s.isUnsure = s.disk.Sync() != nil
	}
	if len(s.queue) > 0 || s.orphans > 0 || s.isUnsure {
		return false
	}
	s.direct++
	return true
}

// A keeping is what became of lines while their call past the spool went on: entries of the spool, or none. An orphan's client was told to come again.
type keeping struct {
	entries  []*entry
	isOrphan bool
}

// orphan says that a call goes on whose lines cannot be kept.
func (s *spool) orphan() keeping {
	s.mu.Lock()
	defer s.mu.Unlock()
	s.orphans++
	return keeping{isOrphan: true}
}

// endDirect says that a call past the spool has ended. If the server has its lines, their entries go.
func (s *spool) endDirect(kept keeping, isStored bool) {
	if isStored && len(kept.entries) > 0 {
		_ = s.note(kept.entries, allLanes) // after an error a sender tries again
	}
	s.mu.Lock()
	defer s.mu.Unlock()
	if s.direct--; kept.isOrphan {
		s.orphans--
	}
	s.rouse()
}

// A debt is a note that could not be written: the server has these lines, so they must not be sent before it is.
type debt struct {
	entries []*entry
	of      laneSet
}

// note notes that the server has the lines of these lanes, and removes the files whose lines it has all. After an error settle tries again.
func (s *spool) note(entries []*entry, of laneSet) error {
	var names []string
	for _, e := range entries {
		names = append(names, e.name())
	}
	low, high := bits.TrailingZeros16(uint16(of)), bits.Len16(uint16(of))
	err := s.disk.Overwrite(names, doneAt+int64(low), bytes.Repeat([]byte{'1'}, high-low))
	s.mu.Lock()
	var ended []*entry
	if err != nil {
		s.debts = append(s.debts, debt{entries, of})
	} else {
		for _, e := range entries {
			had := e.left
			if e.left &^= of; e.left == 0 && had != 0 { // a debt may be of lanes that were noted since
				ended = append(ended, e)
				s.held -= e.size
			}
		}
		s.shorten()
	}
	s.mu.Unlock()
	for _, e := range ended {
		_ = s.disk.Remove(e.name()) // the next start removes it if this fails
	}
	return err
}

// settle writes the notes of these lanes that could not be written before.
func (s *spool) settle(of laneSet) (err error) {
	s.paying.Lock()
	defer s.paying.Unlock()
	s.mu.Lock()
	debts := s.debts
	s.debts = nil
	s.mu.Unlock()
	for n, each := range debts {
		if each.of&of == 0 || err != nil {
			s.mu.Lock()
			s.debts = append(s.debts, debts[n])
			s.mu.Unlock()
		} else {
			err = s.note(each.entries, each.of)
		}
	}
	return err
}

// some returns up to `most` entries of one target with lines of these lanes, which follow one another from a place of the queue on, and the place after
// the last one. It passes over entries that `skips` tells. It returns none while a call goes on past the spool.
func (s *spool) some(of laneSet, from, most int, skips func(*entry) bool) (found []*entry, next int) {
	s.mu.Lock()
	defer s.mu.Unlock()
	if from < s.gone {
		from = s.gone
	}
	for next = from; s.direct == 0 && next-s.gone < len(s.queue) && len(found) < most; next++ {
		e := s.queue[next-s.gone]
		if !e.ready || len(found) > 0 && e.left&of != 0 && (e.to == nil || e.to != found[0].to || skips(e)) {
			break
		}
		if e.left&of != 0 && !skips(e) {
			found = append(found, e)
		}
	}
	return found, next
}

// read reads the lines of these lanes of an entry, and how many they are.
func (s *spool) read(e *entry, of laneSet) (text []byte, lines int64, err error) {
	h, at, err := s.readHead(e)
	if err != nil {
		return nil, 0, err
	}
	s.mu.Lock()
	of &= e.left
	s.mu.Unlock()
	for lane, size := range h.Sizes {
		if of>>lane&1 != 0 && size > 0 {
			begin := len(text)
			text = append(text, make([]byte, size)...)
			if err := s.disk.Read(e.name(), at, text[begin:]); err != nil {
				return nil, 0, err
			}
			lines += h.Lines[lane]
		}
		at += size
	}
	return text, lines, nil
}

// isLost tells whether an entry, which cannot be read now, could not be read for more than a minute.
func (s *spool) isLost(e *entry) bool {
	s.mu.Lock()
	defer s.mu.Unlock()
	if e.unread.IsZero() {
		e.unread = time.Now()
	}
	return time.Since(e.unread) > time.Minute
}

// state returns how many bytes the spool takes, how many bodies it has, since when it has the oldest one, and why the last body could not be kept.
func (s *spool) state() (held int64, bodies int, oldest time.Time, failure error) {
	s.mu.Lock()
	defer s.mu.Unlock()
	if len(s.queue) > 0 {
		oldest = s.queue[0].at
	}
	return s.held, len(s.queue), oldest, s.failure
}
