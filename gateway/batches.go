package main

import (
	"bytes"
	"encoding/json"
	"errors"
	"fmt"
	"hash/crc32"
	"os"
	"path/filepath"
	"regexp"
	"strconv"
	"strings"
	"syscall"
	"time"

	"yomskafi.example/lineprotocol/v3"
)

// A worker sends batches one after another, and judges the answers. A run that was cut off leaves in its folder `state` what the next one finishes.
type worker struct {
	*sendRun
	state    string
	isWell   bool     // the server has stored lines since the first answer of the batch under way that may be a failure of the server
	failures int      // how often the server has failed since it stored lines
	left     []string // batches that it could not send
}

func (w *worker) in(name string) string   { return filepath.Join(w.state, name) }
func (w *worker) path(name string) string { return filepath.Join(w.spool, name) }

// recover does what is left to do of a run that was cut off.
func (w *worker) recover() error {
	if err := os.MkdirAll(w.state, 0o700); err != nil {
		return failed("%s cannot be written: %v", w.state, err)
	}
	if exists(w.in("out")) {
		_, err := w.finish()
		return err
	}
	for _, name := range []string{"dead.lp", "stored.lp"} {
		os.Remove(w.in(name))
	}
	return w.removeParts()
}

func (w *worker) removeParts() error {
	paths, _ := filepath.Glob(escapeGlob(w.state) + "/part-*.lp")
	for _, path := range paths {
		os.Remove(path)
	}
	return nil
}

// An outcome is what becomes of a batch: dead letters, lines that are stored, and batches in its place.
type outcome struct {
	dead   []byte
	stored []byte
	parts  [][]byte
}

// takeOut takes a batch out of the folder. Before the batch goes, all of its outcome is on the device; from then on the next run finishes what this one does
// not. It returns the names of the parts, and ENOSPC if there is no room, also without the reserve.
func (w *worker) takeOut(name string, o outcome) (parts []string, err error) {
	if o.dead == nil && o.parts == nil && w.sent == "" {
		if err := os.Remove(w.path(name)); err != nil {
			return nil, failed("%s cannot be removed: %v", w.path(name), err)
		}
		return nil, nil
	}
	err = w.prepare(name, o)
	if errors.Is(err, syscall.ENOSPC) && os.Remove(filepath.Join(w.spool, ".send", "reserve")) == nil {
		err = w.prepare(name, o)
	}
	if err != nil {
		if errors.Is(err, syscall.ENOSPC) {
			return nil, err
		}
		return nil, failed("%s cannot be written: %v", w.state, err)
	}
	if err := os.Rename(w.path(name), w.in("out")); err != nil {
		return nil, failed("%s cannot be moved: %v", w.path(name), err)
	}
	return w.finish()
}

// prepare writes the outcome of a batch beside it.
func (w *worker) prepare(name string, o outcome) error {
	files := map[string][]byte{"name": []byte(name)}
	if o.dead != nil {
		files["dead.lp"] = o.dead
	}
	if o.stored != nil && w.sent != "" {
		files["stored.lp"] = o.stored
	}
	for n, part := range o.parts {
		files[fmt.Sprintf("part-%02d.lp", n)] = part
	}
	for _, each := range []string{"dead.lp", "stored.lp"} {
		os.Remove(w.in(each))
	}
	_ = w.removeParts()
	for each, text := range files {
		os.Remove(w.in(each))
		if _, err := place(text, w.state, each); err != nil {
			return err
		}
	}
	return nil
}

// finish brings the outcome of a batch to its places.
func (w *worker) finish() (parts []string, err error) {
	text, err := os.ReadFile(w.in("name"))
	if err != nil {
		return nil, failed("%v", err)
	}
	name := string(text)
	if dead, err := os.ReadFile(w.in("dead.lp")); err == nil {
		w.mu.Lock()
		w.rejected += countDead(dead)
		w.mu.Unlock()
	}
	if _, err = move(w.in("dead.lp"), w.dead, name); err == nil && w.sent != "" {
		_, err = move(w.in("stored.lp"), w.sent, name)
	}
	for n := 0; n < lanes && err == nil; n++ {
		part := ""
		part, err = move(w.in(fmt.Sprintf("part-%02d.lp", n)), w.spool, fmt.Sprintf("%s.%d.lp", strings.TrimSuffix(name, ".lp"), n))
		parts = append(parts, part)
	}
	if err != nil {
		return nil, failed("%v; what is meant for it is in %s", err, w.state)
	}
	return parts, firstOf(os.Remove(w.in("out")))
}

// countDead returns how many lines of text dead letters have, without the comments.
func countDead(text []byte) (count int) {
	for _, line := range bytes.Split(bytes.TrimSuffix(text, []byte{'\n'}), []byte{'\n'}) {
		if !bytes.HasPrefix(line, []byte{'#'}) {
			count++
		}
	}
	return count
}

// move moves a file, if it is there, to a name of a folder, or to one like it that is free.
func move(from, folder, name string) (string, error) {
	text, err := os.ReadFile(from)
	if errors.Is(err, os.ErrNotExist) {
		return "", nil
	}
	to := name
	for err == nil {
		if err = os.Link(from, filepath.Join(folder, to)); err == nil {
			return to, firstOf(syncFolder(folder), os.Remove(from))
		}
		if !errors.Is(err, os.ErrExist) {
			break
		}
		if had, unread := os.ReadFile(filepath.Join(folder, to)); unread == nil && bytes.Equal(had, text) && isSame(from, filepath.Join(folder, to)) {
			return to, os.Remove(from) // a run that was cut off has moved it
		}
		to, err = strings.TrimSuffix(to, ".lp")+"_.lp", nil
	}
	if errors.Is(err, syscall.EXDEV) { // another file system
		if to, err = place(text, folder, name); err == nil {
			err = os.Remove(from)
		}
	}
	if err != nil {
		return "", fmt.Errorf("%s cannot be written: %w", filepath.Join(folder, name), err)
	}
	return to, nil
}

func isSame(a, b string) bool {
	first, err := os.Stat(a)
	second, wrong := os.Stat(b)
	return err == nil && wrong == nil && os.SameFile(first, second)
}

// share cuts a batch into one for each worker, by the series of its lines. A batch that cannot be cut is of the first worker.
func (w *worker) share(name string, count int) (parts []string, err error) {
	text, err := os.ReadFile(w.path(name))
	parts = make([]string, count)
	parts[0] = name
	if lines := linesOf(text); err != nil || lines == nil {
		return parts, nil // send tells why
	}
	texts := make([][]byte, count)
	d := decoderOf(text)
	defer strictDecoders.Put(d)
	var key []byte
	for d.Next() {
		key, _ = d.AppendSeriesKey(key[:0])
		n := int(crc32.Checksum(key, castagnoli)) % count
		texts[n] = append(append(texts[n], d.Raw()...), '\n')
	}
	made, err := w.takeOut(name, outcome{parts: texts})
	if errors.Is(err, syscall.ENOSPC) {
		return parts, nil
	}
	copy(parts, append(made, make([]string, count)...))
	for n := range texts {
		if len(texts[n]) == 0 && parts[n] != "" {
			os.Remove(w.path(parts[n]))
			parts[n] = ""
		}
	}
	return parts, err
}

// linesOf returns the lines of a batch, each with its newline, or nil if a text of it is no line.
func linesOf(text []byte) (lines [][]byte) {
	d := decoderOf(text)
	defer strictDecoders.Put(d)
	for d.Next() {
		if d.Fault() != nil {
			return nil
		}
		lines = append(lines, append(append([]byte(nil), d.Raw()...), '\n'))
	}
	return lines
}

// send sends a batch, and the batches in its place, and judges the answers. The first time it tries again while the answer may change.
func (w *worker) send(name string, isFull bool) error {
	info, err := os.Stat(w.path(name))
	var text []byte
	if err == nil {
		text, err = os.ReadFile(w.path(name))
	}
	if err == nil && int64(len(text)) != info.Size() {
		err = fmt.Errorf("%d of its %d bytes were read", len(text), info.Size())
	}
	if err != nil {
		w.mu.Lock()
		w.unread = fmt.Sprintf("%s: %v", name, err)
		w.mu.Unlock()
		w.say("%s: it is left", w.unread)
		return nil
	}
	tries := 1
	if isFull {
		tries = w.tries
	}
	a, err := w.postAgain(name, text, tries)
	if err != nil {
		return err
	}
	switch {
	case a.Code == 204:
		w.isWell, w.failures = true, 0
		_, err = w.takeOut(name, outcome{stored: text})
		return err
	case a.Code == 400:
		return w.refuse(name, text, a, isFull)
	case a.Code == 413:
		if lines := linesOf(text); len(lines) > 1 {
			return w.sendHalves(name, lines, isFull)
		}
		return w.refuseAll(name, text, a)
	case a.Code == 500:
		return w.search(name, text, a, isFull)
	case a.mayChange():
		return w.stop(name, a)
	}
	return failed("%s: %s", name, a)
}

// stop ends the run, since what is left would be answered in the same way for now.
func (w *worker) stop(name string, a *callAnswer) error {
	w.say("%s: %s: nothing more is sent for now", name, a)
	return &failure{statusLeft, a.String()}
}

// postAgain posts a batch, and again while the answer may change.
func (w *worker) postAgain(name string, text []byte, tries int) (*callAnswer, error) {
	for wait := w.wait; ; wait *= 2 {
		a, err := w.post(name, text)
		if tries--; err != nil || tries == 0 || !a.mayChange() {
			return a, err
		}
		if asked := time.Duration(a.RetryAfter) * time.Second; asked > wait {
			wait = asked
		}
		w.say("%s: %s: again in %s", name, a, wait)
		time.Sleep(wait)
	}
}

// refuseAll puts all lines of a batch to the dead letters.
func (w *worker) refuseAll(name string, text []byte, a *callAnswer) error {
	_, err := w.takeOut(name, outcome{dead: append([]byte("# "+a.String()+"\n"), ended(text)...)})
	return err
}

// ended returns a text that ends with a newline.
func ended(text []byte) []byte {
	if len(text) > 0 && text[len(text)-1] != '\n' {
		return append(append([]byte(nil), text...), '\n')
	}
	return text
}

// sendHalves cuts a batch, and sends its halves in its place.
func (w *worker) sendHalves(name string, lines [][]byte, isFull bool) error {
	half := (len(lines) + 1) / 2
	return w.sendParts(name, outcome{parts: [][]byte{bytes.Join(lines[:half], nil), bytes.Join(lines[half:], nil)}}, isFull)
}

func (w *worker) sendParts(name string, o outcome, isFull bool) error {
	parts, err := w.takeOut(name, o)
	for _, part := range parts {
		if err == nil && part != "" {
			err = w.send(part, isFull)
		}
	}
	return err
}

// refuse judges a batch that is answered with 400.
func (w *worker) refuse(name string, text []byte, a *callAnswer, isFull bool) error {
	said := a.said()
	switch {
	case strings.HasPrefix(said, "unable to parse '"), strings.HasPrefix(said, "partial write: unable to parse '"):
		if o, isPartial, ok := nameLines(said, text); ok {
			if isPartial {
				w.isWell, w.failures = true, 0
			}
			_, err := w.takeOut(name, o)
			return err
		}
	case strings.Contains(a.Text, "partial write: "), strings.Contains(a.Text, "field type conflict"), strings.Contains(a.Text, "too long line"):
	default:
		return w.search(name, text, a, isFull)
	}
	return w.refuseSome(name, text, a, said)
}

var dropped = regexp.MustCompile(`(?s)^partial write: .* dropped=([0-9]+)$`)

// refuseSome judges a batch of which the answer refuses lines that it does not name.
func (w *worker) refuseSome(name string, text []byte, a *callAnswer, said string) error {
	lines := linesOf(text)
	if found := dropped.FindStringSubmatch(said); len(lines) <= 1 || found != nil && found[1] == strconv.Itoa(len(lines)) {
		return w.refuseAll(name, text, a)
	}
	if o, ok := partLines(text, a, said); ok {
		return w.sendParts(name, o, true)
	}
	return w.sendHalves(name, lines, true)
}

// nameLines puts the lines that an answer of InfluxDB names to the dead letters, and the others to those that are stored. An answer names all lines that it
// refuses, in their order, each as `unable to parse 'LINE': REASON`. It fails if a name is of no line, or if nothing is stored and a line is not named.
func nameLines(said string, text []byte) (o outcome, isPartial, ok bool) {
	isPartial = strings.HasPrefix(said, "partial write: ")
	if said = strings.TrimPrefix(said, "partial write: "); isPartial {
		if !strings.HasSuffix(said, " dropped=0") {
			return o, isPartial, false
		}
		said = strings.TrimSuffix(said, " dropped=0")
	}
	names := strings.Split(strings.TrimPrefix(said, "unable to parse '"), "\nunable to parse '")
	lines := strings.Split(strings.TrimSuffix(string(text), "\n"), "\n")
	next, others := 0, 0
	for at := 0; at < len(lines); at++ {
		last, reason := -1, ""
		if next < len(names) {
			last, reason = lastNamed(names[next], lines, at)
		}
		if last < 0 {
			o.stored = append(append(o.stored, lines[at]...), '\n')
			others++
			continue
		}
		o.dead = fmt.Appendf(o.dead, "# 400 unable to parse: %s\n", onOneLine(reason))
		for ; at < last; at++ {
			o.dead = append(append(o.dead, lines[at]...), '\n')
		}
		o.dead = append(append(o.dead, lines[at]...), '\n')
		next++
	}
	return o, isPartial, next == len(names) && (others == 0 || isPartial)
}

// lastNamed returns the last line of the text that a name has, if this text begins at a line, and the reason; or -1.
func lastNamed(name string, lines []string, at int) (last int, reason string) {
	part := strings.TrimLeft(lines[at], " \t")
	for {
		if !strings.HasPrefix(name, part) {
			return -1, ""
		}
		name = name[len(part):]
		if strings.HasPrefix(name, "': ") {
			return at, name[len("': "):]
		}
		if at++; !strings.HasPrefix(name, "\n") || at == len(lines) {
			return -1, ""
		}
		name, part = name[1:], lines[at]
	}
}

// onOneLine returns a text with a space in the place of each character that a terminal would act on.
func onOneLine(text string) string {
	return strings.TrimRight(strings.Map(func(r rune) rune {
		if r == '\ufffd' || strconv.IsPrint(r) {
			return r
		}
		return ' '
	}, text), " ")
}

var conflict = regexp.MustCompile(`input field "(.*)" on measurement "(.*)" is type ([a-z]*), `)
var typeNames = map[lineprotocol.ValueKind]string{lineprotocol.Float: "float", lineprotocol.Int: "integer", lineprotocol.Uint: "unsigned",
	lineprotocol.Bool: "boolean", lineprotocol.String: "string"}

// partLines parts a batch of which some lines are stored: lines that have no time go to the dead letters, lines that have the field that the answer names to the
// first part, and the others to the second. It fails if all are of one kind, or have no time where nothing is stored.
func partLines(text []byte, a *callAnswer, said string) (o outcome, ok bool) {
	named := conflict.FindStringSubmatch(said)
	nothing := said == "field type conflict"
	comment := []byte("# may be stored: " + a.String() + "\n")
	o.parts = make([][]byte, 2)
	d := decoderOf(text)
	defer strictDecoders.Put(d)
	for d.Next() {
		to := &o.parts[1]
		if _, hasTime := d.Timestamp(); !hasTime {
			if to = &o.dead; o.dead == nil {
				o.dead = comment
			}
		} else if named != nil && hasField(d, named) {
			to = &o.parts[0]
		}
		*to = append(append(*to, d.Raw()...), '\n')
	}
	isEmpty := [2]bool{o.parts[0] == nil, o.parts[1] == nil}
	if o.dead == nil {
		ok = !isEmpty[0] && !isEmpty[1]
	} else {
		ok = !(nothing && isEmpty[0] && isEmpty[1])
	}
	if isEmpty[0] && isEmpty[1] {
		o.parts = nil
	}
	return o, ok
}

// hasField tells whether a line has the field that an answer names, with a value of that type.
func hasField(d *lineprotocol.Decoder, named []string) bool {
	if name, err := d.Measurement(); err != nil || string(name) != named[2] {
		return false
	}
	for {
		key, value, err := d.NextField()
		if err != nil || key == nil {
			return false
		}
		if string(key) == named[1] && typeNames[value.Kind()] == named[3] {
			return true
		}
	}
}

// wantWell ends the run if the server answers a call without lines as it does one with them, or if it failed for too many calls.
func (w *worker) wantWell(name string, told *callAnswer) error {
	w.isWell = false
	a, err := w.post(name, nil)
	switch {
	case err != nil:
		return err
	case a.Code != 204 && a.mayChange(), a.Code == 204 && w.failures >= mostFailures:
		return w.stop(name, told)
	case a.Code != 204:
		return failed("%s: %s; and of no lines: %s", name, told, a)
	}
	return nil
}

// After so many failures without a stored line no more is tried.
const mostFailures = 25

// search looks for the lines of a batch for which the server fails: of a batch with such a line it stores nothing. If it stores nothing meanwhile, it may fail for
// each line, and the batch is left.
func (w *worker) search(name string, text []byte, a *callAnswer, isFull bool) error {
	if isFull {
		if err := w.wantWell(name, a); err != nil {
			return err
		}
	}
	w.failures++
	lines := linesOf(text)
	switch {
	case len(lines) > 1 && (w.isWell || w.failures < mostFailures):
		return w.sendHalves(name, lines, false)
	case len(lines) <= 1 && w.isWell:
		return w.refuseAll(name, text, a)
	}
	w.say("%s: %s: it is left", name, a)
	w.left = append(w.left, name)
	return nil
}

// A callAnswer is the answer to a call, or why there is none. Call identifies what was sent.
type callAnswer struct {
	Call       string
	Code       int
	Text       string
	RetryAfter int
	IsFinal    bool // no further call can be answered otherwise
}

// String returns the status and what is said, on one line.
func (a *callAnswer) String() string {
	text := onOneLine(cut(a.Text, 1000))
	if a.Code == 0 {
		return text
	}
	return strings.TrimSpace(fmt.Sprintf("%d %s", a.Code, text))
}

// said returns the error of an answer of InfluxDB, or the text as it is.
func (a *callAnswer) said() string {
	told := struct{ Error string }{a.Text}
	_ = json.Unmarshal([]byte(a.Text), &told)
	return told.Error
}

// mayChange tells whether a further call may be answered otherwise.
func (a *callAnswer) mayChange() bool {
	return !a.IsFinal && (a.Code == 0 || a.Code == 408 || a.Code == 429 || a.Code/100 == 5)
}
