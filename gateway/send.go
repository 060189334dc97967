package main

import (
	"bufio"
	"errors"
	"flag"
	"fmt"
	"io"
	"net/url"
	"os"
	"path/filepath"
	"sort"
	"strings"
	"sync"
	"syscall"
	"time"

	"yomskafi.example/lineprotocol/v3"
)

// The statuses of `lp_gateway send`: no batch is left and no line was rejected; no batch is left; the run failed; batches are left for the next run.
const statusSent, statusRejected, statusFailed, statusLeft = 0, 1, 2, 75

// A sendRun is what the command line says to `lp_gateway send`, and what all its workers share.
type sendRun struct {
	url, spool, dead, sent string
	tries, senders         int
	wait, timeout          time.Duration
	gzip                   bool
	rate                   rate
	authorization          string
	said                   io.Writer
	lock                   *os.File
	mu                     sync.Mutex
	batches, rejected      int
	unread                 string // which batch cannot be read, and why
}

// say writes a message.
func (r *sendRun) say(format string, values ...any) {
	r.mu.Lock()
	defer r.mu.Unlock()
	fmt.Fprintf(r.said, "lp_gateway: %s\n", appendShown(nil, []byte(fmt.Sprintf(format, values...))))
}

// A failure ends the run with a status.
type failure struct {
	status int
	text   string
}

func (f *failure) Error() string { return f.text }

func failed(format string, values ...any) error {
	return &failure{statusFailed, fmt.Sprintf(format, values...)}
}

// send posts the batches of a folder, or the lines of files, and returns the status of the program.
func send(words []string, said io.Writer) int {
	if len(words) == 1 && words[0] == "--call" {
		return callAside(os.Stdin)
	}
	r, files, err := readSend(words, said)
	if errors.Is(err, flag.ErrHelp) {
		return 0
	}
	if err == nil && r.spool == "" {
		err = r.cutFiles(files)
	}
	if err == nil {
		err = r.sendFolder()
	}
	return r.end(err, len(files) > 0)
}

// readSend reads the command line.
func readSend(words []string, said io.Writer) (r *sendRun, files []string, err error) {
	r = &sendRun{said: said}
	f := flag.NewFlagSet("lp_gateway send", flag.ContinueOnError)
	f.SetOutput(said)
	f.StringVar(&r.url, "url", "http://127.0.0.1:8086/write", "the `URL` that takes lines, with database and precision")
	f.StringVar(&r.spool, "spool", "", "send the batches *.lp of a `folder`, and remove them")
	f.StringVar(&r.dead, "dead", "", "put rejected lines into files of a `folder` (default: dead, in the folder of --spool)")
	f.StringVar(&r.sent, "sent", "", "move stored lines to a `folder`, instead of removing them")
	f.IntVar(&r.tries, "tries", 5, "how `often` a batch is sent if its answer may change")
	f.DurationVar(&r.wait, "wait", time.Second, "the `time` before the second try; each next one is twice as long")
	f.DurationVar(&r.timeout, "timeout", time.Minute, "the `time` that a call can take")
	f.IntVar(&r.senders, "senders", 1, "`number` of calls side by side; the lines of a series stay in order")
	f.BoolVar(&r.gzip, "gzip", false, "pack batches by gzip")
	f.Int64Var(&r.rate.most, "rate", 0, "`bytes` a second at most (default: no limit)")
	path := f.String("credentials", "", "read the credentials for the server from a `file` that only its owner can read")
	f.Usage = func() {
		fmt.Fprint(said, "usage: lp_gateway send [--NAME VALUE].. FILE..\n       lp_gateway send [--NAME VALUE].. --spool FOLDER\n\n")
		f.PrintDefaults()
	}
	if files, err = parse(f, words); err != nil {
		if errors.Is(err, flag.ErrHelp) {
			return r, nil, err
		}
		return r, nil, failed("the arguments are wrong")
	}
	known, err := readSecrets(*path)
	address, wrong := url.Parse(r.url)
	switch {
	case err != nil:
		return r, nil, failed("%v", err)
	case wrong != nil || address.Host == "":
		return r, nil, failed("--url is not a URL such as http://127.0.0.1:8086/write?db=DB&precision=ns")
	case (r.spool == "") == (len(files) == 0):
		return r, nil, failed("name either files or a folder by --spool")
	case r.tries < 1 || r.senders < 1 || r.senders > lanes || r.wait < 0 || r.timeout <= 0:
		return r, nil, failed("--tries, --senders, --wait and --timeout cannot be less than 1, and --senders not more than %d", lanes)
	}
	r.authorization = known.forServer(address.Host)
	return r, files, nil
}

// end tells the counts, or why the run failed, and returns the status.
func (r *sendRun) end(err error, ofFiles bool) int {
	stopped := (*failure)(nil)
	if errors.As(err, &stopped) && stopped.status == statusFailed || err != nil && stopped == nil {
		r.say("%v", err)
		return statusFailed
	}
	left := 0
	for range r.names() {
		left++
	}
	r.say("%d batches sent, %d lines rejected, %d batches left", r.batches, r.rejected, left)
	switch {
	case r.unread != "":
		r.say("%s", r.unread)
		return statusFailed
	case left > 0 && ofFiles:
		r.say("send the rest by lp_gateway send --spool %s", r.spool)
		return statusLeft
	case left > 0:
		return statusLeft
	case ofFiles:
		os.RemoveAll(r.spool)
	}
	if r.rejected > 0 {
		return statusRejected
	}
	return statusSent
}

// names returns the names of the batches, in order.
func (r *sendRun) names() (names []string) {
	paths, _ := filepath.Glob(escapeGlob(r.spool) + "/*.lp")
	for _, path := range paths {
		if info, err := os.Stat(path); err == nil && info.Mode().IsRegular() && !strings.HasPrefix(filepath.Base(path), ".") {
			names = append(names, filepath.Base(path))
		}
	}
	sort.Strings(names)
	return names
}

func escapeGlob(path string) string {
	return strings.NewReplacer(`\`, `\\`, `*`, `\*`, `?`, `\?`, `[`, `\[`).Replace(path)
}

// The lines and the bytes of a batch that is cut of a file.
const batchLines, cutBytes = 5000, 1000000

// cutFiles cuts files into batches of a new folder. A line that cannot be read goes to the dead letters, below a comment that tells why. A file that cannot be
// read is told; it stays, and the others are sent.
func (r *sendRun) cutFiles(files []string) (err error) {
	if r.dead == "" {
		r.dead = "dead"
	}
	if r.spool, err = os.MkdirTemp(".", ".lp_gateway-"); err != nil {
		return failed("the folder of batches cannot be made: %v", err)
	}
	number := 0
	for _, path := range files {
		if err := r.cutFile(path, &number); err != nil {
			if wrong := (*os.PathError)(nil); errors.As(err, &wrong) {
				err = wrong.Err
			}
			r.unread = fmt.Sprintf("cannot read %s: %v", path, err)
			r.say("%s; the other files are sent", r.unread)
		}
	}
	return nil
}

// cutFile cuts a file. After an error no batch of it is there.
func (r *sendRun) cutFile(path string, number *int) (err error) {
	file, err := os.Open(path)
	if err != nil {
		return err
	}
	defer file.Close()
	d := lineprotocol.NewDecoder(bufio.NewReader(file))
	d.SetDialect(lineprotocol.Strict)
	var text, dead []byte
	var made []string
	first, lines, rejected := *number, 0, 0
	put := func() {
		if err == nil && len(text) > 0 {
			*number++
			name := filepath.Join(r.spool, fmt.Sprintf("%08d.lp", *number))
			err, made, text, lines = os.WriteFile(name, text, 0o600), append(made, name), nil, 0
		}
	}
	for err == nil && d.Next() {
		if fault := d.Fault(); fault != nil {
			dead = fmt.Appendf(dead, "# %s: %s\n%s\n", appendShown(nil, []byte(filepath.Base(path))), appendShown(nil, []byte(fault.Error())), d.Raw())
			rejected++
			continue
		}
		if lines == batchLines || len(text)+len(d.Raw()) > cutBytes {
			put()
		}
		text = append(append(text, d.Raw()...), '\n')
		lines++
	}
	put()
	err = firstOf(err, d.Err())
	if err == nil && len(dead) > 0 {
		if err = os.MkdirAll(r.dead, 0o700); err == nil {
			_, err = place(dead, r.dead, filepath.Base(path)+".lp")
		}
		r.rejected += rejected
	}
	if err != nil {
		*number = first
		for _, each := range made {
			os.Remove(each)
		}
	}
	return err
}

// place writes a new file, under a name that is free, and syncs it. It returns the name.
func place(text []byte, folder, name string) (string, error) {
	for {
		file, err := os.OpenFile(filepath.Join(folder, name), os.O_CREATE|os.O_EXCL|os.O_WRONLY, 0o600)
		if errors.Is(err, os.ErrExist) {
			name = strings.TrimSuffix(name, ".lp") + "_.lp"
			continue
		}
		if err != nil {
			return "", err
		}
		_, err = file.Write(text)
		if err = firstOf(err, file.Sync(), file.Close(), syncFolder(folder)); err != nil {
			os.Remove(filepath.Join(folder, name))
		}
		return name, err
	}
}

// sendFolder sends the batches of the folder, in the order of their names.
func (r *sendRun) sendFolder() error {
	if info, err := os.Stat(r.spool); err != nil || !info.IsDir() {
		return failed("there is no folder %s", r.spool)
	}
	if r.dead == "" {
		r.dead = filepath.Join(r.spool, "dead")
	}
	if err := r.makeFolders(); err != nil {
		return err
	}
	defer r.lock.Close()
	r.findLeft()
	var workers []*worker
	for n := 0; n < r.senders; n++ {
		w := &worker{sendRun: r, state: filepath.Join(r.spool, ".send", fmt.Sprint(n))}
		if err := w.recover(); err != nil {
			return err
		}
		workers = append(workers, w)
	}
	var later []string // batches for which there was no room
	for _, name := range r.names() {
		isLater, err := r.sendBatch(workers, name)
		if err != nil {
			return err
		}
		if isLater {
			later = append(later, name)
		}
	}
	for _, name := range later { // those that were sent have made room
		if isLater, err := r.sendBatch(workers, name); err != nil {
			return err
		} else if isLater {
			return failed("%s cannot be written", filepath.Join(r.spool, ".send"))
		}
	}
	r.keepReserve()
	return tryLeft(workers)
}

// tryLeft tries each batch that was left once more, if the server stored the last lines that it was sent.
func tryLeft(workers []*worker) error {
	for _, w := range workers {
		left := w.left
		if w.left = nil; w.failures == 0 {
			w.isWell = true
			for _, name := range left {
				if err := w.send(name, false); err != nil {
					return err
				}
			}
		}
	}
	return nil
}

// makeFolders makes the folders, and takes the lock.
func (r *sendRun) makeFolders() error {
	state := filepath.Join(r.spool, ".send")
	for _, each := range []string{state, r.dead, r.sent} {
		if each == "" {
			continue
		}
		if err := os.MkdirAll(each, 0o700); err != nil {
			return failed("the folders cannot be made: %v", err)
		}
		own, _ := os.Stat(r.spool)
		if other, err := os.Stat(each); err == nil && os.SameFile(own, other) {
			return failed("%s is the folder of the batches", each)
		}
	}
	lock, err := os.OpenFile(filepath.Join(state, "lock"), os.O_CREATE|os.O_RDWR, 0o600)
	if err != nil {
		return failed("%s cannot be written: %v", state, err)
	}
	if syscall.Flock(int(lock.Fd()), syscall.LOCK_EX|syscall.LOCK_NB) != nil {
		return failed("another run is at work in %s", r.spool)
	}
	r.lock = lock
	return nil
}

// keepReserve makes the reserve, if the device has room for four of these.
func (r *sendRun) keepReserve() {
	path := filepath.Join(r.spool, ".send", "reserve")
	var device syscall.Statfs_t
	if _, err := os.Stat(path); err == nil || syscall.Statfs(r.spool, &device) != nil || int64(device.Bavail)*device.Bsize < 4*reserveBytes {
		return
	}
	file, err := os.OpenFile(path, os.O_CREATE|os.O_WRONLY, 0o600)
	if err == nil && firstOf(syscall.Fallocate(int(file.Fd()), 0, 0, reserveBytes), file.Close()) != nil {
		os.Remove(path)
	}
}

// sendBatch sends a batch by the workers: each has the lines of some series. It tells whether there was no room for what becomes of the batch.
func (r *sendRun) sendBatch(workers []*worker, name string) (isLater bool, err error) {
	own := make([]string, len(workers))
	if own[0] = name; len(workers) > 1 {
		if own, err = workers[0].share(name, len(workers)); err != nil {
			return false, err
		}
	}
	errs := make([]error, len(workers))
	var all sync.WaitGroup
	for n, w := range workers {
		if own[n] != "" {
			all.Add(1)
			go func(n int, w *worker) {
				defer all.Done()
				errs[n] = w.send(own[n], true)
			}(n, w)
		}
	}
	all.Wait()
	for n := range errs {
		if errors.Is(errs[n], syscall.ENOSPC) {
			isLater, errs[n] = true, nil
		}
	}
	err = firstOf(errs...)
	if err == nil && !isLater && !exists(filepath.Join(r.spool, name)) {
		r.batches++
	}
	return isLater, err
}

func exists(path string) bool {
	_, err := os.Lstat(path)
	return err == nil
}

// findLeft makes batches of the files that killed relays have left beside their places: no process holds their locks. A line that was cut off goes.
func (r *sendRun) findLeft() {
	paths, _ := filepath.Glob(escapeGlob(r.spool) + "/*.lp.lp_relay-*")
	for _, path := range paths {
		if err := takeLeft(path); err != nil {
			r.say("%s: what an ended relay has left: %v", path, err)
		}
	}
}

func takeLeft(path string) error {
	file, err := os.OpenFile(path, os.O_RDWR, 0)
	if errors.Is(err, os.ErrNotExist) {
		return nil // it came to its place
	} else if err != nil {
		return err
	}
	defer file.Close()
	if syscall.Flock(int(file.Fd()), syscall.LOCK_EX|syscall.LOCK_NB) != nil || !exists(path) {
		return nil // a relay has it
	}
	text, err := io.ReadAll(file)
	if err != nil {
		return err
	}
	size := strings.LastIndexByte(string(text), '\n') + 1
	if size == 0 {
		return os.Remove(path)
	}
	if err := firstOf(file.Truncate(int64(size)), file.Sync()); err != nil {
		return err
	}
	to := path[:strings.LastIndex(path, ".lp_relay-")]
	for { // a hard link replaces nothing
		err := os.Link(path, to)
		if !errors.Is(err, os.ErrExist) {
			return firstOf(err, os.Remove(path))
		}
		to = strings.TrimSuffix(to, ".lp") + "_.lp"
	}
}
