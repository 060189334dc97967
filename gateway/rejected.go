package main

import (
	"errors"
	"io"
	"os"
	"path/filepath"
	"sync"
	"syscall"
)

// A rejectedFile has the rejected lines. It is opened for each body, so it may be moved away or emptied at any time. Once it has half of its bytes it is
// moved to a place beside it, in the place of the file there. A reserve beside it holds room on the disk for lines that were acknowledged.
type rejectedFile struct {
	path string
	most int64
	log  *logger
	mu   sync.Mutex
}

const reserveBytes = 4 << 20

// open sees that the file can be written, and makes the reserve.
func (r *rejectedFile) open() error {
	r.mu.Lock()
	defer r.mu.Unlock()
	err := r.write(nil)
	if err == nil {
		r.reserve()
	}
	return err
}

// reserve makes the reserve, if the disk has room for it.
func (r *rejectedFile) reserve() {
	path := r.path + ".reserve"
	if info, err := os.Stat(path); err == nil && info.Size() == reserveBytes {
		return
	}
	file, err := os.OpenFile(path, os.O_CREATE|os.O_WRONLY, 0o600)
	if err != nil {
		return
	}
	err = firstOf(syscall.Fallocate(int(file.Fd()), 0, 0, reserveBytes), file.Close())
	if err != nil {
		os.Remove(path)
	}
}

// append has whole lines on the disk. After an error no part of a line is left.
func (r *rejectedFile) append(lines []byte) error {
	r.mu.Lock()
	defer r.mu.Unlock()
	return r.write(lines)
}

// appendReserved does the same for lines of the spool, which were acknowledged: if the disk is full it takes the reserve.
func (r *rejectedFile) appendReserved(lines []byte) error {
	r.mu.Lock()
	defer r.mu.Unlock()
	err := r.write(lines)
	if errors.Is(err, syscall.ENOSPC) && os.Remove(r.path+".reserve") == nil {
		r.log.printf("the disk of %s is full: its reserve is used", r.path)
		return r.write(lines)
	}
	if err == nil {
		r.reserve()
	}
	return err
}

// write appends lines, and syncs the file and its name. The caller holds the lock.
func (r *rejectedFile) write(lines []byte) error {
	if info, err := os.Stat(r.path); err == nil && info.Mode().IsRegular() && info.Size() > 0 && info.Size()+int64(len(lines)) > r.most/2 {
		r.log.printf("%s is moved to %s.1, in the place of the file there", r.path, r.path)
		if err := os.Rename(r.path, r.path+".1"); err != nil {
			return err
		}
	}
	file, err := os.OpenFile(r.path, os.O_CREATE|os.O_RDWR|os.O_APPEND, 0o600)
	if err != nil {
		return err
	}
	defer file.Close()
	size, _ := file.Seek(0, io.SeekEnd)
	last := []byte{'\n'}
	if _, e := file.ReadAt(last, size-1); e == nil && last[0] != '\n' { // a run that was killed left a part of a line
		lines = append([]byte{'\n'}, lines...)
	}
	n, err := file.Write(lines)
	if end, e := file.Seek(0, io.SeekEnd); e == nil && err != nil && n > 0 {
		err = firstOf(file.Truncate(end-int64(n)), err)
	}
	return firstOf(err, file.Sync(), syncFolder(filepath.Dir(r.path)))
}

// syncFolder has the names of a folder on the disk.
func syncFolder(path string) error {
	folder, err := os.Open(path)
	if err != nil {
		return err
	}
	defer folder.Close()
	return folder.Sync()
}

// Retries are the bodies that could not be kept, though their rejected lines are in the file: a client that sends such a body again must not find them
// there twice. The latest 1,024 are known.
type retries struct {
	mu   sync.Mutex
	keys [][32]byte
}

// add has a body known.
func (r *retries) add(key [32]byte) {
	r.mu.Lock()
	defer r.mu.Unlock()
	if len(r.keys) == 1024 {
		r.keys = r.keys[1:]
	}
	r.keys = append(r.keys, key)
}

// take tells whether a body is known, and forgets it.
func (r *retries) take(key [32]byte) bool {
	r.mu.Lock()
	defer r.mu.Unlock()
	for n, each := range r.keys {
		if each == key {
			r.keys = append(r.keys[:n], r.keys[n+1:]...)
			return true
		}
	}
	return false
}
