package main

import (
	"bufio"
	"fmt"
	"io"
	"os"
	"path/filepath"
	"sync"
	"syscall"
)

// A Disk is a folder of files, as the spool needs it. The spool of a running gateway is in a folder of the file system; the simulation has a disk in
// memory that forgets what was not synced.
type Disk interface {
	// Names returns the names of all files, in order.
	Names() ([]string, error)
	// Size returns how many bytes a file has.
	Size(name string) (int64, error)
	// Create writes a new file by a function, and syncs its bytes, but not its name. After an error there is no such file.
	Create(name string, write func(io.Writer) error) error
	// Read reads bytes of a file from a place on. It returns io.EOF or io.ErrUnexpectedEOF if the file ends before.
	Read(name string, at int64, into []byte) error
	// Overwrite writes bytes over bytes that each of some files has, in no order, and syncs them.
	Overwrite(names []string, at int64, bytes []byte) error
	// Rename gives a file another name. The name may be lost until Sync.
	Rename(from, to string) error
	// Remove removes a file. It may come back until Sync.
	Remove(name string) error
	// Sync has all names on the device.
	Sync() error
}

// A folder is a Disk in the file system. Only one process can have it.
type folder struct {
	path string
	lock *os.File // the folder itself
}

// openFolder opens a folder, and makes it if it is not there. It returns an error if another process has it.
func openFolder(path string) (*folder, error) {
	_ = os.MkdirAll(path, 0o700) // if this fails the folder cannot be opened
	lock, err := os.Open(path)
	if err != nil {
		return nil, err
	}
	if err := syscall.Flock(int(lock.Fd()), syscall.LOCK_EX|syscall.LOCK_NB); err != nil {
		lock.Close()
		return nil, fmt.Errorf("another process has the spool %s: %w", path, err)
	}
	return &folder{path, lock}, nil
}

func (f *folder) in(name string) string { return filepath.Join(f.path, name) }

func (f *folder) Names() (names []string, err error) {
	entries, err := os.ReadDir(f.path)
	for _, entry := range entries {
		if entry.Type().IsRegular() {
			names = append(names, entry.Name())
		}
	}
	return names, err
}

func (f *folder) Size(name string) (int64, error) {
	info, err := os.Stat(f.in(name))
	if err != nil {
		return 0, err
	}
	return info.Size(), nil
}

func (f *folder) Create(name string, write func(io.Writer) error) error {
	file, err := os.OpenFile(f.in(name), os.O_CREATE|os.O_EXCL|os.O_WRONLY, 0o600)
	if err != nil {
		return err
	}
	w := writers.Get().(*bufio.Writer)
	defer writers.Put(w)
	w.Reset(file)
	err = firstOf(write(w), w.Flush(), file.Sync(), file.Close())
	if err != nil {
		os.Remove(f.in(name))
	}
	return err
}

var writers = sync.Pool{New: func() any { return bufio.NewWriterSize(nil, 64<<10) }}

func (f *folder) Read(name string, at int64, into []byte) error {
	file, err := os.Open(f.in(name))
	if err != nil {
		return err
	}
	defer file.Close()
	_, err = io.ReadFull(io.NewSectionReader(file, at, int64(len(into))), into)
	return err
}

func (f *folder) Overwrite(names []string, at int64, bytes []byte) error {
	if len(names) == 1 {
		return f.overwrite(names[0], at, bytes)
	}
	errs := make([]error, len(names))
	var all sync.WaitGroup
	for n, name := range names {
		all.Add(1)
		go func(n int, name string) {
			defer all.Done()
			errs[n] = f.overwrite(name, at, bytes)
		}(n, name)
	}
	all.Wait()
	return firstOf(errs...)
}

func (f *folder) overwrite(name string, at int64, bytes []byte) error {
	file, err := os.OpenFile(f.in(name), os.O_WRONLY, 0)
	if err != nil {
		return err
	}
	defer file.Close()
	_, err = file.WriteAt(bytes, at)
	return firstOf(err, syscall.Fdatasync(int(file.Fd())))
}

func (f *folder) Rename(from, to string) error { return os.Rename(f.in(from), f.in(to)) }
func (f *folder) Remove(name string) error     { return os.Remove(f.in(name)) }
func (f *folder) Sync() error                  { return f.lock.Sync() }

// firstOf returns the first error that is not nil.
func firstOf(errs ...error) error {
	for _, err := range errs {
		if err != nil {
			return err
		}
	}
	return nil
}
