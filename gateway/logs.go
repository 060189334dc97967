package main

import (
	"fmt"
	"io"
	"sync"
	"time"
)

// A logger writes messages, each on one line, with escapes for characters that a terminal would act on. No message has a credential.
type logger struct {
	mu   sync.Mutex
	to   io.Writer
	last string // the last message, and how often and until when it is not written again
	more int
	next time.Time
}

// printf writes a message. A message that comes again within 10 seconds is counted, and is written with this count later.
func (l *logger) printf(format string, values ...any) {
	text := string(appendShown(nil, []byte(cut(fmt.Sprintf(format, values...), 2000))))
	l.mu.Lock()
	defer l.mu.Unlock()
	now := time.Now()
	if text == l.last && now.Before(l.next) {
		l.more++
		return
	}
	if l.more > 0 {
		fmt.Fprintf(l.to, "lp_gateway: the last message came %d times more\n", l.more)
	}
	l.last, l.more, l.next = text, 0, now.Add(10*time.Second)
	fmt.Fprintf(l.to, "lp_gateway: %s\n", text)
}

// Write takes a message of net/http.
func (l *logger) Write(text []byte) (int, error) {
	l.printf("%s", trimEnd(text))
	return len(text), nil
}

func trimEnd(text []byte) []byte {
	for len(text) > 0 && text[len(text)-1] == '\n' {
		text = text[:len(text)-1]
	}
	return text
}
