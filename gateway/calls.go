package main

import (
	"bytes"
	"context"
	"crypto/sha256"
	"crypto/x509"
	"encoding/json"
	"errors"
	"fmt"
	"io"
	"net/http"
	"net/url"
	"os"
	"os/exec"
	"path/filepath"
	"strconv"
	"syscall"
	"time"
)

// A callRequest is a call of `lp_gateway send`, which a process of its own makes: it goes on if the run is cut off, and the next run reads its answer.
type callRequest struct {
	URL, Authorization string
	Gzip               bool
	Timeout            time.Duration
	Text               []byte
	Call, Answer       string // what identifies the call; the file of the answer
}

// post posts a text once. An answer of a run that was cut off counts, if it is for the same file and decides what becomes of it.
func (w *worker) post(name string, text []byte) (*callAnswer, error) {
	sum := sha256.New()
	fmt.Fprintf(sum, "%s\n%s\n%s", w.url, name, text)
	if info, err := os.Stat(w.path(name)); err == nil {
		fmt.Fprintf(sum, "\n%d %d", info.ModTime().UnixNano(), info.Sys().(*syscall.Stat_t).Ino)
	}
	call := fmt.Sprintf("%x", sum.Sum(nil))
	known := &callAnswer{}
	if told, err := os.ReadFile(w.in("answer")); err == nil && json.Unmarshal(told, known) == nil && known.Call == call &&
		(known.Code == 204 || known.Code == 400 || known.Code == 413) {
		return known, nil
	}
	w.rate.wait(context.Background(), len(text))
	request := callRequest{w.url, w.authorization, w.gzip, w.timeout, text, call, w.in("answer")}
	if err := os.WriteFile(w.in("answer"), []byte("{}"), 0o600); err != nil || len(text) == 0 { // there is no room, or the answer is not needed later
		return request.make(), nil
	}
	return w.callApart(&request)
}

// callApart has another process make a call.
func (w *worker) callApart(request *callRequest) (*callAnswer, error) {
	program, err := os.Executable()
	if err != nil {
		return request.make(), nil
	}
	asked, _ := json.Marshal(request)
	child := exec.Command(program, "send", "--call")
	child.Stdin, child.SysProcAttr = bytes.NewReader(asked), &syscall.SysProcAttr{Setsid: true}
	child.ExtraFiles = []*os.File{w.lock} // so that no other run begins before the call has ended
	if err := child.Run(); err != nil {
		return request.make(), nil
	}
	told, err := os.ReadFile(request.Answer)
	a := &callAnswer{}
	if err = firstOf(err, json.Unmarshal(told, a)); err != nil || a.Call != request.Call {
		return nil, failed("the answer is lost, since %s cannot be written", filepath.Dir(request.Answer))
	}
	return a, nil
}

// callAside makes a call that standard input has, and writes its answer.
func callAside(in io.Reader) int {
	request := &callRequest{}
	if json.NewDecoder(in).Decode(request) != nil {
		return statusFailed
	}
	told, _ := json.Marshal(request.make())
	if firstOf(os.WriteFile(request.Answer+".new", told, 0o600), os.Rename(request.Answer+".new", request.Answer)) != nil {
		return statusFailed
	}
	return 0
}

// make makes the call.
func (c *callRequest) make() *callAnswer {
	a := &callAnswer{Call: c.Call}
	body := c.Text
	if c.Gzip {
		packed := packers.Get().(*packer)
		defer packers.Put(packed)
		body = packed.pack(body)
	}
	request, err := http.NewRequest(http.MethodPost, c.URL, bytes.NewReader(body))
	if err != nil {
		a.Text, a.IsFinal = "the URL is wrong", true
		return a
	}
	request.Header.Set("Content-Type", "text/plain; charset=utf-8")
	if c.Gzip {
		request.Header.Set("Content-Encoding", "gzip")
	}
	if c.Authorization != "" {
		request.Header.Set("Authorization", c.Authorization)
	}
	client := http.Client{Timeout: c.Timeout, CheckRedirect: func(*http.Request, []*http.Request) error { return http.ErrUseLastResponse }}
	response, err := client.Do(request)
	if err != nil { // what it wraps is told, without the address, which may have a password
		if wrapped := (*url.Error)(nil); errors.As(err, &wrapped) {
			err = wrapped.Err
		}
		a.Text = "the server does not answer: " + err.Error()
		a.IsFinal = errors.As(err, new(x509.UnknownAuthorityError)) || errors.As(err, new(x509.HostnameError)) || errors.As(err, new(x509.CertificateInvalidError))
		return a
	}
	defer response.Body.Close()
	text, err := io.ReadAll(io.LimitReader(response.Body, 16<<20))
	if err != nil {
		a.Text = "the answer is cut off: " + err.Error()
		return a
	}
	a.Code, a.Text = response.StatusCode, string(text)
	a.RetryAfter, _ = strconv.Atoi(response.Header.Get("Retry-After"))
	if a.RetryAfter > 3600 {
		a.RetryAfter = 3600
	}
	return a
}
