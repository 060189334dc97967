package main

import (
	"crypto/sha256"
	"crypto/subtle"
	"encoding/base64"
	"fmt"
	"net/http"
	"os"
	"strings"
	"syscall"
)

// Secrets are the credentials of clients, and for servers. Each line of their file is one of these; a line that begins with # is a comment:
//
//	client basic NAME PASSWORD
//	client token TOKEN
//	server basic NAME PASSWORD
//	server token TOKEN
//	server HOST:PORT basic NAME PASSWORD
//	server HOST:PORT token TOKEN
type secrets struct {
	clients [][sha256.Size]byte
	servers map[string]string // the header Authorization by the name of a server, or by none
}

// readSecrets reads a file that only its owner can read. Without a path there are no credentials.
func readSecrets(path string) (*secrets, error) {
	c := &secrets{servers: map[string]string{}}
	if path == "" {
		return c, nil
	}
	file, err := os.Open(path)
	if err != nil {
		return nil, err
	}
	defer file.Close()
	info, err := file.Stat()
	if err != nil {
		return nil, err
	}
	owner := info.Sys().(*syscall.Stat_t).Uid
	if info.Mode()&0o077 != 0 || owner != 0 && owner != uint32(os.Geteuid()) {
		return nil, fmt.Errorf("%s can be read or changed by others than its owner: chmod 600 %s", path, path)
	}
	text, err := os.ReadFile(path)
	for number, line := range strings.Split(string(text), "\n") {
		words := strings.Fields(line)
		if len(words) == 0 || words[0][0] == '#' {
			continue
		}
		if !c.add(words) {
			return nil, fmt.Errorf("%s: line %d is not as `client basic NAME PASSWORD` or `server token TOKEN`", path, number+1)
		}
	}
	return c, err
}

// add adds the words of a line, and tells whether they are right.
func (c *secrets) add(words []string) bool {
	who, server := words[0], ""
	words = words[1:]
	if who == "server" && len(words) > 1 && words[0] != "basic" && words[0] != "token" {
		server, words = words[0], words[1:]
	}
	word := ""
	switch {
	case len(words) == 3 && words[0] == "basic":
		word = "Basic " + base64.StdEncoding.EncodeToString([]byte(words[1]+":"+words[2]))
	case len(words) == 2 && words[0] == "token":
		word = "Token " + words[1]
	default:
		return false
	}
	switch who {
	case "client":
		c.clients = append(c.clients, sha256.Sum256([]byte(word)))
	case "server":
		c.servers[server] = word
	}
	return who == "client" || who == "server"
}

// forServer returns the header Authorization for a server, or nothing if the file has none.
func (c *secrets) forServer(name string) string {
	if word, ok := c.servers[name]; ok {
		return word
	}
	return c.servers[""]
}

// admits tells whether a client has credentials that the file has: in the header, or as `u` and `p` of the URL. How long it takes does not depend on
// which are wrong, nor on how much of them is right. Without credentials of clients in the file each client is admitted.
func (c *secrets) admits(r *http.Request) bool {
	if len(c.clients) == 0 {
		return true
	}
	word := r.Header.Get("Authorization")
	if token := strings.TrimPrefix(word, "Bearer "); token != word {
		word = "Token " + token
	}
	if query := r.URL.Query(); word == "" && query.Has("u") {
		word = "Basic " + base64.StdEncoding.EncodeToString([]byte(query.Get("u")+":"+query.Get("p")))
	}
	sum, found := sha256.Sum256([]byte(word)), 0
	for _, each := range c.clients {
		found |= subtle.ConstantTimeCompare(sum[:], each[:])
	}
	return found == 1
}
