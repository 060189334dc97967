package main

import (
	"fmt"
	"net/http"
	"sort"
	"strings"
	"sync"
	"sync/atomic"
	"time"
)

// Metrics are the counts of the gateway.
type metrics struct {
	accepted, bytes atomic.Int64
	mu              sync.Mutex
	requests        map[int]int64       // by status
	rejected        map[[2]string]int64 // by kind and clause
	batches, lost   int64               // of TCP: batches that were taken, and that could not be
}

// A serverMetrics are the counts of a server.
type serverMetrics struct {
	stored, refused, spooled, retries atomic.Int64
	mu                                sync.Mutex
	sends                             map[int]int64 // by status; 0 if there is no answer
	times                             [len(buckets) + 1]int64
	seconds                           float64
}

// The bounds of the histogram of the times of answers, in seconds.
var buckets = [...]float64{.005, .01, .025, .05, .1, .25, .5, 1, 2.5, 5, 10, 30}

// answered counts an answer of the server.
func (m *serverMetrics) answered(status int, took time.Duration) {
	m.mu.Lock()
	defer m.mu.Unlock()
	if m.sends == nil {
		m.sends = map[int]int64{}
	}
	m.sends[status]++
	m.times[sort.SearchFloat64s(buckets[:], took.Seconds())]++
	m.seconds += took.Seconds()
}

// request counts an answer to a client.
func (m *metrics) request(status int) {
	m.mu.Lock()
	defer m.mu.Unlock()
	m.requests[status]++
}

// reject counts rejected lines.
func (m *metrics) reject(counts map[[2]string]int64) {
	m.mu.Lock()
	defer m.mu.Unlock()
	for each, count := range counts {
		m.rejected[each] += count
	}
}

// A page is a text of metrics for Prometheus.
type page struct{ strings.Builder }

// family begins a family of metrics.
func (p *page) family(name, kind, help string) {
	fmt.Fprintf(p, "# HELP lp_gateway_%s %s\n# TYPE lp_gateway_%s %s\n", name, help, name, kind)
}

// sample writes a sample. Labels are pairs of a name and a value.
func (p *page) sample(name string, value any, labels ...string) {
	var pairs []string
	for n := 0; n < len(labels); n += 2 {
		pairs = append(pairs, labels[n]+`="`+strings.NewReplacer(`\`, `\\`, `"`, `\"`, "\n", `\n`).Replace(labels[n+1])+`"`)
	}
	text := ""
	if len(pairs) > 0 {
		text = "{" + strings.Join(pairs, ",") + "}"
	}
	fmt.Fprintf(p, "lp_gateway_%s%s %v\n", name, text, value)
}

// serveMetrics answers /metrics.
func (g *gateway) serveMetrics(w http.ResponseWriter, r *http.Request) {
	p := &page{}
	bytes, connections := g.door.state()
	for _, each := range []struct {
		name, kind, help string
		value            any
	}{
		{"lines_accepted_total", "counter", "Lines that were read and go to the servers.", g.metrics.accepted.Load()},
		{"received_bytes_total", "counter", "Bytes of bodies, unpacked.", g.metrics.bytes.Load()},
		{"in_flight_bytes", "gauge", "Bytes of all bodies at hand.", bytes},
		{"connections", "gauge", "Open connections of clients.", connections},
	} {
		p.family(each.name, each.kind, each.help)
		p.sample(each.name, each.value)
	}
	g.metrics.write(p)
	g.writeServers(p)
	w.Header().Set("Content-Type", "text/plain; version=0.0.4; charset=utf-8")
	fmt.Fprint(w, p.String())
}

// write writes the counts with labels.
func (m *metrics) write(p *page) {
	m.mu.Lock()
	defer m.mu.Unlock()
	p.family("requests_total", "counter", "Requests with lines, by the status of the answer.")
	for _, status := range keysOf(m.requests) {
		p.sample("requests_total", m.requests[status], "status", fmt.Sprint(status))
	}
	p.family("tcp_batches_total", "counter", "Batches of lines that came over plain TCP and are kept or sent.")
	p.sample("tcp_batches_total", m.batches)
	p.family("tcp_failures_total", "counter", "Tries to keep a batch of plain TCP that failed.")
	p.sample("tcp_failures_total", m.lost)
	p.family("lines_rejected_total", "counter", "Lines that the gateway rejected, by kind, and by the clause that is not portable.")
	for _, each := range sortedPairs(m.rejected) {
		p.sample("lines_rejected_total", m.rejected[each], "kind", each[0], "clause", each[1])
	}
}

func keysOf(counts map[int]int64) (keys []int) {
	for each := range counts {
		keys = append(keys, each)
	}
	sort.Ints(keys)
	return keys
}

func sortedPairs(counts map[[2]string]int64) (pairs [][2]string) {
	for each := range counts {
		pairs = append(pairs, each)
	}
	sort.Slice(pairs, func(i, j int) bool { return pairs[i][0]+"\x00"+pairs[i][1] < pairs[j][0]+"\x00"+pairs[j][1] })
	return pairs
}

// writeServers writes the counts of the servers.
func (g *gateway) writeServers(p *page) {
	for _, each := range []struct {
		name, kind, help string
		value            func(s *server) any
	}{
		{"lines_stored_total", "counter", "Lines that the server has taken.", func(s *server) any { return s.metrics.stored.Load() }},
		{"lines_refused_total", "counter", "Lines of the spool that the server refused.", func(s *server) any { return s.metrics.refused.Load() }},
		{"spooled_bodies_total", "counter", "Bodies that went to the spool.", func(s *server) any { return s.metrics.spooled.Load() }},
		{"retries_total", "counter", "Times that a sender waited, since lines stayed in the spool.", func(s *server) any { return s.metrics.retries.Load() }},
		{"spool_bytes", "gauge", "Bytes that the spool takes of the disk.", func(s *server) any { held, _, _, _ := s.spool.state(); return held }},
		{"spool_bodies", "gauge", "Files in the spool.", func(s *server) any { _, bodies, _, _ := s.spool.state(); return bodies }},
		{"spool_oldest_seconds", "gauge", "Age of the oldest line in the spool.", func(s *server) any {
			if _, _, oldest, _ := s.spool.state(); !oldest.IsZero() {
				return time.Since(oldest).Seconds()
			}
			return 0
		}},
	} {
		p.family(each.name, each.kind, each.help)
		for _, s := range g.servers {
			p.sample(each.name, each.value(s), "server", s.name)
		}
	}
	p.family("sends_total", "counter", "Calls of the server, by the status of its answer, or 0 without an answer.")
	for _, s := range g.servers {
		s.metrics.mu.Lock()
		for _, status := range keysOf(s.metrics.sends) {
			p.sample("sends_total", s.metrics.sends[status], "server", s.name, "status", fmt.Sprint(status))
		}
		s.metrics.mu.Unlock()
	}
	p.family("answer_seconds", "histogram", "Times of the answers of the server.")
	for _, s := range g.servers {
		s.metrics.writeTimes(p, s.name)
	}
}

// writeTimes writes the histogram.
func (m *serverMetrics) writeTimes(p *page, name string) {
	m.mu.Lock()
	defer m.mu.Unlock()
	sum := int64(0)
	for n, count := range m.times {
		sum += count
		bound := "+Inf"
		if n < len(buckets) {
			bound = fmt.Sprint(buckets[n])
		}
		p.sample("answer_seconds_bucket", sum, "server", name, "le", bound)
	}
	p.sample("answer_seconds_sum", m.seconds, "server", name)
	p.sample("answer_seconds_count", sum, "server", name)
}

// tcp counts a try to keep a batch of plain TCP.
func (m *metrics) tcp(isTaken bool) {
	m.mu.Lock()
	defer m.mu.Unlock()
	if isTaken {
		m.batches++
	} else {
		m.lost++
	}
}
