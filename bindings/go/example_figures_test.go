package tscache_test

import (
	"fmt"
	"io"
	"os"

	"maulviolet.invalid/tscache"
)

// metric is a figure as Prometheus knows it.
type metric struct {
	name, kind, help string
	of               func(tscache.Figures) uint64
}

var metrics = []metric{
	{"tscache_pages", "gauge", "Pages that the cache has.",
		func(f tscache.Figures) uint64 { return f.Pages }},
	{"tscache_nodes", "gauge", "End keys on the pages.",
		func(f tscache.Figures) uint64 { return f.Nodes }},
	{"tscache_bytes", "gauge", "Bytes that count against the size of a page.",
		func(f tscache.Figures) uint64 { return f.Bytes }},
	{"tscache_memory_bytes", "gauge", "Bytes of memory that hold the pages.",
		func(f tscache.Figures) uint64 { return f.Memory }},
	{"tscache_rotations_total", "counter", "New pages at the front.",
		func(f tscache.Figures) uint64 { return f.Rotations }},
	{"tscache_adds_total", "counter", "Adds that were accepted.",
		func(f tscache.Figures) uint64 { return f.Adds }},
	{"tscache_refusals_total", "counter", "Adds that were refused.",
		func(f tscache.Figures) uint64 { return f.Refusals }},
	{"tscache_lookups_total", "counter", "Lookups and questions for writes.",
		func(f tscache.Figures) uint64 { return f.Lookups }},
	{"tscache_evicted_pages_total", "counter", "Pages that were dropped.",
		func(f tscache.Figures) uint64 { return f.Evicted }},
}

// writeMetrics writes the figures of some ranges in Prometheus' text form. Each metric has its
// lines together, below what it means.
func writeMetrics(w io.Writer, names []string, figures []tscache.Figures) error {
	for _, m := range metrics {
		_, err := fmt.Fprintf(w, "# HELP %s %s\n# TYPE %s %s\n", m.name, m.help, m.name, m.kind)
		for i := 0; i < len(names) && err == nil; i++ {
			_, err = fmt.Fprintf(w, "%s{range=%q} %d\n", m.name, names[i], m.of(figures[i]))
		}
		if err != nil {
			return err
		}
	}
	return nil
}

// The figures of a cache, as a handler of /metrics writes them.
func ExampleFigures() {
	c, err := tscache.Open(tscache.DefaultConfig())
	must(err)
	defer c.Close()
	now := tscache.Time{Wall: 20}
	for _, key := range []string{"a", "b"} {
		_, err := c.Add(tscache.Point([]byte(key)), tscache.Value{Time: now, Owner: reader}, now)
		must(err)
	}
	_, err = c.GetMax(tscache.Point([]byte("a")))
	must(err)

	f, err := c.Figures()
	must(err)
	f.Memory = 0 // it differs from one version of the library to the next
	must(writeMetrics(os.Stdout, []string{"1"}, []tscache.Figures{f}))
	// Output:
	// # HELP tscache_pages Pages that the cache has.
	// # TYPE tscache_pages gauge
	// tscache_pages{range="1"} 1
	// # HELP tscache_nodes End keys on the pages.
	// # TYPE tscache_nodes gauge
	// tscache_nodes{range="1"} 2
	// # HELP tscache_bytes Bytes that count against the size of a page.
	// # TYPE tscache_bytes gauge
	// tscache_bytes{range="1"} 66
	// # HELP tscache_memory_bytes Bytes of memory that hold the pages.
	// # TYPE tscache_memory_bytes gauge
	// tscache_memory_bytes{range="1"} 0
	// # HELP tscache_rotations_total New pages at the front.
	// # TYPE tscache_rotations_total counter
	// tscache_rotations_total{range="1"} 0
	// # HELP tscache_adds_total Adds that were accepted.
	// # TYPE tscache_adds_total counter
	// tscache_adds_total{range="1"} 2
	// # HELP tscache_refusals_total Adds that were refused.
	// # TYPE tscache_refusals_total counter
	// tscache_refusals_total{range="1"} 0
	// # HELP tscache_lookups_total Lookups and questions for writes.
	// # TYPE tscache_lookups_total counter
	// tscache_lookups_total{range="1"} 1
	// # HELP tscache_evicted_pages_total Pages that were dropped.
	// # TYPE tscache_evicted_pages_total counter
	// tscache_evicted_pages_total{range="1"} 0
}
