package tscache_test

import (
	"fmt"

	"maulviolet.invalid/tscache"
)

// reads is what a store needs of the cache. A Cache has these calls, and so has what stands in for
// one in the tests of the store.
type reads interface {
	Add(span tscache.Span, value tscache.Value, now tscache.Time) (tscache.Added, error)
	EarliestWrite(spans []tscache.Span, at tscache.Time, by [16]byte) (tscache.Time, error)
}

var _ reads = (*tscache.Cache)(nil)

// outOfMemory stands in for a cache that remembers no read.
type outOfMemory struct{ reads }

func (outOfMemory) Add(tscache.Span, tscache.Value, tscache.Time) (tscache.Added, error) {
	return tscache.Added{}, tscache.ErrNoMemory
}

// leased is a store, by its cache.
type leased struct{ cache reads }

// get answers a read only once it is remembered.
func (l leased) get(key string, at tscache.Time, by [16]byte) (string, error) {
	read := tscache.Value{Time: at, Owner: by}
	if _, err := l.cache.Add(tscache.Point([]byte(key)), read, at); err != nil {
		return "", fmt.Errorf("%s is not read: %w", key, err)
	}
	return "the value of " + key, nil
}

// A store's test has the cache refuse what it seldom refuses.
func Example_standIn() {
	_, err := leased{outOfMemory{}}.get("apple", tscache.Time{Wall: 20}, reader)
	fmt.Println(err)
	// Output: apple is not read: tscache: out of memory
}
