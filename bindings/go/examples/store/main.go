// Store is a small store of several versions that 1,000 goroutines serve under a lease, and whose
// writes ask the timestamp cache over a pool of eight seats.
//
// Each key has its versions by their times, and a latch. A transaction reads at a time, and the
// read is added to the cache before it is answered. A write asks before it lays a version down,
// under the latches of all keys that it writes, and goes to the time that it is told.
//
// At the end each read that was answered is made once more, as of its time. None finds anything
// else. Two more trials show what comes of it where writes don't ask, and where they take an
// answer of their own for leave to write at any time: many reads find something else then.
package main

import (
	"encoding/binary"
	"errors"
	"fmt"
	"log"
	"math"
	"math/rand"
	"runtime"
	"sync"
	"sync/atomic"

	"maulviolet.invalid/tscache"
)

const (
	keys       = 256
	seats      = 8
	goroutines = 1000
	turns      = 12 // of each goroutine
	lag        = 40 // so long ago a transaction that writes at an earlier time began
	tries      = 64
)

// asking says how a write finds its time.
type asking int

const (
	asks asking = iota
	trustsItsOwn
	neverAsks
)

// version is what a key is from a time on.
type version struct {
	at    tscache.Time
	value uint64
	by    [16]byte
}

// held is what lies under the latch of a key: its versions, by rising times.
type held struct {
	latch    sync.Mutex
	versions []version
}

// valueAt is what the key is at a time, with the versions of one transaction passed over. The
// value 0 is before all versions.
func (h *held) valueAt(at tscache.Time, but [16]byte) uint64 {
	for i := len(h.versions) - 1; i >= 0; i-- {
		if v := h.versions[i]; !at.Before(v.at) && v.by != but {
			return v.value
		}
	}
	return 0
}

// answer is a read that was answered: what a store keeps none of.
type answer struct {
	key   int
	at    tscache.Time
	value uint64
	by    [16]byte
}

// store is a range that is served under a lease.
type store struct {
	keys    [keys]held
	clock   uint64
	pool    *tscache.Pool
	asking  asking
	mutex   sync.Mutex
	answers []answer
	counts  counts
}

// counts is what came of a trial.
type counts struct{ writes, pushed, reads, changed int }

func (s *store) now() tscache.Time { return tscache.Time{Wall: atomic.AddUint64(&s.clock, 1)} }

func name(key int) []byte { return []byte{byte(key >> 8), byte(key)} }

// hold holds the latches of some keys, in their order, and gives what lets them go.
func (s *store) hold(from, to int) func() {
	for i := from; i < to; i++ {
		s.keys[i].latch.Lock()
	}
	return func() {
		for i := from; i < to; i++ {
			s.keys[i].latch.Unlock()
		}
	}
}

// read reads the keys from one to before another. The order is what matters: read, add, answer. A
// read that isn't added isn't answered.
func (s *store) read(from, to int, at tscache.Time, by [16]byte) ([]answer, error) {
	defer s.hold(from, to)()
	span := tscache.Range(name(from), name(to), tscache.ExcludeTo)
	err := s.pool.Do(func(seat *tscache.Seat) error {
		for {
			_, _, err := seat.Add(span, tscache.Value{Time: at, Owner: by}, at, tries)
			if !errors.Is(err, tscache.ErrBusy) {
				return err
			}
			runtime.Gosched()
		}
	})
	if err != nil {
		return nil, err
	}
	var found []answer
	for i := from; i < to; i++ {
		found = append(found, answer{i, at, s.keys[i].valueAt(at, by), by})
	}
	return found, nil
}

// clear is the earliest time, not before the wanted one, at which two keys may be written.
func (s *store) clear(one, other int, wanted tscache.Time, by [16]byte) (
	at tscache.Time, err error,
) {
	at = tscache.MaxTime
	spans := []tscache.Span{tscache.Point(name(one)), tscache.Point(name(other))}
	switch s.asking {
	case asks:
		err = s.pool.Do(func(seat *tscache.Seat) (err error) {
			at, err = seat.EarliestWrite(spans, wanted, by)
			return err
		})
	case trustsItsOwn: // the trap: an earlier read of somebody else may lie behind it
		at = wanted
		err = s.pool.Do(func(seat *tscache.Seat) error {
			for _, span := range spans {
				latest, _, err := seat.GetMax(span)
				if err != nil {
					return err
				}
				if latest.Owner != by && !latest.Time.Before(at) {
					at, _ = latest.Time.Next()
				}
			}
			return nil
		})
	default:
		at = wanted
	}
	return at, err
}

// write writes two keys at one time, and tells that time. The latches are held from the question
// to the versions. Where there is no time it is refused, and nothing is written.
func (s *store) write(one, other int, wanted tscache.Time, by [16]byte, value uint64) (
	tscache.Time, error,
) {
	if one > other {
		one, other = other, one
	}
	defer s.hold(one, one+1)()
	defer s.hold(other, other+1)()
	at, err := s.clear(one, other, wanted, by)
	if err != nil {
		return at, err
	}
	clear := at
	for _, key := range []int{one, other} { // and it goes above the newest version of each
		if all := s.keys[key].versions; len(all) > 0 && !all[len(all)-1].at.Before(at) {
			at, _ = all[len(all)-1].at.Next()
		}
	}
	for _, key := range []int{one, other} {
		s.keys[key].versions = append(s.keys[key].versions, version{at, value, by})
	}
	return clear, nil
}

// serve has a goroutine's transactions read at the present time. Each second one wants to write
// two keys too: at the present time, or at an earlier one, at which it began before it read.
func (s *store) serve(number int) error {
	chance := rand.New(rand.NewSource(int64(number)))
	var found []answer
	var c counts
	for turn := 1; turn <= turns; turn++ {
		var by [16]byte
		binary.BigEndian.PutUint64(by[:], uint64(number)<<16|uint64(turn))
		key, other, now := chance.Intn(keys), chance.Intn(keys), s.now()
		to := key + 1 + chance.Intn(4)
		if to > keys {
			to = keys
		}
		read, err := s.read(key, to, now, by)
		if err != nil {
			return err
		}
		found = append(found, read...)
		if turn%2 == 0 || other == key {
			continue
		}
		wanted := now
		if turn%4 == 1 && now.Wall > lag {
			wanted.Wall -= lag
		}
		at, err := s.write(key, other, wanted, by, uint64(number)<<16|uint64(turn))
		if err != nil {
			return err
		}
		c.writes++
		if wanted.Before(at) {
			c.pushed++
		}
	}
	s.mutex.Lock()
	defer s.mutex.Unlock()
	s.answers = append(s.answers, found...)
	s.counts.writes += c.writes
	s.counts.pushed += c.pushed
	return nil
}

// trial has all goroutines serve the range under one lease, and looks at the end what each read
// would find as of its time.
func trial(asking asking) (counts, error) {
	s := &store{asking: asking}
	config := tscache.DefaultConfig()
	config.PageFirst, config.PageMax, config.Retention = 4096, 1<<20, 10_000
	config.LowWater = s.now()
	shared, all, err := tscache.OpenShared(config, seats, math.MaxUint64)
	if err != nil {
		return counts{}, err
	}
	s.pool = tscache.NewPool(all)
	failed := make(chan error, goroutines)
	for g := 1; g <= goroutines; g++ {
		go func(g int) { failed <- s.serve(g) }(g)
	}
	for g := 0; g < goroutines; g++ {
		if why := <-failed; why != nil {
			err = why
		}
	}
	s.pool.Close()
	if _, why := shared.Close(); why != nil {
		err = why
	}
	s.counts.reads = len(s.answers)
	for _, found := range s.answers {
		if s.keys[found.key].valueAt(found.at, found.by) != found.value {
			s.counts.changed++
		}
	}
	return s.counts, err
}

func main() {
	names := []string{"that ask", "that take their own reads for leave", "that never ask"}
	for i, name := range names {
		c, err := trial(asking(i))
		if err != nil {
			log.Fatal(err)
		}
		fmt.Printf("writes %s: %d, of which %d were pushed; ", name, c.writes, c.pushed)
		fmt.Printf("%d reads, of which %d changed\n", c.reads, c.changed)
	}
}
