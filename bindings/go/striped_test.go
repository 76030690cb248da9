//go:build cgo

package tscache

import (
	"fmt"
	"math"
	"runtime"
	"sync"
	"testing"
	"time"
)

// addedAt has a seat add until no other is in its way.
func addedAt(seat *Seat, marks []Mark, now Time) (uint64, error) {
	for {
		place, _, err := seat.AddAll(marks, now, 8)
		if err != ErrBusy {
			return place, err
		}
		runtime.Gosched()
	}
}

// Goroutines add to stripes of their own, two at once, while another one looks up all stripes: it is
// never told a time that sinks.
func TestGoroutinesShareStripes(t *testing.T) {
	const adds = 500
	bounds := [][]byte{[]byte("b"), []byte("c"), []byte("d")}
	shared, seats, err := OpenStriped(DefaultConfig(), bounds, 5)
	if err != nil {
		t.Fatal(err)
	}
	if _, err := shared.Close(); err != ErrStillOut {
		t.Fatal(err)
	}
	var all sync.WaitGroup
	for i, seat := range seats[:4] {
		all.Add(1)
		go func(i int, seat *Seat) {
			defer all.Done()
			own, other := []byte{byte('a' + i)}, []byte{byte('a' + (i+1)%4), 'x'}
			for wall := uint64(0); wall < adds; wall++ {
				read := Value{Time: Time{Wall: 20 + wall}}
				place, err := addedAt(seat, []Mark{{Point(own), read}, {Point(other), read}}, read.Time)
				if err != nil || place != wall {
					t.Errorf("place %d, %v", place, err)
					return
				}
				latest, seen, err := seat.GetMax(Point(own))
				if latest != read || seen != wall+1 || err != nil {
					t.Errorf("%v of %d, %v", latest, seen, err)
				}
			}
		}(i, seat)
	}
	reader, last := seats[4], Time{}
	for last.Wall < 19+adds && !t.Failed() {
		latest, seen, err := reader.GetMax(Range([]byte("a"), []byte("e"), ExcludeTo))
		if latest.Time.Before(last) || seen != 0 || err != nil {
			t.Fatalf("%v after %v, %d, %v", latest, last, seen, err)
		}
		if _, err := reader.EarliestWrite([]Span{Point([]byte("b"))}, last, [16]byte{9}); err != nil {
			t.Fatal(err)
		}
		if yes, err := reader.MayWrite(Point([]byte("z")), Time{Wall: 1}, [16]byte{9}); !yes || err != nil {
			t.Fatal(yes, err)
		}
		last = latest.Time
	}
	all.Wait()
	figures, _, err := reader.Figures()
	if figures.Pages != 4 || figures.Nodes != 8 || figures.Memory == 0 || err != nil {
		t.Errorf("%+v, %v", figures, err)
	}
	if low, seen, err := reader.LowWater(); low != (Time{}) || seen != 0 || err != nil {
		t.Errorf("%v, %d, %v", low, seen, err)
	}
	for _, seat := range seats {
		seat.Close()
	}
	if n, err := shared.Close(); n != 4*adds || err != nil {
		t.Errorf("closed with %d Adds, %v", n, err)
	}
}

// Calls that only read are made again while long batches hold the locks that they need.
func TestLookupsAreNeverBusy(t *testing.T) {
	_, seats, err := OpenStriped(DefaultConfig(), [][]byte{[]byte("b")}, 2)
	if err != nil {
		t.Fatal(err)
	}
	marks, done := make([]Mark, 20000), make(chan error)
	for i := range marks {
		marks[i].Span = Point([]byte(fmt.Sprintf("%c%d", 'a'+i%2, i)))
	}
	all := Onward(nil, IncludeBoth)
	for name, call := range map[string]func(*Seat) error{
		"GetMax":        func(s *Seat) error { _, _, err := s.GetMax(all); return err },
		"EarliestWrite": func(s *Seat) error { _, err := s.EarliestWrite([]Span{all}, Time{}, [16]byte{}); return err },
		"MayWrite":      func(s *Seat) error { _, err := s.MayWrite(all, Time{}, [16]byte{}); return err },
		"LowWater":      func(s *Seat) error { _, _, err := s.LowWater(); return err },
		"Figures":       func(s *Seat) error { _, _, err := s.Figures(); return err },
		"Summary":       func(s *Seat) error { _, _, err := s.Summary(all, 1); return err },
	} {
		go func() {
			var err error
			for turn := 0; turn < 20 && err == nil; turn++ {
				_, err = addedAt(seats[0], marks, Time{Wall: 20})
			}
			done <- err
		}()
		for added := false; !added; {
			if err := call(seats[1]); err != nil {
				t.Fatal(name, err)
			}
			select {
			case err := <-done:
				if added = true; err != nil {
					t.Fatal(err)
				}
			default:
			}
		}
	}
}

// The seats of a cache in stripes go round in a pool.
func TestSeatsInStripesGoRound(t *testing.T) {
	shared, seats, err := OpenStriped(DefaultConfig(), [][]byte{[]byte("m")}, 2)
	if err != nil {
		t.Fatal(err)
	}
	pool := NewPool(seats)
	var all sync.WaitGroup
	for i := 0; i < 8; i++ {
		all.Add(1)
		go func(i int) {
			defer all.Done()
			err := pool.Do(func(seat *Seat) error {
				read := Value{Time: Time{Wall: 20}}
				_, err := addedAt(seat, []Mark{{Point([]byte(fmt.Sprint(i))), read}}, read.Time)
				return err
			})
			if err != nil {
				t.Error(err)
			}
		}(i)
	}
	all.Wait()
	pool.Close()
	if n, err := shared.Close(); n != 8 || err != nil {
		t.Errorf("closed with %d Adds, %v", n, err)
	}
}

// What a seat in stripes tells of reads, a cache takes over.
func TestALeaseGoesOnFromStripes(t *testing.T) {
	config := Config{PageFirst: 132, PageMax: 8256, MinPages: 1, Retention: 10 * time.Nanosecond}
	_, seats, err := OpenStriped(config, [][]byte{[]byte("g"), []byte("p")}, 2)
	if err != nil {
		t.Fatal(err)
	}
	for wall := uint64(20); wall < 46; wall++ {
		read := Value{Time: Time{Wall: wall}, Owner: [16]byte{1}}
		if _, _, err := seats[0].Add(Point([]byte{byte('A' + wall - 20)}), read, Time{Wall: 2 * wall}, 64); err != nil {
			t.Fatal(err)
		}
	}
	summary, seen, err := seats[1].Summary(Onward(nil, IncludeBoth), math.MaxUint)
	if seen != 0 || err != nil {
		t.Fatal(seen, err)
	}
	again, _, err := seats[0].Summary(Onward(nil, IncludeBoth), math.MaxUint)
	if err != nil || string(summary) != string(again) {
		t.Error("two seats tell two things", err)
	}
	next, err := Open(DefaultConfig())
	if err != nil {
		t.Fatal(err)
	}
	if _, err := next.Apply(summary, Time{Wall: 100}); err != nil {
		t.Fatal(err)
	}
	for _, key := range []string{"A", "M", "Z", "a", "g", "p", "z"} {
		was, _, _ := seats[0].GetMax(Point([]byte(key)))
		if is, err := next.GetMax(Point([]byte(key))); is != was || err != nil {
			t.Errorf("%s: %v for %v, %v", key, is, was, err)
		}
	}
}

// Bounds are refused by name.
func TestBoundsOfStripes(t *testing.T) {
	many := make([][]byte, 1024)
	for i := range many {
		many[i] = []byte{byte((i + 1) >> 8), byte(i + 1)}
	}
	small := DefaultConfig()
	small.PageFirst, small.PageMax = 64, 8255
	for _, row := range []struct {
		config Config
		bounds [][]byte
		seats  uint32
		wanted error
	}{
		{DefaultConfig(), nil, 0, ErrSeats},
		{DefaultConfig(), [][]byte{[]byte("b"), []byte("a")}, 1, ErrBounds},
		{DefaultConfig(), [][]byte{nil}, 1, ErrBounds},
		{DefaultConfig(), [][]byte{make([]byte, 4097)}, 1, ErrKeyTooLong},
		{DefaultConfig(), many, 1, ErrStripes},
		{small, nil, 1, ErrPageSize},
	} {
		if _, _, err := OpenStriped(row.config, row.bounds, row.seats); err != row.wanted {
			t.Errorf("%v for %v", err, row.wanted)
		}
	}
	small.PageMax = 8256
	_, seats, err := OpenStriped(small, many[1:], 100)
	if err != nil || len(seats) != 100 {
		t.Fatal(len(seats), err)
	}
	if figures, _, err := seats[99].Figures(); figures.Pages != 1024 || err != nil {
		t.Errorf("%d pages, %v", figures.Pages, err)
	}
}
