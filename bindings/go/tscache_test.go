package tscache

import (
	"runtime"
	"testing"
)

var (
	one = [16]byte{1}
	two = [16]byte{2}
)

func small(t *testing.T) *Cache {
	t.Helper()
	c, err := Open(Config{PageFirst: 132, PageMax: 132, MinPages: 2, Retention: 10, LowWater: Time{5, 0}})
	if err != nil {
		t.Fatal(err)
	}
	t.Cleanup(c.Close)
	return c
}

func at(wall uint64, owner [16]byte) Value { return Value{Time{wall, 0}, owner} }

func wants(t *testing.T, c *Cache, span Span, value Value) {
	t.Helper()
	if got, err := c.GetMax(span); err != nil || got != value {
		t.Errorf("wanted %v, got %v, %v", value, got, err)
	}
}

func TestTheDefaultIsWhatItSays(t *testing.T) {
	said := Config{PageFirst: 131072, PageMax: 33554432, MinPages: 2, Retention: 10000000000}
	if got := DefaultConfig(); got != said {
		t.Errorf("got %v", got)
	}
}

func TestSpans(t *testing.T) {
	c := small(t)
	if a, err := c.Add(Range([]byte("a"), []byte("c"), ExcludeBoth), at(20, one), Time{20, 0}); err != nil || a != (Added{Kept: true}) {
		t.Errorf("got %v, %v", a, err)
	}
	wants(t, c, Point([]byte("a")), at(5, [16]byte{}))
	wants(t, c, Point([]byte("b")), at(20, one))
	if _, err := c.Add(Onward([]byte("b"), IncludeBoth), at(20, two), Time{20, 0}); err != nil {
		t.Error(err)
	}
	wants(t, c, Point([]byte("b")), at(20, [16]byte{}))
	wants(t, c, Onward([]byte("x"), ExcludeFrom), at(20, two))
	wants(t, c, Range([]byte("c"), []byte("a"), ExcludeTo), at(5, [16]byte{}))
	wants(t, c, Point(nil), at(5, [16]byte{}))
}

func TestPagesRotate(t *testing.T) {
	c := small(t)
	for _, key := range "abcd" {
		if a, err := c.Add(Point([]byte(string(key))), at(20, one), Time{20, 0}); err != nil || a != (Added{Kept: true}) {
			t.Errorf("got %v, %v", a, err)
		}
	}
	if a, err := c.Add(Point([]byte("e")), at(20, one), Time{20, 0}); err != nil || a != (Added{Kept: true, Rotated: true}) {
		t.Errorf("got %v, %v", a, err)
	}
	if f, err := c.Figures(); err != nil || f.Pages != 2 || f.Rotations != 1 || f.Nodes != 5 || f.Bytes != 165 {
		t.Errorf("got %+v, %v", f, err)
	}
	for _, key := range "fgh" {
		if a, err := c.Add(Point([]byte(string(key))), at(41, one), Time{40, 0}); err != nil || a != (Added{Kept: true}) {
			t.Errorf("got %v, %v", a, err)
		}
	}
	if low, err := c.LowWater(); err != nil || low != (Time{5, 0}) {
		t.Errorf("got %v, %v", low, err)
	}
	if a, err := c.Add(Point([]byte("i")), at(41, one), Time{40, 0}); err != nil || a != (Added{Kept: true, Rotated: true, Evicted: 1}) {
		t.Errorf("got %v, %v", a, err)
	}
}

func TestLogicalCounts(t *testing.T) {
	config := Config{PageFirst: 132, PageMax: 132, MinPages: 2, Retention: 10, LowWater: Time{5, 3}}
	value := Value{Time{20, 3}, one}
	c, err := Open(config)
	if err != nil {
		t.Fatal(err)
	}
	t.Cleanup(c.Close)
	if a, err := c.Add(Point([]byte("a")), value, Time{20, 3}); err != nil || !a.Kept {
		t.Errorf("got %v, %v", a, err)
	}
	wants(t, c, Point([]byte("a")), value)
	if low, err := c.LowWater(); err != nil || low != (Time{5, 3}) {
		t.Errorf("got %v, %v", low, err)
	}
	_, seats, err := OpenShared(config, 1, 2)
	if err != nil {
		t.Fatal(err)
	}
	for place := uint64(0); place < 2; place++ {
		if got, a, err := seats[0].Add(Point([]byte("a")), value, Time{20, 3}, 1); err != nil || got != place || !a.Kept {
			t.Errorf("got %v, %v, %v", got, a, err)
		}
	}
	if _, _, err := seats[0].Add(Point([]byte("a")), value, Time{20, 3}, 1); err != ErrFull {
		t.Errorf("got %v", err)
	}
	if v, seen, err := seats[0].GetMax(Point([]byte("a"))); err != nil || v != value || seen != 2 {
		t.Errorf("got %v, %v, %v", v, seen, err)
	}
	if low, seen, err := seats[0].LowWater(); err != nil || low != (Time{5, 3}) || seen != 2 {
		t.Errorf("got %v, %v, %v", low, seen, err)
	}
}

func TestMarks(t *testing.T) {
	c := small(t)
	marks := []Mark{{Point([]byte("a")), at(20, one)}, {Range([]byte("c"), []byte("b"), IncludeBoth), at(20, two)}}
	if _, err := c.AddAll(marks, Time{20, 0}); err != ErrInverted {
		t.Errorf("got %v", err)
	}
	wants(t, c, Point([]byte("a")), at(5, [16]byte{}))
	marks[1].Span = Range([]byte("b"), []byte("c"), IncludeBoth)
	if a, err := c.AddAll(marks, Time{20, 0}); err != nil || !a.Kept {
		t.Errorf("got %v, %v", a, err)
	}
	wants(t, c, Point([]byte("c")), at(20, two))
	if a, err := c.AddAll(nil, Time{20, 0}); err != nil || a.Kept {
		t.Errorf("got %v, %v", a, err)
	}
}

func TestRefusals(t *testing.T) {
	c := small(t)
	if _, err := c.Add(Point(make([]byte, 4097)), at(20, one), Time{20, 0}); err != ErrKeyTooLong {
		t.Errorf("got %v", err)
	}
	wants(t, c, Range(make([]byte, 4097), []byte("b"), ExcludeTo), at(5, [16]byte{}))
	if _, err := c.Add(Point(make([]byte, 101)), at(20, one), Time{20, 0}); err != ErrTooLarge {
		t.Errorf("got %v", err)
	}
	if _, err := c.Add(Point([]byte("a")), at(1<<63, one), Time{20, 0}); err != ErrTime {
		t.Errorf("got %v", err)
	}
	if _, err := Open(Config{PageFirst: 63, PageMax: 132, MinPages: 2}); err != ErrPageSize {
		t.Errorf("got %v", err)
	}
	if _, err := Open(Config{PageFirst: 64, PageMax: 132}); err != ErrMinPages {
		t.Errorf("got %v", err)
	}
	if _, err := Open(Config{PageFirst: 64, PageMax: 132, MinPages: 2, Retention: -1}); err != ErrRetention {
		t.Errorf("got %v", err)
	}
	c.Close()
	c.Close()
	if _, err := c.GetMax(Point([]byte("a"))); err != ErrClosed {
		t.Errorf("got %v", err)
	}
}

func TestSeats(t *testing.T) {
	config := Config{PageFirst: 4096, PageMax: 65536, MinPages: 2, Retention: 10, LowWater: Time{5, 0}}
	if _, _, err := OpenShared(config, 65, 9); err != ErrSeats {
		t.Errorf("got %v", err)
	}
	if _, _, err := OpenShared(config, 1<<32-1, 9); err != ErrSeats {
		t.Errorf("got %v", err)
	}
	shared, seats, err := OpenShared(config, 4, 1000)
	if err != nil {
		t.Fatal(err)
	}
	if _, _, err := seats[0].AddAll(nil, Time{20, 0}, 0); err != ErrTries {
		t.Errorf("got %v", err)
	}
	if _, err := shared.Close(); err != ErrStillOut {
		t.Errorf("got %v", err)
	}
	accepted := make(chan uint64)
	for _, seat := range seats {
		go func(seat *Seat) {
			defer seat.Close()
			var n uint64
			for wall := uint64(20); wall < 120; wall++ {
				_, a, err := seat.Add(Point([]byte("a")), at(wall, one), Time{20, 0}, 8)
				for err == ErrBusy {
					runtime.Gosched()
					_, a, err = seat.Add(Point([]byte("a")), at(wall, one), Time{20, 0}, 8)
				}
				if err != nil || !a.Kept {
					t.Errorf("got %v, %v", a, err)
				}
				n++
				if v, _, err := seat.GetMax(Point([]byte("a"))); err != nil || v.Time.Wall < wall {
					t.Errorf("got %v, %v", v, err)
				}
			}
			if _, seen, err := seat.LowWater(); err != nil || seen < n {
				t.Errorf("got %v, %v", seen, err)
			}
			if f, seen, err := seat.Figures(); err != nil || f.Pages != 1 || f.Bytes != 33 || f.Adds != n || seen < n {
				t.Errorf("got %+v, %v, %v", f, seen, err)
			}
			seat.Close()
			accepted <- n
		}(seat)
	}
	var all uint64
	for range seats {
		all += <-accepted
	}
	if n, err := shared.Close(); err != nil || n != all {
		t.Errorf("got %v, %v", n, err)
	}
}
