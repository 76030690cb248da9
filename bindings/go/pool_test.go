package tscache

import (
	"context"
	"errors"
	"math"
	"runtime"
	"strings"
	"sync"
	"sync/atomic"
	"testing"
	"time"
)

// soon is a deadline for what must not hang.
const soon = 15 * time.Second

// within has the work done, and fails the test where that takes longer than the deadline.
func within(t *testing.T, deadline time.Duration, what string, work func()) {
	t.Helper()
	done := make(chan struct{})
	go func() {
		defer close(done)
		work()
	}()
	select {
	case <-done:
	case <-time.After(deadline):
		t.Fatalf("%s hangs", what)
	}
}

// seatsOf opens a shared cache with so many seats.
func seatsOf(t *testing.T, count uint32) (*Shared, []*Seat) {
	t.Helper()
	shared, seats, err := OpenShared(DefaultConfig(), count, math.MaxUint64)
	if err != nil {
		t.Fatal(err)
	}
	return shared, seats
}

// get takes a seat that has to be there.
func get(t *testing.T, p *Pool) *Seat {
	t.Helper()
	ctx, cancel := context.WithTimeout(context.Background(), soon)
	defer cancel()
	seat, err := p.GetContext(ctx)
	if err != nil {
		t.Fatal(err)
	}
	return seat
}

// putting tells what a pool panics with where a seat is put there.
func putting(t *testing.T, p *Pool, seat *Seat) (what string) {
	t.Helper()
	within(t, soon, "Put", func() { what = panics(func() { p.Put(seat) }) })
	return what
}

func TestPool(t *testing.T) {
	within(t, 4*time.Minute, "a pool for many goroutines", func() { goRound(t) })
}

// goRound has a thousand goroutines use four seats.
func goRound(t *testing.T) {
	const goroutines, each = 1000, 20
	shared, seats := seatsOf(t, 4)
	pool := NewPool(seats)
	var most, now, adds int64
	add := func(key Span, value Value) func(*Seat) error {
		return func(seat *Seat) error {
			if n := atomic.AddInt64(&now, 1); n > atomic.LoadInt64(&most) {
				atomic.StoreInt64(&most, n)
			}
			defer atomic.AddInt64(&now, -1)
			for {
				_, _, err := seat.Add(key, value, value.Time, 64)
				if err == nil {
					atomic.AddInt64(&adds, 1)
				}
				if !errors.Is(err, ErrBusy) {
					return err
				}
				runtime.Gosched()
			}
		}
	}
	var all sync.WaitGroup
	for g := 0; g < goroutines; g++ {
		all.Add(1)
		go func(g int) {
			defer all.Done()
			for i := 0; i < each; i++ {
				key, value := Point([]byte{byte(g), byte(g >> 8)}), at(uint64(20+i), one)
				if err := pool.Do(add(key, value)); err != nil {
					t.Error(err)
				}
				err := pool.Do(func(seat *Seat) error { // most often another seat
					got, _, err := seat.GetMax(key)
					if got != value {
						t.Errorf("wanted %v, got %v", value, got)
					}
					return err
				})
				if err != nil {
					t.Error(err)
				}
			}
		}(g)
	}
	all.Wait()
	if most > 4 {
		t.Errorf("%d goroutines had one of 4 seats at once", most)
	}
	pool.Close()
	if n, err := shared.Close(); err != nil || n != goroutines*each || int64(n) != adds {
		t.Errorf("got %v, %v", n, err)
	}
}

// The seat of a Do is back where the work ends, fails or panics, or ends its goroutine.
func TestDoPutsItsSeatBack(t *testing.T) {
	_, seats := seatsOf(t, 1)
	pool := NewPool(seats)
	is := func(*Seat) error { return ErrTime }
	if err := pool.Do(is); err != ErrTime {
		t.Errorf("got %v", err)
	}
	pool.Put(get(t, pool))
	panicking := func(*Seat) error { panic("of the work") }
	if what := panics(func() { _ = pool.Do(panicking) }); what != "of the work" {
		t.Errorf("got %q", what)
	}
	pool.Put(get(t, pool))
	within(t, soon, "a goroutine that ends", func() {
		_ = pool.Do(func(*Seat) error { runtime.Goexit(); return nil })
	})
	pool.Put(get(t, pool))
}

// What is put into a pool is a seat that it has lent out, or there is a panic, and the pool is as
// it was.
func TestWrongPuts(t *testing.T) {
	_, seats := seatsOf(t, 2)
	_, others := seatsOf(t, 2)
	_, free := seatsOf(t, 1)
	pool, other := NewPool(seats), NewPool(others)
	out, its := get(t, pool), get(t, other)
	back := get(t, pool)
	pool.Put(back)
	const notOfIt = "tscache: what was put into a Pool is no seat of it"
	const notOut = "tscache: a seat was put into its Pool that was not out"
	for what, row := range map[string]struct {
		seat   *Seat
		wanted string
	}{
		"a seat of another pool":    {its, notOfIt},
		"a seat of no pool":         {free[0], notOfIt},
		"a seat that was not given": {&Seat{}, notOfIt},
		"nil":                       {nil, notOfIt},
		"a seat that is not out":    {back, notOut},
		"a copy of a seat":          {copyOf(out), copied},
	} {
		if got := putting(t, pool, row.seat); got != row.wanted {
			t.Errorf("%s: got %q", what, got)
		}
	}
	if got := putting(t, pool, out); got != "" {
		t.Errorf("put back: got %q", got)
	}
	if got := putting(t, pool, out); got != notOut {
		t.Errorf("put twice: got %q", got)
	}
	first, second := get(t, pool), get(t, pool)
	if first == second || first.inner.cache != second.inner.cache || its.inner.cache == first.inner.cache {
		t.Error("the pool has lent a seat twice, or one of another cache")
	}
	ctx, cancel := context.WithTimeout(context.Background(), 20*time.Millisecond)
	defer cancel()
	if seat, err := pool.GetContext(ctx); seat != nil || err != context.DeadlineExceeded {
		t.Errorf("a pool of two has lent a third: %v, %v", seat, err)
	}
}

// Two ranges, whose seats are put back crosswise: no read goes into the cache of the other one.
func TestSeatsOfTwoRanges(t *testing.T) {
	_, as := seatsOf(t, 1)
	_, bs := seatsOf(t, 1)
	a, b := NewPool(as), NewPool(bs)
	x, y := get(t, a), get(t, b)
	if putting(t, a, y) == "" || putting(t, b, x) == "" {
		t.Fatal("a seat went into the pool of another cache")
	}
	a.Put(x)
	key, now := Point([]byte("k")), Time{20, 0}
	err := a.Do(func(s *Seat) error { _, _, err := s.Add(key, at(20, one), now, 64); return err })
	if err != nil {
		t.Fatal(err)
	}
	var clear Time
	err = a.Do(func(s *Seat) (err error) {
		clear, err = s.EarliestWrite([]Span{key}, Time{10, 0}, two)
		return err
	})
	if err != nil || clear != (Time{20, 1}) {
		t.Errorf("a write below a read may be made at %v, %v", clear, err)
	}
}

func TestWhatAPoolIsMadeOf(t *testing.T) {
	_, as := seatsOf(t, 3)
	_, bs := seatsOf(t, 1)
	pool := NewPool(as[:1])
	for what, row := range map[string]struct {
		seats  []*Seat
		wanted string
	}{
		"none":                   {nil, "tscache: a Pool is made of one seat or more"},
		"no seat among some":     {[]*Seat{as[1], nil}, "tscache: a Pool is made of seats that"},
		"one that was not given": {[]*Seat{{}, as[1]}, "tscache: a Pool is made of seats that"},
		"two caches":             {[]*Seat{bs[0], as[1]}, "tscache: the seats of a Pool are of one"},
		"one twice":              {[]*Seat{as[2], as[2]}, "tscache: a seat is in one Pool"},
		"one of another pool":    {as[:1], "tscache: a seat is in one Pool"},
		"a copy":                 {[]*Seat{copyOf(as[1])}, copied},
	} {
		if got := panics(func() { NewPool(row.seats) }); !strings.HasPrefix(got, row.wanted) {
			t.Errorf("%s: got %q", what, got)
		}
	}
	pool.Put(get(t, pool))
}

// A wait for a seat ends with its context, also that of a Do within a Do.
func TestAWaitHasADeadline(t *testing.T) {
	_, seats := seatsOf(t, 1)
	pool := NewPool(seats)
	short := func() context.Context {
		ctx, cancel := context.WithTimeout(context.Background(), 20*time.Millisecond)
		t.Cleanup(cancel)
		return ctx
	}
	within(t, soon, "a Do within a Do", func() {
		err := pool.DoContext(short(), func(*Seat) error {
			return pool.DoContext(short(), func(*Seat) error { t.Error("done"); return nil })
		})
		if err != context.DeadlineExceeded {
			t.Errorf("got %v", err)
		}
	})
	ended, end := context.WithCancel(context.Background())
	end()
	if seat, err := pool.GetContext(ended); seat != nil || err != context.Canceled {
		t.Errorf("got %v, %v", seat, err)
	}
	seat := get(t, pool)
	waits := make(chan error)
	waiting, end := context.WithCancel(context.Background())
	go func() {
		_, err := pool.GetContext(waiting)
		waits <- err
	}()
	end()
	within(t, soon, "a wait that is ended", func() {
		if err := <-waits; err != context.Canceled {
			t.Errorf("got %v", err)
		}
	})
	pool.Put(seat)
	pool.Put(get(t, pool))
}

// A pool that is closed lends nothing, and says so at once; so does one that is closing, and one
// that was never made.
func TestAClosedPool(t *testing.T) {
	shared, seats := seatsOf(t, 2)
	pool := NewPool(seats)
	seat, last := get(t, pool), get(t, pool)
	waits, closes := make(chan error), make(chan struct{})
	go func() {
		_, err := pool.Get()
		waits <- err
	}()
	go func() {
		pool.Close()
		close(closes)
	}()
	within(t, soon, "a wait while the pool is closed", func() {
		if err := <-waits; err != ErrClosed {
			t.Errorf("got %v", err)
		}
	})
	refused := func(pool *Pool) {
		within(t, soon, "a pool that is closed", func() {
			if seat, err := pool.Get(); seat != nil || err != ErrClosed {
				t.Errorf("got %v, %v", seat, err)
			}
			if err := pool.Do(func(*Seat) error { t.Error("done"); return nil }); err != ErrClosed {
				t.Errorf("got %v", err)
			}
		})
	}
	refused(pool)
	select {
	case <-closes:
		t.Error("closed with a seat out")
	default:
	}
	pool.Put(seat)
	pool.Put(last)
	within(t, soon, "Close", func() {
		<-closes
		pool.Close()
		pool.Close()
	})
	refused(pool)
	if n, err := shared.Close(); n != 0 || err != nil {
		t.Errorf("got %v, %v", n, err)
	}
	var none Pool
	refused(&none)
	within(t, soon, "Close of no pool", none.Close)
}
