package tscache

import (
	"math"
	"runtime"
	"sync"
	"sync/atomic"
	"testing"
	"time"
)

// copyOf copies what must not be copied, behind the back of `go vet`.
func copyOf[T any](first *T) *T {
	copied := *first
	return &copied
}

// A copy whose first one is gone panics at each call, however often the collector has run.
func TestACopyNeverMeetsFreedMemory(t *testing.T) {
	for run := 0; run < 15; run++ {
		cache, shared, seat, pool := copies(t)
		for i := 0; i < 3; i++ {
			runtime.GC()
			finalizersRun()
		}
		for _, in := range []*inner{cache.inner, shared.inner, seat.inner} {
			if in.block == nil {
				t.Fatal("the collector has freed what a copy leads to")
			}
		}
		calls := callsOf(cache, shared, seat, nil)
		calls["Cache.Close"] = func() error { cache.Close(); return nil }
		calls["Seat.Close"] = func() error { seat.Close(); return nil }
		calls["Pool.Get"] = func() error { _, err := pool.Get(); return err }
		calls["Pool.Do"] = func() error { return pool.Do(func(*Seat) error { return nil }) }
		calls["Pool.Put"] = func() error { pool.Put(seat); return nil }
		calls["Pool.Close"] = func() error { pool.Close(); return nil }
		calls["NewPool"] = func() error { NewPool([]*Seat{seat}); return nil }
		for name, call := range calls {
			what, call := "", call
			within(t, soon, name, func() { what = panics(func() { _ = call() }) })
			if what != copied {
				t.Errorf("%s: got %q", name, what)
			}
		}
	}
}

// copies are those of a cache, a shared one, a seat and a pool, of which nothing else is left.
func copies(t *testing.T) (*Cache, *Shared, *Seat, *Pool) {
	c, err := Open(DefaultConfig())
	if err != nil {
		t.Fatal(err)
	}
	if _, err := c.Add(Point([]byte("a")), at(20, one), Time{20, 0}); err != nil {
		t.Fatal(err)
	}
	shared, seats := seatsOf(t, 2)
	return copyOf(c), copyOf(shared), copyOf(seats[0]), copyOf(NewPool(seats[1:]))
}

// Of goroutines that begin calls on one cache one at a time is in a call, and each other one panics.
func TestOneCallAtATime(t *testing.T) {
	const goroutines, calls = 4, 1_000_000
	in := small(t).inner
	var within, met int64
	var all sync.WaitGroup
	stop := time.Now().Add(5 * time.Second)
	for g := 0; g < goroutines; g++ {
		all.Add(1)
		go func() {
			defer all.Done()
			for i := 0; i < calls && time.Now().Before(stop); i++ {
				if panics(func() { _ = in.take() }) != "" {
					continue
				}
				if atomic.AddInt64(&within, 1) > 1 {
					atomic.AddInt64(&met, 1)
				}
				atomic.AddInt64(&within, -1)
				_ = in.leave(0)
			}
		}()
	}
	all.Wait()
	if met > 0 {
		t.Errorf("%d calls began while another was under way", met)
	}
}

// A key without bytes has a place all the same: C is given no null pointer.
func TestNoBytesHaveAPlace(t *testing.T) {
	for _, key := range [][]byte{nil, {}, make([]byte, 0, 9), {'a'}} {
		if bytes(key) == nil {
			t.Errorf("%v is a null pointer", key)
		}
	}
	if bytes([]byte("ab")[1:]) == bytes(nil) {
		t.Error("a key has the place of none")
	}
}

// What is returned beside an error lets no write pass, and no read be taken for one that was seen.
func TestErrorsCloseTheGate(t *testing.T) {
	good, now := Point([]byte("a")), Time{20, 0}
	long := Point(make([]byte, 4097))
	closed, alive := open(t), open(t)
	closed.cache.Close()
	closed.seat.Close()
	for what, o := range map[string]opened{"closed": closed, "alive": alive} {
		c, s, bad := o.cache, o.seat, []Span{good, {}, good}
		if what == "closed" {
			bad = []Span{good}
		}
		asked := map[string]func() (Time, error){
			"Cache.GetMax":        func() (Time, error) { v, err := c.GetMax(bad[len(bad)/2]); return v.Time, err },
			"Cache.EarliestWrite": func() (Time, error) { return c.EarliestWrite(bad, now, one) },
			"Cache.late":          func() (Time, error) { return c.EarliestWrite(nil, Time{1 << 63, 0}, one) },
			"Seat.GetMax": func() (Time, error) {
				v, seen, err := s.GetMax(bad[len(bad)/2])
				if seen != 0 {
					t.Errorf("a lookup that was refused has seen %d Adds", seen)
				}
				return v.Time, err
			},
			"Seat.EarliestWrite": func() (Time, error) { return s.EarliestWrite(bad, now, one) },
			"Seat.late":          func() (Time, error) { return s.EarliestWrite(nil, Time{1 << 63, 0}, one) },
		}
		if what == "closed" {
			asked["Cache.LowWater"] = c.LowWater
			asked["Seat.LowWater"] = func() (Time, error) {
				low, seen, err := s.LowWater()
				if seen != 0 {
					t.Errorf("a floor that was refused has seen %d Adds", seen)
				}
				return low, err
			}
		}
		for name, ask := range asked {
			if at, err := ask(); at != MaxTime || err == nil {
				t.Errorf("%s, %s: got %v, %v", what, name, at, err)
			}
		}
		may := map[string]func() (bool, error){
			"Cache.MayWrite":    func() (bool, error) { return c.MayWrite(bad[len(bad)/2], now, one) },
			"Cache.MayWriteAll": func() (bool, error) { return c.MayWriteAll(bad, now, one) },
			"Cache.late":        func() (bool, error) { return c.MayWriteAll(nil, Time{1 << 63, 0}, one) },
			"Seat.MayWrite":     func() (bool, error) { return s.MayWrite(bad[len(bad)/2], now, one) },
			"Seat.MayWriteAll":  func() (bool, error) { return s.MayWriteAll(bad, now, one) },
			"Seat.late":         func() (bool, error) { return s.MayWriteAll(nil, Time{1 << 63, 0}, one) },
		}
		for name, ask := range may {
			if yes, err := ask(); yes || err == nil {
				t.Errorf("%s, %s: got %v, %v", what, name, yes, err)
			}
		}
		place, added, err := s.Add(long, at(20, one), now, 64)
		if place != math.MaxUint64 || added != (Added{}) || err == nil {
			t.Errorf("%s: got %v, %v, %v", what, place, added, err)
		}
		place, added, err = s.AddAll([]Mark{{good, at(20, one)}, {long, at(20, one)}}, now, 64)
		if place != math.MaxUint64 || added != (Added{}) || err == nil {
			t.Errorf("%s: got %v, %v, %v", what, place, added, err)
		}
	}
	wants(t, alive.cache, good, at(5, [16]byte{}))
	last := Value{MaxTime, one}
	if _, err := alive.cache.Add(good, last, now); err != nil {
		t.Fatal(err)
	}
	if at, err := alive.cache.EarliestWrite([]Span{good}, now, two); at != MaxTime || err != ErrNoTime {
		t.Errorf("got %v, %v", at, err)
	}
}
