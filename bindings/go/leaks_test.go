//go:build linux

package tscache

import (
	"math"
	"runtime"
	"testing"

	"maulviolet.invalid/tscache/internal/heap"
)

// Opened and dropped so often, each thing leaves nothing behind, whether it is closed or left to
// the collector.
func TestNothingIsLeftBehind(t *testing.T) {
	// Less than a block takes, times 4,000, and more than the threads keep for themselves, which are
	// more where the machine is busy.
	const times, most = 4000, 384 << 10
	config := Config{PageFirst: 132, PageMax: 132, MinPages: 2, Retention: 10, LowWater: Time{5, 0}}
	key, now := Point([]byte("a")), Time{20, 0}
	kinds := map[string]func(closes bool) error{
		"caches": func(closes bool) error {
			c, err := Open(config)
			if err != nil {
				return err
			}
			if closes {
				defer c.Close()
			}
			_, err = c.Add(key, at(20, one), now)
			return err
		},
		"summaries that are applied": func(closes bool) error {
			c, err := Open(config)
			if err != nil {
				return err
			}
			if closes {
				defer c.Close()
			}
			if _, err = c.Add(key, at(20, one), now); err != nil {
				return err
			}
			summary, err := c.Summary(Onward(nil, IncludeBoth), math.MaxUint)
			if err != nil {
				return err
			}
			if _, err := c.Apply(summary[1:], now); err != ErrSummaryVersion {
				return err
			}
			_, err = c.Apply(summary, now)
			return err
		},
		"caches that are refused": func(bool) error {
			wrong := config
			wrong.MinPages = 0
			if _, err := Open(wrong); err != ErrMinPages {
				return err
			}
			if _, _, err := OpenShared(wrong, 2, 9); err != ErrMinPages {
				return err
			}
			return nil
		},
		"shared caches": func(closes bool) error {
			shared, seats, err := OpenShared(config, 2, 9)
			if err != nil {
				return err
			}
			_, _, err = seats[0].Add(key, at(20, one), now, 64)
			if err == nil {
				_, _, err = seats[1].Summary(Onward(nil, IncludeBoth), math.MaxUint)
			}
			if err == nil && closes {
				seats[0].Close()
				seats[1].Close()
				_, err = shared.Close()
			}
			return err
		},
	}
	for name, kind := range kinds {
		for _, closes := range []bool{true, false} {
			open := func(times int) {
				for i := 0; i < times; i++ {
					if err := kind(closes); err != nil {
						t.Fatalf("%s: %v", name, err)
					}
				}
				if !closes { // a finalizer runs once what it frees was found to be unused
					for i := 0; i < 5; i++ {
						runtime.GC()
						finalizersRun()
					}
				}
			}
			open(times / 10)
			before := heap.InUse()
			open(times)
			if left := heap.InUse() - before; left > most {
				t.Errorf("%d %s, closed: %v, leave %d bytes", times, name, closes, left)
			}
		}
	}
}

// finalizersRun waits until the finalizers that the collector has found have run: one goroutine
// runs all of them, in their order.
func finalizersRun() {
	done := make(chan struct{})
	func() {
		last := &struct{ bytes [64]byte }{}
		runtime.SetFinalizer(last, func(*struct{ bytes [64]byte }) { close(done) })
	}()
	for {
		runtime.GC()
		select {
		case <-done:
			return
		default:
			runtime.Gosched()
		}
	}
}
