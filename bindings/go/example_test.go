package tscache_test

import (
	"context"
	"errors"
	"fmt"
	"log"
	"math"
	"runtime"
	"time"

	"maulviolet.invalid/tscache"
)

var (
	reader = [16]byte{0x0a}
	writer = [16]byte{0x0b}
)

func must(err error) {
	if err != nil {
		log.Fatal(err)
	}
}

// A read is added before it is answered, and a write asks for its time.
func ExampleCache() {
	c, err := tscache.Open(tscache.DefaultConfig())
	must(err)
	defer c.Close()

	read := tscache.Value{Time: tscache.Time{Wall: 20}, Owner: reader}
	_, err = c.Add(tscache.Range([]byte("a"), []byte("c"), tscache.ExcludeTo), read, read.Time)
	must(err) // else the read must not be answered

	write := []tscache.Span{tscache.Point([]byte("b"))}
	at, err := c.EarliestWrite(write, tscache.Time{Wall: 15}, writer)
	fmt.Println(at, err)
	// Output: {20 1} <nil>
}

// Any number of goroutines use a shared cache by a pool of its seats.
func ExamplePool() {
	shared, seats, err := tscache.OpenShared(tscache.DefaultConfig(), 4, math.MaxUint64)
	must(err)
	pool := tscache.NewPool(seats)
	ctx, cancel := context.WithTimeout(context.Background(), time.Minute)
	defer cancel()

	key := tscache.Point([]byte("apple"))
	read := tscache.Value{Time: tscache.Time{Wall: 20}, Owner: reader}
	done := make(chan error)
	for i := 0; i < 100; i++ {
		go func() {
			done <- pool.DoContext(ctx, func(seat *tscache.Seat) error {
				for {
					_, _, err := seat.Add(key, read, read.Time, 64)
					if !errors.Is(err, tscache.ErrBusy) {
						return err
					}
					runtime.Gosched()
				}
			})
		}()
	}
	for i := 0; i < 100; i++ {
		must(<-done)
	}

	at := tscache.MaxTime
	must(pool.DoContext(ctx, func(seat *tscache.Seat) (err error) {
		at, err = seat.EarliestWrite([]tscache.Span{key}, tscache.Time{Wall: 15}, writer)
		return err
	}))
	pool.Close()
	adds, err := shared.Close()
	fmt.Println(at, adds, err)
	// Output: {20 1} 100 <nil>
}

// A lease goes on: the next holder applies the former one's summary before its first write.
func ExampleCache_Apply() {
	former, err := tscache.Open(tscache.DefaultConfig())
	must(err)
	defer former.Close()
	key, now := tscache.Point([]byte("b")), tscache.Time{Wall: 20}
	_, err = former.Add(key, tscache.Value{Time: now, Owner: reader}, now)
	must(err)

	all := tscache.Range([]byte("a"), []byte("z"), tscache.ExcludeTo)
	summary, err := former.Summary(all, math.MaxUint)
	must(err)

	next, err := tscache.Open(tscache.DefaultConfig())
	must(err)
	defer next.Close()
	_, err = next.Apply(summary, now)
	must(err) // else no write of the span is answered
	at, err := next.EarliestWrite([]tscache.Span{key}, tscache.Time{Wall: 15}, writer)
	fmt.Println(at, err)
	// Output: {20 1} <nil>
}

// A shared cache tells its summary at a seat, and stays open.
func ExampleSeat_Summary() {
	_, seats, err := tscache.OpenShared(tscache.DefaultConfig(), 2, math.MaxUint64)
	must(err)
	key, now := tscache.Point([]byte("b")), tscache.Time{Wall: 20}
	place, _, err := seats[0].Add(key, tscache.Value{Time: now, Owner: reader}, now, 64)
	must(err)

	all := tscache.Range([]byte("a"), []byte("z"), tscache.ExcludeTo)
	summary, seen, err := seats[1].Summary(all, math.MaxUint)
	must(err)
	fmt.Println(len(summary) > 0, seen > place)
	// Output: true true
}
