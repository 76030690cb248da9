package tscache_test

import (
	"context"
	"fmt"
	"math"
	"strings"
	"time"

	"maulviolet.invalid/tscache"
)

// Each call of the package, in a few lines. These stand before all of them.
var (
	a, b = tscache.Point([]byte("a")), tscache.Point([]byte("b"))
	aToC = tscache.Range([]byte("a"), []byte("c"), tscache.ExcludeTo)
	at15 = tscache.Time{Wall: 15}
	at20 = tscache.Time{Wall: 20}
	read = tscache.Value{Time: at20, Owner: reader}
	both = []tscache.Mark{{Span: a, Value: read}, {Span: b, Value: read}}
	// trace has one call, of a lookup.
	trace = []byte(`{"page_first":132,"page_max":132,"min_pages":2,"retention":10,"low_water":[5,0],
		"threads":[[{"op":"get","span":{"start":"61"}}]]}`)
)

func openCache() *tscache.Cache {
	c, err := tscache.Open(tscache.DefaultConfig())
	must(err)
	return c
}

func openSeats() (*tscache.Shared, []*tscache.Seat) {
	shared, seats, err := tscache.OpenShared(tscache.DefaultConfig(), 2, math.MaxUint64)
	must(err)
	return shared, seats
}

func ExampleDefaultConfig() {
	config := tscache.DefaultConfig()
	config.LowWater = tscache.Time{Wall: 1000} // the start of the lease
	fmt.Println(config.PageFirst, config.PageMax, config.MinPages, config.Retention == 10*time.Second)
	// Output: 131072 33554432 2 true
}

func ExampleOpen() {
	config := tscache.DefaultConfig()
	config.PageFirst = 63
	_, err := tscache.Open(config)
	fmt.Println(err)
	// Output: tscache: PageFirst is 64 to PageMax, and PageMax at most 2^30, in stripes at least 8256
}

func ExamplePoint() {
	c := openCache()
	defer c.Close()
	_, err := c.Add(tscache.Point([]byte("a")), read, at20)
	must(err)
	latest, err := c.GetMax(tscache.Point([]byte("a")))
	fmt.Println(latest.Time, err)
	// Output: {20 0} <nil>
}

func ExampleRange() {
	c := openCache()
	defer c.Close()
	_, err := c.Add(tscache.Range([]byte("a"), []byte("b"), tscache.ExcludeTo), read, at20)
	must(err)
	latest, err := c.GetMax(b)
	fmt.Println(latest.Time, err)
	// Output: {0 0} <nil>
}

func ExampleOnward() {
	c := openCache()
	defer c.Close()
	_, err := c.Add(tscache.Onward([]byte("a"), tscache.ExcludeFrom), read, at20)
	must(err)
	first, err := c.GetMax(a)
	must(err)
	behind, err := c.GetMax(b)
	fmt.Println(first.Time, behind.Time, err)
	// Output: {0 0} {20 0} <nil>
}

func ExampleTime_Before() {
	fmt.Println(at15.Before(at20), at20.Before(at20), at20.Before(tscache.Time{Wall: 20, Logical: 1}))
	// Output: true false true
}

func ExampleTime_Next() {
	next, ok := at20.Next()
	_, last := tscache.MaxTime.Next()
	fmt.Println(next, ok, last)
	// Output: {20 1} true false
}

func ExampleCache_Add() {
	c := openCache()
	defer c.Close()
	added, err := c.Add(aToC, read, at20)
	fmt.Println(added.Kept, added.Rotated, added.Evicted, err)
	// Output: true false 0 <nil>
}

func ExampleCache_AddAll() {
	c := openCache()
	defer c.Close()
	added, err := c.AddAll(both, at20) // both, or none
	fmt.Println(added.Kept, err)
	// Output: true <nil>
}

func ExampleCache_GetMax() {
	c := openCache()
	defer c.Close()
	_, err := c.Add(aToC, read, at20)
	must(err)
	latest, err := c.GetMax(b)
	fmt.Println(latest.Time, latest.Owner == reader, err)
	// Output: {20 0} true <nil>
}

func ExampleCache_EarliestWrite() {
	c := openCache()
	defer c.Close()
	_, err := c.AddAll(both, at20)
	must(err)
	at, err := c.EarliestWrite([]tscache.Span{a, b}, at15, writer)
	fmt.Println(at, err)
	// Output: {20 1} <nil>
}

func ExampleCache_MayWrite() {
	c := openCache()
	defer c.Close()
	_, err := c.Add(aToC, read, at20)
	must(err)
	own, err := c.MayWrite(b, at20, reader)
	must(err)
	other, err := c.MayWrite(b, at20, writer)
	fmt.Println(own, other, err)
	// Output: true false <nil>
}

func ExampleCache_MayWriteAll() {
	c := openCache()
	defer c.Close()
	_, err := c.Add(b, read, at20)
	must(err)
	may, err := c.MayWriteAll([]tscache.Span{a, b}, at20, writer)
	fmt.Println(may, err)
	// Output: false <nil>
}

func ExampleCache_LowWater() {
	config := tscache.DefaultConfig()
	config.LowWater = at15
	c, err := tscache.Open(config)
	must(err)
	defer c.Close()
	floor, err := c.LowWater()
	fmt.Println(floor, err)
	// Output: {15 0} <nil>
}

func ExampleCache_Figures() {
	c := openCache()
	defer c.Close()
	_, err := c.Add(aToC, read, at20)
	must(err)
	f, err := c.Figures()
	fmt.Println(f.Pages, f.Nodes, f.Bytes, f.Adds, err)
	// Output: 1 2 66 1 <nil>
}

func ExampleCache_Summary() {
	c := openCache()
	defer c.Close()
	_, err := c.Add(a, read, at20)
	must(err)
	whole, err := c.Summary(aToC, math.MaxUint)
	must(err)
	floor, err := c.Summary(aToC, 0) // no mark, and a floor at 20
	fmt.Println(len(whole) > len(floor), err)
	// Output: true <nil>
}

func ExampleCache_Close() {
	c := openCache()
	c.Close()
	_, err := c.GetMax(a)
	fmt.Println(err)
	// Output: tscache: the cache or the seat is closed
}

func ExampleOpenShared() {
	shared, seats, err := tscache.OpenShared(tscache.DefaultConfig(), 2, math.MaxUint64)
	must(err)
	place, _, err := seats[0].Add(a, read, at20, 64)
	must(err)
	latest, seen, err := seats[1].GetMax(a)
	must(err)
	fmt.Println(place, seen, latest.Time)
	seats[0].Close()
	seats[1].Close()
	fmt.Println(shared.Close())
	// Output:
	// 0 1 {20 0}
	// 1 <nil>
}

func ExampleOpenStriped() {
	bounds := [][]byte{[]byte("g"), []byte("p")}
	shared, seats, err := tscache.OpenStriped(tscache.DefaultConfig(), bounds, 2)
	must(err)
	place, _, err := seats[0].Add(a, read, at20, 64)
	must(err)
	latest, seen, err := seats[1].GetMax(a)
	must(err)
	fmt.Println(place, seen, latest.Time)
	seats[0].Close()
	seats[1].Close()
	fmt.Println(shared.Close())
	// Output:
	// 0 0 {20 0}
	// 1 <nil>
}

func ExampleShared_Close() {
	shared, seats := openSeats()
	seats[0].Close()
	_, err := shared.Close()
	fmt.Println(err)
	seats[1].Close()
	fmt.Println(shared.Close())
	// Output:
	// tscache: a seat was not closed
	// 0 <nil>
}

func ExampleSeat_Add() {
	_, seats := openSeats()
	place, added, err := seats[0].Add(a, read, at20, 64) // ErrBusy where others were in the way
	fmt.Println(place, added.Kept, err)
	// Output: 0 true <nil>
}

func ExampleSeat_AddAll() {
	_, seats := openSeats()
	place, added, err := seats[0].AddAll(both, at20, 64)
	fmt.Println(place, added.Kept, err)
	// Output: 0 true <nil>
}

func ExampleSeat_GetMax() {
	_, seats := openSeats()
	_, _, err := seats[0].Add(a, read, at20, 64)
	must(err)
	latest, seen, err := seats[1].GetMax(a)
	fmt.Println(latest.Time, seen, err)
	// Output: {20 0} 1 <nil>
}

func ExampleSeat_EarliestWrite() {
	_, seats := openSeats()
	_, _, err := seats[0].Add(a, read, at20, 64)
	must(err)
	at, err := seats[1].EarliestWrite([]tscache.Span{a, b}, at15, writer)
	fmt.Println(at, err)
	// Output: {20 1} <nil>
}

func ExampleSeat_MayWrite() {
	_, seats := openSeats()
	_, _, err := seats[0].Add(a, read, at20, 64)
	must(err)
	may, err := seats[1].MayWrite(a, at20, writer)
	fmt.Println(may, err)
	// Output: false <nil>
}

func ExampleSeat_MayWriteAll() {
	_, seats := openSeats()
	_, _, err := seats[0].Add(a, read, at20, 64)
	must(err)
	may, err := seats[1].MayWriteAll([]tscache.Span{b, a}, at20, writer)
	fmt.Println(may, err)
	// Output: false <nil>
}

func ExampleSeat_LowWater() {
	_, seats := openSeats()
	_, _, err := seats[0].Add(a, read, at20, 64)
	must(err)
	floor, seen, err := seats[1].LowWater()
	fmt.Println(floor, seen, err)
	// Output: {0 0} 1 <nil>
}

func ExampleSeat_Figures() {
	_, seats := openSeats()
	_, _, err := seats[0].Add(a, read, at20, 64)
	must(err)
	f, seen, err := seats[1].Figures() // the counts of Adds and lookups are of this seat alone
	fmt.Println(f.Nodes, f.Adds, seen, err)
	// Output: 1 0 1 <nil>
}

func ExampleSeat_Close() {
	_, seats := openSeats()
	seats[0].Close()
	_, _, err := seats[0].GetMax(a)
	fmt.Println(err)
	// Output: tscache: the cache or the seat is closed
}

func ExampleNewPool() {
	shared, seats := openSeats()
	pool := tscache.NewPool(seats)
	seat, err := pool.Get()
	must(err)
	_, _, err = seat.Add(a, read, at20, 64)
	must(err)
	pool.Put(seat)
	pool.Close()
	fmt.Println(shared.Close())
	// Output: 1 <nil>
}

func ExamplePool_Get() {
	_, seats := openSeats()
	pool := tscache.NewPool(seats)
	seat, err := pool.Get() // waits while all seats are lent out
	must(err)
	defer pool.Put(seat)
	latest, seen, err := seat.GetMax(a)
	fmt.Println(latest.Time, seen, err)
	// Output: {0 0} 0 <nil>
}

func ExamplePool_GetContext() {
	_, seats := openSeats()
	pool := tscache.NewPool(seats[:1])
	seat, err := pool.Get()
	must(err)
	defer pool.Put(seat)
	ctx, cancel := context.WithTimeout(context.Background(), time.Millisecond)
	defer cancel()
	_, err = pool.GetContext(ctx) // the only seat is lent out
	fmt.Println(err)
	// Output: context deadline exceeded
}

func ExamplePool_Put() {
	_, seats := openSeats()
	pool := tscache.NewPool(seats[:1])
	seat, err := pool.Get()
	must(err)
	pool.Put(seat)
	again, err := pool.Get()
	fmt.Println(again == seat, err)
	// Output: true <nil>
}

func ExamplePool_Do() {
	_, seats := openSeats()
	pool := tscache.NewPool(seats)
	fmt.Println(pool.Do(func(seat *tscache.Seat) error {
		_, _, err := seat.Add(a, read, at20, 64)
		return err
	}))
	// Output: <nil>
}

func ExamplePool_DoContext() {
	_, seats := openSeats()
	pool := tscache.NewPool(seats)
	ctx, cancel := context.WithTimeout(context.Background(), time.Minute)
	defer cancel()
	fmt.Println(pool.DoContext(ctx, func(seat *tscache.Seat) error {
		_, _, err := seat.GetMax(a)
		return err
	}))
	// Output: <nil>
}

func ExamplePool_Close() {
	shared, seats := openSeats()
	pool := tscache.NewPool(seats)
	pool.Close() // closes the seats too
	_, err := pool.Get()
	fmt.Println(err)
	fmt.Println(shared.Close())
	// Output:
	// tscache: the cache or the seat is closed
	// 0 <nil>
}

func ExampleReplay() {
	log, err := tscache.Replay(trace)
	fmt.Print(string(log), err)
	// Output:
	// 0 0 get 0 5.0 none
	// <nil>
}

func ExampleCheck() {
	verdict, err := tscache.Check(trace, []byte("0 0 get 0 4.0 none\n"))
	fmt.Print(string(verdict), err)
	// Output:
	// wrong answer 1
	// <nil>
}

func ExampleBuilt() {
	built := tscache.Built()
	fmt.Println(len(strings.Split(built.Version, ".")), built.Kit != "")
	// Output: 3 true
}
