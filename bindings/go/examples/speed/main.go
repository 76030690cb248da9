// Speed times lookups and Adds of single keys that are there, of 65,536 keys or as many as the
// first word says, and an empty call of C beside them. Then goroutines look up by seats of a
// shared cache, one each and by a pool.
//
// It prints the nanoseconds of one call, in that turn over 1,024 places in which it was quickest,
// of 225; and the lookups of all goroutines together in a millisecond, in the quickest of nine
// rounds. The keys, and the order of all that is done, are those of bindings/c/speed.c, so that
// its figures can stand beside these.
package main

/*
static void empty(void) {}
*/
import "C"

import (
	"encoding/binary"
	"fmt"
	"log"
	"math"
	"os"
	"runtime"
	"strconv"
	"sync"
	"time"

	"maulviolet.invalid/tscache"
)

const (
	places    = 1024
	turns     = 225
	rounds    = 9
	longTurns = 250
	stride    = 1696631
)

func keyOf(place uint64) []byte {
	key := make([]byte, 8)
	binary.BigEndian.PutUint64(key, place*64)
	return key
}

func config(nodes uint64) tscache.Config {
	c := tscache.DefaultConfig()
	c.PageFirst, c.PageMax = uint32(nodes*40), uint32(nodes*40)
	return c
}

func at(wall uint64) tscache.Value {
	return tscache.Value{Time: tscache.Time{Wall: wall}, Owner: [16]byte{0x11}}
}

func must(err error) {
	if err != nil {
		log.Fatal(err)
	}
}

func least(best *time.Duration, start time.Time) {
	if took := time.Since(start); took < *best {
		*best = took
	}
}

func show(what string, best time.Duration) {
	fmt.Printf("Go, %s: %d ns\n", what, best.Nanoseconds()/places)
}

func alone(nodes uint64, spans []tscache.Span) {
	c, err := tscache.Open(config(nodes))
	must(err)
	defer c.Close()
	now := tscache.Time{Wall: 1}
	for i := uint64(0); i < nodes; i++ {
		_, err := c.Add(tscache.Point(keyOf(i)), at(10), now)
		must(err)
	}
	lookup, add, empty := time.Hour, time.Hour, time.Hour
	for turn := uint64(0); turn < turns; turn++ {
		var latest tscache.Time
		start := time.Now()
		for _, span := range spans {
			value, err := c.GetMax(span)
			must(err)
			if latest.Before(value.Time) {
				latest = value.Time
			}
		}
		least(&lookup, start)
		if latest.Wall != 10+turn {
			log.Fatal("a lookup answered another time than that of the last Add")
		}
		start = time.Now()
		for _, span := range spans {
			_, err := c.Add(span, at(11+turn), now)
			must(err)
		}
		least(&add, start)
		start = time.Now()
		for range spans {
			C.empty()
		}
		least(&empty, start)
	}
	show(fmt.Sprintf("%d nodes, lookup of a key", nodes), lookup)
	show(fmt.Sprintf("%d nodes, add of a key", nodes), add)
	show("an empty call of C", empty)
}

// together is how many lookups all goroutines make in a millisecond.
func together(goroutines int, work func(goroutine int)) int64 {
	best := time.Hour
	for round := 0; round < rounds; round++ {
		var all sync.WaitGroup
		start := time.Now()
		for g := 0; g < goroutines; g++ {
			all.Add(1)
			go func(g int) {
				defer all.Done()
				work(g)
			}(g)
		}
		all.Wait()
		least(&best, start)
	}
	return int64(goroutines) * places * longTurns * int64(time.Millisecond) / best.Nanoseconds()
}

func onGoroutines(nodes uint64, spans []tscache.Span) {
	_, seats, err := tscache.OpenShared(config(nodes), 4, math.MaxUint64)
	must(err)
	for i := uint64(0); i < nodes; i++ {
		for {
			_, _, err := seats[0].Add(tscache.Point(keyOf(i)), at(10), tscache.Time{Wall: 1}, 64)
			if err != tscache.ErrBusy {
				must(err)
				break
			}
			runtime.Gosched()
		}
	}
	own := func(g int) {
		for turn := 0; turn < longTurns; turn++ {
			for _, span := range spans {
				_, _, err := seats[g].GetMax(span)
				must(err)
			}
		}
	}
	pool := tscache.NewPool(seats)
	pooled := func(int) {
		for turn := 0; turn < longTurns; turn++ {
			for _, span := range spans {
				must(pool.Do(func(seat *tscache.Seat) error {
					_, _, err := seat.GetMax(span)
					return err
				}))
			}
		}
	}
	for _, row := range []struct {
		what string
		work func(int)
	}{{"of seats", own}, {"by a pool of 4 seats", pooled}} {
		one, four := together(1, row.work), together(4, row.work)
		fmt.Printf("Go, %d nodes, lookups %s in a millisecond: ", nodes, row.what)
		fmt.Printf("%d on 1 goroutine, %d on 4\n", one, four)
	}
}

func main() {
	nodes := uint64(65536)
	if len(os.Args) > 1 {
		n, err := strconv.ParseUint(os.Args[1], 10, 24)
		must(err)
		nodes = n
	}
	spans := make([]tscache.Span, places)
	for i := range spans {
		spans[i] = tscache.Point(keyOf(uint64(i) * stride % nodes))
	}
	alone(nodes, spans)
	onGoroutines(nodes, spans)
}
