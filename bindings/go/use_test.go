package tscache

import (
	"errors"
	"fmt"
	"math"
	"strings"
	"sync"
	"sync/atomic"
	"testing"
	"time"
	"unsafe"
)

// row is what a program keeps a key in: bytes beside a pointer into Go's memory, so that cgo may
// not look at the whole of it.
type row struct {
	key    [8]byte
	holder *string
}

func TestKeysBesidePointers(t *testing.T) {
	holder := "somebody"
	from, to := &row{[8]byte{'a'}, &holder}, &row{[8]byte{'c'}, &holder}
	spans := []Span{
		Point(from.key[:5]), Range(from.key[:1], to.key[:1], ExcludeTo), Onward(to.key[2:3], ExcludeFrom),
	}
	marks := []Mark{{spans[0], at(20, one)}, {spans[1], at(21, one)}}
	now := Time{20, 0}
	c := small(t)
	_, seats, err := OpenShared(DefaultConfig(), 1, math.MaxUint64)
	if err != nil {
		t.Fatal(err)
	}
	s := seats[0]
	trace := &struct {
		text   [256]byte
		holder *string
	}{holder: &holder}
	told, err := c.Summary(spans[1], 9)
	if err != nil {
		t.Fatal(err)
	}
	summary := &struct {
		bytes  [256]byte
		holder *string
	}{holder: &holder}
	sent := summary.bytes[:copy(summary.bytes[:], told)]
	length := copy(trace.text[:], `{"page_first":132,"page_max":132,"min_pages":2,"retention":10,`+
		`"low_water":[5,0],"threads":[[]]}`)
	for _, span := range spans {
		calls := map[string]func() error{
			"Cache.Add":           func() error { _, err := c.Add(span, at(20, one), now); return err },
			"Cache.AddAll":        func() error { _, err := c.AddAll(marks, now); return err },
			"Cache.GetMax":        func() error { _, err := c.GetMax(span); return err },
			"Cache.MayWrite":      func() error { _, err := c.MayWrite(span, now, one); return err },
			"Cache.MayWriteAll":   func() error { _, err := c.MayWriteAll(spans, now, one); return err },
			"Cache.EarliestWrite": func() error { _, err := c.EarliestWrite(spans, now, one); return err },
			"Cache.Summary":       func() error { _, err := c.Summary(span, 9); return err },
			"Cache.Apply":         func() error { _, err := c.Apply(sent, now); return err },
			"Seat.Add":            func() error { _, _, err := s.Add(span, at(20, one), now, 64); return err },
			"Seat.AddAll":         func() error { _, _, err := s.AddAll(marks, now, 64); return err },
			"Seat.GetMax":         func() error { _, _, err := s.GetMax(span); return err },
			"Seat.MayWrite":       func() error { _, err := s.MayWrite(span, now, one); return err },
			"Seat.MayWriteAll":    func() error { _, err := s.MayWriteAll(spans, now, one); return err },
			"Seat.EarliestWrite":  func() error { _, err := s.EarliestWrite(spans, now, one); return err },
			"Seat.Summary":        func() error { _, _, err := s.Summary(span, 9); return err },
			"Replay":              func() error { _, err := Replay(trace.text[:length]); return err },
			"Check":               func() error { _, err := Check(trace.text[:length], trace.text[:0]); return err },
		}
		for name, call := range calls {
			if err := call(); err != nil {
				t.Errorf("%s: got %v", name, err)
			}
		}
	}
}

// opened is a cache, and a shared one with a seat, and all their calls by name.
type opened struct {
	cache  *Cache
	shared *Shared
	seat   *Seat
	calls  map[string]func() error
}

func open(t *testing.T) opened {
	t.Helper()
	c := small(t)
	shared, seats := seatsOf(t, 1)
	summary, err := c.Summary(Point([]byte("a")), 9)
	if err != nil {
		t.Fatal(err)
	}
	return opened{c, shared, seats[0], callsOf(c, shared, seats[0], summary)}
}

// callsOf are the calls of these by name.
func callsOf(c *Cache, shared *Shared, s *Seat, summary []byte) map[string]func() error {
	key, now := Point([]byte("a")), Time{20, 0}
	return map[string]func() error{
		"Cache.Add":           func() error { _, err := c.Add(key, at(20, one), now); return err },
		"Cache.AddAll":        func() error { _, err := c.AddAll(nil, now); return err },
		"Cache.GetMax":        func() error { _, err := c.GetMax(key); return err },
		"Cache.LowWater":      func() error { _, err := c.LowWater(); return err },
		"Cache.Figures":       func() error { _, err := c.Figures(); return err },
		"Cache.MayWrite":      func() error { _, err := c.MayWrite(key, now, one); return err },
		"Cache.MayWriteAll":   func() error { _, err := c.MayWriteAll(nil, now, one); return err },
		"Cache.EarliestWrite": func() error { _, err := c.EarliestWrite([]Span{key}, now, one); return err },
		"Cache.Summary":       func() error { _, err := c.Summary(key, 9); return err },
		"Cache.Apply":         func() error { _, err := c.Apply(summary, now); return err },
		"Seat.Add":            func() error { _, _, err := s.Add(key, at(20, one), now, 64); return err },
		"Seat.AddAll":         func() error { _, _, err := s.AddAll(nil, now, 64); return err },
		"Seat.GetMax":         func() error { _, _, err := s.GetMax(key); return err },
		"Seat.LowWater":       func() error { _, _, err := s.LowWater(); return err },
		"Seat.Figures":        func() error { _, _, err := s.Figures(); return err },
		"Seat.MayWrite":       func() error { _, err := s.MayWrite(key, now, one); return err },
		"Seat.MayWriteAll":    func() error { _, err := s.MayWriteAll(nil, now, one); return err },
		"Seat.EarliestWrite":  func() error { _, err := s.EarliestWrite([]Span{key}, now, one); return err },
		"Seat.Summary":        func() error { _, _, err := s.Summary(key, 9); return err },
		"Shared.Close":        func() error { _, err := shared.Close(); return err },
	}
}

// panics tells what a call panics with, if it does.
func panics(call func()) (what string) {
	defer func() {
		if p := recover(); p != nil {
			what = fmt.Sprint(p)
		}
	}()
	call()
	return ""
}

func TestACallWhileAnotherIsUnderWayPanics(t *testing.T) {
	o := open(t)
	o.calls["Cache.Close"] = func() error { o.cache.Close(); return nil }
	o.calls["Seat.Close"] = func() error { o.seat.Close(); return nil }
	parts := []*inner{o.cache.inner, o.seat.inner, o.shared.inner}
	for _, part := range parts {
		part.ask([]Span{Point([]byte("asked"))})
		if err := part.take(); err != nil {
			t.Fatal(err)
		}
	}
	for name, call := range o.calls {
		if what := panics(func() { _ = call() }); !strings.HasPrefix(what, "tscache: two goroutines use one ") {
			t.Errorf("%s: got %q", name, what)
		}
	}
	for _, part := range parts {
		if string(part.keys) != "asked" || len(part.spans) != 2 {
			t.Errorf("the call under way now has %d spans of the keys %q", len(part.spans), part.keys)
		}
		_ = part.leave(0)
	}
	for name, call := range o.calls {
		if what := panics(func() { _ = call() }); what != "" {
			t.Errorf("%s: got %q", name, what)
		}
	}
}

// Two goroutines on one cache: each call that begins while another is under way panics, and the
// cache is none the worse for it.
func TestTwoGoroutinesOnOneCache(t *testing.T) {
	c := small(t)
	var met int64
	var both sync.WaitGroup
	stop := time.Now().Add(20 * time.Second)
	for g := 0; g < 2; g++ {
		both.Add(1)
		go func() {
			defer both.Done()
			for i := 0; i < 1000 || atomic.LoadInt64(&met) == 0 && time.Now().Before(stop); i++ {
				what := panics(func() {
					if _, err := c.Add(Point([]byte("a")), at(20, one), Time{20, 0}); err != nil {
						t.Error(err)
					}
				})
				if what != "" {
					atomic.AddInt64(&met, 1)
				}
			}
		}()
	}
	both.Wait()
	if met == 0 {
		t.Error("the two goroutines never met")
	}
	wants(t, c, Point([]byte("a")), at(20, one))
}

func TestErrors(t *testing.T) {
	all := []error{
		ErrClosed, ErrTime, ErrEnds, ErrKeyTooLong, ErrInverted, ErrTooLarge, ErrPageSize, ErrMinPages,
		ErrRetention, ErrNoMemory, ErrSeats, ErrStillOut, ErrBusy, ErrFull, ErrNoTime, ErrSummaryVersion,
		ErrSummaryLength, ErrSummaryChecksum, ErrSummaryForm, ErrTries,
	}
	told := map[string]bool{}
	for i, err := range all {
		for j, other := range all {
			if errors.Is(fmt.Errorf("a read failed: %w", err), other) != (i == j) {
				t.Errorf("%v and %v", err, other)
			}
		}
		if !strings.HasPrefix(err.Error(), "tscache: ") || strings.Contains(err.Error(), "code") {
			t.Error(err)
		}
		told[err.Error()] = true
	}
	if len(told) != len(all) {
		t.Error("two errors have one text")
	}
	for refused, wanted := range map[Refused]string{
		ErrClosed: "tscache: the cache or the seat is closed",
		99:        "tscache: code 99 of the library",
	} {
		if refused.Error() != wanted {
			t.Error(refused)
		}
	}
}

func TestClosed(t *testing.T) {
	o := open(t)
	for i := 0; i < 2; i++ {
		o.cache.Close()
		o.seat.Close()
	}
	if n, err := o.shared.Close(); n != 0 || err != nil {
		t.Errorf("got %v, %v", n, err)
	}
	for name, call := range o.calls {
		if err := call(); !errors.Is(err, ErrClosed) {
			t.Errorf("%s: got %v", name, err)
		}
	}
}

func TestSpansOfNoEnds(t *testing.T) {
	c := small(t)
	a, b := []byte("a"), []byte("b")
	for i, span := range []Span{{}, Range(a, b, 4), Range(a, b, 8), Onward(a, ExcludeTo), Onward(a, 4)} {
		if _, err := c.Add(span, at(20, one), Time{20, 0}); err != ErrEnds {
			t.Errorf("span %d: got %v", i, err)
		}
		if _, err := c.GetMax(span); err != ErrEnds {
			t.Errorf("span %d: got %v", i, err)
		}
		if _, err := c.AddAll([]Mark{{span, at(20, one)}}, Time{20, 0}); err != ErrEnds {
			t.Errorf("span %d: got %v", i, err)
		}
		if told, err := c.Summary(span, 9); told != nil || err != ErrEnds {
			t.Errorf("span %d: got %v, %v", i, told, err)
		}
	}
}

// What goroutines use at once lies apart, in Go's memory and in C's.
func TestApart(t *testing.T) {
	_, seats, err := OpenShared(DefaultConfig(), 64, math.MaxUint64)
	if err != nil {
		t.Fatal(err)
	}
	if unsafe.Sizeof(inner{}) != apart {
		t.Errorf("what a Seat leads to has %d bytes", unsafe.Sizeof(inner{}))
	}
	for i, seat := range seats {
		in := seat.inner
		if uintptr(unsafe.Pointer(in))%apart != 0 || uintptr(unsafe.Pointer(in.block))%apart != 0 {
			t.Errorf("seat %d lies at %p, its block at %p", i, in, in.block)
		}
	}
}

// Each of the sixteen bytes of a transaction goes in and comes out at its own place.
func TestATransactionKeepsItsBytes(t *testing.T) {
	var by [16]byte
	for i := range by {
		by[i] = byte(i) * 0x11
	}
	c, now, later := small(t), Time{20, 0}, Time{20, 1}
	_, seats, err := OpenShared(DefaultConfig(), 1, math.MaxUint64)
	if err != nil {
		t.Fatal(err)
	}
	s, value := seats[0], Value{now, by}
	spans := []Span{Point([]byte("a")), Point([]byte("b"))}
	marks := []Mark{{spans[1], value}}
	_, err1 := c.Add(spans[0], value, now)
	_, err2 := c.AddAll(marks, now)
	_, _, err3 := s.Add(spans[0], value, now, 64)
	_, _, err4 := s.AddAll(marks, now, 64)
	for _, err := range []error{err1, err2, err3, err4} {
		if err != nil {
			t.Fatal(err)
		}
	}
	for _, span := range spans {
		wants(t, c, span, value)
		if got, _, err := s.GetMax(span); err != nil || got != value {
			t.Errorf("got %v, %v", got, err)
		}
		for i := -1; i < len(by); i++ {
			who, wanted := by, now
			if i >= 0 {
				who[i] ^= 1
				wanted = later
			}
			one, err1 := c.EarliestWrite([]Span{span}, now, who)
			other, err2 := s.EarliestWrite([]Span{span}, now, who)
			may, err3 := c.MayWrite(span, now, who)
			mayToo, err4 := s.MayWrite(span, now, who)
			if err1 != nil || err2 != nil || err3 != nil || err4 != nil || one != wanted || other != wanted {
				t.Errorf("byte %d: got %v and %v", i, one, other)
			}
			if may != (i < 0) || mayToo != (i < 0) {
				t.Errorf("byte %d: got %v and %v", i, may, mayToo)
			}
		}
	}
}

// No Add is refused as busy that tries so often as no other can be in its way.
func TestAnAddTriesAsOftenAsItIsTold(t *testing.T) {
	_, seats, err := OpenShared(DefaultConfig(), 4, math.MaxUint64)
	if err != nil {
		t.Fatal(err)
	}
	var all sync.WaitGroup
	for _, seat := range seats {
		all.Add(1)
		go func(seat *Seat) {
			defer all.Done()
			key, value := Point([]byte("a")), at(20, one)
			for i := 0; i < 2000; i++ {
				_, _, err1 := seat.Add(key, value, value.Time, math.MaxUint32)
				_, _, err2 := seat.AddAll([]Mark{{key, value}}, value.Time, math.MaxUint32)
				if err1 != nil || err2 != nil {
					t.Errorf("got %v and %v", err1, err2)
					return
				}
			}
		}(seat)
	}
	all.Wait()
}

func TestTimes(t *testing.T) {
	last := Time{math.MaxInt64, math.MaxInt32}
	for i, r := range []struct{ time, next Time }{
		{Time{}, Time{0, 1}},
		{Time{20, 5}, Time{20, 6}},
		{Time{20, math.MaxInt32 - 1}, Time{20, math.MaxInt32}},
		{Time{20, math.MaxInt32}, Time{21, 0}},
		{Time{math.MaxInt64 - 1, math.MaxInt32}, Time{math.MaxInt64, 0}},
		{Time{math.MaxInt64, 5}, Time{math.MaxInt64, 6}},
		{Time{math.MaxInt64, math.MaxInt32 - 1}, last},
	} {
		next, there := r.time.Next()
		if !there || next != r.next {
			t.Errorf("row %d: got %v", i, next)
		}
		if !r.time.Before(next) || next.Before(r.time) || r.time.Before(r.time) {
			t.Errorf("row %d: %v comes next", i, next)
		}
	}
	if next, there := last.Next(); there || next != last || MaxTime != last {
		t.Errorf("got %v, and %v is the last time", next, MaxTime)
	}
	for i, r := range []struct {
		one, other Time
		before     bool
	}{
		{Time{20, 9}, Time{21, 0}, true},
		{Time{21, 0}, Time{20, 9}, false},
		{Time{20, 1}, Time{20, 2}, true},
		{Time{20, 2}, Time{20, 1}, false},
	} {
		if r.one.Before(r.other) != r.before {
			t.Errorf("row %d", i)
		}
	}
}

func TestTheEarliestTimeIsClear(t *testing.T) {
	none, last, span := [16]byte{}, Time{math.MaxInt64, math.MaxInt32}, Point([]byte("a"))
	for i, r := range []struct {
		read  Value
		at    Time
		by    [16]byte
		want  Time
		there error
	}{
		{Value{Time{20, 0}, one}, Time{20, 1}, two, Time{20, 1}, nil},
		{Value{Time{20, 0}, one}, Time{20, 0}, two, Time{20, 1}, nil},
		{Value{Time{20, 0}, one}, Time{20, 0}, one, Time{20, 0}, nil},
		{Value{Time{20, 0}, one}, Time{15, 3}, one, Time{20, 0}, nil},
		{Value{Time{20, 0}, none}, Time{20, 0}, one, Time{20, 1}, nil},
		{Value{Time{20, math.MaxInt32}, none}, Time{15, 0}, one, Time{21, 0}, nil},
		{Value{last, none}, Time{15, 0}, one, MaxTime, ErrNoTime},
		{Value{last, one}, Time{15, 0}, one, last, nil},
		{Value{Time{20, 0}, none}, Time{20, 0}, none, Time{20, 1}, nil},
	} {
		c := small(t)
		if _, err := c.Add(span, r.read, Time{20, 0}); err != nil {
			t.Fatal(err)
		}
		got, err := c.EarliestWrite([]Span{span}, r.at, r.by)
		if got != r.want || err != r.there {
			t.Errorf("row %d: got %v, %v", i, got, err)
		}
		may, err := c.MayWrite(span, r.at, r.by)
		if err != nil || may != (r.there == nil && got == r.at) {
			t.Errorf("row %d: got %v, %v", i, may, err)
		}
		if may, err := c.MayWrite(span, got, r.by); r.there == nil && (!may || err != nil) {
			t.Errorf("row %d: got %v, %v at %v", i, may, err, got)
		}
	}
}

func TestWrites(t *testing.T) {
	c := small(t)
	if _, err := c.Add(Point([]byte("a")), Value{Time{math.MaxInt64, math.MaxInt32}, one}, Time{20, 0}); err != nil {
		t.Fatal(err)
	}
	if _, err := c.EarliestWrite([]Span{Point([]byte("b")), Point([]byte("a"))}, Time{20, 0}, two); !errors.Is(err, ErrNoTime) {
		t.Errorf("got %v", err)
	}
	if may, err := c.MayWrite(Point([]byte("b")), Time{20, 0}, two); !may || err != nil {
		t.Errorf("got %v, %v", may, err)
	}
	for _, wrong := range []Time{{1 << 63, 0}, {20, 1 << 31}} {
		if _, err := c.EarliestWrite(nil, wrong, one); err != ErrTime {
			t.Errorf("got %v", err)
		}
		if may, err := c.MayWrite(Point([]byte("b")), wrong, one); may || err != ErrTime {
			t.Errorf("got %v, %v", may, err)
		}
		if may, err := c.MayWriteAll(nil, wrong, one); may || err != ErrTime {
			t.Errorf("got %v, %v", may, err)
		}
	}
	_, seats, err := OpenShared(DefaultConfig(), 1, math.MaxUint64)
	if err != nil {
		t.Fatal(err)
	}
	if may, err := seats[0].MayWrite(Point([]byte("b")), Time{20, 0}, two); !may || err != nil {
		t.Errorf("got %v, %v", may, err)
	}
	if may, err := seats[0].MayWrite(Point([]byte("b")), Time{1 << 63, 0}, two); may || err != ErrTime {
		t.Errorf("got %v, %v", may, err)
	}
	if _, err := c.EarliestWrite([]Span{{}}, Time{20, 0}, two); err != ErrEnds {
		t.Errorf("got %v", err)
	}
	if may, err := c.MayWrite(Span{}, Time{20, 0}, two); may || err != ErrEnds {
		t.Errorf("got %v, %v", may, err)
	}
}

// A lookup, an Add of one span and the question for a write take no memory of Go's.
func TestCallsTakeNoMemory(t *testing.T) {
	c := small(t)
	_, seats, err := OpenShared(DefaultConfig(), 1, math.MaxUint64)
	if err != nil {
		t.Fatal(err)
	}
	s, now, spans := seats[0], Time{20, 0}, []Span{Point([]byte("a")), Range([]byte("b"), []byte("d"), ExcludeTo)}
	took := testing.AllocsPerRun(100, func() {
		_, err1 := c.Add(spans[1], at(20, one), now)
		_, err2 := c.EarliestWrite(spans, now, one)
		_, _, err3 := s.Add(spans[1], at(20, one), now, 64)
		_, err4 := s.EarliestWrite(spans, now, one)
		_, err5 := s.MayWrite(spans[0], now, two)
		_, err6 := c.MayWrite(spans[0], now, two)
		_, err7 := c.MayWriteAll(spans, now, one)
		for _, err := range []error{err1, err2, err3, err4, err5, err6, err7} {
			if err != nil {
				t.Error(err)
			}
		}
	})
	if took != 0 {
		t.Errorf("they took memory %v times", took)
	}
	for _, o := range []*inner{c.inner, s.inner} { // a part of a run doesn't count above
		if cap(o.keys) > 64 || cap(o.spans) > 8 {
			t.Errorf("questions left %d bytes and %d spans", cap(o.keys), cap(o.spans))
		}
	}
}
