package tscache

/*
#include "block.h"
*/
import "C"

import (
	"math"
	"runtime"
	"sync/atomic"
	"time"
	"unsafe"
)

// Value is a time with the transaction that owns it. Sixteen zero bytes name none.
type Value struct {
	Time  Time
	Owner [16]byte
}

// Config says how a cache is set up.
type Config struct {
	// PageFirst is how many bytes the first page may have, 64 at the least.
	PageFirst uint32
	// PageMax is how many bytes a page may have at the most, up to 2^30.
	PageMax uint32
	// MinPages is how many pages there are at the least when one is dropped: 1 to 64.
	MinPages uint32
	// Retention is for how long reads are kept. It is not negative.
	Retention time.Duration
	// LowWater is where the floor stands at first.
	LowWater Time
}

// DefaultConfig has pages of 128 KiB that grow to 32 MiB, at least two of them, and ten seconds.
// Its floor stands at the first time of all; the holder of a lease sets LowWater to the start of
// that.
func DefaultConfig() Config {
	return Config{PageFirst: 128 << 10, PageMax: 32 << 20, MinPages: 2, Retention: 10 * time.Second}
}

// Ends says which ends of a Range, or of Onward, are no part of it.
type Ends uint32

// The ends of a span.
const (
	IncludeBoth Ends = 0
	ExcludeFrom Ends = C.TSC_EXCLUDE_FROM
	ExcludeTo   Ends = C.TSC_EXCLUDE_TO
	ExcludeBoth Ends = C.TSC_EXCLUDE_FROM | C.TSC_EXCLUDE_TO
)

// noEnds are the ends of a span that is refused with ErrEnds.
const noEnds = ^C.uint32_t(0)

// Span names keys by its ends. Make it by Point, Range and Onward; Span{} is refused with ErrEnds.
// It has the slices that it is made of, and copies no key.
type Span struct {
	from, to []byte
	// one more than the ends that tscache.h knows, so that Span{} has none of these
	ends C.uint32_t
}

// Point is one key.
func Point(key []byte) Span { return Span{key, nil, C.TSC_POINT + 1} }

// Range is from one key to another.
func Range(from, to []byte, ends Ends) Span {
	if ends > ExcludeBoth {
		return Span{ends: noEnds}
	}
	return Span{from, to, C.uint32_t(ends) + 1}
}

// Onward is all keys from one on. It has no last key, so ExcludeTo is refused with ErrEnds.
func Onward(from []byte, ends Ends) Span {
	if ends > ExcludeFrom {
		return Span{ends: noEnds}
	}
	return Span{from, nil, C.TSC_ONWARD + C.uint32_t(ends) + 1}
}

// Mark is a span with the value that is added to it.
type Mark struct {
	Span  Span
	Value Value
}

// Added is what an Add did: whether its span is not empty and its time above the floor, whether a
// new page came to the front, and how many were dropped.
type Added struct {
	Kept, Rotated bool
	Evicted       uint64
}

// Figures is what can be counted. Each count stays at 2^64 - 1 once it is there. The last four are
// of one Cache, or of one Seat alone: a program adds up those of its seats.
type Figures struct {
	// Pages is how many there are, and Rotations how often they rotated.
	Pages, Rotations uint64
	// Nodes is how many end keys the pages hold, each counted once for each page that holds it.
	// Bytes is what these cost: for each as many bytes as it has, and 32 more.
	Nodes, Bytes uint64
	// Memory is how many bytes C was asked for to hold these pages. At a seat it is of the copy
	// that the seat reads.
	Memory uint64
	// Adds is how many were accepted, and Refusals how many were not. Several marks at once are
	// one Add, and so is a summary that is applied.
	Adds, Refusals uint64
	// Lookups is how many lookups and questions for writes were answered: one for each call.
	Lookups uint64
	// Evicted is how many pages these Adds dropped.
	Evicted uint64
}

// Cache is a timestamp cache. Its calls come one at a time, from one goroutine or under a lock;
// where two come at once the second one panics. It must not be copied.
type Cache struct{ handle }

// Open makes a cache to which nothing was added. Close frees it, and else the collector does. The
// cache takes the memory of an empty page, however large pages may grow.
func Open(config Config) (*Cache, error) {
	c := &Cache{}
	in, err := c.open()
	if err != nil {
		return nil, err
	}
	putTime(&in.block.time, config.LowWater)
	err = in.leave(C.tsc_go_open(
		in.block, C.uint32_t(config.PageFirst), C.uint32_t(config.PageMax),
		C.uint32_t(config.MinPages), C.uint64_t(config.Retention)),
	)
	runtime.KeepAlive(in)
	if err != nil {
		c.Close()
		return nil, err
	}
	return c, nil
}

// Close frees the cache. Other calls are then refused with ErrClosed, and a second Close does
// nothing.
func (c *Cache) Close() { c.close() }

// Add adds a span that was read, with the time and the owner of the read, at the moment now. A
// single key that the newest page holds takes no memory. All other keys are copied.
func (c *Cache) Add(span Span, value Value, now Time) (Added, error) {
	in, err := c.take()
	if err != nil {
		return Added{}, err
	}
	putValue(&in.block.value, value)
	putTime(&in.block.time, now)
	code := C.tsc_go_add(
		in.block, bytes(span.from), C.size_t(len(span.from)), bytes(span.to),
		C.size_t(len(span.to)), span.ends-1,
	)
	out := added(code, &in.block.added)
	err = in.leave(code)
	runtime.KeepAlive(in)
	return out, err
}

// AddAll adds several marks, one after another at one moment, all of them or none. The keys are
// copied twice: here into one piece, and then by the library. What the marks change of the newest
// page is copied too.
func (c *Cache) AddAll(marks []Mark, now Time) (Added, error) {
	keys, asked := flat(marks)
	in, err := c.take()
	if err != nil {
		return Added{}, err
	}
	putTime(&in.block.time, now)
	code := C.tsc_go_add_all(
		in.block, bytes(keys), C.size_t(len(keys)), &asked[0], C.size_t(len(marks)),
	)
	out := added(code, &in.block.added)
	err = in.leave(code)
	runtime.KeepAlive(in)
	return out, err
}

// GetMax is the latest time on a span, with its owner where all reads of that time are one
// transaction's, or the floor. A range whose first key is greater than the second is empty, and
// the floor answers. Keys may be of any length, and no memory is taken: it is refused with
// ErrClosed and ErrEnds alone, and the time is MaxTime then. It searches the pages from the newest
// on, up to the first whose latest time is below what it has found.
func (c *Cache) GetMax(span Span) (Value, error) {
	in, err := c.take()
	if err != nil {
		return Value{Time: MaxTime}, err
	}
	code := C.tsc_go_get_max(
		in.block, bytes(span.from), C.size_t(len(span.from)), bytes(span.to),
		C.size_t(len(span.to)), span.ends-1,
	)
	out := valueOf(code, &in.block.value)
	err = in.leave(code)
	runtime.KeepAlive(in)
	return out, err
}

// EarliestWrite is the earliest time, not before at, at which a transaction may write all of these
// spans. It is clear of each read on one of them that was added so far, also of one that was
// dropped since. It costs a lookup for each span, and copies the keys into one piece, whose memory
// the next such call uses again. It is refused with ErrNoTime where there is none, with ErrTime,
// with ErrInverted, and as GetMax is; the time is MaxTime then.
func (c *Cache) EarliestWrite(spans []Span, at Time, by [16]byte) (Time, error) {
	in, err := c.take()
	if err != nil {
		return MaxTime, err
	}
	putValue(&in.block.value, Value{at, by})
	in.ask(spans)
	code := C.tsc_go_earliest_write(
		in.block, bytes(in.keys), C.size_t(len(in.keys)), &in.spans[0], C.size_t(len(spans)),
	)
	out := timeOf(code, &in.block.time)
	err = in.leave(code)
	runtime.KeepAlive(in)
	return out, err
}

// LowWater is where the floor stands. It makes no search, and takes no memory.
func (c *Cache) LowWater() (Time, error) {
	in, err := c.take()
	if err != nil {
		return MaxTime, err
	}
	code := C.tsc_go_low_water(in.block)
	out := timeOf(code, &in.block.time)
	err = in.leave(code)
	runtime.KeepAlive(in)
	return out, err
}

// Figures is what can be counted. It costs a step for each page, and for Memory one for each 1 to
// 64 end keys. It takes no memory.
func (c *Cache) Figures() (Figures, error) {
	in, err := c.take()
	if err != nil {
		return Figures{}, err
	}
	told := C.tsc_go_figures(in.block)
	err = in.leave(told.code)
	runtime.KeepAlive(in)
	return figuresOf(told), err
}

// MaxSeats is how many seats a shared cache may have.
const MaxSeats = 64

// Shared is a timestamp cache that goroutines share, for who opened it. They use it by its seats.
// It must not be copied.
type Shared struct{ handle }

// Seat is a seat of a shared cache. Its calls come one at a time, and where two come at once the
// second one panics; those of different seats may come at once. Where there are more goroutines
// than seats a Pool has the seats go round. A Seat must not be copied.
//
// All Adds of the cache form one history, and a seat has seen a beginning of it. A lookup that
// returns more Adds than the place of an Add counts that Add, whichever seat made it, and so does
// each later lookup of its seat.
//
// No call of a seat waits, but in stripes those that only read: they let other goroutines run, and
// try until they have the locks that they need.
type Seat struct{ handle }

// OpenShared makes a cache to which nothing was added, and its seats, 1 to 64 of them. There may
// be limit Adds; a limit below math.MaxUint64 is for tests. Close frees each of them, and else the
// collector does. The cache takes the memory of two empty ones, and some for each seat.
func OpenShared(config Config, seats uint32, limit uint64) (*Shared, []*Seat, error) {
	s := &Shared{}
	in, err := s.open()
	if err != nil {
		return nil, nil, err
	}
	in.cache = atomic.AddUint64(&sharedCaches, 1)
	putTime(&in.block.time, config.LowWater)
	err = in.leave(C.tsc_go_open_shared(
		in.block, C.uint32_t(config.PageFirst), C.uint32_t(config.PageMax),
		C.uint32_t(config.MinPages), C.uint64_t(config.Retention), C.uint32_t(seats),
		C.uint64_t(limit)),
	)
	runtime.KeepAlive(in)
	if err != nil {
		s.close()
		return nil, nil, err
	}
	return s.seats(seats)
}

// OpenStriped makes a cache in stripes to which nothing was added, and its seats: 1 or more, as
// many as there is memory for. Stripe 0 has the keys below the first bound, and each other one
// those from its bound on, below the next. Each is a cache of its own, under a lock of its own, so
// Adds of goroutines that call different stripes do not wait for one another. Bounds ascend, and
// there are at most 1023 of them. PageMax is 8256 or more, into which each span fits. There may be
// as many pages as stripes times those of one cache, and the call takes the memory of as many
// empty caches.
//
// A call of a seat acquires the locks of the stripes that its span touches. An Add returns ErrBusy
// as in a shared cache. A lookup and each other call lets other goroutines run, and tries again.
// Nobody counts the Adds of all seats: the place of an Add is that among the seat's own, and a seat
// that has seen so many Adds has made so many. A lookup that begins once an Add has returned counts
// that Add, whichever seats the two are of.
func OpenStriped(config Config, bounds [][]byte, seats uint32) (*Shared, []*Seat, error) {
	s := &Shared{}
	in, err := s.open()
	if err != nil {
		return nil, nil, err
	}
	in.cache = atomic.AddUint64(&sharedCaches, 1)
	putTime(&in.block.time, config.LowWater)
	var keys []byte
	lens := make([]C.size_t, len(bounds)+1)
	for i, bound := range bounds {
		keys = append(keys, bound...)
		lens[i] = C.size_t(len(bound))
	}
	err = in.leave(C.tsc_go_open_striped(
		in.block, C.uint32_t(config.PageFirst), C.uint32_t(config.PageMax),
		C.uint32_t(config.MinPages), C.uint64_t(config.Retention), bytes(keys),
		C.size_t(len(keys)), &lens[0], C.size_t(len(bounds)), C.uint32_t(seats)),
	)
	runtime.KeepAlive(in)
	if err != nil {
		s.close()
		return nil, nil, err
	}
	return s.seats(seats)
}

// seats gives each of the cache's seats a block of its own. Where one is refused, all are closed.
func (s *Shared) seats(seats uint32) (*Shared, []*Seat, error) {
	var all []*Seat
	for i := uint32(1); i <= seats; i++ {
		seat := &Seat{}
		if err := s.move(C.uint64_t(i), seat); err != nil {
			for _, seat := range all {
				seat.Close()
			}
			s.close()
			return nil, nil, err
		}
		all = append(all, seat)
	}
	return s, all, nil
}

// sharedCaches is how many there were.
var sharedCaches uint64

// move gives one of the cache's seats a block of its own.
func (s *Shared) move(i C.uint64_t, seat *Seat) error {
	to, err := seat.open()
	if err != nil {
		return err
	}
	in, err := s.take()
	if err == nil {
		to.cache = in.cache
		err = in.leave(C.tsc_go_move(in.block, i, to.block))
	}
	_ = to.leave(C.TSC_OK)
	runtime.KeepAlive(in)
	runtime.KeepAlive(to)
	if err != nil {
		seat.Close()
	}
	return err
}

// Close frees the cache, and tells how many Adds there were. It is refused with ErrStillOut where
// a seat was not closed, and nothing is changed then. The call does not wait, and costs a few
// steps for each seat.
func (s *Shared) Close() (uint64, error) {
	in, err := s.take()
	if err != nil {
		return 0, err
	}
	code := C.tsc_go_close_shared(in.block)
	length := uint64(in.block.told)
	err = in.leave(code)
	runtime.KeepAlive(in)
	if err != nil {
		return 0, err
	}
	s.close()
	return length, nil
}

// Close hands the seat in. Other calls are then refused with ErrClosed, and a second Close does
// nothing.
func (s *Seat) Close() { s.close() }

// Add adds a span that was read, and returns the Add's place among all of the cache, counted from
// 0. It waits for nobody: if others are in the way at each of its tries, it returns ErrBusy. Take
// 64 tries; if it is refused, call runtime.Gosched and try again. With no tries it returns ErrTries.
// Beside an error the place is math.MaxUint64, which no lookup has seen.
//
// The call copies the keys, also known ones. Each Add of a shared cache is made on both copies.
// Between two tries the call pauses for a moment, and leaves the processor to nobody.
func (s *Seat) Add(span Span, value Value, now Time, tries uint32) (uint64, Added, error) {
	in, err := s.take()
	if err != nil {
		return noPlace, Added{}, err
	}
	putValue(&in.block.value, value)
	putTime(&in.block.time, now)
	code := C.tsc_go_seat_add(
		in.block, bytes(span.from), C.size_t(len(span.from)), bytes(span.to),
		C.size_t(len(span.to)), span.ends-1, C.uint32_t(tries),
	)
	place, out := in.place(code), added(code, &in.block.added)
	err = in.leave(code)
	runtime.KeepAlive(in)
	return place, out, err
}

// AddAll adds several marks as one Add, all of them or none, as Add does. The keys are copied as
// by that of a Cache, and once more, in stripes twice. In several stripes the Add is prepared anew
// at each try.
func (s *Seat) AddAll(marks []Mark, now Time, tries uint32) (uint64, Added, error) {
	keys, asked := flat(marks)
	in, err := s.take()
	if err != nil {
		return noPlace, Added{}, err
	}
	putTime(&in.block.time, now)
	code := C.tsc_go_seat_add_all(
		in.block, bytes(keys), C.size_t(len(keys)), &asked[0], C.size_t(len(marks)),
		C.uint32_t(tries),
	)
	place, out := in.place(code), added(code, &in.block.added)
	err = in.leave(code)
	runtime.KeepAlive(in)
	return place, out, err
}

// GetMax is the latest time on a span, as that of a Cache, and how many Adds the seat has seen
// then. It waits for nobody; in stripes it tries until it has the locks that it needs.
func (s *Seat) GetMax(span Span) (Value, uint64, error) {
	in, err := s.take()
	if err != nil {
		return Value{Time: MaxTime}, 0, err
	}
	code := C.uint32_t(C.TSC_BUSY)
	for tries := 0; code == C.TSC_BUSY; tries++ {
		letRun(tries)
		code = C.tsc_go_seat_get_max(
			in.block, bytes(span.from), C.size_t(len(span.from)), bytes(span.to),
			C.size_t(len(span.to)), span.ends-1,
		)
	}
	seen, out := in.seen(code), valueOf(code, &in.block.value)
	err = in.leave(code)
	runtime.KeepAlive(in)
	return out, seen, err
}

// EarliestWrite is as that of a Cache, by what lookups of the seat answer, one after another. It
// waits as GetMax does.
func (s *Seat) EarliestWrite(spans []Span, at Time, by [16]byte) (Time, error) {
	in, err := s.take()
	if err != nil {
		return MaxTime, err
	}
	putValue(&in.block.value, Value{at, by})
	in.ask(spans)
	code := C.uint32_t(C.TSC_BUSY)
	for tries := 0; code == C.TSC_BUSY; tries++ {
		letRun(tries)
		code = C.tsc_go_seat_earliest_write(
			in.block, bytes(in.keys), C.size_t(len(in.keys)), &in.spans[0], C.size_t(len(spans)),
		)
	}
	out := timeOf(code, &in.block.time)
	err = in.leave(code)
	runtime.KeepAlive(in)
	return out, err
}

// LowWater is where the floor stands, and how many Adds the seat has seen then. In stripes it is
// the earliest floor of all. It waits as GetMax does, and takes no memory.
func (s *Seat) LowWater() (Time, uint64, error) {
	in, err := s.take()
	if err != nil {
		return MaxTime, 0, err
	}
	code := C.uint32_t(C.TSC_BUSY)
	for tries := 0; code == C.TSC_BUSY; tries++ {
		letRun(tries)
		code = C.tsc_go_seat_low_water(in.block)
	}
	seen, out := in.seen(code), timeOf(code, &in.block.time)
	err = in.leave(code)
	runtime.KeepAlive(in)
	return out, seen, err
}

// Figures is what can be counted, and how many Adds the seat has seen then. In stripes it is what
// the figures of all come to, where one stripe is read after another. It waits as GetMax does, and
// costs what that of a Cache does. In stripes it takes some memory for each page, and Memory is 0
// where that is refused, or locks are busy.
func (s *Seat) Figures() (Figures, uint64, error) {
	in, err := s.take()
	if err != nil {
		return Figures{}, 0, err
	}
	told := C.tsc_go_counted{code: C.TSC_BUSY}
	for tries := 0; told.code == C.TSC_BUSY; tries++ {
		letRun(tries)
		told = C.tsc_go_seat_figures(in.block)
	}
	seen := in.seen(told.code)
	err = in.leave(told.code)
	runtime.KeepAlive(in)
	return figuresOf(told), seen, err
}

// letRun lets other goroutines run, unless nothing was tried yet. In stripes a call of a seat that
// only reads is made again while others hold a lock that it needs; a shared cache answers at once.
func letRun(tries int) {
	if tries > 0 {
		runtime.Gosched()
	}
}

// noPlace is the place of an Add that was refused, which no lookup has seen.
const noPlace = math.MaxUint64

// place is where an Add stands in the history.
func (in *inner) place(code C.uint32_t) uint64 {
	if code != C.TSC_OK {
		return noPlace
	}
	return uint64(in.block.told)
}

// seen is how many Adds the seat has seen.
func (in *inner) seen(code C.uint32_t) uint64 {
	if code != C.TSC_OK {
		return 0
	}
	return uint64(in.block.told)
}

// flat gives the keys of some marks, one behind the other, and the marks with where theirs lie,
// and one more mark behind them, which is nobody's.
func flat(marks []Mark) ([]byte, []C.tsc_mark) {
	var keys []byte
	asked := make([]C.tsc_mark, len(marks)+1)
	for i, m := range marks {
		asked[i] = C.tsc_mark{
			from_at: C.size_t(len(keys)), from_len: C.size_t(len(m.Span.from)),
			to_at: C.size_t(len(keys) + len(m.Span.from)), to_len: C.size_t(len(m.Span.to)),
			ends: m.Span.ends - 1,
		}
		putValue(&asked[i].value, m.Value)
		keys = append(append(keys, m.Span.from...), m.Span.to...)
	}
	return keys, asked
}

// ask lays some spans side by side, with their keys in one piece, and one more span behind them,
// which is nobody's.
func (in *inner) ask(spans []Span) {
	in.keys, in.spans = in.keys[:0], in.spans[:0]
	for _, span := range spans {
		from := len(in.keys)
		in.keys = append(append(in.keys, span.from...), span.to...)
		in.spans = append(in.spans, C.tsc_span{
			from_at: C.size_t(from), from_len: C.size_t(len(span.from)),
			to_at: C.size_t(from + len(span.from)), to_len: C.size_t(len(span.to)),
			ends: span.ends - 1,
		})
	}
	in.spans = append(in.spans, C.tsc_span{})
}

// nothing is where a key without bytes lies.
var nothing [1]byte

// bytes leads to the bytes of a key. A pointer to bytes is one that cgo needs not look behind, so
// a key may lie beside pointers.
func bytes(b []byte) *C.uint8_t {
	if len(b) == 0 {
		b = nothing[:]
	}
	return (*C.uint8_t)(unsafe.Pointer(&b[0]))
}

func putTime(to *C.tsc_time, t Time) {
	to.wall, to.logical = C.uint64_t(t.Wall), C.uint32_t(t.Logical)
}

func putValue(to *C.tsc_value, v Value) {
	to.wall, to.logical = C.uint64_t(v.Time.Wall), C.uint32_t(v.Time.Logical)
	*(*[16]byte)(unsafe.Pointer(&to.owner)) = v.Owner
}

// What a call has written. Where it was refused that is nothing, and a time is then the last one.

func timeOf(code C.uint32_t, t *C.tsc_time) Time {
	if code != C.TSC_OK {
		return MaxTime
	}
	return Time{uint64(t.wall), uint32(t.logical)}
}

func valueOf(code C.uint32_t, v *C.tsc_value) Value {
	if code != C.TSC_OK {
		return Value{Time: MaxTime}
	}
	return Value{Time{uint64(v.wall), uint32(v.logical)}, *(*[16]byte)(unsafe.Pointer(&v.owner))}
}

func added(code C.uint32_t, a *C.tsc_added) Added {
	if code != C.TSC_OK {
		return Added{}
	}
	return Added{Kept: bool(a.kept), Rotated: bool(a.rotated), Evicted: uint64(a.evicted)}
}

func figuresOf(told C.tsc_go_counted) Figures {
	if told.code != C.TSC_OK {
		return Figures{}
	}
	f := told.figures
	return Figures{
		Pages: uint64(f.pages), Rotations: uint64(f.rotations), Nodes: uint64(f.nodes),
		Bytes: uint64(f.bytes), Memory: uint64(f.memory), Adds: uint64(f.adds),
		Refusals: uint64(f.refusals), Lookups: uint64(f.lookups), Evicted: uint64(f.evicted),
	}
}
