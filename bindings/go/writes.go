package tscache

/*
#include "block.h"
*/
import "C"

import (
	"math"
	"runtime"
)

// Time is a time of a hybrid logical clock: nanoseconds below 2^63, and a count below 2^31 among
// those of one nanosecond.
type Time struct {
	Wall    uint64
	Logical uint32
}

// Before says whether the time is the earlier one: the smaller wall time is, and of two equal ones
// the smaller count.
func (t Time) Before(other Time) bool {
	return t.Wall < other.Wall || t.Wall == other.Wall && t.Logical < other.Logical
}

// MaxTime is the last time. Beside an error it stands for the time that there is none of: no write
// is at a later one.
var MaxTime = Time{math.MaxInt64, math.MaxInt32}

// Next is the first time after this one. After MaxTime there is none, and MaxTime stands for it.
func (t Time) Next() (Time, bool) {
	switch {
	case t.Logical < math.MaxInt32:
		return Time{t.Wall, t.Logical + 1}, true
	case t.Wall < math.MaxInt64:
		return Time{t.Wall + 1, 0}, true
	default:
		return MaxTime, false
	}
}

// MayWrite says whether a transaction may write a span at some time: whether that is clear of what
// a lookup of the span answers, and so of each read that was added there, also of one that was
// dropped since. It is refused with ErrTime, with ErrInverted, and as GetMax is. It costs a
// lookup.
func (c *Cache) MayWrite(span Span, at Time, by [16]byte) (bool, error) {
	return c.MayWriteAll([]Span{span}, at, by)
}

// MayWriteAll says whether a transaction may write all of some spans at some time, by the rule of
// MayWrite. It is so just where EarliestWrite tells that very time. It costs what that does.
func (c *Cache) MayWriteAll(spans []Span, at Time, by [16]byte) (bool, error) {
	in, err := c.take()
	if err != nil {
		return false, err
	}
	putValue(&in.block.value, Value{at, by})
	in.ask(spans)
	code := C.tsc_go_may_write(
		in.block, bytes(in.keys), C.size_t(len(in.keys)), &in.spans[0], C.size_t(len(spans)),
	)
	out := code == C.TSC_OK && bool(in.block.may)
	err = in.leave(code)
	runtime.KeepAlive(in)
	return out, err
}

// MayWrite is as that of a Cache, by what a lookup of the seat answers. It waits as GetMax does.
func (s *Seat) MayWrite(span Span, at Time, by [16]byte) (bool, error) {
	return s.MayWriteAll([]Span{span}, at, by)
}

// MayWriteAll is as that of a Cache, by what lookups of the seat answer, one after another. It
// waits as GetMax does.
func (s *Seat) MayWriteAll(spans []Span, at Time, by [16]byte) (bool, error) {
	in, err := s.take()
	if err != nil {
		return false, err
	}
	putValue(&in.block.value, Value{at, by})
	in.ask(spans)
	code := C.uint32_t(C.TSC_BUSY)
	for tries := 0; code == C.TSC_BUSY; tries++ {
		letRun(tries)
		code = C.tsc_go_seat_may_write(
			in.block, bytes(in.keys), C.size_t(len(in.keys)), &in.spans[0], C.size_t(len(spans)),
		)
	}
	out := code == C.TSC_OK && bool(in.block.may)
	err = in.leave(code)
	runtime.KeepAlive(in)
	return out, err
}
