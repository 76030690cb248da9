package tscache

/*
#include "block.h"
*/
import "C"

import "runtime"

// Summary is what was read of a span, as bytes to be sent to the next holder of its lease, who
// calls Apply with them. The caller stops answering reads of the span before it asks.
//
// At most so many marks are told, and math.MaxUint leaves none out. Where there is no room for a
// mark its time raises a floor of the summary: later writes are pushed further by it, and never
// less far. With none it is such a floor alone.
//
// It is refused as an Add of the span is, but for its cost, and with ErrClosed.
//
// It costs a lookup for each end key of a read within the span, and for each gap between two. A
// summary of more than 4,096 bytes is made twice: at first to learn its length. Meanwhile the call
// takes the memory of the marks, and up to some six times that of the bytes.
func (c *Cache) Summary(span Span, most uint) ([]byte, error) {
	in, err := c.take()
	if err != nil {
		return nil, err
	}
	out, err := told(func(out []byte) (uint32, int) {
		code := C.tsc_go_summary(
			in.block, bytes(span.from), C.size_t(len(span.from)), bytes(span.to),
			C.size_t(len(span.to)), span.ends-1, C.size_t(most), bytes(out), C.size_t(len(out)),
		)
		return uint32(code), int(in.block.length)
	})
	_ = in.leave(C.TSC_OK)
	runtime.KeepAlive(in)
	return out, err
}

// Summary is what was read of a span of the shared cache, as that of a Cache, and how many Adds
// the seat has seen then. The cache stays open. The call waits as GetMax does, and costs what that
// of a Cache does. An Add meanwhile copies what it changes of the pages. The caller stops
// answering reads of the span, and asks until more Adds were seen than the place of each
// goroutine's last one; in practice it asks once.
func (s *Seat) Summary(span Span, most uint) ([]byte, uint64, error) {
	in, err := s.take()
	if err != nil {
		return nil, 0, err
	}
	var seen uint64
	out, err := told(func(out []byte) (uint32, int) {
		code := C.uint32_t(C.TSC_BUSY)
		for tries := 0; code == C.TSC_BUSY; tries++ {
			letRun(tries)
			code = C.tsc_go_seat_summary(
				in.block, bytes(span.from), C.size_t(len(span.from)), bytes(span.to),
				C.size_t(len(span.to)), span.ends-1, C.size_t(most), bytes(out),
				C.size_t(len(out)),
			)
		}
		seen = in.seen(code)
		return uint32(code), int(in.block.length)
	})
	_ = in.leave(C.TSC_OK)
	runtime.KeepAlive(in)
	return out, seen, err
}

// Apply adds what the bytes of a summary tell, at the moment now: all of it or nothing. The new
// holder of a lease does so before it answers its first write of the span. From then on no answer
// within the span is earlier than what the former holder's cache answered there, no answer
// anywhere has sunk, and reads that were told as marks keep their owners.
//
// Bytes of which some are missing or were changed are refused with ErrSummaryVersion,
// ErrSummaryLength or ErrSummaryChecksum, and the cache is as it was. The digest is no signature:
// who takes bytes from somebody that may lie has them signed. Else it is refused with
// ErrSummaryForm, and as AddAll is. Where it is refused the holder asks for the bytes again, or
// opens a cache with LowWater at or above each time at which a read was answered.
//
// The call goes over the bytes once for their digest. It takes the memory of the marks twice, and
// that of what they change of the newest page.
func (c *Cache) Apply(summary []byte, now Time) (Added, error) {
	in, err := c.take()
	if err != nil {
		return Added{}, err
	}
	putTime(&in.block.time, now)
	code := C.tsc_go_apply(in.block, bytes(summary), C.size_t(len(summary)))
	out := added(code, &in.block.added)
	err = in.leave(code)
	runtime.KeepAlive(in)
	return out, err
}
