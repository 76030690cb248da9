package tscache

/*
#include "block.h"
*/
import "C"

import (
	"runtime"
	"sync/atomic"
	"unsafe"
)

// apart is how many bytes an inner has for itself, here and in C, so that no two of them lie in one
// line of the processor's caches: each call writes to both parts.
const apart = C.TSC_GO_APART

// noCopy is in what must not be copied. `go vet -copylocks` names each copy, since it finds Lock
// and Unlock, and refuse finds it while the program runs.
type noCopy struct{ first *noCopy }

func (*noCopy) Lock()   {}
func (*noCopy) Unlock() {}

const copied = "tscache: a copy of a Cache, Shared, Seat or Pool is used; " +
	"hand on the pointer to the first one"

// refuse panics in a copy.
func (n *noCopy) refuse() {
	if n.first != nil && n.first != n {
		panic(copied)
	}
}

// handle is what a Cache, a Shared and a Seat are. The finalizer belongs to the inner, which a copy
// of the handle keeps alive too.
type handle struct {
	copies noCopy
	inner  *inner
}

// inner is a block, and whether a call is under way.
type inner struct {
	block *C.tsc_go_block
	taken uint32
	// Of a seat: whether its pool has lent it out, which pool that is, and the number of its cache.
	isOut uint32
	pool  atomic.Pointer[Pool]
	cache uint64
	// The keys and the spans of the last question for several spans. They stay, so that the next
	// question takes no memory.
	keys  []byte
	spans []C.tsc_span
	_     [apart - 4*unsafe.Sizeof(uint64(0)) - 2*unsafe.Sizeof([]byte(nil))]byte
}

// open takes memory of C's for a block of zeros, which the collector frees if nobody else does, and
// begins a call.
func (h *handle) open() (*inner, error) {
	in := &inner{block: C.tsc_go_new(), taken: 1}
	if in.block == nil {
		return nil, ErrNoMemory
	}
	runtime.SetFinalizer(in, (*inner).free)
	h.copies.first, h.inner = &h.copies, in
	return in, nil
}

// take begins a call on what the handle leads to. Where that is closed, or was never opened, no
// call begins.
func (h *handle) take() (*inner, error) {
	h.copies.refuse()
	if h.inner == nil {
		return nil, ErrClosed
	}
	return h.inner, h.inner.take()
}

// close frees what the handle leads to. A second call does nothing.
func (h *handle) close() {
	h.copies.refuse()
	if h.inner != nil {
		h.inner.free()
	}
}

const atOnce = "tscache: two goroutines use one Cache, Shared or Seat at once; " +
	"give each a Seat of a Pool, or hold a lock round each call"

// take begins a call. Two at once would have the library write the same memory twice at once.
func (in *inner) take() error {
	if !atomic.CompareAndSwapUint32(&in.taken, 0, 1) {
		panic(atOnce)
	}
	if in.block == nil {
		return in.leave(C.TSC_CLOSED)
	}
	return nil
}

// leave ends a call, and says what came of it.
func (in *inner) leave(code C.uint32_t) error {
	atomic.StoreUint32(&in.taken, 0)
	if code == C.TSC_OK {
		return nil
	}
	return Refused(code)
}

// free frees the block, with what its store owns. A second call does nothing.
func (in *inner) free() {
	if in.take() != nil {
		return
	}
	runtime.SetFinalizer(in, nil)
	C.tsc_go_free(in.block)
	in.block = nil
	_ = in.leave(C.TSC_OK)
	runtime.KeepAlive(in)
}
