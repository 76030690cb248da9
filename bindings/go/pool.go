//go:build cgo

package tscache

import (
	"context"
	"sync"
	"sync/atomic"
)

// Pool has the seats of a shared cache go round among any number of goroutines: each takes one for
// a call, or for a few, and puts it back. At once as many go on as there are seats, and the others
// wait; runtime.GOMAXPROCS(0) seats are as many as can be busy at once. A Pool must not be copied.
//
// A goroutine that gets another seat than the time before goes on from there all the same: a
// lookup that begins once an Add has returned counts that Add, whichever seats the two are of.
//
// A goroutine that holds a seat and waits for another may wait for good, as in a Do within a Do.
// GetContext and DoContext end such a wait at the deadline of their context.
type Pool struct {
	copies  noCopy
	free    chan *Seat
	closing chan struct{}
	closed  sync.Once
}

// NewPool makes a pool of these seats, none of which is used by itself from then on. It panics
// unless they are one or more, all of one shared cache, each once and in no other pool.
func NewPool(seats []*Seat) *Pool {
	if len(seats) == 0 {
		panic("tscache: a Pool is made of one seat or more")
	}
	p := &Pool{free: make(chan *Seat, len(seats)), closing: make(chan struct{})}
	p.copies.first = &p.copies
	for _, seat := range seats {
		switch {
		case !isOpened(seat) || !isOpened(seats[0]):
			panic("tscache: a Pool is made of seats that OpenShared or OpenStriped has given")
		case seat.inner.cache != seats[0].inner.cache:
			panic("tscache: the seats of a Pool are of one shared cache")
		case !seat.inner.pool.CompareAndSwap(nil, p):
			panic("tscache: a seat is in one Pool, and there once")
		}
		p.free <- seat
	}
	return p
}

// isOpened says whether OpenShared or OpenStriped has given this very seat.
func isOpened(seat *Seat) bool {
	if seat == nil {
		return false
	}
	seat.copies.refuse()
	return seat.inner != nil
}

// Get takes a seat, and waits for good until there is one. It is refused with ErrClosed once Close
// was called.
func (p *Pool) Get() (*Seat, error) { return p.GetContext(context.Background()) }

// GetContext takes a seat, as Get does. It is refused with the error of the context where that ends
// first.
func (p *Pool) GetContext(ctx context.Context) (*Seat, error) {
	p.copies.refuse()
	if p.isClosing() {
		return nil, ErrClosed
	}
	if err := ctx.Err(); err != nil {
		return nil, err
	}
	select {
	case seat := <-p.free:
		atomic.StoreUint32(&seat.inner.isOut, 1)
		return seat, nil
	case <-p.closing:
		return nil, ErrClosed
	case <-ctx.Done():
		return nil, ctx.Err()
	}
}

// isClosing says whether Close was called, or NewPool never.
func (p *Pool) isClosing() bool {
	if p.free == nil {
		return true
	}
	select {
	case <-p.closing:
		return true
	default:
		return false
	}
}

// Put puts back a seat that Get gave, once. It panics at any other: one of another pool or of
// none, one that is not out, or nil. It waits for nobody.
func (p *Pool) Put(seat *Seat) {
	p.copies.refuse()
	if !isOpened(seat) || seat.inner.pool.Load() != p {
		panic("tscache: what was put into a Pool is no seat of it")
	}
	if !atomic.CompareAndSwapUint32(&seat.inner.isOut, 1, 0) {
		panic("tscache: a seat was put into its Pool that was not out")
	}
	p.free <- seat
}

// Do has the work done with a seat, which is put back also where the work panics, and gives the
// error of the work. It waits for a seat as Get does, and where there is none the work is not done.
// The work takes no other seat of the pool, and keeps none.
func (p *Pool) Do(work func(*Seat) error) error {
	return p.DoContext(context.Background(), work)
}

// DoContext has the work done, as Do does. It waits for a seat as GetContext does.
func (p *Pool) DoContext(ctx context.Context, work func(*Seat) error) error {
	seat, err := p.GetContext(ctx)
	if err != nil {
		return err
	}
	defer p.Put(seat)
	return work(seat)
}

// Close has each Get refused, waits for each seat that is out, and closes them all. A second Close
// waits for the first one. The work of a Do calls no Close, which would wait for that work.
func (p *Pool) Close() {
	p.copies.refuse()
	if p.free == nil {
		return
	}
	p.closed.Do(func() {
		close(p.closing)
		for i := 0; i < cap(p.free); i++ {
			seat := <-p.free
			seat.Close()
		}
	})
}
