// Package tscache is the timestamp cache: for each span of keys the latest time at which it was
// read, and by which transaction.
//
// A store asks it before a write, by EarliestWrite, so that no write changes what a read saw. A
// Cache serves one goroutine at a time, and a Shared cache as many as it has seats, or by a Pool
// any number.
//
// An error closes the gate: a time that is returned beside one is MaxTime, below which no write
// passes, and MayWrite says no.
//
// All that is here calls libtscache by cgo, whose functions are proved to do what they say; see
// tscache.h. Nothing of this package is proved itself. README.md says how a program finds the
// library. It takes CGO_ENABLED=1 and a C compiler: without cgo nothing of the package is there.
package tscache
