package tscache

/*
#include "block.h"
*/
import "C"

// Build says how the library that a program is linked with was built.
type Build struct {
	// Version is as "0.1.0".
	Version string
	// Commit is the full hash of the sources' commit, with "-dirty" behind it where files differed
	// from that, or "unknown".
	Commit string
	// Kit names the kit that compiled the library, and the logic that proved it.
	Kit string
	// Proved says whether the library was proved as it was built.
	Proved bool
}

// Built is the build of the library that is linked: a line for the log of a store. Each call
// copies the texts.
func Built() Build {
	b := C.tsc_built()
	return Build{
		Version: C.GoString(b.version), Commit: C.GoString(b.commit), Kit: C.GoString(b.kit),
		Proved: bool(b.proved),
	}
}
