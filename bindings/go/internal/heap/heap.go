//go:build linux

// Package heap tells tests how much memory C has handed out.
package heap

/*
#include <malloc.h>
*/
import "C"

// InUse is how many bytes malloc has handed out that were not freed, or keeps for the thread that
// freed them.
func InUse() int64 {
	info := C.mallinfo2()
	return int64(info.uordblks) + int64(info.hblkhd)
}
