package tscache

/*
#include "block.h"
*/
import "C"

// TextRefused is why bytes are no trace, or no log, as the program tells it on standard error.
type TextRefused string

func (r TextRefused) Error() string { return "tscache: " + string(r) }

// Replay replays a trace on one thread, and gives the text of its log. The error is a TextRefused
// where the bytes are no trace, or ErrNoMemory. A trace has 16,777,216 bytes at the most. A log of
// more than 4,096 bytes is made twice: at first to learn its length.
func Replay(trace []byte) ([]byte, error) {
	return told(func(out []byte) (uint32, int) {
		var length C.size_t
		code := C.tsc_go_replay(
			bytes(trace), C.size_t(len(trace)), bytes(out), C.size_t(len(out)), &length,
		)
		return uint32(code), int(length)
	})
}

// Check checks a log against its trace, and gives the line of the verdict. The error is a
// TextRefused where the bytes are no trace, or no log, or ErrNoMemory. A log has 16,777,216 bytes
// at the most, as a trace has.
func Check(trace, log []byte) ([]byte, error) {
	return told(func(out []byte) (uint32, int) {
		var length C.size_t
		code := C.tsc_go_check(
			bytes(trace), C.size_t(len(trace)), bytes(log), C.size_t(len(log)), bytes(out),
			C.size_t(len(out)), &length,
		)
		return uint32(code), int(length)
	})
}

// shortText is the room with which the first call asks.
const shortText = 4096

// told asks with room for a short text, and where that is too little once more, with as much as it
// takes.
func told(ask func(out []byte) (code uint32, length int)) ([]byte, error) {
	for room := shortText; ; {
		text := make([]byte, room)
		code, length := ask(text)
		switch code {
		case C.TSC_SHORT:
			room = length
		case C.TSC_OK:
			return text[:length], nil
		case C.TSC_REFUSED:
			return nil, TextRefused(text[:length])
		default:
			return nil, Refused(code)
		}
	}
}
