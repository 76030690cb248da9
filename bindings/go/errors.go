package tscache

/*
#include "block.h"
*/
import "C"

import "fmt"

// Refused is why a call was refused, by its code in tscache.h. A call that is refused adds
// nothing. Each of the codes below is an error, which errors.Is finds and == tells from others.
type Refused uint32

// Why calls are refused.
const (
	// ErrClosed is of a cache, or of a seat, that was closed.
	ErrClosed Refused = C.TSC_CLOSED
	// ErrTime is of a wall time of 2^63 or more, or a logical count of 2^31 or more.
	ErrTime Refused = C.TSC_TIME
	// ErrEnds is of a Span that Point, Range and Onward did not make of ends that there are.
	ErrEnds Refused = C.TSC_ENDS
	// ErrKeyTooLong is of a key of a span to be added, of more than 4096 bytes.
	ErrKeyTooLong Refused = C.TSC_KEY_TOO_LONG
	// ErrInverted is of a span to be added, written or summarized whose first key is greater than
	// the second.
	ErrInverted Refused = C.TSC_INVERTED
	// ErrTooLarge is of a span to be added that costs more than PageMax: 32 and its bytes for each
	// key.
	ErrTooLarge Refused = C.TSC_TOO_LARGE
	// ErrPageSize is of a PageFirst below 64, or above PageMax, or of a PageMax above 2^30, or in
	// stripes below 8256.
	ErrPageSize Refused = C.TSC_PAGE_SIZE
	// ErrMinPages is of MinPages of 0, or above 64.
	ErrMinPages Refused = C.TSC_MIN_PAGES
	// ErrRetention is of a Retention that is negative.
	ErrRetention Refused = C.TSC_RETENTION
	// ErrNoMemory is of memory that C had none of.
	ErrNoMemory Refused = C.TSC_NO_MEMORY
	// ErrSeats is of no seats, or more than 64 of OpenShared.
	ErrSeats Refused = C.TSC_SEATS
	// ErrStillOut is of a shared cache of which a seat was not closed.
	ErrStillOut Refused = C.TSC_STILL_OUT
	// ErrBusy is of an Add that found others in the way at each of its tries. Call
	// runtime.Gosched, and try again.
	ErrBusy Refused = C.TSC_BUSY
	// ErrFull is of a shared cache that has had as many Adds as it may have, or of a seat in stripes
	// that has made 2^64 - 1.
	ErrFull Refused = C.TSC_FULL
	// ErrNoTime is of a write for which there is no time: a read of somebody else is at the last
	// one.
	ErrNoTime Refused = C.TSC_NO_TIME
	// ErrSummaryVersion is of bytes that are a summary of another version.
	ErrSummaryVersion Refused = C.TSC_SUMMARY_VERSION
	// ErrSummaryLength is of a summary of which bytes are missing, or which has more than its own.
	ErrSummaryLength Refused = C.TSC_SUMMARY_LENGTH
	// ErrSummaryChecksum is of a summary that was changed: its digest is another one.
	ErrSummaryChecksum Refused = C.TSC_SUMMARY_CHECKSUM
	// ErrSummaryForm is of bytes whose digest is right, and which are no summary: their sender made
	// them wrong.
	ErrSummaryForm Refused = C.TSC_SUMMARY_FORM
	// ErrTries is of an Add of a seat with no tries, by which none is ever made.
	ErrTries Refused = C.TSC_TRIES
	// ErrStripes is of more than 1024 stripes.
	ErrStripes Refused = C.TSC_STRIPES
	// ErrBounds is of a bound of stripes that is not above the one before it, or of a first one
	// without bytes.
	ErrBounds Refused = C.TSC_BOUNDS
)

var reasons = map[Refused]string{
	ErrClosed:     "the cache or the seat is closed",
	ErrTime:       "a time is out of range",
	ErrEnds:       "the span was not made by Point, Range or Onward, or of ends that there are not",
	ErrKeyTooLong: "a key has more than 4096 bytes",
	ErrInverted:   "the first key of the span is greater than the second",
	ErrTooLarge:   "the span costs more than PageMax",
	ErrPageSize:   "PageFirst is 64 to PageMax, and PageMax at most 2^30, in stripes at least 8256",
	ErrMinPages:   "MinPages is 1 to 64",
	ErrRetention:  "Retention is negative",
	ErrNoMemory:   "out of memory",
	ErrSeats:      "seats are 1 or more, and of OpenShared at most 64",
	ErrStillOut:   "a seat was not closed",
	ErrBusy:       "others were in the way at each try",
	ErrFull:       "the cache has had as many Adds as it may have",
	ErrNoTime:     "a read of somebody else is at the last time",
	ErrTries:      "an Add of a seat takes one try or more",
	ErrStripes:    "stripes are at most 1024",
	ErrBounds:     "the bounds of stripes are out of order",

	ErrSummaryVersion:  "the summary is of another version",
	ErrSummaryLength:   "the summary has another length",
	ErrSummaryChecksum: "the summary was changed",
	ErrSummaryForm:     "the bytes are no summary",
}

func (r Refused) Error() string {
	if reason, known := reasons[r]; known {
		return "tscache: " + reason
	}
	return fmt.Sprintf("tscache: code %d of the library", uint32(r))
}
