package tscache

import (
	"errors"
	"math"
	"testing"
)

// Summaries of many lengths, below, at and above the room that is asked with first, go to another
// cache, which then answers the same.
func TestSummariesOfManyLengths(t *testing.T) {
	config, all, now := DefaultConfig(), Onward(nil, IncludeBoth), Time{50, 0}
	config.LowWater = Time{5, 0}
	open := func() *Cache {
		c, err := Open(config)
		if err != nil {
			t.Fatal(err)
		}
		t.Cleanup(c.Close)
		return c
	}
	for count, length := range map[int]int{0: 68, 1: 111, 92: 4096, 93: 4067, 94: 4110, 5000: 215_068} {
		former, next := open(), open()
		key := func(i int) Span {
			key := make([]byte, 2, 38)
			key[0], key[1] = byte(i>>8), byte(i)
			if count == 92 && i == 91 {
				key = key[:38]
			}
			return Point(key)
		}
		for i := 0; i < count; i++ {
			if _, err := former.Add(key(i), at(20+uint64(i), one), now); err != nil {
				t.Fatal(err)
			}
		}
		summary, err := former.Summary(all, math.MaxUint)
		if err != nil || len(summary) != length {
			t.Errorf("%d reads: got %d bytes, %v", count, len(summary), err)
		}
		if room := cap(summary); room != length && (room != shortText || length > shortText) {
			t.Errorf("%d reads: %d bytes by a room of %d", count, length, room)
		}
		if added, err := next.Apply(summary, now); err != nil || added.Kept != (count > 0) {
			t.Errorf("got %v, %v", added, err)
		}
		for i := 0; i <= count; i++ {
			value, err := former.GetMax(key(i))
			if err != nil {
				t.Fatal(err)
			}
			wants(t, next, key(i), value)
		}
		if again, err := next.Summary(all, math.MaxUint); err != nil || string(again) != string(summary) {
			t.Errorf("got %v, %v", again, err)
		}
	}
}

func TestSummariesThatAreRefused(t *testing.T) {
	c, now := small(t), Time{50, 0}
	for span, wanted := range map[*Span]error{
		{}:                                 ErrEnds,
		pointer(Point(make([]byte, 4097))): ErrKeyTooLong,
		pointer(Range([]byte("c"), []byte("a"), ExcludeTo)): ErrInverted,
	} {
		if told, err := c.Summary(*span, 9); told != nil || !errors.Is(err, wanted) {
			t.Errorf("got %v, %v", told, err)
		}
	}
	summary, err := c.Summary(Range([]byte("a"), []byte("c"), ExcludeTo), 9)
	if err != nil {
		t.Fatal(err)
	}
	for cut := range summary {
		if _, err := c.Apply(summary[:cut], now); err != ErrSummaryLength {
			t.Errorf("cut at %d: got %v", cut, err)
		}
	}
	for place := range summary {
		changed, wanted := append([]byte{}, summary...), ErrSummaryChecksum
		changed[place] ^= 0x10
		if place == 0 {
			wanted = ErrSummaryVersion
		} else if place < 9 {
			wanted = ErrSummaryLength
		}
		if _, err := c.Apply(changed, now); err != wanted {
			t.Errorf("changed at %d: got %v", place, err)
		}
	}
	if _, err := c.Apply(summary, Time{1 << 63, 0}); err != ErrTime {
		t.Errorf("got %v", err)
	}
	if _, err := c.Apply(summary, now); err != nil {
		t.Error(err)
	}
}

func pointer(s Span) *Span { return &s }
