package tscache

import (
	"math"
	"os"
	"regexp"
	"strings"
	"testing"
)

// Each call counts once, as what it is: an Add that was accepted or refused, or a lookup.
func TestFiguresCountEachCall(t *testing.T) {
	c, now := small(t), Time{20, 0}
	shared, seats := seatsOf(t, 2)
	s, a := seats[0], Point([]byte("a"))
	read, marks := at(20, one), []Mark{{a, at(20, one)}, {a, at(21, one)}}
	summary, err := c.Summary(a, 9)
	if err != nil {
		t.Fatal(err)
	}
	type counts struct{ adds, refusals, lookups uint64 }
	type row struct {
		what   string
		atSeat bool
		wanted counts
		call   func() error
	}
	add, refusal, lookup := counts{adds: 1}, counts{refusals: 1}, counts{lookups: 1}
	for _, row := range []row{
		{"Add", false, add, func() error { _, err := c.Add(a, read, now); return err }},
		{"AddAll", false, add, func() error { _, err := c.AddAll(marks, now); return err }},
		{"Apply", false, add, func() error { _, err := c.Apply(summary, now); return err }},
		{"a wrong Add", false, refusal, func() error { _, err := c.Add(Span{}, read, now); return err }},
		{"a wrong Apply", false, refusal, func() error { _, err := c.Apply(nil, now); return err }},
		{"GetMax", false, lookup, func() error { _, err := c.GetMax(a); return err }},
		{"MayWrite", false, lookup, func() error { _, err := c.MayWrite(a, now, one); return err }},
		{"EarliestWrite", false, lookup, func() error {
			_, err := c.EarliestWrite([]Span{a, a, a}, now, one)
			return err
		}},
		{"a wrong GetMax", false, counts{}, func() error { _, err := c.GetMax(Span{}); return err }},
		{"Seat.Add", true, add, func() error { _, _, err := s.Add(a, read, now, 64); return err }},
		{"Seat.AddAll", true, add, func() error { _, _, err := s.AddAll(marks, now, 64); return err }},
		{"no tries", true, refusal, func() error { _, _, err := s.Add(a, read, now, 0); return err }},
		{"Seat.GetMax", true, lookup, func() error { _, _, err := s.GetMax(a); return err }},
		{"another seat", true, counts{}, func() error { _, _, err := seats[1].GetMax(a); return err }},
	} {
		var before [2]Figures
		for i := range before {
			before[i] = figures(t, c, s, i == 1)
		}
		if err := row.call(); (err == nil) != (row.wanted.refusals == 0 && row.what != "a wrong GetMax") {
			t.Errorf("%s: got %v", row.what, err)
		}
		for i, wanted := range before {
			if row.atSeat == (i == 1) {
				wanted.Adds += row.wanted.adds
				wanted.Refusals += row.wanted.refusals
				wanted.Lookups += row.wanted.lookups
			}
			got := figures(t, c, s, i == 1)
			wanted.Nodes, wanted.Bytes, wanted.Memory = got.Nodes, got.Bytes, got.Memory
			if got != wanted {
				t.Errorf("%s: wanted %+v, got %+v", row.what, wanted, got)
			}
		}
	}
	s.Close()
	seats[1].Close()
	if _, err := shared.Close(); err != nil {
		t.Error(err)
	}
}

func figures(t *testing.T, c *Cache, s *Seat, ofSeat bool) Figures {
	t.Helper()
	f, err := c.Figures()
	if ofSeat {
		f, _, err = s.Figures()
	}
	if err != nil {
		t.Fatal(err)
	}
	return f
}

// What pages take is more than what their keys cost, and an Add tells of the pages that it drops.
func TestFiguresOfPages(t *testing.T) {
	c := small(t)
	var last Figures
	for wall := uint64(20); wall < 60; wall++ {
		now := Time{wall, 0}
		if _, err := c.Add(Point([]byte{byte(wall)}), Value{now, one}, now); err != nil {
			t.Fatal(err)
		}
		last = figures(t, c, nil, false)
		if last.Memory < last.Bytes {
			t.Errorf("%d bytes of keys lie in %d of memory", last.Bytes, last.Memory)
		}
	}
	if last.Rotations == 0 || last.Evicted != last.Rotations+1-last.Pages || last.Adds != 40 {
		t.Errorf("got %+v", last)
	}
}

func TestBuilt(t *testing.T) {
	version, err := os.ReadFile("../../VERSION")
	if err != nil {
		t.Skip("an installed package has no such file")
	}
	b := Built()
	if b.Version != strings.TrimSpace(string(version)) || b.Kit == "" {
		t.Errorf("got %+v", b)
	}
	if !regexp.MustCompile(`^([0-9a-f]{40}(-dirty)?|unknown)$`).MatchString(b.Commit) {
		t.Errorf("got %+v", b)
	}
}

// A seat's summary tells what the seat has seen of a span, and the cache goes on.
func TestASummaryAtASeat(t *testing.T) {
	shared, seats := seatsOf(t, 2)
	s, other, now, all := seats[0], seats[1], Time{20, 0}, Onward(nil, IncludeBoth)
	const reads = 500
	for i := 0; i < reads; i++ {
		key := Point([]byte{'k', byte(i >> 8), byte(i)})
		place, _, err := other.Add(key, at(uint64(20+i), one), now, 64)
		if err != nil || place != uint64(i) {
			t.Fatal(place, err)
		}
	}
	summary, seen, err := s.Summary(all, math.MaxUint)
	if err != nil || seen != reads || len(summary) <= shortText {
		t.Fatalf("got %d bytes after %d Adds, %v", len(summary), seen, err)
	}
	heir, err := Open(DefaultConfig())
	if err != nil {
		t.Fatal(err)
	}
	defer heir.Close()
	if _, err := heir.Apply(summary, now); err != nil {
		t.Fatal(err)
	}
	for i := 0; i <= reads; i++ {
		key := Point([]byte{'k', byte(i >> 8), byte(i)})
		value, _, err := s.GetMax(key)
		if err != nil {
			t.Fatal(err)
		}
		wants(t, heir, key, value)
	}
	short, seen, err := s.Summary(Point([]byte("z")), math.MaxUint)
	if err != nil || seen != reads || len(short) > 200 {
		t.Errorf("got %d bytes after %d Adds, %v", len(short), seen, err)
	}
	for span, wanted := range map[*Span]error{
		{}:                                 ErrEnds,
		pointer(Point(make([]byte, 4097))): ErrKeyTooLong,
		pointer(Range([]byte("c"), []byte("a"), ExcludeTo)): ErrInverted,
	} {
		if told, seen, err := s.Summary(*span, 9); told != nil || seen != 0 || err != wanted {
			t.Errorf("got %v, %v, %v", told, seen, err)
		}
	}
	s.Close()
	if told, seen, err := s.Summary(all, 9); told != nil || seen != 0 || err != ErrClosed {
		t.Errorf("got %v, %v, %v", told, seen, err)
	}
	if place, _, err := other.Add(all, at(900, two), now, 64); err != nil || place != reads {
		t.Errorf("got %v, %v", place, err)
	}
	other.Close()
	if n, err := shared.Close(); n != reads+1 || err != nil {
		t.Errorf("got %v, %v", n, err)
	}
}
