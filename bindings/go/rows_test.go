package tscache

import (
	"encoding/hex"
	"fmt"
	"math"
	"os"
	"strconv"
	"strings"
	"testing"
	"time"
)

// Rows are those of bindings/rows.txt, whose head says what they are. They are played on a Cache,
// by one seat of a Shared cache, and by three seats in turn.

// wantedErrors has the names of refusals in the rows.
var wantedErrors = map[string]error{
	"time": ErrTime, "key_too_long": ErrKeyTooLong, "inverted": ErrInverted, "too_large": ErrTooLarge,
	"page_size": ErrPageSize, "min_pages": ErrMinPages, "retention": ErrRetention, "seats": ErrSeats,
	"busy": ErrBusy, "full": ErrFull, "summary_version": ErrSummaryVersion,
	"summary_length": ErrSummaryLength, "summary_checksum": ErrSummaryChecksum,
	"summary_form": ErrSummaryForm, "tries": ErrTries, "stripes": ErrStripes, "bounds": ErrBounds,
}

func number(text string, bits int) uint64 {
	n, err := strconv.ParseUint(text, 10, bits)
	if err != nil {
		panic(err)
	}
	return n
}

func keyOf(text string) []byte {
	key := []byte{}
	for len(text) > 0 {
		b, times := text[0], uint64(1)
		text = text[1:]
		if b == '%' {
			n, err := strconv.ParseUint(text[:2], 16, 8)
			if err != nil {
				panic(err)
			}
			b, text = byte(n), text[2:]
		}
		if strings.HasPrefix(text, "*") {
			digits := len(text) - 1 - len(strings.TrimLeft(text[1:], "0123456789"))
			times, text = number(text[1:1+digits], 16), text[1+digits:]
		}
		for ; times > 0; times-- {
			key = append(key, b)
		}
	}
	return key
}

func spanOf(text string) Span {
	ends, inner := IncludeBoth, text[1:len(text)-1]
	if text[0] == '(' {
		ends |= ExcludeFrom
	}
	if text[len(text)-1] == ')' {
		ends |= ExcludeTo
	}
	if strings.HasSuffix(inner, "..") {
		return Onward(keyOf(strings.TrimSuffix(inner, "..")), ends)
	}
	if comma := strings.IndexByte(inner, ','); comma >= 0 {
		return Range(keyOf(inner[:comma]), keyOf(inner[comma+1:]), ends)
	}
	return Point(keyOf(inner))
}

func spansOf(texts []string) []Span {
	var spans []Span
	for _, text := range texts {
		spans = append(spans, spanOf(text))
	}
	return spans
}

func timeAt(text string) Time {
	wall, logical, _ := strings.Cut(text, ".")
	return Time{number(wall, 64), uint32(number(logical, 32))}
}

func ownerOf(text string) (owner [16]byte) {
	for i := range owner {
		if text != "-" {
			owner[i] = text[0]
		}
	}
	return owner
}

func toldTime(t Time) string { return fmt.Sprintf("%d.%d", t.Wall, t.Logical) }

func toldValue(v Value) string {
	name := "-"
	if v.Owner != [16]byte{} {
		name = string(v.Owner[:1])
	}
	if v.Owner != ownerOf(name) {
		name = fmt.Sprint(v.Owner)
	}
	return toldTime(v.Time) + " " + name
}

func toldAdded(a Added) string {
	bit := map[bool]int{true: 1}
	return fmt.Sprintf("%d %d %d", bit[a.Kept], bit[a.Rotated], a.Evicted)
}

// table is what a case is played on: a cache where there are no seats.
type table struct {
	t      *testing.T
	cache  *Cache
	shared *Shared
	seats  []*Seat
	turn   int
	tries  uint32
	// The Adds of each seat in stripes, and else of all.
	adds []uint64
	// The summaries of the case, by their names. They stay where another cache is opened.
	summaries map[string][]byte
}

func configOf(words []string) Config {
	size := func(word string) uint32 { return uint32(number(word, 32)) }
	return Config{
		PageFirst: size(words[0]), PageMax: size(words[1]), MinPages: size(words[2]),
		Retention: time.Duration(number(words[3], 64)), LowWater: timeAt(words[4]),
	}
}

func (p *table) open(words []string, seats uint32) (err error) {
	config := configOf(words)
	p.adds = make([]uint64, 1)
	if seats == 0 {
		p.cache, err = Open(config)
	} else {
		p.shared, p.seats, err = OpenShared(config, seats, number(words[5], 64))
	}
	return err
}

// openStriped opens a cache in stripes. Behind the settings stands a bound each.
func (p *table) openStriped(words []string, seats uint32) (err error) {
	var bounds [][]byte
	for _, word := range words[5:] {
		bounds = append(bounds, spanOf(word).from)
	}
	p.adds = make([]uint64, seats)
	p.shared, p.seats, err = OpenStriped(configOf(words), bounds, seats)
	return err
}

func (p *table) close() {
	if p.cache != nil {
		p.cache.Close()
	}
	for _, seat := range p.seats {
		seat.Close()
	}
	if p.shared != nil {
		var adds uint64
		for _, own := range p.adds {
			adds += own
		}
		if n, err := p.shared.Close(); n != adds || err != nil {
			p.t.Errorf("closed with %d Adds, %v", n, err)
		}
	}
}

func (p *table) next() *Seat {
	p.turn++
	return p.seats[p.turn%len(p.seats)]
}

// own is how many Adds the seat counts whose turn it was.
func (p *table) own() *uint64 { return &p.adds[p.turn%len(p.seats)%len(p.adds)] }

// seen tells of an answer that came of other Adds than all so far.
func (p *table) seen(told string, seen uint64, err error) (string, error) {
	if err == nil && seen != *p.own() {
		told += fmt.Sprintf(" of %d Adds", seen)
	}
	return told, err
}

// added tells of an Add that has another place than the next.
func (p *table) added(place uint64, a Added, err error) (string, error) {
	told, err := p.seen(toldAdded(a), place, err)
	if err == nil {
		*p.own()++
	}
	return told, err
}

func (p *table) call(words []string) (string, error) {
	if words[0] == "seat" {
		p.turn = int(number(words[1], 16)) + len(p.seats) - 1
		words = words[2:]
	}
	op, rest := words[0], words[1:]
	switch {
	case op == "add":
		span, value, now := spanOf(rest[0]), Value{timeAt(rest[1]), ownerOf(rest[2])}, timeAt(rest[3])
		if p.cache != nil {
			a, err := p.cache.Add(span, value, now)
			return toldAdded(a), err
		}
		return p.added(p.next().Add(span, value, now, p.tries))
	case op == "batch":
		var marks []Mark
		for i := 1; i < len(rest); i += 3 {
			marks = append(marks, Mark{spanOf(rest[i]), Value{timeAt(rest[i+1]), ownerOf(rest[i+2])}})
		}
		if p.cache != nil {
			a, err := p.cache.AddAll(marks, timeAt(rest[0]))
			return toldAdded(a), err
		}
		return p.added(p.next().AddAll(marks, timeAt(rest[0]), p.tries))
	case op == "tries":
		p.tries = uint32(number(rest[0], 32))
		return "done", nil
	case strings.Contains(" take same summary apply cuts changes ", " "+op+" "):
		return p.ofLeases(op, rest)
	case p.cache != nil:
		return p.ofCache(op, rest)
	default:
		return p.ofSeat(op, rest, p.next())
	}
}

// ask has a Cache or a Seat tell of writes.
type ask interface {
	MayWrite(Span, Time, [16]byte) (bool, error)
	MayWriteAll([]Span, Time, [16]byte) (bool, error)
	EarliestWrite([]Span, Time, [16]byte) (Time, error)
}

// may asks of one span by itself, and of several by the call for those.
func may(of ask, spans []Span, at Time, by [16]byte) (bool, error) {
	if len(spans) == 1 {
		return of.MayWrite(spans[0], at, by)
	}
	return of.MayWriteAll(spans, at, by)
}

func toldBool(is bool) string { return map[bool]string{true: "yes", false: "no"}[is] }

func ofWrites(of ask, op string, rest []string) (string, error) {
	if op != "may" && op != "earliest" {
		return "", fmt.Errorf("no such call: %s", op)
	}
	at, by, spans := timeAt(rest[0]), ownerOf(rest[1]), spansOf(rest[2:])
	earliest, err := of.EarliestWrite(spans, at, by)
	if err != nil && err != ErrNoTime {
		if yes, why := may(of, spans, at, by); yes || why != err || earliest != MaxTime {
			return "", fmt.Errorf("%v, and %v, %v at %v", err, yes, why, earliest)
		}
		return "", err
	}
	isThere := err == nil
	atOnce, err := may(of, spans, at, by)
	if err != nil || atOnce != (isThere && earliest == at) {
		return "", fmt.Errorf("at once: %v, %v", atOnce, err)
	}
	if then, err := may(of, spans, earliest, by); isThere && (err != nil || !then) {
		return "", fmt.Errorf("at %v: %v, %v", earliest, then, err)
	}
	switch {
	case op == "may":
		return toldBool(atOnce), nil
	case isThere:
		return toldTime(earliest), nil
	default:
		return "none", nil
	}
}

// ofLeases plays a call for the summaries of a case.
func (p *table) ofLeases(op string, rest []string) (string, error) {
	switch op {
	case "take":
		bytes, err := hex.DecodeString(rest[1])
		p.summaries[rest[0]] = bytes
		return "done", err
	case "same":
		return toldBool(string(p.summaries[rest[0]]) == string(p.summaries[rest[1]])), nil
	case "summary":
		most := uint(math.MaxUint)
		if rest[2] != "all" {
			most = uint(number(rest[2], 64))
		}
		bytes, err := p.cache.Summary(spanOf(rest[1]), most)
		p.summaries[rest[0]] = bytes
		return fmt.Sprint(len(bytes)), err
	case "apply":
		a, err := p.cache.Apply(p.summaries[rest[0]], timeAt(rest[1]))
		return toldAdded(a), err
	}
	summary, now := p.summaries[rest[0]], timeAt(rest[len(rest)-1])
	var all [][]byte
	if op == "cuts" {
		for length := range summary {
			all = append(all, summary[:length])
		}
		all = append(all, append(append([]byte{}, summary...), 0))
	} else {
		last := len(summary) - 1
		if rest[2] != "-" {
			last = int(number(rest[2], 32))
		}
		for place := int(number(rest[1], 32)); place <= last; place++ {
			for _, with := range []byte{0x01, 0x10, 0x80, 0xFF} {
				changed := append([]byte{}, summary...)
				changed[place] ^= with
				all = append(all, changed)
			}
		}
	}
	var err error
	for i, bytes := range all {
		a, why := p.cache.Apply(bytes, now)
		if i == 0 {
			err = why
		}
		if why != err || why == nil || a != (Added{}) {
			return "", fmt.Errorf("%d: %v, %v and %v", i, a, why, err)
		}
	}
	return "", err
}

func toldFigures(f Figures) string {
	return fmt.Sprintf("%d %d %d %d", f.Pages, f.Rotations, f.Nodes, f.Bytes)
}

func (p *table) ofCache(op string, rest []string) (string, error) {
	switch op {
	case "get":
		value, err := p.cache.GetMax(spanOf(rest[0]))
		return toldValue(value), err
	case "low":
		low, err := p.cache.LowWater()
		return toldTime(low), err
	case "figures":
		f, err := p.cache.Figures()
		return toldFigures(f), err
	}
	return ofWrites(p.cache, op, rest)
}

func (p *table) ofSeat(op string, rest []string, seat *Seat) (string, error) {
	switch op {
	case "get":
		value, seen, err := seat.GetMax(spanOf(rest[0]))
		return p.seen(toldValue(value), seen, err)
	case "low":
		low, seen, err := seat.LowWater()
		return p.seen(toldTime(low), seen, err)
	case "figures":
		f, seen, err := seat.Figures()
		return p.seen(toldFigures(f), seen, err)
	}
	return ofWrites(seat, op, rest)
}

// seated opens a shared cache with so many seats, and closes it.
func seated(count uint32) error {
	shared, seats, err := OpenShared(DefaultConfig(), count, 9)
	if err != nil {
		return err
	}
	if len(seats) != int(count) {
		return fmt.Errorf("there are %d seats", len(seats))
	}
	for _, seat := range seats {
		seat.Close()
	}
	_, err = shared.Close()
	return err
}

func playRows(t *testing.T, seats uint32) (rows int) {
	text, err := os.ReadFile("../rows.txt")
	if err != nil {
		t.Fatal(err)
	}
	p, isPlayed := &table{t: t}, false
	for i, line := range strings.Split(string(text), "\n") {
		if line == "" || line[0] == '#' {
			continue
		}
		call, wanted, isCall := strings.Cut(line, " =")
		if !isCall {
			p.close()
			p = &table{t: t, tries: 64, summaries: map[string][]byte{}}
			but := "seats "
			if seats > 0 {
				but = "cache "
			}
			isPlayed = !strings.HasPrefix(line, but)
			continue
		}
		if !isPlayed {
			continue
		}
		words, told := strings.Split(call, " "), "done"
		switch words[0] {
		case "open":
			p.close()
			p = &table{t: t, tries: 64, summaries: p.summaries}
			err = p.open(words[1:], seats)
		case "stripes":
			p.close()
			p = &table{t: t, tries: 64, summaries: p.summaries}
			err = p.openStriped(words[1:], seats)
		case "seats":
			err = seated(uint32(number(words[1], 32)))
		default:
			told, err = p.call(words)
		}
		rows++
		wanted = strings.TrimPrefix(wanted, " ")
		if refusal, isRefusal := wantedErrors[wanted]; isRefusal && err == refusal {
			continue
		}
		if err != nil || told != wanted {
			t.Errorf("rows.txt:%d, %d seats: got %s, %v: %s", i+1, seats, told, err, line)
		}
	}
	p.close()
	return rows
}

func TestRows(t *testing.T) {
	for _, seats := range []uint32{0, 1, 3} {
		if rows := playRows(t, seats); rows < 400 {
			t.Errorf("there were %d rows", rows)
		}
	}
}
