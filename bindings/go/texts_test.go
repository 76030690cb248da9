package tscache

import (
	"fmt"
	"reflect"
	"strings"
	"testing"
)

// lookups is a trace of so many lookups, and its log.
func lookups(count int) (string, string) {
	calls := strings.TrimSuffix(strings.Repeat(`{"op":"get","span":{"start":"61"}},`, count), ",")
	trace := `{"page_first":132,"page_max":132,"min_pages":2,"retention":10,"low_water":[5,0],"threads":[[` + calls + `]]}`
	var log strings.Builder
	for i := 0; i < count; i++ {
		fmt.Fprintf(&log, "0 %d get 0 5.0 none\n", i)
	}
	return trace, log.String()
}

func TestTexts(t *testing.T) {
	for _, count := range []int{1, 2, 190, 200, 210, 5000} {
		trace, log := lookups(count)
		if got, err := Replay([]byte(trace)); err != nil || string(got) != log {
			t.Errorf("%d lookups: got %q, %v", count, got, err)
		}
		if got, err := Check([]byte(trace), []byte(log)); err != nil || string(got) != "right\n" {
			t.Errorf("%d lookups: got %q, %v", count, got, err)
		}
		other := strings.Replace(log, "5.0", "6.0", 1)
		if got, err := Check([]byte(trace), []byte(other)); err != nil || string(got) != "wrong answer 1\n" {
			t.Errorf("%d lookups: got %q, %v", count, got, err)
		}
	}
}

func TestRefusedTexts(t *testing.T) {
	trace, log := lookups(1)
	if got, err := Replay(nil); got != nil || err != TextRefused("trace refused: fault 1") {
		t.Errorf("got %q, %v", got, err)
	}
	for _, row := range []struct{ trace, log, why string }{
		{"", "", "trace refused: fault 1"},
		{log, trace, "trace refused: fault 1"},
		{trace, "0 0 get", "log refused: fault 1 at line 1"},
	} {
		if got, err := Check([]byte(row.trace), []byte(row.log)); got != nil || err != TextRefused(row.why) {
			t.Errorf("got %q, %v", got, err)
		}
	}
}

// A text that is longer than the first room is asked for once more, with as much room as it was
// told to take.
func TestRoomForTexts(t *testing.T) {
	for _, row := range []struct {
		length int
		rooms  []int
	}{{0, []int{4096}}, {4096, []int{4096}}, {4097, []int{4096, 4097}}, {70001, []int{4096, 70001}}} {
		var rooms []int
		text, err := told(func(out []byte) (uint32, int) {
			rooms = append(rooms, len(out))
			if len(out) < row.length {
				return 17, row.length
			}
			return 0, row.length
		})
		if err != nil || len(text) != row.length || !reflect.DeepEqual(rooms, row.rooms) {
			t.Errorf("a text of %d bytes: got %d, %v, by rooms of %v", row.length, len(text), err, rooms)
		}
	}
	if text, err := told(func([]byte) (uint32, int) { return 11, 0 }); text != nil || err != ErrNoMemory {
		t.Errorf("got %q, %v", text, err)
	}
}
