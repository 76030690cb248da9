package main

import "testing"

// Reads that were answered stay as they were where writes ask, and not where they don't, or trust
// their own reads.
func TestReadsStayAsTheyWere(t *testing.T) {
	for _, asking := range []asking{asks, trustsItsOwn, neverAsks} {
		c, err := trial(asking)
		if err != nil {
			t.Fatal(err)
		}
		if c.reads < goroutines*turns || c.writes < goroutines*turns/4 {
			t.Errorf("there were %d reads and %d writes", c.reads, c.writes)
		}
		isRight := c.changed > 0
		if asking == asks {
			isRight = c.changed == 0 && c.pushed*10 >= c.writes
		}
		if !isRight {
			t.Errorf("asking %d: got %+v", asking, c)
		}
	}
}
