// A program that is linked with the library: it tells the time of the latest read.
package main

import (
	"fmt"
	"log"

	"maulviolet.invalid/tscache"
)

func main() {
	c, err := tscache.Open(tscache.DefaultConfig())
	if err != nil {
		log.Fatal(err)
	}
	at, key := tscache.Time{Wall: 20}, tscache.Point([]byte("b"))
	if _, err := c.Add(key, tscache.Value{Time: at}, at); err != nil {
		log.Fatal(err)
	}
	latest, err := c.GetMax(key)
	if err != nil {
		log.Fatal(err)
	}
	fmt.Println(latest.Time.Wall)
}
