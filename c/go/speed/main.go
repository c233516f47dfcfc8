// speed prints how much faster calls are with 2 and with 4 threads than with one: `go run ./speed [-rounds N]`.
//
// In each round, a call is made with each number of threads in turn. The ratio is the time with one thread divided by
// the time with several, and the median of all rounds is printed, with the median time of one thread.
package main

import (
	"bytes"
	"flag"
	"fmt"
	"log"
	"math/rand"
	"sort"
	"time"

	"reedsolomon"
)

var shapes = [][3]int{
	{10, 4, 1 << 16}, {10, 4, 1 << 20}, {10, 4, 1 << 23}, {100, 30, 1 << 16}, {100, 30, 1 << 20}, {1000, 200, 1 << 14},
}

var threads = []int{1, 2, 4}

// measured is a call that is measured.
type measured struct {
	name string
	call func(code *reedsolomon.Code) error
}

func calls(code *reedsolomon.Code, k, r, size int) []measured {
	originals, recovery := make([]byte, k*size), make([]byte, r*size)
	rand.Read(originals)
	if err := code.Encode(size, originals, recovery); err != nil {
		log.Fatal(err)
	}
	all, most, one := bytes.Repeat([]byte{1}, k+r), bytes.Repeat([]byte{1}, k+r), bytes.Repeat([]byte{1}, k+r)
	for i := 0; i < r && i < k; i++ {
		most[i] = 0
	}
	// One lost original and one recovery shard: as many shards as there are originals.
	one[0] = 0
	for i := 1; i < r; i++ {
		one[k+i] = 0
	}
	return []measured{
		{"encode", func(c *reedsolomon.Code) error { return c.Encode(size, originals, recovery) }},
		{"decode most lost", func(c *reedsolomon.Code) error { return c.Decode(size, originals, recovery, most) }},
		{"decode 1 lost", func(c *reedsolomon.Code) error { return c.Decode(size, originals, recovery, one) }},
		{"verify", func(c *reedsolomon.Code) error { return c.Verify(size, originals, recovery, all) }},
		{"update", func(c *reedsolomon.Code) error {
			return c.Update(0, originals[:size], originals[size:2*size], recovery)
		}},
	}
}

// timed returns the times in milliseconds of each round, by the place in threads. One round before them is not counted.
func timed(code *reedsolomon.Code, call func(*reedsolomon.Code) error, rounds int) [][]float64 {
	times := make([][]float64, len(threads))
	for turn := 0; turn <= rounds; turn++ {
		for place, count := range threads {
			before := time.Now()
			if err := call(code.WithThreads(count)); err != nil {
				log.Fatal(err)
			}
			if turn > 0 {
				times[place] = append(times[place], float64(time.Since(before))/1e6)
			}
		}
	}
	return times
}

func median(numbers []float64) float64 {
	sorted := append([]float64{}, numbers...)
	sort.Float64s(sorted)
	return sorted[len(sorted)/2]
}

// ratio returns the median of the ratios of each round.
func ratio(one, several []float64) float64 {
	ratios := make([]float64, len(one))
	for i := range one {
		ratios[i] = one[i] / several[i]
	}
	return median(ratios)
}

func main() {
	rounds := flag.Int("rounds", 25, "how often each call is made with each number of threads")
	flag.Parse()
	fmt.Printf("%9s %9s %-16s %11s  2 threads  4 threads\n", "k:r", "shard", "call", "1 thread")
	for _, shape := range shapes {
		code, err := reedsolomon.New(shape[0], shape[1])
		if err != nil {
			log.Fatal(err)
		}
		for _, m := range calls(code, shape[0], shape[1], shape[2]) {
			times := timed(code, m.call, *rounds)
			name := fmt.Sprintf("%d:%d", shape[0], shape[1])
			fmt.Printf("%9s %9d %-16s %8.3f ms %10.2f %10.2f\n", name, shape[2], m.name, median(times[0]),
				ratio(times[0], times[1]), ratio(times[0], times[2]))
		}
	}
}
