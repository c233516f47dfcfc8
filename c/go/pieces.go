package reedsolomon

// Calls over all bytes of the shards, or over pieces of them in several goroutines.

// #include "pieces.h"
import "C"

import "sync"

// piece is a piece of every shard of a message.
type piece = C.struct_reedsolomon_piece

// task is what a call does.
type task = C.enum_reedsolomon_task

// A piece begins at a multiple of 64 bytes, and is then a message of its own.
const chunk = 64

// leastPiece bounds the length of each piece but the last: an encode works on as many bytes of every shard at a time.
// Tests change it.
var leastPiece = 4096

// cuts returns where the pieces of shards of this size begin. Shards of an odd size are not cut: the call refuses them.
func cuts(size, threads int) []int {
	pieces := size / leastPiece
	if pieces > threads {
		pieces = threads
	}
	if pieces < 2 || size%2 != 0 {
		return []int{0}
	}
	chunks := (size + chunk - 1) / chunk
	step := (chunks + pieces - 1) / pieces * chunk
	starts := []int{}
	for from := 0; from < size; from += step {
		starts = append(starts, from)
	}
	return starts
}

// reserve allocates all memory of a call over a piece, and returns whether there is enough. Tests change it.
var reserve = func(p *piece, task task, restored int) bool {
	return C.reedsolomon_reserve(p, task, C.size_t(restored)) != 0
}

// release frees the memory of pieces.
func release(pieces []piece) {
	for i := range pieces {
		C.reedsolomon_release(&pieces[i])
	}
}

// pieces cuts shards of this size. Each of several pieces has all memory of its call, so none of them fails for want of
// memory after others have written. With more shards than originals, a call restores the number `restored` of shards.
func (c *Code) pieces(task task, size, threads, restored int) ([]piece, error) {
	starts := cuts(size, threads)
	all := make([]piece, len(starts))
	for i := range starts {
		to := size
		if i+1 < len(starts) {
			to = starts[i+1]
		}
		all[i] = piece{original_count: C.size_t(c.originals), recovery_count: C.size_t(c.recovery)}
		all[i].shard_bytes, all[i].from, all[i].to = C.size_t(size), C.size_t(starts[i]), C.size_t(to)
		if len(starts) > 1 && !reserve(&all[i], task, restored) {
			release(all)
			return nil, &Fault{Number: OutOfMemory}
		}
	}
	return all, nil
}

// run makes a call for each of these pieces, and returns the first fault in their order.
func run(pieces []piece, call func(*C.struct_rs_tables, *piece, *C.struct_rs_fault)) error {
	defer release(pieces)
	at, err := made()
	if err != nil {
		return err
	}
	return together(len(pieces), func(i int) error {
		var fault C.struct_rs_fault
		call(at, &pieces[i], &fault)
		return failed(&fault)
	})
}

// together calls one(i) for each i below count, each in a goroutine of its own, and returns the first error in the
// order of i.
func together(count int, one func(i int) error) error {
	errs := make([]error, count)
	var others sync.WaitGroup
	others.Add(count - 1)
	for i := 1; i < count; i++ {
		go func(i int) {
			defer others.Done()
			errs[i] = one(i)
		}(i)
	}
	errs[0] = one(0)
	others.Wait()
	for _, err := range errs {
		if err != nil {
			return err
		}
	}
	return nil
}
