// Package reedsolomon codes Reed-Solomon erasure codes over GF(2^16) with the C library reed_solomon_simd.
//
// A Code turns originals of one even size into recovery shards. If k is the number of originals, any k shards of a
// message give back the lost originals. cgo finds the library by pkg-config: set PKG_CONFIG_PATH to the folder of
// reed_solomon_simd.pc.
package reedsolomon

/*
#cgo pkg-config: reed_solomon_simd
#include "pieces.h"
*/
import "C"

import (
	"math"
	"math/bits"
	"unsafe"
)

// start returns a pointer to the first byte, or nil if there is none.
func start(bytes []byte) *C.uint8_t {
	if len(bytes) == 0 {
		return nil
	}
	return (*C.uint8_t)(unsafe.Pointer(&bytes[0]))
}

// Supports says whether the library supports these counts.
func Supports(originalCount, recoveryCount int) bool {
	positive := originalCount > 0 && recoveryCount > 0
	return positive && C.rs_supports(C.size_t(originalCount), C.size_t(recoveryCount)) == 1
}

// ShardBytes returns the least even size of shards, and at least 2, with which originalCount shards hold total bytes.
// It returns 0 if originalCount is not positive, or if total is negative.
func ShardBytes(total, originalCount int) int {
	if total < 0 || originalCount <= 0 {
		return 0
	}
	return int(C.rs_shard_bytes(C.size_t(total), C.size_t(originalCount)))
}

// Code is a code with these counts. Any number of goroutines can use it. New makes it.
type Code struct{ originals, recovery, threads int }

// New returns the code with these counts. Its calls use one thread. It fails with UnsupportedShardCount.
func New(originalCount, recoveryCount int) (*Code, error) {
	code := &Code{originals: originalCount, recovery: recoveryCount}
	if err := code.checkCounts(); err != nil {
		return nil, err
	}
	return code, nil
}

// WithThreads returns a code with the same counts. Each of its calls cuts long shards into up to `threads` pieces of at
// least 4096 bytes, and codes them side by side. This changes neither the results nor the errors. It pays if a call
// takes a few milliseconds or more with one thread. All memory of the pieces is allocated before the first of them
// begins. A Decode or a Reconstruct that gets more shards than there are originals also takes memory for the shards
// that it makes.
func (c *Code) WithThreads(threads int) *Code {
	return &Code{c.originals, c.recovery, threads}
}

func (c *Code) checkCounts() error {
	if Supports(c.originals, c.recovery) {
		return nil
	}
	return &Fault{Number: UnsupportedShardCount, First: uint64(c.originals), Second: uint64(c.recovery)}
}

// check fails with UnsupportedShardCount, or with WrongLength for the first buffer that has not as many bytes as its
// shards. A shard has shardBytes bytes in originals and in recovery, and one byte in marks and in wanted.
func (c *Code) check(shardBytes int, originals, recovery []byte, marks ...[]byte) error {
	if err := c.checkCounts(); err != nil {
		return err
	}
	if err := checkLength(originals, c.originals, shardBytes, 0); err != nil {
		return err
	}
	if err := checkLength(recovery, c.recovery, shardBytes, 1); err != nil {
		return err
	}
	for _, bytes := range marks {
		if err := checkLength(bytes, c.originals+c.recovery, 1, 2); err != nil {
			return err
		}
	}
	return nil
}

// checkLength fails with WrongLength if a buffer has not count times size bytes. A product that is too large counts as
// the largest number, and a negative size as a very large one.
func checkLength(bytes []byte, count, size, place int) error {
	high, length := bits.Mul64(uint64(count), uint64(size))
	if high != 0 {
		length = math.MaxUint64
	}
	if uint64(len(bytes)) == length {
		return nil
	}
	return &Fault{Number: WrongLength, First: length, Second: uint64(len(bytes)), Third: uint64(place)}
}

// Encode writes the recovery shards of the originals. In both slices, shard i begins at byte i * shardBytes. Nothing is
// copied.
func (c *Code) Encode(shardBytes int, originals, recovery []byte) error {
	if err := c.check(shardBytes, originals, recovery); err != nil {
		return err
	}
	pieces, err := c.pieces(C.REEDSOLOMON_ENCODE, shardBytes, c.threads, 0)
	if err != nil {
		return err
	}
	return run(pieces, func(tables *C.struct_rs_tables, p *piece, fault *C.struct_rs_fault) {
		C.reedsolomon_encode(tables, p, start(originals), start(recovery), fault)
	})
}

// Decode restores the lost originals, and writes them to their places in originals. marks has a byte for each original,
// and then one for each recovery shard: 0 if the shard is lost. In both slices, shard i begins at byte i * shardBytes.
// Nothing is copied.
func (c *Code) Decode(shardBytes int, originals, recovery, marks []byte) error {
	if err := c.check(shardBytes, originals, recovery, marks); err != nil {
		return err
	}
	wanted := make([]byte, len(marks))
	for i := range wanted[:c.originals] {
		if marks[i] == 0 {
			wanted[i] = 1
		}
	}
	return c.received(C.REEDSOLOMON_DECODE, shardBytes, originals, recovery, marks, wanted)
}

// Verify checks that the shards whose mark is not 0 belong to one message. The arguments are those of Decode. If they
// do not, it fails with InconsistentShards. With as many shards as originals, no damage can be noticed. Nothing is
// copied.
func (c *Code) Verify(shardBytes int, originals, recovery, marks []byte) error {
	if err := c.check(shardBytes, originals, recovery, marks); err != nil {
		return err
	}
	return c.received(C.REEDSOLOMON_VERIFY, shardBytes, originals, recovery, marks, nil)
}

// Reconstruct writes the shards whose byte in wanted is not 0 to their places in originals and recovery. The other
// arguments are those of Decode. wanted has a byte for each shard, as marks does. It fails with WantedReceived for a
// wanted shard whose mark is not 0. Nothing is copied.
func (c *Code) Reconstruct(shardBytes int, originals, recovery, marks, wanted []byte) error {
	if err := c.check(shardBytes, originals, recovery, marks, wanted); err != nil {
		return err
	}
	for i := range marks {
		if marks[i] != 0 && wanted[i] != 0 {
			fault := &Fault{Number: WantedReceived, First: uint64(i)}
			if i >= c.originals {
				fault.First, fault.Second = uint64(i-c.originals), C.RS_RECOVERY
			}
			return fault
		}
	}
	return c.received(C.REEDSOLOMON_RECONSTRUCT, shardBytes, originals, recovery, marks, wanted)
}

func count(marks []byte) (marked int) {
	for _, mark := range marks {
		if mark != 0 {
			marked++
		}
	}
	return marked
}

// received makes a call over received shards, whose arguments have been checked. If more shards were received than
// there are originals, a piece can fail after others have succeeded. A call that fails must leave the places of the
// wanted shards as they were, so these shards are then written to other memory first.
func (c *Code) received(task task, shardBytes int, originals, recovery, marks, wanted []byte) error {
	restored := 0
	if count(marks) > c.originals {
		restored = count(wanted)
	}
	pieces, err := c.pieces(task, shardBytes, c.threads, restored)
	if err != nil {
		return err
	}
	var other []byte
	if len(pieces) > 1 {
		other = make([]byte, restored*shardBytes)
	}
	err = run(pieces, func(tables *C.struct_rs_tables, p *piece, fault *C.struct_rs_fault) {
		C.reedsolomon_received(tables, p, task, start(originals), start(recovery), start(marks), start(wanted),
			start(other), fault)
	})
	if err != nil || len(other) == 0 {
		return err
	}
	for i, mark := range wanted {
		if mark != 0 {
			copy(c.place(i, shardBytes, originals, recovery), other)
			other = other[shardBytes:]
		}
	}
	return nil
}

// place returns the bytes of the shard whose mark has index i.
func (c *Code) place(i, shardBytes int, originals, recovery []byte) []byte {
	if i < c.originals {
		return originals[i*shardBytes : (i+1)*shardBytes]
	}
	return recovery[(i-c.originals)*shardBytes : (i-c.originals+1)*shardBytes]
}

// Update updates the recovery shards after the original with this index has changed from before to after. In recovery,
// shard i begins at byte i * len(before). The other originals are not needed. Nothing is copied.
func (c *Code) Update(index int, before, after, recovery []byte) error {
	if err := c.checkCounts(); err != nil {
		return err
	}
	if err := checkLength(recovery, c.recovery, len(before), 1); err != nil {
		return err
	}
	threads := c.threads
	if len(after) != len(before) {
		threads = 1
	}
	pieces, err := c.pieces(C.REEDSOLOMON_UPDATE, len(before), threads, 0)
	if err != nil {
		return err
	}
	return run(pieces, func(tables *C.struct_rs_tables, p *piece, fault *C.struct_rs_fault) {
		C.reedsolomon_update(tables, p, C.size_t(index), start(before), start(after), C.size_t(len(after)),
			start(recovery), fault)
	})
}
