package reedsolomon

// Calls over shards that lie anywhere.

import "bytes"

// EncodeShards returns the recovery shards of originals that lie anywhere. cgo allows no arrays of pointers to Go
// memory, so this call copies the originals.
func (c *Code) EncodeShards(originals [][]byte) ([][]byte, error) {
	if err := c.checkCounts(); err != nil {
		return nil, err
	}
	if len(originals) < c.originals {
		return nil, &Fault{Number: TooFewOriginalShards, First: uint64(c.originals), Second: uint64(len(originals))}
	}
	if len(originals) > c.originals {
		return nil, &Fault{Number: TooManyOriginalShards, First: uint64(c.originals)}
	}
	size := len(originals[0])
	for i, shard := range originals {
		if len(shard) != size {
			return nil, &Fault{DifferentShardSize, uint64(size), uint64(len(shard)), uint64(i)}
		}
	}
	recovery := make([]byte, c.recovery*size)
	if err := c.Encode(size, bytes.Join(originals, nil), recovery); err != nil {
		return nil, err
	}
	return cut(recovery, c.recovery, size), nil
}

// DecodeShards restores lost shards: it replaces each nil of originals. recovery may hold nil, too. The call copies the
// shards.
func (c *Code) DecodeShards(originals, recovery [][]byte) error {
	if err := c.checkCounts(); err != nil {
		return err
	}
	if len(originals) != c.originals || len(recovery) != c.recovery {
		count, given := c.originals+c.recovery, len(originals)+len(recovery)
		return &Fault{Number: WrongLength, First: uint64(count), Second: uint64(given)}
	}
	size, marks, err := sizeAndMarks(append(append([][]byte{}, originals...), recovery...))
	if err != nil {
		return err
	}
	joined := join(originals, size)
	if err := c.Decode(size, joined, join(recovery, size), marks); err != nil {
		return err
	}
	for i, shard := range cut(joined, c.originals, size) {
		if originals[i] == nil {
			originals[i] = shard
		}
	}
	return nil
}

// sizeAndMarks returns the size of the shards, and a byte for each of them: 1 if it is there, and 0 if it is nil. The
// size is 0 if none is there. It fails with DifferentShardSize.
func sizeAndMarks(shards [][]byte) (size int, marks []byte, err error) {
	size, marks = -1, make([]byte, len(shards))
	for i, shard := range shards {
		if shard == nil {
			continue
		}
		if size < 0 {
			size = len(shard)
		}
		if len(shard) != size {
			return 0, nil, &Fault{DifferentShardSize, uint64(size), uint64(len(shard)), uint64(i)}
		}
		marks[i] = 1
	}
	if size < 0 {
		size = 0
	}
	return size, marks, nil
}

// join returns a buffer with the shards. In the place of a nil are zeros.
func join(shards [][]byte, size int) []byte {
	joined := make([]byte, len(shards)*size)
	for i, shard := range shards {
		copy(joined[i*size:], shard)
	}
	return joined
}

// cut returns the shards of a buffer. An append to one of them does not write over the next one.
func cut(bytes []byte, count, size int) [][]byte {
	shards := make([][]byte, count)
	for i := range shards {
		shards[i] = bytes[i*size : (i+1)*size : (i+1)*size]
	}
	return shards
}
