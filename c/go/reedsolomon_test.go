package reedsolomon

import (
	"bytes"
	"errors"
	"fmt"
	"math"
	"math/rand"
	"os"
	"sync"
	"testing"
	"unsafe"
)

func round(t *testing.T, random *rand.Rand, k, r, size int) {
	code, err := New(k, r)
	if err != nil {
		t.Fatal(err)
	}
	originals, recovery := make([]byte, k*size), make([]byte, r*size)
	random.Read(originals)
	if err := code.Encode(size, originals, recovery); err != nil {
		t.Fatal(err)
	}
	lost := k
	if r < k {
		lost = r
	}
	marks, damaged := bytes.Repeat([]byte{1}, k+r), append([]byte{}, originals...)
	for _, i := range random.Perm(k)[:lost] {
		marks[i] = 0
		copy(damaged[i*size:(i+1)*size], bytes.Repeat([]byte{'?'}, size))
	}
	if err := code.Decode(size, damaged, recovery, marks); err != nil {
		t.Fatal(err)
	}
	if !bytes.Equal(damaged, originals) {
		t.Fatal("other bytes come back")
	}
	wanted, whole := make([]byte, k+r), append([]byte{}, recovery...)
	for i := range wanted {
		wanted[i] = 1 - marks[i]
	}
	if r > lost {
		wanted[k], marks[k] = 1, 0
		copy(recovery[:size], bytes.Repeat([]byte{'?'}, size))
	}
	if err := code.Verify(size, damaged, recovery, marks); err != nil {
		t.Fatal(err)
	}
	for i := 0; i < k; i++ {
		if wanted[i] != 0 {
			copy(damaged[i*size:(i+1)*size], bytes.Repeat([]byte{'?'}, size))
		}
	}
	if err := code.Reconstruct(size, damaged, recovery, marks, wanted); err != nil {
		t.Fatal(err)
	}
	if !bytes.Equal(damaged, originals) || !bytes.Equal(recovery, whole) {
		t.Fatal("other shards are reconstructed")
	}
	index, after := random.Intn(k), make([]byte, size)
	random.Read(after)
	if err := code.Update(index, append([]byte{}, damaged[index*size:(index+1)*size]...), after, recovery); err != nil {
		t.Fatal(err)
	}
	copy(damaged[index*size:], after)
	if err := code.Encode(size, damaged, whole); err != nil || !bytes.Equal(recovery, whole) {
		t.Fatal("an update makes other recovery shards than an encode")
	}
	damaged[0]++
	if err := code.Verify(size, damaged, recovery, bytes.Repeat([]byte{1}, k+r)); number(err) != InconsistentShards {
		t.Fatal(err)
	}
}

func TestRounds(t *testing.T) {
	random := rand.New(rand.NewSource(1))
	for n := 0; n < 200; n++ {
		round(t, random, 1+random.Intn(30), 1+random.Intn(30), 2+2*random.Intn(100))
	}
}

func TestGoroutines(t *testing.T) {
	var all sync.WaitGroup
	for n := int64(0); n < 4; n++ {
		all.Add(1)
		go func(seed int64) {
			defer all.Done()
			random := rand.New(rand.NewSource(seed))
			for n := 0; n < 50; n++ {
				round(t, random, 10, 4, 1024)
			}
		}(n)
	}
	all.Wait()
}

func TestShards(t *testing.T) {
	code, _ := New(3, 2)
	originals := [][]byte{[]byte("aaaa"), []byte("bbbb"), []byte("cccc")}
	recovery, err := code.EncodeShards(originals)
	if err != nil || len(recovery) != 2 {
		t.Fatal(err)
	}
	lost := [][]byte{nil, originals[1], nil}
	if err := code.DecodeShards(lost, recovery); err != nil || string(lost[0]) != "aaaa" || string(lost[2]) != "cccc" {
		t.Fatal(err, lost)
	}
	if &lost[1][0] != &originals[1][0] {
		t.Error("a shard that is there is replaced by a copy")
	}
	if many, err := code.WithThreads(4).EncodeShards(originals); err != nil || !bytes.Equal(many[1], recovery[1]) {
		t.Error(err, many)
	}
}

func number(err error) Status {
	var fault *Fault
	if errors.As(err, &fault) && fault.Error() != "" {
		return fault.Number
	}
	return 0
}

// A code that New has not made has no counts, and each call refuses it.
func TestNoCounts(t *testing.T) {
	code, some := &Code{}, []byte("ab")
	_, err := code.EncodeShards(nil)
	_, other := code.EncodeShards([][]byte{some})
	for place, err := range []error{
		err, other, code.DecodeShards(nil, nil), code.DecodeShards([][]byte{some}, nil),
		code.Encode(2, nil, nil), code.Encode(2, some, some), code.WithThreads(2).Encode(2, some, some),
		code.Decode(2, nil, nil, nil), code.Decode(2, some, some, some),
		code.Verify(2, nil, nil, nil), code.Verify(2, some, some, some),
		code.Reconstruct(2, nil, nil, nil, nil), code.Reconstruct(2, some, some, some, some),
		code.Update(0, nil, nil, nil), code.Update(0, some, some, some),
	} {
		if fault, _ := err.(*Fault); fault == nil || *fault != (Fault{Number: UnsupportedShardCount}) {
			t.Errorf("call %d: %v", place, err)
		}
	}
	for _, c := range []struct {
		k, r int
		text string
	}{
		{0, 2, "0 original shards with 2 recovery shards"}, {-1, 2, "-1 original shards with 2 recovery shards"},
		{3, -7, "3 original shards with -7 recovery shards"},
		{60000, 60000, "60000 original shards with 60000 recovery shards"},
	} {
		if code, err := New(c.k, c.r); code != nil || err == nil || err.Error() != "unsupported shard count: "+c.text {
			t.Error(code, err)
		}
	}
}

// Without memory for the tables, a call fails with OutOfMemory. The next call tries again.
func TestNoTables(t *testing.T) {
	fill, made := fillTables, tables
	defer func() { fillTables, tables = fill, made }()
	code, _ := New(1, 1)
	one, other := []byte("ab"), make([]byte, 2)
	tables = nil
	fillTables = func(at unsafe.Pointer) Status {
		memory := (*[8 << 20]byte)(at)
		for i := 0; i < len(memory); i += 4096 {
			memory[i] = 1
		}
		return OutOfMemory
	}
	before := pages()
	for n := 0; n < 20; n++ {
		err := code.Encode(2, one, other)
		if number(err) != OutOfMemory || err.Error() != "out of memory" || other[0] != 0 {
			t.Fatal(err)
		}
	}
	// A leak of 8 MB in each call would be 40,960 pages.
	if after := pages(); after > before+20000 {
		t.Errorf("%d pages, and before %d", after, before)
	}
	fillTables = fill
	if err := code.Encode(2, one, other); err != nil || string(other) != "ab" {
		t.Error(err)
	}
}

func TestFaults(t *testing.T) {
	code, _ := New(3, 2)
	if _, err := New(0, 2); number(err) != UnsupportedShardCount {
		t.Error(err)
	}
	err := code.Encode(4, nil, nil)
	if number(err) != WrongLength || err.Error() != "wrong length: expected 12 bytes, got 0 bytes" {
		t.Error(err)
	}
	if err := code.Encode(3, make([]byte, 9), make([]byte, 6)); number(err) != InvalidShardSize {
		t.Error(err)
	}
	if err := code.Decode(4, make([]byte, 12), make([]byte, 8), []byte{1, 0, 0, 1, 0}); number(err) != NotEnoughShards {
		t.Error(err)
	}
	if err := code.Decode(0, nil, nil, []byte{1, 1, 1, 0, 0}); err != nil {
		t.Error(err)
	}
	if _, err := code.EncodeShards([][]byte{[]byte("ab")}); number(err) != TooFewOriginalShards {
		t.Error(err)
	}
	four := [][]byte{[]byte("ab"), []byte("ab"), []byte("ab"), []byte("ab")}
	_, err = code.EncodeShards(four)
	if number(err) != TooManyOriginalShards || *err.(*Fault) != (Fault{TooManyOriginalShards, 3, 0, 0}) {
		t.Error(err)
	}
	_, err = code.EncodeShards([][]byte{[]byte("ab"), []byte("abcd"), nil})
	if number(err) != DifferentShardSize || *err.(*Fault) != (Fault{DifferentShardSize, 2, 4, 1}) {
		t.Error(err)
	}
	for _, counts := range [][2]int{{1, 0}, {4, 2}, {4, 1}, {2, 3}, {3, 3}} {
		err := code.DecodeShards(four[:counts[0]], four[:counts[1]])
		if number(err) != WrongLength || *err.(*Fault) != (Fault{WrongLength, 5, uint64(counts[0] + counts[1]), 0}) {
			t.Error(counts, err)
		}
	}
	if err := code.DecodeShards([][]byte{nil, nil, nil}, [][]byte{nil, nil}); number(err) != NotEnoughShards {
		t.Error(err)
	}
	if err := code.DecodeShards([][]byte{nil}, nil); number(err) != WrongLength {
		t.Error(err)
	}
	if err := code.Verify(4, make([]byte, 12), make([]byte, 8), []byte{1, 0, 0, 1, 0}); number(err) != NotEnoughShards {
		t.Error(err)
	}
	if err := code.Verify(4, make([]byte, 12), nil, make([]byte, 5)); number(err) != WrongLength {
		t.Error(err)
	}
	err = code.Reconstruct(4, make([]byte, 12), make([]byte, 8), []byte{1, 1, 1, 0, 1}, []byte{0, 0, 0, 0, 1})
	if number(err) != WantedReceived || err.Error() != "wanted shard was received: recovery shard 1" {
		t.Error(err)
	}
	if err := code.Update(3, []byte("ab"), []byte("cd"), make([]byte, 4)); number(err) != InvalidOriginalShardIndex {
		t.Error(err)
	}
	if err := code.Update(0, []byte("ab"), []byte("cd"), make([]byte, 5)); number(err) != WrongLength {
		t.Error(err)
	}
	if err := code.Update(0, []byte("ab"), []byte("cd"), make([]byte, 2)); number(err) != WrongLength {
		t.Error(err)
	}
	err = code.DecodeShards([][]byte{[]byte("ab"), nil, []byte("abcd")}, [][]byte{[]byte("ab"), nil})
	if number(err) != DifferentShardSize || *err.(*Fault) != (Fault{DifferentShardSize, 2, 4, 2}) {
		t.Error(err)
	}
	if InconsistentShards.String() != "RS_INCONSISTENT_SHARDS" || TablesNotMade.String() != "RS_TABLES_NOT_MADE" {
		t.Error("the names of statuses")
	}
	if ShardBytes(35, 3) != 12 || ShardBytes(-1, 3) != 0 || !Supports(3, 2) {
		t.Error("a size or counts")
	}
}

// Products of counts and sizes that do not fit into 64 bits. Cut to 64 bits, the products with 2^62 + 4 would be the
// lengths of these buffers.
func TestLargeSizes(t *testing.T) {
	code, _ := New(4, 4)
	sixteen, marks := make([]byte, 16), make([]byte, 8)
	for _, size := range []int{-2, math.MinInt64, math.MaxInt64, 1 << 62, (1 << 62) + 4} {
		for _, c := range []*Code{code, code.WithThreads(4)} {
			for place, err := range []error{
				c.Encode(size, sixteen, sixteen), c.Decode(size, sixteen, sixteen, marks),
				c.Verify(size, sixteen, sixteen, marks), c.Reconstruct(size, sixteen, sixteen, marks, marks),
			} {
				if number(err) != WrongLength || *err.(*Fault) != (Fault{WrongLength, math.MaxUint64, 16, 0}) {
					t.Errorf("call %d, size %d: %v", place, size, err)
				}
			}
		}
	}
}

// Buffers that are too short or too long by one byte, in front of bytes that a call must not change. Each call must
// refuse them.
func TestLengths(t *testing.T) {
	code, _ := New(3, 2)
	all := bytes.Repeat([]byte{7}, 64)
	lengths := []int{12, 8, 5, 5}
	for place, length := range lengths {
		for _, other := range []int{length - 1, length + 1} {
			var at [4][]byte
			for i, right := range lengths {
				at[i] = append([]byte{}, all...)[:right]
			}
			at[place] = append([]byte{}, all...)[:other]
			for i := range at[2] {
				at[2][i] = 1
			}
			for i := range at[3] {
				at[3][i] = 0
			}
			if err := code.Reconstruct(4, at[0], at[1], at[2], at[3]); number(err) != WrongLength {
				t.Errorf("Reconstruct, buffer %d of %d bytes: %v", place, other, err)
			}
			if err := code.Verify(4, at[0], at[1], at[2]); place < 3 && number(err) != WrongLength {
				t.Errorf("Verify, buffer %d of %d bytes: %v", place, other, err)
			}
		}
	}
	for _, length := range []int{0, 7, 9} {
		recovery := append([]byte{}, all...)
		err := code.Update(1, []byte("aaaa"), []byte("bbbb"), recovery[:length])
		if number(err) != WrongLength || !bytes.Equal(recovery, all) {
			t.Errorf("Update of %d bytes: %v", length, err)
		}
	}
}

// An append to one shard must not write over the next one.
func TestShardsEnd(t *testing.T) {
	code, _ := New(2, 3)
	originals := [][]byte{[]byte("aaaa"), []byte("bbbb")}
	recovery, err := code.EncodeShards(originals)
	if err != nil {
		t.Fatal(err)
	}
	second := string(recovery[1])
	_ = append(recovery[0], "????"...)
	if string(recovery[1]) != second {
		t.Error("an append to a recovery shard changes the next one")
	}
	lost := [][]byte{nil, nil}
	if err := code.DecodeShards(lost, recovery); err != nil {
		t.Fatal(err)
	}
	_ = append(lost[0], "????"...)
	if string(lost[1]) != "bbbb" {
		t.Error("an append to an original changes the next one")
	}
}

// pages returns how many pages of memory the process has in use, or 0 where the system does not say it.
func pages() (resident int) {
	var all int
	text, err := os.ReadFile("/proc/self/statm")
	if err == nil {
		fmt.Sscan(string(text), &all, &resident)
	}
	return resident
}

// noLeak makes a call many times. A leak of 0.5 MB in each of them would be 25,600 pages.
func noLeak(t *testing.T, name string, call func()) {
	for n := 0; n < 10; n++ {
		call()
	}
	before := pages()
	for n := 0; n < 200; n++ {
		call()
	}
	if after := pages(); after > before+15000 {
		t.Errorf("%s: %d pages, and before %d", name, after, before)
	}
}

// The arrays that a call makes in memory of C are given back, also if the call fails. In each of these calls, each
// array takes 0.5 MB or more, and the call writes to all of it.
func TestNoLeak(t *testing.T) {
	code, err := New(32768, 32768)
	if err != nil {
		t.Fatal(err)
	}
	shards, marks, wanted := make([]byte, 2*32768), make([]byte, 2*32768), bytes.Repeat([]byte{1}, 2*32768)
	for i := 1; i < 32768; i++ {
		marks[i], wanted[i] = 1, 0
	}
	for name, call := range map[string]func() error{
		"Verify":      func() error { return code.Verify(2, shards, shards, marks) },
		"Decode":      func() error { return code.Decode(2, shards, shards, marks) },
		"Reconstruct": func() error { return code.Reconstruct(2, shards, shards, marks, wanted) },
	} {
		noLeak(t, name, func() {
			if err := call(); number(err) != NotEnoughShards {
				t.Fatal(err)
			}
		})
	}
	noLeak(t, "Update", func() {
		if err := code.Update(32768, shards[:2], shards[:2], shards); number(err) != InvalidOriginalShardIndex {
			t.Fatal(err)
		}
	})
}

// The arrays of an Encode in pieces are given back.
func TestNoLeakOfPieces(t *testing.T) {
	setLeastPiece(t, 64)
	code, err := New(32768, 32768)
	if err != nil {
		t.Fatal(err)
	}
	many := code.WithThreads(2)
	originals, recovery := make([]byte, 128*32768), make([]byte, 128*32768)
	noLeak(t, "Encode", func() {
		if err := many.Encode(128, originals, recovery); err != nil {
			t.Fatal(err)
		}
	})
}
