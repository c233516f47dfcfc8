package reedsolomon

// Tests of calls in several goroutines, over pieces of the shards.

import (
	"bytes"
	"errors"
	"math/rand"
	"sync/atomic"
	"testing"
)

// message is a message of a code, with the marks of the shards that are there and of those that are wanted.
type message struct {
	size                int
	originals, recovery []byte
	marks, wanted       []byte
}

func newMessage(t *testing.T, random *rand.Rand, code *Code, size, lost int) *message {
	k, r := code.originals, code.recovery
	m := &message{size, make([]byte, k*size), make([]byte, r*size), bytes.Repeat([]byte{1}, k+r), make([]byte, k+r)}
	random.Read(m.originals)
	if err := code.Encode(size, m.originals, m.recovery); err != nil {
		t.Fatal(err)
	}
	for _, i := range random.Perm(k + r)[:lost] {
		m.marks[i], m.wanted[i] = 0, 1
	}
	return m
}

// damaged returns copies of both buffers, with other bytes in the places of lost shards.
func (m *message) damaged(code *Code) (originals, recovery []byte) {
	originals, recovery = append([]byte{}, m.originals...), append([]byte{}, m.recovery...)
	for i, mark := range m.marks {
		if mark == 0 {
			copy(code.place(i, m.size, originals, recovery), bytes.Repeat([]byte{'?'}, m.size))
		}
	}
	return originals, recovery
}

// Each call of the code writes the shards of the message.
func (m *message) check(t *testing.T, code *Code) {
	k, size, threads := code.originals, m.size, code.threads
	recovery := make([]byte, len(m.recovery))
	if err := code.Encode(size, m.originals, recovery); err != nil || !bytes.Equal(recovery, m.recovery) {
		t.Errorf("Encode, %d bytes, %d threads: %v", size, threads, err)
	}
	originals, recovery := m.damaged(code)
	if err := code.Verify(size, originals, recovery, m.marks); err != nil {
		t.Errorf("Verify, %d bytes, %d threads: %v", size, threads, err)
	}
	if err := code.Decode(size, originals, recovery, m.marks); err != nil || !bytes.Equal(originals, m.originals) {
		t.Errorf("Decode, %d bytes, %d threads: %v", size, threads, err)
	}
	originals, recovery = m.damaged(code)
	err := code.Reconstruct(size, originals, recovery, m.marks, m.wanted)
	if err != nil || !bytes.Equal(originals, m.originals) || !bytes.Equal(recovery, m.recovery) {
		t.Errorf("Reconstruct, %d bytes, %d threads: %v", size, threads, err)
	}
	before, after := m.originals[(k-1)*size:], bytes.Repeat([]byte{'!'}, size)
	if err := code.Update(k-1, before, after, recovery); err != nil {
		t.Errorf("Update, %d bytes, %d threads: %v", size, threads, err)
	}
	copy(originals[(k-1)*size:], after)
	whole := make([]byte, len(recovery))
	if err := code.WithThreads(1).Encode(size, originals, whole); err != nil || !bytes.Equal(recovery, whole) {
		t.Errorf("Update, %d bytes, %d threads: other recovery shards", size, threads)
	}
}

func setLeastPiece(t *testing.T, bytes int) {
	before := leastPiece
	leastPiece = bytes
	t.Cleanup(func() { leastPiece = before })
}

func TestPieces(t *testing.T) {
	setLeastPiece(t, 2)
	random := rand.New(rand.NewSource(1))
	for _, counts := range [][2]int{{1, 1}, {3, 2}, {2, 5}, {10, 4}, {20, 30}} {
		code, _ := New(counts[0], counts[1])
		for _, size := range []int{2, 62, 64, 66, 130, 4094, 4096, 4098, 100000} {
			m := newMessage(t, random, code, size, random.Intn(counts[1]+1))
			for _, threads := range []int{1, 2, 3, 4, 7} {
				m.check(t, code.WithThreads(threads))
			}
		}
	}
}

// The pieces begin at multiples of 64 bytes, and are not shorter than leastPiece, but for the last one.
func TestCuts(t *testing.T) {
	for _, c := range []struct {
		size, threads int
		starts        []int
	}{
		{0, 4, []int{0}}, {8190, 4, []int{0}}, {8192, 1, []int{0}}, {8192, 0, []int{0}}, {8192, -1, []int{0}},
		{8193, 4, []int{0}}, {8192, 4, []int{0, 4096}}, {8194, 2, []int{0, 4160}}, {12286, 4, []int{0, 6144}},
		{100000, 4, []int{0, 25024, 50048, 75072}},
		{40000, 100, []int{0, 4480, 8960, 13440, 17920, 22400, 26880, 31360, 35840}},
	} {
		found := cuts(c.size, c.threads)
		if len(found) != len(c.starts) {
			t.Fatalf("%d bytes, %d threads: %v", c.size, c.threads, found)
		}
		for i := range found {
			if found[i] != c.starts[i] {
				t.Errorf("%d bytes, %d threads: %v", c.size, c.threads, found)
			}
		}
	}
}

// The pieces are coded at the same time: each of them waits for the others.
func TestTogether(t *testing.T) {
	var running int32
	err := together(4, func(int) error {
		for atomic.AddInt32(&running, 1); atomic.LoadInt32(&running) < 4; {
		}
		return nil
	})
	if err != nil {
		t.Error(err)
	}
}

// The first error is returned, in the order of the pieces.
func TestErrorsTogether(t *testing.T) {
	var calls [3]int32
	err := together(3, func(i int) error {
		atomic.AddInt32(&calls[i], 1)
		if i == 0 {
			return nil
		}
		return &Fault{Number: NotEnoughShards, First: uint64(i)}
	})
	if number(err) != NotEnoughShards || err.(*Fault).First != 1 || calls != [3]int32{1, 1, 1} {
		t.Error(err, calls)
	}
	one := errors.New("an error of another kind")
	if err := together(1, func(int) error { return one }); err != one {
		t.Error(err)
	}
}

// All memory of a call is there before a piece begins. If it cannot be allocated, no slice is written.
func TestNoMemoryOfPieces(t *testing.T) {
	setLeastPiece(t, 64)
	code, _ := New(5, 4)
	many := code.WithThreads(4)
	const size = 1000
	m := newMessage(t, rand.New(rand.NewSource(3)), code, size, 0)
	m.marks[0], m.marks[6], m.wanted[0], m.wanted[6] = 0, 0, 1, 1
	originals, recovery := append([]byte{}, m.originals...), append([]byte{}, m.recovery...)
	for i := 0; i < size; i++ {
		originals[i], recovery[size+i] = '?', '?'
	}
	before := [2][]byte{append([]byte{}, originals...), append([]byte{}, recovery...)}
	real := reserve
	defer func() { reserve = real }()
	for name, call := range map[string]func() error{
		"Encode":      func() error { return many.Encode(size, originals, recovery) },
		"Decode":      func() error { return many.Decode(size, originals, recovery, m.marks) },
		"Verify":      func() error { return many.Verify(size, originals, recovery, m.marks) },
		"Reconstruct": func() error { return many.Reconstruct(size, originals, recovery, m.marks, m.wanted) },
		"Update":      func() error { return many.Update(1, originals[:size], originals[size:2*size], recovery) },
	} {
		for granted := 0; granted < 4; granted++ {
			left := granted
			reserve = func(p *piece, task task, restored int) bool {
				left--
				return left >= 0 && real(p, task, restored)
			}
			if err := call(); number(err) != OutOfMemory {
				t.Errorf("%s with memory for %d pieces: %v", name, granted, err)
			}
			if !bytes.Equal(originals, before[0]) || !bytes.Equal(recovery, before[1]) {
				t.Errorf("%s with memory for %d pieces has written", name, granted)
			}
		}
	}
}

// Damage that only one piece has is found, and the places of lost shards hold what they held before. One shard more
// than the originals was received, so the damage can be noticed.
func TestLateDamage(t *testing.T) {
	setLeastPiece(t, 64)
	code, _ := New(5, 4)
	const size = 1000
	random := rand.New(rand.NewSource(2))
	m := newMessage(t, random, code, size, 0)
	for _, i := range []int{0, 2, 6} {
		m.marks[i], m.wanted[i] = 0, 1
	}
	for _, damaged := range []int{0, 300, 700, size - 1} {
		for _, threads := range []int{1, 2, 4, 16} {
			many := code.WithThreads(threads)
			originals, recovery := m.damaged(code)
			originals[size+damaged] ^= 1
			before, other := append([]byte{}, originals...), append([]byte{}, recovery...)
			for name, err := range map[string]error{
				"Verify":      many.Verify(size, originals, recovery, m.marks),
				"Decode":      many.Decode(size, originals, recovery, m.marks),
				"Reconstruct": many.Reconstruct(size, originals, recovery, m.marks, m.wanted),
			} {
				if fault, _ := err.(*Fault); fault == nil || *fault != (Fault{InconsistentShards, 3, 3, 0}) {
					t.Errorf("%s, damage at %d, %d threads: %v", name, damaged, threads, err)
				}
			}
			if !bytes.Equal(originals, before) || !bytes.Equal(recovery, other) {
				t.Errorf("damage at %d, %d threads: a call that fails has written", damaged, threads)
			}
		}
	}
}

// A call fails in the same way with one thread and with several, and writes nothing.
func TestSameFaults(t *testing.T) {
	setLeastPiece(t, 64)
	code, _ := New(3, 2)
	const size = 1000
	some := bytes.Repeat([]byte{7}, 3*size+1)
	one, none := bytes.Repeat([]byte{1}, 6), make([]byte, 6)
	for place, call := range []func(c *Code) error{
		func(c *Code) error { return c.Encode(size, some[:3*size-1], some[:2*size]) },
		func(c *Code) error { return c.Encode(size-1, some[:3*size-3], some[:2*size-2]) },
		func(c *Code) error { return c.Encode(-size, some, some) },
		func(c *Code) error { return c.Decode(size, some[:3*size], some[:2*size], none[:5]) },
		func(c *Code) error { return c.Decode(size, some[:3*size], some[:2*size], []byte{0, 1, 0, 1, 0}) },
		func(c *Code) error { return c.Verify(size, some[:3*size], some[:2*size], []byte{0, 1, 0, 1, 0}) },
		func(c *Code) error { return c.Verify(size, some[:3*size], some[:2*size], one[:4]) },
		func(c *Code) error { return c.Reconstruct(size, some[:3*size], some[:2*size], none[:5], one[:5]) },
		func(c *Code) error { return c.Reconstruct(size, some[:3*size], some[:2*size], one[:5], one[:5]) },
		func(c *Code) error { return c.Update(3, some[:size], some[:size], some[:2*size]) },
		func(c *Code) error { return c.Update(-1, some[:size], some[:size], some[:2*size]) },
		func(c *Code) error { return c.Update(1, some[:size], some[:size-2], some[:2*size]) },
		func(c *Code) error { return c.Update(1, some[:size], some[:size+2], some[:2*size]) },
		func(c *Code) error { return c.Update(1, some[:size-1], some[:size-1], some[:2*size-2]) },
	} {
		fault, _ := call(code).(*Fault)
		other, _ := call(code.WithThreads(4)).(*Fault)
		if fault == nil || other == nil || *fault != *other {
			t.Errorf("call %d fails with %v, and in pieces with %v", place, fault, other)
		}
		if !bytes.Equal(some, bytes.Repeat([]byte{7}, len(some))) {
			t.Fatalf("call %d writes", place)
		}
	}
}
