package reedsolomon_test

import "fmt"
import "reedsolomon"

func Example() {
	message := []byte("Three shards of one size are coded..")
	size := reedsolomon.ShardBytes(len(message), 3)
	recovery := make([]byte, 2*size)
	code, err := reedsolomon.New(3, 2)
	if err == nil {
		err = code.Encode(size, message, recovery)
	}
	if err == nil {
		// Originals 0 and 2 get lost. The other shards are there.
		copy(message[:size], "????????????")
		copy(message[2*size:], "????????????")
		err = code.Decode(size, message, recovery, []byte{0, 1, 0, 1, 1})
	}
	fmt.Println(string(message), err)
	// Output: Three shards of one size are coded.. <nil>
}
