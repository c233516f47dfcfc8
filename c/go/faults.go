package reedsolomon

// The statuses of the C library, and the errors that hold them.

// #include <reed_solomon_simd.h>
import "C"

import "fmt"

// Status is a number of enum rs_status of the C library.
type Status uint32

// The numbers that a Fault can have.
const (
	OutOfMemory                 Status = C.RS_OUT_OF_MEMORY
	UnsupportedShardCount       Status = C.RS_UNSUPPORTED_SHARD_COUNT
	InvalidShardSize            Status = C.RS_INVALID_SHARD_SIZE
	DifferentShardSize          Status = C.RS_DIFFERENT_SHARD_SIZE
	TooFewOriginalShards        Status = C.RS_TOO_FEW_ORIGINAL_SHARDS
	TooManyOriginalShards       Status = C.RS_TOO_MANY_ORIGINAL_SHARDS
	NotEnoughShards             Status = C.RS_NOT_ENOUGH_SHARDS
	InvalidOriginalShardIndex   Status = C.RS_INVALID_ORIGINAL_SHARD_INDEX
	InvalidRecoveryShardIndex   Status = C.RS_INVALID_RECOVERY_SHARD_INDEX
	DuplicateOriginalShardIndex Status = C.RS_DUPLICATE_ORIGINAL_SHARD_INDEX
	DuplicateRecoveryShardIndex Status = C.RS_DUPLICATE_RECOVERY_SHARD_INDEX
	InconsistentShards          Status = C.RS_INCONSISTENT_SHARDS
	WrongLength                 Status = C.RS_WRONG_LENGTH
	WrongNumberOfRooms          Status = C.RS_WRONG_NUMBER_OF_ROOMS
	TablesNotMade               Status = C.RS_TABLES_NOT_MADE
	WantedIndexTooLarge         Status = C.RS_WANTED_INDEX_TOO_LARGE
	WantedTwice                 Status = C.RS_WANTED_TWICE
	WantedReceived              Status = C.RS_WANTED_RECEIVED
)

// String returns the name of the number in C, for example RS_WRONG_LENGTH.
func (s Status) String() string { return C.GoString(C.rs_status_name(C.uint32_t(s))) }

// Fault says why a call failed. First, Second and Third hold what the header of the C library says for the number.
type Fault struct {
	Number               Status
	First, Second, Third uint64
}

// Error returns the text of the fault.
func (f *Fault) Error() string {
	if f.Number == UnsupportedShardCount {
		// Counts of Go can be negative, and the C library has no negative numbers.
		return fmt.Sprintf("unsupported shard count: %d original shards with %d recovery shards",
			int64(f.First), int64(f.Second))
	}
	fault := C.struct_rs_fault{number: C.uint32_t(f.Number)}
	fault.first, fault.second, fault.third = C.size_t(f.First), C.size_t(f.Second), C.size_t(f.Third)
	var text [128]C.char
	C.rs_fault_text(&fault, &text[0], C.size_t(len(text)))
	return C.GoString(&text[0])
}

func failed(fault *C.struct_rs_fault) error {
	if fault.number == C.RS_OK {
		return nil
	}
	return &Fault{Status(fault.number), uint64(fault.first), uint64(fault.second), uint64(fault.third)}
}
