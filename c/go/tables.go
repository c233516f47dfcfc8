package reedsolomon

// The tables of the C library.

// #include <reed_solomon_simd.h>
// #include <stdlib.h>
import "C"

import (
	"sync"
	"unsafe"
)

// The tables are in memory of C, since Go's collector need not see 8.8 MB. They are made once and never freed.
var (
	tablesLock sync.Mutex
	tables     *C.struct_rs_tables
)

// fillTables fills the memory of tables. Tests replace it.
var fillTables = func(at unsafe.Pointer) Status { return Status(C.rs_tables_make((*C.struct_rs_tables)(at))) }

// made returns the tables. The first call makes them. If it fails with OutOfMemory, the next call tries again.
func made() (*C.struct_rs_tables, error) {
	tablesLock.Lock()
	defer tablesLock.Unlock()
	if tables != nil {
		return tables, nil
	}
	// Not C.malloc, which ends the program if there is no memory.
	at := C.calloc(1, C.rs_tables_bytes())
	if at == nil {
		return nil, &Fault{Number: OutOfMemory}
	}
	if status := fillTables(at); status != C.RS_OK {
		C.free(at)
		return nil, &Fault{Number: status}
	}
	tables = (*C.struct_rs_tables)(at)
	return tables, nil
}
