//! The declarations of `reed_solomon_simd.h` that this crate uses. The header describes each call, and what its caller
//! must ensure.
#![allow(non_camel_case_types)]
use std::ffi::c_void;

pub const RS_OK: u32 = 0;
pub const RS_OUT_OF_MEMORY: u32 = 1;
pub const RS_UNSUPPORTED_SHARD_COUNT: u32 = 2;
pub const RS_INVALID_SHARD_SIZE: u32 = 3;
pub const RS_DIFFERENT_SHARD_SIZE: u32 = 4;
pub const RS_TOO_FEW_ORIGINAL_SHARDS: u32 = 5;
pub const RS_TOO_MANY_ORIGINAL_SHARDS: u32 = 6;
pub const RS_NOT_ENOUGH_SHARDS: u32 = 7;
pub const RS_INVALID_ORIGINAL_SHARD_INDEX: u32 = 8;
pub const RS_INVALID_RECOVERY_SHARD_INDEX: u32 = 9;
pub const RS_DUPLICATE_ORIGINAL_SHARD_INDEX: u32 = 10;
pub const RS_DUPLICATE_RECOVERY_SHARD_INDEX: u32 = 11;
pub const RS_INCONSISTENT_SHARDS: u32 = 12;
pub const RS_WRONG_LENGTH: u32 = 13;
pub const RS_WRONG_NUMBER_OF_ROOMS: u32 = 14;
#[cfg(test)]
pub const RS_TABLES_NOT_MADE: u32 = 15;
pub const RS_WANTED_INDEX_TOO_LARGE: u32 = 16;
pub const RS_WANTED_TWICE: u32 = 17;
pub const RS_WANTED_RECEIVED: u32 = 18;

pub const RS_ORIGINAL: usize = 0;
pub const RS_RECOVERY: usize = 1;

#[repr(C)]
#[derive(Clone, Copy, Debug, Default, PartialEq, Eq)]
pub struct rs_fault {
    pub number: u32,
    pub first: usize,
    pub second: usize,
    pub third: usize,
}

/// The tables have `rs_tables_bytes()` bytes, and are aligned at 8 bytes.
#[repr(C)]
pub struct rs_tables {
    words: [u64; 0],
}

#[repr(C)]
#[derive(Clone, Copy, Debug)]
pub struct rs_bytes {
    pub bytes: *const u8,
    pub length: usize,
}

#[repr(C)]
#[derive(Debug)]
pub struct rs_room {
    pub bytes: *mut u8,
    pub length: usize,
}

#[repr(C)]
#[derive(Clone, Copy, Debug)]
pub struct rs_shard {
    pub index: usize,
    pub bytes: *const u8,
    pub length: usize,
}

#[repr(C)]
#[derive(Clone, Copy, Debug)]
pub struct rs_wanted {
    pub kind: usize,
    pub index: usize,
}

#[rustfmt::skip]
extern "C" {
    pub fn rs_tables_bytes() -> usize;
    pub fn rs_tables_make(tables: *mut rs_tables) -> u32;
    pub fn rs_supports(original_count: usize, recovery_count: usize) -> u32;
    pub fn rs_shard_bytes(total: usize, original_count: usize) -> usize;
    pub fn rs_work_bytes(original_count: usize, recovery_count: usize, shard_bytes: usize, restored: usize) -> usize;
    pub fn rs_reconstruct_work_bytes(
        original_count: usize, recovery_count: usize, shard_bytes: usize, restored: usize,
    ) -> usize;
    pub fn rs_update_work_bytes(original_count: usize, recovery_count: usize) -> usize;
    #[cfg(test)]
    pub fn rs_fault_text(fault: *const rs_fault, text: *mut std::ffi::c_char, text_length: usize) -> usize;
    pub fn rs_encode(
        tables: *const rs_tables, original_count: usize, recovery_count: usize, shard_bytes: usize,
        originals: *const u8, originals_length: usize, recovery: *mut u8, recovery_length: usize, fault: *mut rs_fault,
    ) -> u32;
    pub fn rs_decode(
        tables: *const rs_tables, original_count: usize, recovery_count: usize, shard_bytes: usize,
        originals: *mut u8, originals_length: usize, recovery: *const u8, recovery_length: usize,
        marks: *const u8, marks_length: usize, fault: *mut rs_fault,
    ) -> u32;
    pub fn rs_encode_shards(
        tables: *const rs_tables, original_count: usize, recovery_count: usize,
        originals: *const rs_bytes, originals_number: usize, recovery: *const rs_room, recovery_number: usize,
        fault: *mut rs_fault,
    ) -> u32;
    pub fn rs_encode_shards_with_work(
        tables: *const rs_tables, original_count: usize, recovery_count: usize,
        originals: *const rs_bytes, originals_number: usize, recovery: *const rs_room, recovery_number: usize,
        work: *mut c_void, work_length: usize, fault: *mut rs_fault,
    ) -> u32;
    pub fn rs_decode_shards(
        tables: *const rs_tables, original_count: usize, recovery_count: usize,
        originals: *const rs_shard, originals_number: usize, recovery: *const rs_shard, recovery_number: usize,
        restored: *const rs_room, restored_number: usize, fault: *mut rs_fault,
    ) -> u32;
    pub fn rs_decode_shards_with_work(
        tables: *const rs_tables, original_count: usize, recovery_count: usize,
        originals: *const rs_shard, originals_number: usize, recovery: *const rs_shard, recovery_number: usize,
        restored: *const rs_room, restored_number: usize, work: *mut c_void, work_length: usize, fault: *mut rs_fault,
    ) -> u32;
    pub fn rs_verify(
        tables: *const rs_tables, original_count: usize, recovery_count: usize,
        originals: *const rs_shard, originals_number: usize, recovery: *const rs_shard, recovery_number: usize,
        fault: *mut rs_fault,
    ) -> u32;
    pub fn rs_reconstruct(
        tables: *const rs_tables, original_count: usize, recovery_count: usize,
        originals: *const rs_shard, originals_number: usize, recovery: *const rs_shard, recovery_number: usize,
        wanted: *const rs_wanted, wanted_number: usize, rooms: *const rs_room, rooms_number: usize,
        fault: *mut rs_fault,
    ) -> u32;
    pub fn rs_reconstruct_with_work(
        tables: *const rs_tables, original_count: usize, recovery_count: usize,
        originals: *const rs_shard, originals_number: usize, recovery: *const rs_shard, recovery_number: usize,
        wanted: *const rs_wanted, wanted_number: usize, rooms: *const rs_room, rooms_number: usize,
        work: *mut c_void, work_length: usize, fault: *mut rs_fault,
    ) -> u32;
    pub fn rs_update(
        tables: *const rs_tables, original_count: usize, recovery_count: usize, index: usize,
        before: *const u8, before_length: usize, after: *const u8, after_length: usize,
        recovery: *const rs_room, recovery_number: usize, fault: *mut rs_fault,
    ) -> u32;
    pub fn rs_update_with_work(
        tables: *const rs_tables, original_count: usize, recovery_count: usize, index: usize,
        before: *const u8, before_length: usize, after: *const u8, after_length: usize,
        recovery: *const rs_room, recovery_number: usize,
        work: *mut c_void, work_length: usize, fault: *mut rs_fault,
    ) -> u32;
}
