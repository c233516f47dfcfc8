//! Each request for memory is refused once, in turn. Each refusal is the error `OutOfMemory`, and nothing is written.
//!
//! This program has allocators of its own, for Rust and for the C library. They refuse one request: the one before
//! which a given number of others has come. The allocator for Rust refuses only blocks of 1000 bytes and more, because
//! the standard library ends the program if it gets no memory for a node of a map or for the handle of a thread. The
//! file has a single test, so that no other test makes requests meanwhile.
mod helpers;

use helpers::{given, Draw, Message};
use reed_solomon_simd::{
    decode, decode_into, encode, encode_into, reconstruct, reconstruct_into, update, verify, with_threads, Error,
    ReedSolomonDecoder, ReedSolomonEncoder, ShardIndex,
};
use std::alloc::{GlobalAlloc, Layout, System};
use std::cell::RefCell;
use std::ffi::c_void;
use std::fmt::Debug;
use std::ptr::null_mut;
use std::sync::atomic::{AtomicUsize, Ordering::SeqCst};

/// How many more requests are served before one is refused. After the refusal, all others are served.
static SERVED: AtomicUsize = AtomicUsize::new(ALL);
/// The number of requests of the C library.
static FROM_C: AtomicUsize = AtomicUsize::new(0);
const ALL: usize = usize::MAX;

fn is_refused() -> bool {
    let next = |served| match served {
        ALL => None,
        0 => Some(ALL),
        more => Some(more - 1),
    };
    SERVED.fetch_update(SeqCst, SeqCst, next) == Ok(0)
}

struct Refusing;

#[global_allocator]
static ALLOCATOR: Refusing = Refusing;

// SAFETY: each request is refused, or passed to the system's allocator.
unsafe impl GlobalAlloc for Refusing {
    unsafe fn alloc(&self, layout: Layout) -> *mut u8 {
        if layout.size() >= 1000 && is_refused() {
            return null_mut();
        }
        // SAFETY: the caller keeps the rules.
        unsafe { System.alloc(layout) }
    }

    unsafe fn alloc_zeroed(&self, layout: Layout) -> *mut u8 {
        if layout.size() >= 1000 && is_refused() {
            return null_mut();
        }
        // SAFETY: the caller keeps the rules.
        unsafe { System.alloc_zeroed(layout) }
    }

    unsafe fn realloc(&self, block: *mut u8, layout: Layout, size: usize) -> *mut u8 {
        if size >= 1000 && is_refused() {
            return null_mut();
        }
        // SAFETY: the caller keeps the rules.
        unsafe { System.realloc(block, layout, size) }
    }

    unsafe fn dealloc(&self, block: *mut u8, layout: Layout) {
        // SAFETY: the caller keeps the rules.
        unsafe { System.dealloc(block, layout) }
    }
}

/// What the allocator of the C library returns. The pointer is never null.
#[repr(C)]
#[derive(Debug)]
pub struct Tried {
    ok: bool,
    at: *mut c_void,
}

/// Before each block of the C library, there are 64 bytes that hold its size.
fn layout_for_c(size: usize) -> Layout {
    Layout::from_size_align(size + 64, 64).unwrap()
}

/// Returns a new block.
#[no_mangle]
pub extern "C" fn rattle_alloc(size: usize, _align: usize) -> Tried {
    FROM_C.fetch_add(1, SeqCst);
    if is_refused() {
        return Tried { ok: false, at: 64 as *mut c_void };
    }
    // SAFETY: the block has more than 0 bytes, and its first 64 bytes have room for the size.
    unsafe {
        let block = System.alloc(layout_for_c(size));
        assert!(!block.is_null());
        block.cast::<usize>().write(size);
        Tried { ok: true, at: block.add(64).cast() }
    }
}

/// Returns a block of another size with the bytes of the old one.
///
/// # Safety
///
/// The block is one of `rattle_alloc`.
#[no_mangle]
pub unsafe extern "C" fn rattle_realloc(old: *mut c_void, kept: usize, size: usize, align: usize) -> Tried {
    let new = rattle_alloc(size, align);
    if new.ok {
        // SAFETY: both blocks have as many bytes.
        unsafe { new.at.cast::<u8>().copy_from(old.cast(), kept.min(size)) };
        // SAFETY: the caller keeps the rules.
        unsafe { rattle_dealloc(old) };
    }
    new
}

/// Takes a block back.
///
/// # Safety
///
/// The block is one of `rattle_alloc`, and nobody uses it any more.
#[no_mangle]
pub unsafe extern "C" fn rattle_dealloc(at: *mut c_void) {
    // SAFETY: 64 bytes before it, the block of the system begins, with the size.
    unsafe {
        let block = at.cast::<u8>().sub(64);
        System.dealloc(block, layout_for_c(block.cast::<usize>().read()));
    }
}

/// Makes the call again and again, and refuses another request each time, until there is none left to refuse. If a
/// request is refused, the error is `OutOfMemory`, and the buffers are as before. Returns how many requests the call
/// makes.
fn refuse_each<B, T, E>(before: &B, after: &B, expected: &T, call: impl Fn(&mut B) -> Result<T, E>) -> usize
where
    B: Clone + Debug + PartialEq,
    T: Debug + PartialEq,
    E: Debug + PartialEq + From<Error>,
{
    for served in 0.. {
        let mut buffers = before.clone();
        SERVED.store(served, SeqCst);
        let result = call(&mut buffers);
        if SERVED.swap(ALL, SeqCst) != ALL {
            assert_eq!((result.as_ref(), &buffers), (Ok(expected), after));
            return served;
        }
        assert_eq!((result, &buffers), (Err(E::from(Error::OutOfMemory)), before), "after {served} requests");
    }
    unreachable!()
}

fn one_call(message: &Message, threads: usize) {
    let (k, r) = message.counts();
    let (own, other) = (|| given(&message.own), || given(&message.other));
    let restored: Vec<Vec<u8>> = message.missing.values().cloned().collect();
    let rooms = message.buffers(restored.len());
    let calls = [
        refuse_each(&(), &(), &message.recovery, |()| with_threads(threads, || encode(k, r, &message.original))),
        refuse_each(&message.buffers(r), &message.recovery, &(), |to| {
            with_threads(threads, || encode_into(k, r, &message.original, to))
        }),
        refuse_each(&(), &(), &message.missing, |()| with_threads(threads, || decode(k, r, own(), other()))),
        refuse_each(&rooms, &restored, &(), |to| with_threads(threads, || decode_into(k, r, own(), other(), to))),
        refuse_each(&(), &(), &(), |()| with_threads(threads, || verify(k, r, own(), other()))),
    ];
    assert!(calls.iter().all(|&requests| requests > 0), "{calls:?}");
}

fn wanted_and_changed(message: &Message, threads: usize) {
    let (k, r) = message.counts();
    let (own, other) = (|| given(&message.own), || given(&message.other));
    let wanted: Vec<ShardIndex> = message.missing.keys().copied().map(ShardIndex::Original).collect();
    let restored: Vec<Vec<u8>> = message.missing.values().cloned().collect();
    refuse_each(&(), &(), &restored, |()| with_threads(threads, || reconstruct(k, r, own(), other(), &wanted)));
    refuse_each(&message.buffers(restored.len()), &restored, &(), |to| {
        with_threads(threads, || reconstruct_into(k, r, own(), other(), &wanted, to))
    });
    let mut original = message.original.clone();
    original[1] = vec![7; message.size()];
    let changed = encode(k, r, &original).unwrap();
    refuse_each(&message.recovery, &changed, &(), |to| {
        with_threads(threads, || update(k, r, 1, &message.original[1], &original[1], to))
    });
}

/// An encode or a decode that finds no memory keeps the shards. So a second one succeeds.
fn objects(message: &Message, threads: usize) {
    let ((k, r), size) = (message.counts(), message.size());
    refuse_each(&(), &(), &(), |()| ReedSolomonEncoder::new(k, r, size).map(|_| ()));
    refuse_each(&(), &(), &(), |()| ReedSolomonDecoder::new(k, r, size).map(|_| ()));
    let mut encoder = ReedSolomonEncoder::new(k, r, size).unwrap();
    let mut decoder = ReedSolomonDecoder::new(k, r, size).unwrap();
    message.original.iter().for_each(|shard| encoder.add_original_shard(shard).unwrap());
    given(&message.own).for_each(|(index, shard)| decoder.add_original_shard(index, shard).unwrap());
    given(&message.other).for_each(|(index, shard)| decoder.add_recovery_shard(index, shard).unwrap());
    let (encoder, decoder) = (RefCell::new(encoder), RefCell::new(decoder));
    // The result is forgotten, so that the encoder keeps the originals.
    refuse_each(&(), &(), &(), |()| with_threads(threads, || encoder.borrow_mut().encode().map(std::mem::forget)));
    refuse_each(&(), &(), &(), |()| with_threads(threads, || decoder.borrow_mut().decode().map(std::mem::forget)));
    assert!(encoder.borrow_mut().encode().unwrap().recovery_iter().eq(&message.recovery));
    let (mut decoder, missing) = (decoder.into_inner(), message.missing.iter());
    let restored = decoder.decode().unwrap();
    assert!(restored.restored_original_iter().eq(missing.map(|(&index, shard)| (index, shard.as_slice()))));
}

#[test]
fn each_refused_request_is_an_error() {
    // The first call also makes the tables, and so does each call after one that could not make them.
    let requests = refuse_each(&(), &(), &vec![vec![0; 2]], |()| encode(1, 1, [[0; 2]]));
    assert!(requests > 0);
    assert!(cfg!(rs_shared) || FROM_C.load(SeqCst) > 2);
    // The longer shards are cut for threads. With that many shards, each call requests more memory than its stack has.
    for (k, r, size, lost, surplus) in [
        (100, 60, 1200, 40, 0),
        (100, 60, 1200, 40, 1),
        (300, 200, 4098, 150, 0),
        (300, 200, 4098, 3, 0),
        (300, 200, 4098, 3, 1),
    ] {
        let message = Message::drawn(&mut Draw(30), k, r, size, lost, surplus);
        for threads in [1, 3] {
            one_call(&message, threads);
            wanted_and_changed(&message, threads);
            objects(&message, threads);
        }
    }
}
