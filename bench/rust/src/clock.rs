//! The clock, and the state of the processor before a measured call.
use std::arch::asm;
use std::arch::is_x86_feature_detected;

extern "C" {
    fn clock_gettime(clock: i32, time: *mut [i64; 2]) -> i32;
}

/// Returns the processor time of this thread in nanoseconds. Other load on the machine changes it less than wall time.
#[no_mangle]
pub extern "C" fn rs_bench_now() -> u64 {
    const CLOCK_THREAD_CPUTIME_ID: i32 = 3;
    let mut time = [0; 2];
    // SAFETY: `time` has room for a `timespec`.
    unsafe { clock_gettime(CLOCK_THREAD_CPUTIME_ID, &mut time) };
    time[0] as u64 * 1_000_000_000 + time[1] as u64
}

/// Clears the upper halves of the vector registers. ISA-L leaves them in use, and then instructions of SSE are slow.
pub fn clear_upper_halves() {
    if is_x86_feature_detected!("avx") {
        // SAFETY: the processor has AVX, and the code of Rust's callers keeps nothing in upper halves across a call.
        unsafe { asm!("vzeroupper", out("xmm0") _, out("xmm1") _, out("xmm2") _, out("xmm3") _, options(nomem, nostack)) };
    }
}

/// Runs `first` rounds, and then `rounds` rounds, of which it returns the time in nanoseconds.
pub fn time_rounds(first: usize, rounds: usize, mut round: impl FnMut()) -> u64 {
    for _ in 0..first {
        round();
    }
    let start = rs_bench_now();
    for _ in 0..rounds {
        round();
    }
    rs_bench_now() - start
}
