//! The tables that all calls read. The first call that needs them makes them, and they are never freed.
use crate::c::{self, rs_tables};
use crate::fault::Fault;
use std::alloc::{alloc_zeroed, dealloc, Layout};
use std::ptr::NonNull;
use std::sync::{Mutex, OnceLock, PoisonError};

/// Tables that the C library has filled.
#[derive(Debug)]
pub(crate) struct Tables(NonNull<rs_tables>);

// SAFETY: after the tables were filled, calls only read them, and the header allows this to any number of threads.
unsafe impl Send for Tables {}
// SAFETY: as for `Send`.
unsafe impl Sync for Tables {}

impl Tables {
    pub(crate) fn at(&self) -> *const rs_tables {
        self.0.as_ptr()
    }
}

/// Returns the tables. If they could not be made, the next call tries again.
pub(crate) fn tables() -> Result<&'static Tables, Fault> {
    static MADE: OnceLock<Tables> = OnceLock::new();
    static TURN: Mutex<()> = Mutex::new(());
    if let Some(made) = MADE.get() {
        return Ok(made);
    }
    let _turn = TURN.lock().unwrap_or_else(PoisonError::into_inner);
    if let Some(made) = MADE.get() {
        return Ok(made);
    }
    let made = make(alloc_zeroed, c::rs_tables_make)?;
    Ok(MADE.get_or_init(|| made))
}

type Allocate = unsafe fn(Layout) -> *mut u8;
type Fill = unsafe extern "C" fn(*mut rs_tables) -> u32;

fn make(allocate: Allocate, fill: Fill) -> Result<Tables, Fault> {
    // SAFETY: the call takes nothing.
    let bytes = unsafe { c::rs_tables_bytes() };
    let layout = Layout::from_size_align(bytes, 8).map_err(|_| Fault::OUT_OF_MEMORY)?;
    // SAFETY: tables have more than 0 bytes.
    let at = unsafe { allocate(layout) }.cast::<rs_tables>();
    let tables = NonNull::new(at).ok_or(Fault::OUT_OF_MEMORY)?;
    // SAFETY: the memory is as large and as aligned as the call requires, and nobody else knows it.
    let number = unsafe { fill(at) };
    let outcome = Fault::outcome(number, c::rs_fault::default());
    if outcome.is_err() {
        // SAFETY: the memory was allocated with this layout, and nobody uses it any more.
        unsafe { dealloc(at.cast(), layout) };
    }
    outcome.map(|()| Tables(tables))
}

#[cfg(test)]
mod tests {
    use super::*;

    fn refuse(_layout: Layout) -> *mut u8 {
        std::ptr::null_mut()
    }

    extern "C" fn no_memory(_tables: *mut rs_tables) -> u32 {
        c::RS_OUT_OF_MEMORY
    }

    #[test]
    fn tables_that_cannot_be_made_are_an_error() {
        assert_eq!(make(refuse, c::rs_tables_make).unwrap_err(), Fault::OUT_OF_MEMORY);
        assert_eq!(make(alloc_zeroed, no_memory).unwrap_err(), Fault::OUT_OF_MEMORY);
        assert!(make(alloc_zeroed, c::rs_tables_make).is_ok());
    }
}
