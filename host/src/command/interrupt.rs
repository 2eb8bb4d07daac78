//! An interrupt from the terminal that long work notices, so that it can still say what it came to and clean up.
use std::{
    ffi::c_int,
    sync::atomic::{AtomicBool, Ordering},
};

const SIGINT: c_int = 2;

static CAME: AtomicBool = AtomicBool::new(false);

unsafe extern "C" {
    fn signal(number: c_int, handler: extern "C" fn(c_int)) -> usize;
}

extern "C" fn note(_: c_int) {
    CAME.store(true, Ordering::Relaxed);
}

/// From now on an interrupt is noticed and does not end the process.
pub fn watch() {
    // SAFETY: the handler only stores to an atomic, which a signal's handler may do.
    unsafe { signal(SIGINT, note) };
}

/// Whether one came since.
pub fn came() -> bool {
    CAME.load(Ordering::Relaxed)
}
