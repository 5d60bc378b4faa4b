//! SIGTERM, which asks the proxy to end its work.

use std::ffi::{c_int, c_void};
use std::io::{self, PipeReader};
use std::os::fd::{AsRawFd, IntoRawFd, RawFd};
use std::sync::atomic::{AtomicI32, Ordering};

const SIGTERM: c_int = 15;

// Where the handler writes a byte.
static ASKED: AtomicI32 = AtomicI32::new(-1);

extern "C" {
    fn signal(number: c_int, handler: extern "C" fn(c_int)) -> *mut c_void;
    fn write(file: RawFd, bytes: *const u8, count: usize) -> isize;
}

extern "C" fn ask(_: c_int) {
    // SAFETY: `write` may be called by a handler, and the pointer is to a byte.
    unsafe { write(ASKED.load(Ordering::Relaxed), b"!".as_ptr(), 1) };
}

/// A file that can be read from once SIGTERM came. Nobody reads from it, so that it stays so.
pub struct Stop(PipeReader);

impl Stop {
    /// Catches SIGTERM.
    pub fn catch() -> io::Result<Stop> {
        let (reader, writer) = io::pipe()?;
        ASKED.store(writer.into_raw_fd(), Ordering::Relaxed);
        // SAFETY: the handler does nothing that a handler may not.
        unsafe { signal(SIGTERM, ask) };
        Ok(Stop(reader))
    }
}

impl AsRawFd for Stop {
    fn as_raw_fd(&self) -> RawFd {
        self.0.as_raw_fd()
    }
}
