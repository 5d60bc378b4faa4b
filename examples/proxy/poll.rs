//! Waiting for several files at once, by the C library's `poll`.

use std::ffi::{c_int, c_short, c_ulong};
use std::io::{self, ErrorKind};
use std::os::fd::{AsRawFd, RawFd};
use std::time::Duration;

const READABLE: c_short = 0x001;
const WRITABLE: c_short = 0x004;
// Linux: the other side sends no more.
const HUNG_UP: c_short = 0x2000;

#[repr(C)]
struct Entry {
    file: RawFd,
    events: c_short,
    returned: c_short,
}

extern "C" {
    fn poll(entries: *mut Entry, count: c_ulong, timeout: c_int) -> c_int;
}

/// What to wait for at a file.
#[derive(Clone, Copy)]
pub struct Interest {
    pub read: bool,
    pub write: bool,
    pub hang_up: bool,
}

impl Interest {
    /// That it can be read from.
    pub const READ: Interest = Interest { read: true, write: false, hang_up: false };

    fn entry(self, file: &dyn AsRawFd) -> Entry {
        let read = if self.read { READABLE } else { 0 };
        let write = if self.write { WRITABLE } else { 0 };
        let hang_up = if self.hang_up { HUNG_UP } else { 0 };
        let events = read | write | hang_up;
        // An entry of a negative number is left out.
        let file = if events == 0 { -1 } else { file.as_raw_fd() };
        Entry { file, events, returned: 0 }
    }
}

/// What came of a file.
#[derive(Clone, Copy, Default)]
pub struct Ready {
    /// A read has an answer: bytes, their end, or an error.
    pub read: bool,
    /// The other side sends no more than what waits to be read.
    pub hung_up: bool,
}

/// Waits until one of them has what it was asked for, or this time is over.
pub fn wait<const N: usize>(
    files: [(&dyn AsRawFd, Interest); N],
    patience: Option<Duration>,
) -> io::Result<[Ready; N]> {
    let mut entries = files.map(|(file, interest)| interest.entry(file));
    // SAFETY: the pointer is to as many entries as are said.
    let answer = unsafe {
        poll(entries.as_mut_ptr(), entries.len() as c_ulong, patience.map_or(-1, millis))
    };
    if answer < 0 {
        let error = io::Error::last_os_error();
        return if error.kind() == ErrorKind::Interrupted {
            Ok([Ready::default(); N])
        } else {
            Err(error)
        };
    }
    Ok(entries.map(|entry| Ready {
        read: entry.returned & !WRITABLE != 0,
        hung_up: entry.returned & !(WRITABLE | READABLE) != 0,
    }))
}

/// The milliseconds of a time, and one more so that it is over then.
fn millis(patience: Duration) -> c_int {
    let millis = (patience + Duration::from_millis(1)).as_millis();
    c_int::try_from(millis).unwrap_or(c_int::MAX)
}
