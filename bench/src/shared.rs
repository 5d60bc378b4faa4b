//! The rows as a shared library, as `bench/rows` loads it from two builds.

use crate::rows_of;
use crate::timing::Row;
use std::cell::RefCell;
use std::ffi::{CStr, CString, c_char};

thread_local! {
    static ROWS: RefCell<Vec<(CString, Row)>> = const { RefCell::new(Vec::new()) };
}

/// Makes the rows whose name holds the word, and answers how many there are.
///
/// # Safety
///
/// The word is a string of C, in UTF-8.
#[unsafe(no_mangle)]
pub unsafe extern "C" fn bench_make_rows(word: *const c_char) -> usize {
    let word = unsafe { CStr::from_ptr(word) }.to_string_lossy();
    let named = |row: Row| Some((CString::new(row.name.as_str()).ok()?, row));
    ROWS.with_borrow_mut(|rows| {
        *rows = rows_of(&word).filter_map(named).collect();
        rows.len()
    })
}

/// The name of the row at this place.
#[unsafe(no_mangle)]
pub extern "C" fn bench_row_name(place: usize) -> *const c_char {
    ROWS.with_borrow(|rows| rows[place].0.as_ptr())
}

/// Runs the row at this place so many times, and answers what the library did.
#[unsafe(no_mangle)]
pub extern "C" fn bench_run_row(place: usize, times: u64) -> u64 {
    ROWS.with_borrow(|rows| (rows[place].1.call)(times))
}
