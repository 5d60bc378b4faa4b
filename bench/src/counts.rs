//! Instructions of each row beside Rust or by hand, where the driver runs under callgrind.

use crate::timing::Row;
use std::arch::asm;
use std::ffi::CString;
use std::hint::black_box;

/// Callgrind's requests `ZERO_STATS` and `DUMP_STATS_AT`, by the numbers of its header.
const ZERO: u64 = 0x4354_0001;
const WRITE: u64 = 0x4354_0003;

/// Repetitions that are counted, beyond the one whose instructions are taken off.
const REPETITIONS: u64 = 4;

// Valgrind knows a request by these rotations, which leave `rdi` as it was.
fn request(number: u64, argument: u64) {
    let words = [number, argument, 0, 0, 0, 0];
    unsafe {
        asm!(
            "rol rdi, 3", "rol rdi, 13", "rol rdi, 61", "rol rdi, 51", "xchg rbx, rbx",
            in("rax") words.as_ptr(), inout("rdx") 0u64 => _,
        );
    }
}

// Has callgrind write what one repetition takes, and what several more take, each with its name.
fn count(side: &str, row: &str, items: u64, call: &mut dyn FnMut(u64) -> u64) {
    black_box(call(1));
    for reps in [1, 1 + REPETITIONS] {
        let name = CString::new(format!("{side}\t{row}\t{}", (reps - 1) * items));
        let name = name.expect("a row's name has no zero");
        request(ZERO, 0);
        black_box(call(reps));
        request(WRITE, name.as_ptr() as u64);
    }
}

/// Counts a row's own instructions, and those of the same in Rust, or of what its name says.
pub fn row(row: &mut Row) {
    let beside = if row.rust.is_some() { "Rust" } else { "beside" };
    count("own", &row.name, row.items, &mut row.call);
    match &mut row.rust {
        Some(call) => count(beside, &row.name, row.items, call),
        None => count(beside, &row.name, row.items, &mut row.copy),
    }
}
