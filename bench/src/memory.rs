//! The peak resident memory of a decode loop that 4 GiB go through, and of a loop over spans.
//!
//! Each measurement has a process of its own, which makes a stream of whole packets, takes it
//! again and again, and reads the peak that the system kept of it.

use crate::check::ends;
use crate::inputs::{Numbers, chunk_lens, made_up_framing, size_name};
use crate::library;
use std::env;
use std::error::Error;
use std::fs;
use std::process::Command;

/// How much goes through, at least.
const TOTAL: usize = 4 << 30;
/// What takes the stream, in pieces of how many bytes.
const DECODE: (&str, usize) = ("decode", 1460);
const SPANS: (&str, usize) = ("spans", 64 << 10);
/// The sizes of packets, and how many the stream has.
const CASES: [(&str, usize, usize); 3] =
    [(DECODE.0, 1 << 10, 4096), (DECODE.0, 20 << 20, 1), (SPANS.0, 64 << 20, 1)];
/// A loop over spans may take this many MiB.
const SPANS_MAY_TAKE: f64 = 1.0;

// The highest resident memory that this process had, in MiB.
fn peak() -> Result<f64, Box<dyn Error>> {
    let status = fs::read_to_string("/proc/self/status")?;
    let line = status.lines().find_map(|line| line.strip_prefix("VmHWM:"));
    let words = line.and_then(|rest| rest.split_whitespace().next());
    let kilobytes: f64 = words.ok_or("no peak is told")?.parse()?;
    Ok(kilobytes / 1024.0)
}

// A stream of packets of a size, and the answer to one decoding of it, or to its spans.
fn stream_of(size: usize, count: usize, in_spans: bool) -> (Vec<u8>, u64) {
    let framed_len: usize = chunk_lens(size).map(|len| 4 + len).sum();
    let mut numbers = Numbers::new(size as u64);
    let mut stream = Vec::with_capacity(count * framed_len);
    let mut want = 0u64;
    let mut id = 0;
    for _ in 0..count {
        let payload = stream.len() + 4;
        id = made_up_framing(id, size, &mut numbers, &mut stream);
        let ends = match in_spans {
            true => stream.last().map_or(0, |last| *last as u64),
            false => ends(&stream[payload..]),
        };
        want = want.wrapping_add(size as u64 + ends);
    }
    (stream, want)
}

/// Takes packets of a size, in this process.
pub fn measure(how: &str, size: usize, count: usize) -> Result<String, Box<dyn Error>> {
    let in_spans = how == SPANS.0;
    let piece = if in_spans { SPANS.1 } else { DECODE.1 };
    let (stream, want) = stream_of(size, count, in_spans);
    let before = peak()?;
    let reps = TOTAL.div_ceil(stream.len()) as u64;
    let got = match in_spans {
        true => library::spans(&stream, piece as u64, size as u64, reps),
        false => library::decode(&stream, piece as u64, size as u64, false, reps),
    };
    let after = peak()?;
    if got != want.wrapping_mul(reps) {
        return Err(format!("MISMATCH: answered {got}").into());
    }
    if in_spans && after - before >= SPANS_MAY_TAKE {
        return Err(format!("{:.2} MiB are taken by spans", after - before).into());
    }
    let held = stream.len() as f64 / (1 << 20) as f64;
    Ok(format!(
        "{:<44} {:>12.2} {:>9.2} {:>9.2} {:>9.2}",
        format!("{how}, packets of {} by {}", size_name(size), size_name(piece)),
        after,
        held,
        after - held,
        after - before,
    ))
}

/// Measures each size in a new process. Whether all went well is answered.
pub fn table() -> Result<bool, Box<dyn Error>> {
    println!("{:<44} {:>12} {:>9} {:>9} {:>9}", "4 GiB by", "peak MiB", "stream", "rest", "grown");
    let driver = env::current_exe()?;
    let mut passed = true;
    for (how, size, count) in CASES {
        let words = ["memory".to_string(), how.to_string(), size.to_string(), count.to_string()];
        passed &= Command::new(&driver).args(words).status()?.success();
    }
    Ok(passed)
}
