//! Times the library of workloads against a plain copy of the same bytes in the same steps, and
//! against the same work in plain Rust, and checks each answer.
//!
//! A workload is timed over 1 + n repetitions, less the time of one, so that what is made once a
//! call isn't counted; workload, copy and Rust take turns, and the best of several rounds stands.
//!
//! `driver` runs all, `driver WORD` the rows whose name holds the word. Before the word,
//! `--ratios FILE` writes the ratios, and `--against FILE` lists the rows that are a fifth slower
//! than those of such a file. `driver memory` is the measurement of memory alone,
//! `driver plot FILE` draws times by packet size, and `driver instructions WORD` counts instructions
//! under callgrind.
#![cfg_attr(not(with_bytes), allow(unused))]

/// The same work in Rust, where the crate `bytes` was found.
#[cfg(with_bytes)]
macro_rules! in_rust {
    ($call:expr) => {
        Some(Box::new($call) as Box<dyn Fn(u64) -> u64>)
    };
}
#[cfg(not(with_bytes))]
macro_rules! in_rust {
    ($call:expr) => {
        None
    };
}

/// A function in Rust, where the crate `bytes` was found.
#[cfg(with_bytes)]
macro_rules! plain {
    ($call:expr) => {
        Some($call as fn(&[u8], u64) -> u64)
    };
}
#[cfg(not(with_bytes))]
macro_rules! plain {
    ($call:expr) => {
        None
    };
}

#[cfg(with_bytes)]
mod cargo_crate;
mod check;
mod columns;
mod connections;
mod counts;
mod fields;
#[cfg(with_bytes)]
mod in_rust;
mod inputs;
mod library;
mod memory;
mod packets;
mod place;
mod plot;
mod rows;
mod sessions;
mod shared;
mod spans;
mod streams;
mod summary;
mod timing;
mod typed;

use crate::summary::Run;
use crate::timing::Row;
use std::env;
use std::error::Error;
use std::fs;
use std::process::ExitCode;

// The processor's name, and how many of it there are.
fn machine() -> Result<String, Box<dyn Error>> {
    let cpus = fs::read_to_string("/proc/cpuinfo")?;
    let mut names =
        cpus.lines().filter_map(|line| line.strip_prefix("model name")?.split_once(": "));
    let name = names.next().map_or("an unnamed processor", |(_, name)| name);
    Ok(format!("{name}, {} processors", 1 + names.count()))
}

// The rows whose name holds the word.
fn rows_of(word: &str) -> impl Iterator<Item = Row> {
    let mut rows = Vec::new();
    packets::rows(&mut rows);
    place::rows(&mut rows);
    spans::rows(&mut rows);
    streams::rows(&mut rows);
    sessions::rows(&mut rows);
    fields::rows(&mut rows);
    columns::rows(&mut rows);
    typed::rows(&mut rows);
    rows::rows(&mut rows);
    connections::rows(&mut rows);
    #[cfg(with_bytes)]
    cargo_crate::rows(&mut rows);
    rows.into_iter().filter(move |row| row.name.contains(word))
}

// Measures the rows whose name holds the word. Whether all answers were right is answered.
fn measure_rows(word: &str, run: &mut Run) -> bool {
    println!(
        "{:<44} {:>12} {:>8} {:>8} {:>8} {:>7}",
        "workload", "ns an item", "GB/s", "of copy", "of Rust", "spread"
    );
    let mut passed = true;
    for mut row in rows_of(word) {
        match timing::measure(&mut row) {
            Ok(took) => {
                let of_rust = took.of_rust.map_or(String::new(), |ratio| format!("{ratio:.2}"));
                println!(
                    "{:<44} {:>12.2} {:>8.2} {:>8.2} {of_rust:>8} {:>7.2}",
                    row.name, took.nanos, took.gigabytes, took.of_copy, took.spread
                );
                run.push(row.name, took);
            }
            Err(why) => {
                passed = false;
                println!("{:<44} MISMATCH: {why}", row.name);
            }
        }
    }
    passed
}

// What the calls of each form give of some bytes, when they are made from a second place.
const ELSEWHERE: [(&[u8], u64); 7] = [
    (b"abc", 21),
    (b"\x03\0\0\0abc\x02\0\0\x01de", 5),
    (b"\x03\0\0\0abc", 7),
    (b"\x03ab\0", 12),
    (b"\x03abc", 10),
    (b"\x03abc", 7),
    (b"\0\0\0\0\0\0\x0c\0\0\0\0\0\0\xfd\0\0\0\0\0", 253),
];

fn are_answered_elsewhere() -> bool {
    (0..).zip(ELSEWHERE).all(|(form, (bytes, want))| library::elsewhere(bytes, form) == want)
}

// All rows, or those that hold a word, with what is to be done with their ratios.
fn rows(words: &[&str]) -> Result<bool, Box<dyn Error>> {
    let (mut word, mut ratios, mut against) = (None, None, None);
    let mut words = words.iter().copied();
    while let Some(each) = words.next() {
        match each {
            "--ratios" => ratios = Some(words.next().ok_or("--ratios wants a file")?),
            "--against" => against = Some(words.next().ok_or("--against wants a file")?),
            each if word.is_none() => word = Some(each),
            _ => return Err("at most one word is taken".into()),
        }
    }
    println!("{}\n", machine()?);
    if !are_answered_elsewhere() {
        return Err("MISMATCH: a call from a second place".into());
    }
    let mut run = Run::default();
    let mut passed = measure_rows(word.unwrap_or(""), &mut run);
    run.print();
    if let Some(path) = ratios {
        run.write(path)?;
    }
    if let Some(path) = against {
        passed &= run.is_as_fast_as(path)?;
    }
    if word.is_none() {
        println!();
        passed &= memory::table()?;
    }
    Ok(passed)
}

fn run(words: &[&str]) -> Result<bool, Box<dyn Error>> {
    match words {
        ["memory"] => memory::table(),
        ["memory", how, size, count] => {
            println!("{}", memory::measure(how, size.parse()?, count.parse()?)?);
            Ok(true)
        }
        ["plot", path] => plot::draw(path).map(|()| true),
        ["instructions", word] => {
            rows_of(word).for_each(|mut row| counts::row(&mut row));
            Ok(true)
        }
        words => rows(words),
    }
}

fn main() -> ExitCode {
    let words: Vec<String> = env::args().skip(1).collect();
    let words: Vec<&str> = words.iter().map(String::as_str).collect();
    match run(&words) {
        Ok(true) => ExitCode::SUCCESS,
        Ok(false) => ExitCode::FAILURE,
        Err(why) => {
            eprintln!("{why}");
            ExitCode::FAILURE
        }
    }
}
