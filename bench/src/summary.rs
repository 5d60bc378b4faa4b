//! What the rows of a run say together, and beside a stored run.

use crate::timing::Measured;
use std::collections::HashMap;
use std::error::Error;
use std::fs;
use std::io::Write;

/// A row is slower than it was where its ratio has risen by so much.
const SLOWER: f64 = 1.2;

/// The rows of a run, by their names.
#[derive(Default)]
pub struct Run(Vec<(String, Measured)>);

impl Run {
    pub fn push(&mut self, name: String, measured: Measured) {
        self.0.push((name, measured));
    }

    /// Prints the geometric mean of the ratios to Rust, of all rows and of those in place, and the
    /// rows above 1.
    pub fn print(&self) {
        let of_rust = |wanted: fn(&str) -> bool| -> Vec<(&str, f64)> {
            let rows = self.0.iter().filter(|(name, _)| wanted(name));
            rows.filter_map(|(name, row)| Some((name.as_str(), row.of_rust?))).collect()
        };
        let all = of_rust(|_| true);
        if all.is_empty() {
            return;
        }
        let in_place = of_rust(|name| name.starts_with("front_packet"));
        println!("\ngeometric mean of the ratios to Rust: {:.2} of {} rows", mean(&all), all.len());
        if !in_place.is_empty() {
            println!("of packets in place alone: {:.2}", mean(&in_place));
        }
        for (name, ratio) in all.iter().filter(|(_, ratio)| *ratio > 1.0) {
            println!("above 1: {name} {ratio:.2}");
        }
    }

    /// Writes each row's name and ratio, a line each.
    pub fn write(&self, path: &str) -> Result<(), Box<dyn Error>> {
        let mut file = fs::File::create(path)?;
        for (name, row) in &self.0 {
            writeln!(file, "{name}\t{:.3}", row.ratio())?;
        }
        Ok(())
    }

    /// Prints each row that is a fifth slower than it was in a stored run. Whether there is none.
    pub fn is_as_fast_as(&self, path: &str) -> Result<bool, Box<dyn Error>> {
        let text = fs::read_to_string(path)?;
        let mut stored = HashMap::new();
        for line in text.lines() {
            let (name, ratio) = line.split_once('\t').ok_or("a line without a ratio")?;
            stored.insert(name, ratio.parse::<f64>()?);
        }
        let mut is_as_fast = true;
        println!();
        for (name, row) in &self.0 {
            match stored.get(name.as_str()) {
                Some(before) if row.ratio() > before * SLOWER => {
                    is_as_fast = false;
                    println!("slower: {name} {:.2}, was {before:.2}", row.ratio());
                }
                _ => {}
            }
        }
        if is_as_fast {
            println!("no row is a fifth slower than in {path}");
        }
        Ok(is_as_fast)
    }
}

fn mean(rows: &[(&str, f64)]) -> f64 {
    let logs: f64 = rows.iter().map(|(_, ratio)| ratio.ln()).sum();
    (logs / rows.len() as f64).exp()
}
