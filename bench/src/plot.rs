//! A plot of the time that a packet takes, by its size: the plain copy, the Rust form, `decode`, in
//! place, and in spans. Both axes are logarithmic.

#[cfg(with_bytes)]
use crate::in_rust;
use crate::inputs::{MAX_PAYLOAD_LEN, size_name};
use crate::packets::{count_for, stream_of};
use crate::timing::best_of;
use crate::{library, spans};
use std::error::Error;
use std::fmt::Write;
use std::fs;

const SIZES: [usize; 12] = [
    16,
    64,
    256,
    1 << 10,
    4 << 10,
    16 << 10,
    64 << 10,
    256 << 10,
    1 << 20,
    4 << 20,
    16 << 20,
    64 << 20,
];
const PIECE: usize = 64 << 10;

// Each line's name and color, and how far its name stands below its end.
const LINES: [(&str, &str, f64); 5] = [
    ("plain copy", "#999999", 4.0),
    ("mysql_common", "#d55e00", -1.0),
    ("decode", "#0072b2", 8.0),
    ("in place", "#009e73", 4.0),
    ("in spans", "#cc79a7", 4.0),
];

// The picture, and its part in which lines are drawn.
const WIDTH: f64 = 720.0;
const HEIGHT: f64 = 440.0;
const LEFT: f64 = 70.0;
const RIGHT: f64 = 600.0;
const TOP: f64 = 20.0;
const BOTTOM: f64 = 390.0;
// The least and the most nanoseconds that are shown, as powers of ten.
const DECADES: (i32, i32) = (0, 8);

// The nanoseconds of a packet of this size, by each line; NaN where a line has none.
fn times(size: usize) -> Vec<f64> {
    let (stream, _) = stream_of(size as u64, size);
    let count = count_for(size) as f64;
    let (piece, limit) = (PIECE as u64, size as u64);
    let (copied, decoded, placed, spanned) =
        (stream.clone(), stream.clone(), stream.clone(), stream.clone());
    let mut out = Vec::with_capacity(PIECE);
    let mut calls: Vec<Box<dyn FnMut(u64) -> u64>> = vec![
        Box::new(move |reps| spans::copied(&copied, PIECE, &mut out, reps)),
        Box::new(move |reps| library::decode(&decoded, piece, limit, false, reps)),
        Box::new(move |reps| library::spans(&spanned, piece, limit, reps)),
    ];
    #[cfg(with_bytes)]
    calls.push(Box::new(move |reps| in_rust::decode(&stream, PIECE, size, false, reps)));
    if size < MAX_PAYLOAD_LEN {
        calls.push(Box::new(move |reps| library::place(&placed, piece, limit, reps)));
    }
    let mut best = best_of(&mut calls).into_iter().map(|time| time / count);
    let mut next =
        |is_there: bool| if is_there { best.next().unwrap_or(f64::NAN) } else { f64::NAN };
    let (copy, decode, in_spans) = (next(true), next(true), next(true));
    let rust = next(cfg!(with_bytes));
    let in_place = next(size < MAX_PAYLOAD_LEN);
    vec![copy, rust, decode, in_place, in_spans]
}

fn across(size: usize) -> f64 {
    let (least, most) = ((SIZES[0] as f64).ln(), (SIZES[SIZES.len() - 1] as f64).ln());
    LEFT + (RIGHT - LEFT) * ((size as f64).ln() - least) / (most - least)
}

fn down(nanos: f64) -> f64 {
    let (least, most) = (f64::from(DECADES.0), f64::from(DECADES.1));
    BOTTOM - (BOTTOM - TOP) * (nanos.log10().clamp(least, most) - least) / (most - least)
}

fn duration(power: i32) -> String {
    let digits = |power: i32| 10_i64.pow(power as u32);
    match power {
        ..3 => format!("{} ns", digits(power)),
        3..6 => format!("{} µs", digits(power - 3)),
        _ => format!("{} ms", digits(power - 6)),
    }
}

fn axes(svg: &mut String) -> std::fmt::Result {
    for power in DECADES.0..=DECADES.1 {
        let y = down(10_f64.powi(power));
        writeln!(svg, r##"<path d="M{LEFT} {y:.1}H{RIGHT}" stroke="#dddddd"/>"##)?;
        let x = LEFT - 6.0;
        writeln!(
            svg,
            r#"<text x="{x}" y="{:.1}" text-anchor="end">{}</text>"#,
            y + 4.0,
            duration(power)
        )?;
    }
    for size in SIZES {
        let (x, y) = (across(size), BOTTOM + 18.0);
        writeln!(
            svg,
            r#"<text x="{x:.1}" y="{y}" text-anchor="middle">{}</text>"#,
            size_name(size)
        )?;
    }
    let (x, y) = ((LEFT + RIGHT) / 2.0, BOTTOM + 40.0);
    writeln!(
        svg,
        r#"<text x="{x}" y="{y}" text-anchor="middle">bytes of a packet, in pieces of 64 KiB</text>"#
    )
}

fn line(
    svg: &mut String,
    name: &str,
    color: &str,
    label: f64,
    points: &[(f64, f64)],
) -> std::fmt::Result {
    let Some((x, y)) = points.last() else { return Ok(()) };
    let path: Vec<String> = points.iter().map(|(x, y)| format!("{x:.1} {y:.1}")).collect();
    writeln!(
        svg,
        r#"<path d="M{}" fill="none" stroke="{color}" stroke-width="2"/>"#,
        path.join("L")
    )?;
    writeln!(svg, r#"<text x="{:.1}" y="{:.1}" fill="{color}">{name}</text>"#, x + 8.0, y + label)
}

/// Measures all, and writes the picture as SVG.
pub fn draw(path: &str) -> Result<(), Box<dyn Error>> {
    let times: Vec<Vec<f64>> = SIZES.into_iter().map(times).collect();
    let mut svg = String::new();
    writeln!(
        svg,
        r#"<svg xmlns="http://www.w3.org/2000/svg" viewBox="0 0 {WIDTH} {HEIGHT}" font-family="sans-serif" font-size="11">"#
    )?;
    writeln!(svg, r#"<rect width="{WIDTH}" height="{HEIGHT}" fill="white"/>"#)?;
    axes(&mut svg)?;
    for (at, (name, color, label)) in LINES.into_iter().enumerate() {
        let points: Vec<(f64, f64)> = SIZES
            .into_iter()
            .zip(&times)
            .filter(|(_, times)| times[at].is_finite())
            .map(|(size, times)| (across(size), down(times[at])))
            .collect();
        line(&mut svg, name, color, label, &points)?;
    }
    svg.push_str("</svg>\n");
    fs::write(path, svg)?;
    Ok(())
}
