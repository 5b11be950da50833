//! The table as text.

use crate::measure::{self, Times};
use crate::rows::Row;
use crate::sides;

const HEADING: &str = "\
| request | Rust, ns | Uluvoli, ns | times as fast | Rust, instructions | Uluvoli, instructions | times as few |
|---|---|---|---|---|---|---|";

/// A number with commas.
fn grouped(number: f64) -> String {
    let digits = format!("{number:.0}");
    let mut text = String::new();
    for (at, digit) in digits.chars().enumerate() {
        if at > 0 && (digits.len() - at) % 3 == 0 {
            text.push(',');
        }
        text.push(digit);
    }
    text
}

/// The median and the spread.
fn spread(times: &Times) -> String {
    let [median, least, most] = [times.median, times.least, times.most].map(grouped);
    format!("{median} ({least} to {most})")
}

/// The instructions of a row, and their ratio.
fn instructions(counts: &str) -> String {
    let numbers: Vec<f64> = counts
        .split(' ')
        .filter_map(|word| word.parse().ok())
        .collect();
    match numbers[..] {
        [rust, library] => {
            format!(
                "{} | {} | {:.2}",
                grouped(rust),
                grouped(library),
                rust / library
            )
        }
        _ => "- | - | -".to_string(),
    }
}

/// Measures every row and prints it; a row whose answers differ ends the run.
pub fn print(rows: &[Row], counts: &str) {
    println!("{HEADING}");
    let mut counts = counts.lines();
    for row in rows {
        let [rust, library] = measure::measure(row, &mut sides(row));
        let ratio = rust.median / library.median;
        let counted = instructions(counts.next().unwrap_or_default());
        let (name, rust, library) = (&row.name, spread(&rust), spread(&library));
        println!("| {name} | {rust} | {library} | {ratio:.2} | {counted} |");
    }
}
