//! The same requests through the Rust emulator and through libhandset.a: `bench/run` prints the table.
//!
//! `rows` prints the names of the rows, `count ROW SIDE N` serves the requests of one row N times on one side (0 the
//! Rust, 1 the library) and does nothing else that grows with N, `table [COUNTS]` measures and prints the table. COUNTS
//! has the instructions of a request, a line for each row: the Rust's, the library's, `-` for unknown.

mod measure;
mod rows;
mod sides;
mod table;

use rows::Row;
use sides::{Library, Rust, Side};
use std::process::ExitCode;

/// Both sides of a row.
fn sides(row: &Row) -> [Box<dyn Side + '_>; 2] {
    [Box::new(Rust::new(row)), Box::new(Library::new(row))]
}

/// Serves the requests of a row on one side, as often as is said.
fn count(row: &Row, side: usize, times: usize) {
    let [rust, library] = sides(row);
    let mut side = if side == 0 { rust } else { library };
    for turn in 0..times {
        assert_eq!(side.ask(turn), row.pair, "{}", row.name);
    }
}

fn main() -> ExitCode {
    let words: Vec<String> = std::env::args().skip(1).collect();
    let words: Vec<&str> = words.iter().map(String::as_str).collect();
    let number = |word: &str| word.parse::<usize>().expect("a number");
    let rows = rows::all();
    match words[..] {
        ["rows"] => rows.iter().for_each(|row| println!("{}", row.name)),
        ["count", row, side, times] => count(&rows[number(row)], number(side), number(times)),
        ["table"] => table::print(&rows, ""),
        ["table", counts] => {
            let counts = std::fs::read_to_string(counts).expect("the counts can be read");
            table::print(&rows, &counts);
        }
        _ => {
            eprintln!("usage: uluvoli-bench rows | count ROW SIDE N | table [COUNTS]");
            return ExitCode::from(2);
        }
    }
    ExitCode::SUCCESS
}
