//! Comparing and timing the two sides of a row.

use crate::rows::Row;
use crate::sides::Side;
use std::ffi::c_long;
use std::time::Duration;

/// Rounds of a row; in each the two sides are timed one after the other.
const ROUNDS: usize = 15;

/// A round takes at least this long on both sides together.
const ROUND: Duration = Duration::from_millis(40);

/// Nanoseconds of a request: the median of the rounds, the quickest and the slowest.
pub struct Times {
    pub median: f64,
    pub least: f64,
    pub most: f64,
}

/// Serves the request once more on both sides; they have to tell, read and store the same.
fn compare(row: &Row, sides: &mut [Box<dyn Side + '_>; 2], turn: usize) {
    let [rust, library] = sides;
    let name = &row.name;
    assert_eq!(rust.ask(turn), row.pair, "the Rust's answer: {name}");
    assert_eq!(library.ask(turn), row.pair, "the library's answer: {name}");
    assert_eq!(rust.read(), library.read(), "the bytes read: {name}");
    assert_eq!(rust.stored(), library.stored(), "the stored blocks: {name}");
}

/// The processor time of this program so far. What else the machine does is not in it.
fn spent() -> Duration {
    unsafe extern "C" {
        safe fn clock() -> c_long;
    }
    Duration::from_micros(clock() as u64)
}

/// How long a side takes for so many requests.
fn time(row: &Row, side: &mut dyn Side, times: usize) -> Duration {
    let began = spent();
    for turn in 0..times {
        if side.ask(turn) != row.pair {
            panic!("an answer changed: {}", row.name);
        }
    }
    spent() - began
}

/// How long each side takes for so many requests.
fn round(row: &Row, sides: &mut [Box<dyn Side + '_>; 2], times: usize) -> [Duration; 2] {
    sides.each_mut().map(|side| time(row, side.as_mut(), times))
}

/// Times both sides of a row. They are compared before and after.
pub fn measure(row: &Row, sides: &mut [Box<dyn Side + '_>; 2]) -> [Times; 2] {
    for turn in 0..4 {
        compare(row, sides, turn);
    }
    let mut times = 2;
    while round(row, sides, times).iter().sum::<Duration>() < ROUND {
        times *= 2;
    }
    let rounds = [(); ROUNDS].map(|()| round(row, sides, times));
    compare(row, sides, 0);
    [0, 1].map(|side| {
        let mut took = rounds.map(|both| both[side].as_nanos() as f64 / times as f64);
        took.sort_by(f64::total_cmp);
        Times {
            median: took[ROUNDS / 2],
            least: took[0],
            most: took[ROUNDS - 1],
        }
    })
}
