//! Refreshes that are always in the list: each refusal, each order of two, and each form of the line, by a
//! text of its own, with what is printed for it. `|` stands for a tab.

mod lanes;
mod lines;

use crate::felica_standard::emulator::doors::Block;
use crate::hex::hex;

/// A text with its name, and what is to be printed for it.
pub struct Case {
    pub name: &'static str,
    pub text: String,
    pub told: String,
}

/// The image of most: a random store of eight blocks.
const EIGHT: &str = "card|0001|0000\nsvc|1|1049|8|0000\n";

/// A board with no lane filled.
const EMPTY: &str = "1|-|-\n2|-|-\n3|-|-\n4|-|-\n5|-|-\n6|-|-\n7|-|-\n8|-|-\n";

/// A case of these lines.
fn case(name: &'static str, text: impl Into<String>, told: impl Into<String>) -> Case {
    Case {
        name,
        text: text.into(),
        told: told.into(),
    }
}

/// The line that sets a lane's block in the store of this code.
fn set(code: u16, lane: u8, block: Block) -> String {
    format!("blk|{code:04X}|{}|{}\n", lane - 1, hex(&block))
}

/// The sample that README.md shows, and what it prints.
fn sample() -> Case {
    let text = include_str!("../../../../../samples/board.txt");
    let told = include_str!("../../../../../samples/board.out");
    case("sample: race 7", text, told)
}

/// All of them.
pub fn all() -> impl Iterator<Item = Case> {
    let cases = [
        lanes::sound(),
        lanes::refusals(),
        lanes::orders(),
        lines::stores(),
        lines::lines(),
        vec![sample()],
    ];
    cases.into_iter().flatten()
}
