//! Writes that are sent twice, with a read of every block after each: one of every kind that does no
//! harm, and those that do since a purse block is named twice or a ring has two runs.

/// A lane, a purse of two blocks with three services, a ring of three, with `|` for a tab.
const IMAGE: &str = "card|0001|0000\nsvc|1|1049|1|0000\nsvc|1|1095|2|0000\nsvc|1|1093|2|0000\n\
                     svc|1|1091|2|0000\nsvc|1|10CD|3|0000\n";

/// Reads every block.
const READ: &str = "R|O|1049109510CD|6|800081008101820082018202\n";

/// The codes, count and list of a write, and what its elements bring.
type Write = (&'static str, usize, &'static str, Vec<String>);

/// A purse of that much, its cashback and its last execution id.
fn purse(value: u8, back: u8, id: u8) -> String {
    format!("{value:02X}000000{back:02X}00000000000000{id:02X}000000")
}

/// A block of one byte.
fn block(byte: u8) -> String {
    format!("{byte:02X}").repeat(16)
}

/// Every kind at once; a purse block named twice through two services, by one with a lane between,
/// and directly; a ring in two runs.
fn writes() -> [Write; 5] {
    let every = vec![
        purse(10, 0, 1),
        block(8),
        block(9),
        purse(5, 0, 2),
        block(5),
        block(6),
    ];
    let twice = vec![purse(10, 0, 1), purse(10, 0, 2)];
    let parted = vec![purse(10, 0, 1), block(9), purse(10, 0, 2)];
    let lowered = vec![purse(90, 0, 0), purse(80, 0, 0)];
    let turned = vec![block(5), block(9), block(6)];
    [
        ("10951049109310CD", 6, "800081008100820183008300", every),
        ("10951093", 2, "80008100", twice),
        ("10951049", 3, "800081008000", parted),
        ("1091", 2, "80008000", lowered),
        ("10CD1049", 3, "800081008000", turned),
    ]
}

/// A text for each of them.
pub fn texts() -> impl Iterator<Item = Vec<u8>> {
    let purses = [100, 50].map(|value| purse(value, 0, 0));
    let purses = (0..)
        .zip(purses)
        .map(|(at, block)| format!("blk|1095|{at}|{block}\n"));
    let ring = (0..3).map(|at| format!("blk|10CD|{at}|{}\n", block(at + 1)));
    let image: String = purses.chain(ring).collect();
    writes().into_iter().map(move |(codes, count, list, data)| {
        let write = format!("W|O|{codes}|{count}|{list}|{}\n", data.concat());
        let text = format!("{IMAGE}{image}{write}{READ}{write}{READ}");
        text.replace('|', "\t").into_bytes()
    })
}
