//! What comes ahead of what, where both hold: a full table ahead of another block count, and an access mode that
//! the request does not have ahead of what the service would not allow. `|` stands for a tab.

/// Sixteen bytes.
const BLOCK: &str = "11111111111111111111111111111111";

/// A card that does not join, with the root and 63 services. One more, of another count than its number's store, is
/// refused with 20, and not with 24.
fn full() -> String {
    let service = |number: u32| format!("svc|1|{:04X}|1|0000\n", (number << 6) | 0x09);
    let services: String = (1..=63).map(service).collect();
    format!("card|0001|0000\n{services}svc|1|004B|2|0000\nR|O|0049|1|8000\n")
}

/// Writes to a read-only service in modes 0 to 7, and reads of it: from mode 2 on, and of a read from mode 1 on, A7 comes
/// ahead of the A5 of a read-only service.
fn read_only() -> String {
    let element = |mode: u32| format!("{:02X}00", 0x80 | (mode << 4));
    let write = |mode| format!("W|O|104B|1|{}|{BLOCK}\n", element(mode));
    let read = |mode| format!("R|O|104B|1|{}\n", element(mode));
    let writes: String = (0..8).map(write).collect();
    let reads: String = (0..8).map(read).collect();
    format!("card|0001|0000\nsvc|1|1049|2|0000\nsvc|1|104B|2|0000\n{writes}{reads}")
}

/// Modes 0 to 2 on each sort of service, one without cashback or with it: a read in mode 1 is A7 even there, and a
/// write in mode 2 is A7 where one in mode 1 is A5.
fn without_cashback() -> String {
    let sorts = ["1049", "108D", "10D1", "1113", "1155", "1157"];
    let image: String = sorts.map(|code| format!("svc|1|{code}|1|0000\n")).concat();
    let ask = |code| {
        let asked = |mode: u32| {
            let element = format!("{:02X}00", 0x80 | (mode << 4));
            format!("R|S|{code}|1|{element}\nW|S|{code}|1|{element}|{BLOCK}\n")
        };
        (0..3).map(asked).collect::<String>()
    };
    format!("card|0001|0000\n{image}{}", sorts.map(ask).concat())
}

/// The texts.
pub fn texts() -> impl Iterator<Item = Vec<u8>> {
    let texts = [full(), read_only(), without_cashback()];
    texts
        .into_iter()
        .map(|text| text.replace('|', "\t").into_bytes())
}
