//! The list of messages meets what it is said to meet, in lines of the shape that `README.md` gives.

use uluvoli_oracle::counts::Counts;
use uluvoli_oracle::messages::{self, met};
use uluvoli_oracle::refusal::{NOT_BUILT, OUTPUT_SHORT};

/// The list to be stored meets all that there is to meet, is small, and is the same each time.
#[test]
fn stored() {
    let (length, seed) = messages::SMALL;
    let (texts, counts) = messages::all(length, seed);
    assert_eq!(met::unmet(&counts), Vec::<String>::new());
    let bytes = texts.concat().len();
    assert!((100_000..250_000).contains(&bytes), "{bytes}");
    assert_eq!(messages::all(length, seed).0, texts);
}

/// A list of any seed meets it all; one that is too short does not, and says what is left.
#[test]
fn all_met() {
    for seed in 2..5 {
        let (_, counts) = messages::all(300, seed);
        assert_eq!(met::unmet(&counts), Vec::<String>::new(), "{seed}");
    }
    let (_, counts) = messages::all(1, 2);
    assert!(met::unmet(&counts).contains(&"list: seventeen children".to_string()));
    assert!(met::unmet(&Counts::default()).len() > 80);
}

/// The number that a field spells.
fn number(field: &str) -> usize {
    usize::from_str_radix(field, 16).unwrap()
}

/// How many numbers of so many digits a field spells.
fn many(field: &str, digits: usize) -> usize {
    match field {
        "-" => 0,
        spelt => spelt.len() / digits,
    }
}

/// Every line has the fields of its kind. A message that is written has room, and what is read of one; the
/// refusals 5 and 8 are given where there is none, and where the card is spoilt.
#[test]
fn shape() {
    let (texts, _) = messages::all(200, 2);
    let (short, unbuilt) = (format!("!{OUTPUT_SHORT:02X}"), format!("!{NOT_BUILT:02X}"));
    for line in texts.iter().flat_map(|text| text.lines()) {
        let fields: Vec<&str> = line.split(' ').collect();
        match fields.as_slice() {
            ["C", parent, packet, card, room, told] => {
                assert_eq!(
                    (parent.len(), packet.len(), card.len()),
                    (4, 8, 2),
                    "{line}"
                );
                assert_eq!(*told == unbuilt, *card != "00", "{line}");
                assert!(
                    told.starts_with('!') || many(told, 2) <= number(room),
                    "{line}"
                );
                assert!(*told != short || number(room) < 67, "{line}");
            }
            ["I", nodes, card, room, told] => {
                let needed = 1 + 4 * many(nodes, 4);
                assert_eq!(*told == unbuilt, *card != "00", "{line}");
                assert!(told.starts_with('!') || many(told, 2) == needed, "{line}");
                assert!(told.starts_with('!') || number(room) >= needed, "{line}");
                assert!(*told != short || number(room) < needed, "{line}");
            }
            ["c", message, areas, services, more, ranges, codes] => {
                assert!(*more == "0" || *more == "1", "{line}");
                assert_eq!(
                    message.len() / 2,
                    3 + 2 * (many(ranges, 4) + many(codes, 4))
                );
                assert!(number(areas) >= many(ranges, 4) && number(services) >= many(codes, 4));
            }
            ["i", message, first, second, assigned, free] => {
                assert_eq!(
                    message.len() / 2,
                    1 + 2 * (many(assigned, 4) + many(free, 4))
                );
                assert!(number(first) >= many(assigned, 4) && number(second) >= many(free, 4));
            }
            ["c" | "i", _, _, _, told] => assert!(["!05", "!2F"].contains(told), "{line}"),
            _ => assert!("Tasml".contains(fields[0]), "{line}"),
        }
    }
}
