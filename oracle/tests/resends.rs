//! A write that is sent twice does no harm where the premises hold; one that does is found out; and
//! both premises are told apart.

use uluvoli_oracle::counts::Counts;
use uluvoli_oracle::random::Random;
use uluvoli_oracle::request::{Request, Told};
use uluvoli_oracle::resends::{HARM_ONCE_IN, premises, send, serve};
use uluvoli_oracle::tree::Card;

/// No write does harm where both premises hold, and many do where one fails.
#[test]
fn harmless() {
    let (mut random, mut counts) = (Random::new(1), Counts::default());
    assert_eq!(send(1_000, &mut random, serve, &mut counts), None);
    assert_eq!(counts.of("writes accepted, and sent again"), 1_000);
    assert!(counts.of("both premises hold: accepted, and nothing changed") > 300);
    assert!(counts.of("harm") * HARM_ONCE_IN >= 1_000);
    for premise in ["a purse block is named twice", "a ring has two runs"] {
        assert!(counts.of(&format!("{premise}: changed")) > 10, "{premise}");
    }
    assert!(counts.of("a purse block is named twice: not accepted") > 10);
}

/// A card that turns a block with every accepted write is found out.
#[test]
fn harmful() {
    fn turning(card: &mut Card, request: &Request) -> Option<Told> {
        let told = serve(card, request)?;
        let code = *request.codes.first()?;
        let turned = card.arena().first().map(|block| block.map(|byte| !byte));
        turned.map(|block| card.set_block(code, 0, block));
        Some(told)
    }
    let (mut random, mut counts) = (Random::new(1), Counts::default());
    assert!(send(1_000, &mut random, turning, &mut counts).is_some());
}

/// A write of these elements, each an index among the codes and a block.
fn write(codes: &[u16], elements: &[(u8, u8)]) -> Request {
    Request {
        write: true,
        open: true,
        codes: codes.to_vec(),
        count: elements.len() as u32,
        list: elements
            .iter()
            .flat_map(|&(index, block)| [0x80 | index, block])
            .collect(),
        data: vec![0; 16 * elements.len()],
    }
}

/// The premises go by number, whichever the codes are; random blocks may come twice, two codes of a
/// ring may be one run.
#[test]
fn by_number() {
    let holds = |codes: &[u16], elements: &[(u8, u8)]| premises(&write(codes, elements));
    assert_eq!(holds(&[0x1095, 0x1093], &[(0, 0), (1, 1)]), (true, true));
    assert_eq!(holds(&[0x1095, 0x1093], &[(0, 0), (1, 0)]), (false, true));
    assert_eq!(
        holds(&[0x1095, 0x1049], &[(0, 0), (1, 0), (0, 0)]),
        (false, true)
    );
    assert_eq!(
        holds(&[0x10CD, 0x10CC], &[(0, 0), (1, 0), (0, 0)]),
        (true, true)
    );
    assert_eq!(
        holds(&[0x10CD, 0x1049], &[(0, 0), (1, 0), (0, 0)]),
        (true, false)
    );
    assert_eq!(
        holds(&[0x1049, 0x1048], &[(0, 0), (1, 0), (0, 0)]),
        (true, true)
    );
}
