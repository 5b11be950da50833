//! A whole text, an image and then requests, and the lines that are printed for it.

pub mod fields;
pub mod line;

use crate::board::{self, LANES};
use crate::cause::{self, Cause};
use crate::hex::hex;
use crate::refusal::{self, Refusal};
use crate::request::{self, DONE, Request, Told};
use crate::tree::Card;
use line::{Asked, Image};

/// The length in bytes of the arena that is lent.
pub const ARENA: usize = 65_536;

/// The length in bytes of the staging or output that is lent: enough for every request.
const ROOM: usize = 65_536;

/// What is printed for a text.
pub fn replay(text: &[u8]) -> String {
    watched(text, |_, _| {})
}

/// The same, and each line after the image is shown with the card that it meets.
pub fn watched(text: &[u8], watch: impl FnMut(&Card, &[u8])) -> String {
    let mut lines = lines(text).peekable();
    match image(&mut lines) {
        Ok(card) => requests(card, lines.map(|(_, line)| line), watch),
        Err((number, refusal)) => format!("image\t{number}\t{refusal}\n"),
    }
}

/// A line with its number, from 1.
pub type Numbered<'a> = (usize, &'a [u8]);

/// The lines of a text without their LF. The LF that ends the text starts no further line.
pub fn lines(text: &[u8]) -> impl Iterator<Item = Numbered<'_>> {
    let whole = text.strip_suffix(b"\n").unwrap_or(text);
    let lines = whole.split(|&byte| byte == b'\n');
    // An empty text has no line at all; a single LF has one, which is empty.
    let count = if text.is_empty() { 0 } else { usize::MAX };
    (1..).zip(lines).take(count)
}

/// The card that the image lines make, up to the first request, which is left in place. If one
/// is refused, its number and the refusal's.
fn image<'a, L>(lines: &mut std::iter::Peekable<L>) -> Result<Card, (usize, Refusal)>
where
    L: Iterator<Item = Numbered<'a>>,
{
    let mut card = start(lines.next()).ok_or((1, refusal::IMAGE_LINE))?;
    while let Some((number, line)) = lines.next_if(|(_, line)| !line::is_request(line)) {
        take(&mut card, line).map_err(|refusal| (number, refusal))?;
    }
    Ok(card)
}

/// The card that the first line makes, if there is one and it is a `card` line.
pub fn start(first: Option<Numbered>) -> Option<Card> {
    match line::image(first?.1)? {
        Image::Card {
            system,
            version,
            join,
        } => Some(Card::new(system, version, join)),
        _ => None,
    }
}

/// Carries out one line of an image, the first one excepted.
pub fn take(card: &mut Card, line: &[u8]) -> Result<(), Refusal> {
    match line::image(line) {
        Some(Image::Add(addition)) => card.add(ARENA, addition),
        Some(Image::Block {
            code,
            number,
            block,
        }) => card.set_block(code, number, block),
        Some(Image::Card { .. }) | None => Err(refusal::IMAGE_LINE),
    }
}

/// What is printed for the first request and all lines after it: what the Rust tells, and the
/// cause as a last column.
fn requests<'a>(
    mut card: Card,
    lines: impl Iterator<Item = &'a [u8]>,
    mut watch: impl FnMut(&Card, &[u8]),
) -> String {
    let mut out = String::new();
    for (ordinal, line) in (1..).zip(lines) {
        watch(&card, line);
        out += &request(&mut card, ordinal, line);
    }
    out
}

/// What is printed for a line after the image.
pub fn request(card: &mut Card, ordinal: usize, line: &[u8]) -> String {
    answer(card, ordinal, line)
        .unwrap_or_else(|refusal| format!("{ordinal}\t!\t{refusal}\t-\t-\t-\n"))
}

/// The lines that a line after the image is told, or its refusal; 6 if it is no request or a malformed one.
fn answer(card: &mut Card, ordinal: usize, line: &[u8]) -> Result<String, Refusal> {
    match line::asked(line).ok_or(refusal::REQUEST_LINE)? {
        Asked::Request(request) => {
            let answer = request::serve(card, ARENA, ROOM, &request)?;
            let cause = cause::of(card, &request, answer.pair);
            Ok(told(ordinal, &answer, cause))
        }
        Asked::Board(code) => refresh(card, ordinal, code),
    }
}

/// What is printed for a refresh: the Rust reads the first eight blocks in a session, and its pair
/// is told as any read's; the board of what it read does not name the ordinal.
fn refresh(card: &mut Card, ordinal: usize, code: u16) -> Result<String, Refusal> {
    let read = Request::read_of(code, 0..LANES);
    let answer = request::serve(card, ARENA, ROOM, &read)?;
    if answer.pair != DONE {
        let cause = cause::of(card, &read, answer.pair);
        return Ok(told(ordinal, &answer, cause));
    }
    let (blocks, _) = answer.read.as_chunks();
    board::board(blocks)
}

/// The line of a request that was told a pair.
fn told(ordinal: usize, answer: &Told, cause: Option<Cause>) -> String {
    let (sf1, sf2) = answer.pair;
    let read = hex(&answer.read);
    let cause = cause.map_or("-".to_string(), |cause| cause.number().to_string());
    let place = match sf1 {
        0 => "-".to_string(),
        255 => "*".to_string(),
        _ => sf1.to_string(),
    };
    format!("{ordinal}\t{sf1:02X}\t{sf2:02X}\t{place}\t{read}\t{cause}\n")
}
