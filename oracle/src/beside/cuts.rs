//! How a text comes through a pipe: in pieces.

use crate::random::Random;

/// No more pieces than these, since each is waited for; what is left comes in one.
const MOST: usize = 300;

/// A text in pieces: of one byte, of two, of 65,536, cut before and after each LF, or cut anywhere up
/// to seven times.
pub fn pieces(random: &mut Random, text: &[u8]) -> Vec<Vec<u8>> {
    let mut ends: Vec<usize> = match random.below(5) {
        0 => every(1, text),
        1 => every(2, text),
        2 => every(65_536, text),
        3 => beside_lf(text),
        _ => anywhere(random, text),
    };
    ends.truncate(MOST);
    ends.push(text.len());
    let starts = [0].into_iter().chain(ends.clone());
    starts
        .zip(ends)
        .map(|(start, end)| text[start..end].to_vec())
        .collect()
}

/// Cuts after so many bytes, again and again.
fn every(size: usize, text: &[u8]) -> Vec<usize> {
    (1..)
        .map(|n| n * size)
        .take_while(|&end| end < text.len())
        .collect()
}

/// Cuts before and after each LF.
fn beside_lf(text: &[u8]) -> Vec<usize> {
    let lf = text.iter().enumerate().filter(|&(_, &byte)| byte == b'\n');
    lf.flat_map(|(at, _)| [at, at + 1]).collect()
}

/// Up to seven cuts.
fn anywhere(random: &mut Random, text: &[u8]) -> Vec<usize> {
    let many = random.below(8);
    let mut ends: Vec<usize> = (0..many).map(|_| random.below(text.len() + 1)).collect();
    ends.sort_unstable();
    ends
}

#[cfg(test)]
mod tests {
    use super::*;

    /// The pieces are the text, whichever way it is cut.
    #[test]
    fn pieces_are_the_text() {
        let mut random = Random::new(1);
        for text in [&b""[..], b"\n", b"a", b"card\t0001\t0000\n\nR", &[10; 700]] {
            for _ in 0..50 {
                assert_eq!(pieces(&mut random, text).concat(), text);
            }
        }
    }

    /// Each way of cutting cuts where it says.
    #[test]
    fn cuts_are_where_they_should_be() {
        assert_eq!(every(1, b"abc"), [1, 2]);
        assert_eq!(every(2, b"abcde"), [2, 4]);
        assert_eq!(beside_lf(b"a\nb\n"), [1, 2, 3, 4]);
    }
}
