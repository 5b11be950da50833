//! The smallest text that still shows something: lines, then bytes, are left out.

use std::io;

/// Tells which of some texts is the first that shows it, if one does.
pub type Shows<'a> = dyn FnMut(&[Vec<u8>]) -> io::Result<Option<usize>> + 'a;

/// No more than this many texts are tried for one size of what is left out.
const MOST_TRIES: usize = 4_000;

/// Texts are tried by so many at once.
const AT_ONCE: usize = 250;

/// A text made of the given one, from which no line and hardly a byte can be left out.
pub fn smallest(text: Vec<u8>, shows: &mut Shows) -> io::Result<Vec<u8>> {
    let lines = text.split_inclusive(|&byte| byte == b'\n');
    let lines = fewest(lines.map(<[u8]>::to_vec).collect(), shows)?;
    let bytes = lines.concat().into_iter().map(|byte| vec![byte]).collect();
    Ok(fewest(bytes, shows)?.concat())
}

/// As few of the parts as still show it: halves are left out, then quarters, and so on.
fn fewest(mut parts: Vec<Vec<u8>>, shows: &mut Shows) -> io::Result<Vec<Vec<u8>>> {
    let mut size = parts.len();
    while size > 0 && parts.len() / size < MOST_TRIES {
        match without(&parts, size, shows)? {
            Some(at) => {
                let end = parts.len().min(at + size);
                parts.drain(at..end);
                size = size.min(parts.len());
            }
            None => size /= 2,
        }
    }
    Ok(parts)
}

/// Where parts, so many in a row, can be left out.
fn without(parts: &[Vec<u8>], size: usize, shows: &mut Shows) -> io::Result<Option<usize>> {
    let places: Vec<usize> = (0..parts.len()).step_by(size).collect();
    for some in places.chunks(AT_ONCE) {
        let texts: Vec<Vec<u8>> = some
            .iter()
            .map(|&at| [&parts[..at], &parts[parts.len().min(at + size)..]].concat())
            .map(|parts| parts.concat())
            .collect();
        if let Some(at) = shows(&texts)? {
            return Ok(Some(some[at]));
        }
    }
    Ok(None)
}
