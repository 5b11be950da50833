//! `texts N SEED DIR`: writes replay texts as DIR/data/0001.in, .. and what `test_traces` prints for them
//! as DIR/stdout. `texts N SEED --counts` prints what they met, and fails if they did not meet all
//! that replay can say; `texts N SEED` prints for each text a line `text NUMBER BYTES BYTES`, then
//! its bytes, then those printed for it; `--small` in place of `N SEED` is the list that is stored.
//! `texts --inspect ..` does all this for `inspect` and `test_inspect`, `texts --salvage ..` for
//! `salvage`.

use std::io::{self, Write};
use uluvoli_oracle::beside::heading;
use uluvoli_oracle::files;
use uluvoli_oracle::program::{self, Wanted};

/// Does what the words ask for.
fn main() -> io::Result<()> {
    let (filter, words) = program::filter();
    let words = program::words("texts [--inspect | --salvage]", filter.small, &words)?;
    let (texts, counts) = (filter.all)(words.length, words.seed);
    let mut out = io::BufWriter::new(io::stdout().lock());
    match words.wanted {
        Wanted::Print => {
            for (number, text) in (1..).zip(&texts) {
                let (input, output) = (&text.input, text.output.as_bytes());
                writeln!(out, "text {number} {} {}", input.len(), output.len())?;
                out.write_all(input)?;
                out.write_all(output)?;
            }
        }
        Wanted::Folder(folder) => {
            let inputs = texts.iter().map(|text| text.input.as_slice());
            files::numbered(&folder.join("data"), "in", inputs)?;
            let printed: String = (1..)
                .zip(&texts)
                .map(|(number, text)| heading(number) + &text.output)
                .collect();
            std::fs::write(folder.join("stdout"), printed)?;
            writeln!(out, "{} texts", texts.len())?;
        }
        Wanted::Counts => {
            write!(out, "{counts}")?;
            out.flush()?;
            program::all_met(&(filter.unmet)(&counts))?;
        }
    }
    out.flush()
}
