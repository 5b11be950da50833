//! Runs of blocks written to a cyclic store.

use super::Leaf;
use crate::felica_standard::emulator::doors::{Block, cyclic_write};
use crate::hex::hex_blocks;
use crate::random::Random;
use std::collections::BTreeSet;

/// Stores and runs have 0 to this many blocks.
const MOST_BLOCKS: usize = 5;

/// How often each shape is drawn for each pair of lengths.
const TIMES: usize = 7;

/// How the run's blocks follow from the store's.
#[derive(Clone, Copy)]
enum Shape {
    /// Nothing to do with the store.
    Free,
    /// The store's first blocks.
    Equal,
    /// The store's first blocks but for one byte.
    OneByteOff,
    /// The store's first blocks, then others.
    FirstPart,
    /// The store without its first block.
    Shifted,
    /// One block again and again, in the store too.
    Repeated,
    /// The store's blocks in reverse.
    Reversed,
}

const SHAPES: [Shape; 7] = [
    Shape::Free,
    Shape::Equal,
    Shape::OneByteOff,
    Shape::FirstPart,
    Shape::Shifted,
    Shape::Repeated,
    Shape::Reversed,
];

/// The C lines: `C store run storebytes runbytes sf2 afterbytes`, no line twice.
pub fn writes(random: &mut Random) -> Vec<Leaf> {
    let mut leaves = Vec::new();
    let mut seen = BTreeSet::new();
    for store in 0..=MOST_BLOCKS {
        for run in 0..=MOST_BLOCKS {
            for shape in SHAPES {
                for _ in 0..TIMES {
                    let (store, run) = draw(random, store, run, shape);
                    let leaf = one(&store, &run);
                    if seen.insert(leaf.line.clone()) {
                        leaves.push(leaf);
                    }
                }
            }
        }
    }
    leaves
}

/// A store and a run of these lengths and this shape; where the store has too few blocks to
/// take from, the rest of the run is free.
fn draw(random: &mut Random, store: usize, run: usize, shape: Shape) -> (Vec<Block>, Vec<Block>) {
    let mut blocks: Vec<Block> = (0..store).map(|_| random.block()).collect();
    let mut taken: Vec<Block> = match shape {
        Shape::Free => Vec::new(),
        Shape::Equal | Shape::OneByteOff => blocks.clone(),
        Shape::FirstPart => blocks[..random.below(store.max(1))].to_vec(),
        Shape::Shifted => blocks.iter().skip(1).copied().collect(),
        Shape::Repeated => {
            let block = random.block();
            blocks.fill(block);
            vec![block; run]
        }
        Shape::Reversed => blocks.iter().rev().copied().collect(),
    };
    taken.truncate(run);
    while taken.len() < run {
        taken.push(random.block());
    }
    if let (Shape::OneByteOff, true) = (shape, run > 0) {
        let byte = random.below(run * 16);
        taken[byte / 16][byte % 16] ^= 1 << random.below(8);
    }
    (blocks, taken)
}

/// The line of one run.
fn one(store: &[Block], run: &[Block]) -> Leaf {
    let told = cyclic_write(store, run);
    let (sf2, after, met) = match &told {
        Ok(Some(after)) => (0, after.as_slice(), "C stored"),
        Ok(None) => (0, store, "C unchanged"),
        Err(sf2) => (*sf2, store, "C too long"),
    };
    let line = format!(
        "C {:02X} {:02X} {} {} {sf2:02X} {}",
        store.len(),
        run.len(),
        hex_blocks(store),
        hex_blocks(run),
        hex_blocks(after),
    );
    Leaf::new(line, met)
}
