//! A card grown addition by addition: our records, and the Rust's own tree of them.
//!
//! Each addition is tried on a Rust tree that is built anew from the records so far and the new
//! one (`rust`). The Rust's error is the refusal; 7, 20, 21, 22, 24 and 28, which the Rust does not
//! have, are decided here, in the order of docs/RULES.md. A refused addition leaves the card as it was:
//! the tree it was tried on is dropped. The Rust itself keeps a node that it refuses with 19.

mod rust;

use crate::felica_standard::emulator::doors::{self, Block};
use crate::felica_standard::emulator::{DirectoryEntry, EmulatedSystem, LimitPurseProperty};
use crate::felica_standard::{BLOCK_SIZE, ServiceCode};
use crate::refusal::{self, Refusal};

/// A card has at most this many nodes, the root included.
pub const MOST_NODES: usize = 64;

/// The depth of the deepest node.
pub const DEEPEST: u32 = 8;

/// A card uses at most this many blocks of an arena.
pub const MOST_BLOCKS: u32 = 4_096;

/// One record: an area or a service, at its depth below the root.
#[derive(Clone, Copy, Debug, PartialEq, Eq)]
pub struct Node {
    pub depth: u32,
    pub code: u16,
    pub version: u16,
    pub entry: Entry,
}

/// What a record is. A service keeps the count it was added with, also if it joined a store.
#[derive(Clone, Copy, Debug, PartialEq, Eq)]
pub enum Entry {
    Area {
        end: u16,
    },
    Service {
        blocks: u32,
        limit: Option<LimitPurseProperty>,
    },
}

/// What a caller asks a card to take.
#[derive(Clone, Copy, Debug, PartialEq, Eq)]
pub enum Addition {
    Area {
        depth: u32,
        code: u16,
        end: u16,
        version: u16,
    },
    Service {
        depth: u32,
        code: u16,
        blocks: u32,
        version: u16,
    },
    Limit(LimitPurseProperty),
}

/// A card: the accepted records in order, the root first, and the Rust's tree of them, which
/// holds the stored blocks.
pub struct Card {
    system: u16,
    version: u16,
    /// Whether a service may join a store of another count, as the Rust has it.
    join: bool,
    nodes: Vec<Node>,
    /// The code of the service that made each store, in the order of the arena.
    stores: Vec<u16>,
    used: u32,
    rust: EmulatedSystem,
}

impl Clone for Card {
    /// A card of its own with the same records and the same blocks.
    fn clone(&self) -> Self {
        let rust = self.built(&self.nodes).expect("accepted records build");
        self.carry(&rust);
        Card {
            nodes: self.nodes.clone(),
            stores: self.stores.clone(),
            rust,
            ..*self
        }
    }
}

/// How many blocks of an arena of this many bytes a card can use.
pub fn usable(arena: usize) -> u32 {
    (arena / BLOCK_SIZE).min(MOST_BLOCKS as usize) as u32
}

impl Card {
    /// A card with a root alone, whose services may join a store of another count or not.
    pub fn new(system: u16, version: u16, join: bool) -> Self {
        let root = Node {
            depth: 0,
            code: 0x0000,
            version: 0x0000,
            entry: Entry::Area { end: 0xFFFE },
        };
        let nodes = vec![root];
        let rust = rust::build(system, version, &nodes).expect("a root alone is a valid system");
        Card {
            system,
            version,
            join,
            nodes,
            stores: Vec::new(),
            used: 0,
            rust,
        }
    }

    /// Takes one addition, or refuses it and stays as it was. The arena is the length in bytes
    /// of the one lent to the call; only a service asks for it.
    pub fn add(&mut self, arena: usize, addition: Addition) -> Result<(), Refusal> {
        match addition {
            Addition::Area {
                depth,
                code,
                end,
                version,
            } => {
                let entry = Entry::Area { end };
                let node = Node {
                    depth,
                    code,
                    version,
                    entry,
                };
                let rust = self.tried(node)?;
                self.take(node, rust);
                Ok(())
            }
            Addition::Service {
                depth,
                code,
                blocks,
                version,
            } => {
                let limit = None;
                let entry = Entry::Service { blocks, limit };
                let node = Node {
                    depth,
                    code,
                    version,
                    entry,
                };
                self.add_service(arena, node, blocks)
            }
            Addition::Limit(limit) => self.set_limit(limit),
        }
    }

    /// Takes a service: 7 first, then what every node meets, then 24 or 22. The first of a number
    /// makes a store; a later one joins it, and its own count is ignored if the card joins.
    fn add_service(&mut self, arena: usize, node: Node, blocks: u32) -> Result<(), Refusal> {
        let Some(unused) = usable(arena).checked_sub(self.used) else {
            return Err(refusal::ARENA_SHORT);
        };
        let rust = self.tried(node)?;
        let store = self.store(node.code);
        if !self.join && store.is_some_and(|count| count != blocks) {
            return Err(refusal::COUNTS_DIFFER);
        }
        let joins = store.is_some();
        if !joins && unused < blocks {
            return Err(refusal::NO_BLOCKS_LEFT);
        }
        self.take(node, rust);
        if !joins {
            self.stores.push(node.code);
            self.used += blocks;
        }
        Ok(())
    }

    /// Gives a limit to the node added last, in place of an earlier one.
    fn set_limit(&mut self, new: LimitPurseProperty) -> Result<(), Refusal> {
        match self.nodes.last_mut() {
            Some(Node {
                entry: Entry::Service { limit, .. },
                ..
            }) => *limit = Some(new),
            _ => return Err(refusal::LIMIT_ON_NO_SERVICE),
        }
        let rust = self.built(&self.nodes).expect("a limit changes no range");
        self.replace(rust);
        Ok(())
    }

    /// The Rust's tree with one more node: 20, then 21, then the Rust's own error.
    fn tried(&self, node: Node) -> Result<EmulatedSystem, Refusal> {
        if self.nodes.len() >= MOST_NODES {
            return Err(refusal::TABLE_FULL);
        }
        if self.parent(node.depth).is_none() {
            return Err(refusal::NO_PARENT);
        }
        let mut nodes = self.nodes.clone();
        nodes.push(node);
        self.built(&nodes)
    }

    /// The Rust's tree of these records, or the number of its error.
    fn built(&self, nodes: &[Node]) -> Result<EmulatedSystem, Refusal> {
        rust::build(self.system, self.version, nodes).map_err(|error| refusal::of_rust(&error))
    }

    /// Accepts a node together with the tree that it was tried on.
    fn take(&mut self, node: Node, rust: EmulatedSystem) {
        self.replace(rust);
        self.nodes.push(node);
    }

    /// Puts a new tree in the old one's place; what is stored is carried over.
    fn replace(&mut self, rust: EmulatedSystem) {
        self.carry(&rust);
        self.rust = rust;
    }

    /// Copies what is stored into another tree of this card's services.
    fn carry(&self, rust: &EmulatedSystem) {
        for &code in &self.stores {
            let store = doors::store_of(&self.rust, code).expect("every store has its service");
            for (number, block) in store.into_iter().enumerate() {
                doors::set_block(rust, code, number, block);
            }
        }
    }

    /// The area that a node of this depth would go under: the latest node of depth one less, if
    /// it is an area and no shallower node came after it.
    pub fn parent(&self, depth: u32) -> Option<&Node> {
        if depth == 0 || depth > DEEPEST {
            return None;
        }
        let at = self
            .nodes
            .iter()
            .rposition(|node| node.depth == depth - 1)?;
        let shut = self.nodes[at..].iter().any(|node| node.depth < depth - 1);
        let parent = &self.nodes[at];
        (matches!(parent.entry, Entry::Area { .. }) && !shut).then_some(parent)
    }

    /// How many blocks the store of this code's number has; none if no service has made it.
    pub fn store(&self, code: u16) -> Option<u32> {
        let number = |code| ServiceCode::new(code).number();
        let mut stores = self.stores.iter();
        let maker = stores.find(|&&maker| number(maker) == number(code))?;
        Some(u32::from(self.total(*maker)))
    }

    /// Whether a service joined a store of another count, which a card that does not join refuses.
    pub fn relies(&self) -> bool {
        self.nodes.iter().any(|node| match node.entry {
            Entry::Service { blocks, .. } => self.store(node.code) != Some(blocks),
            Entry::Area { .. } => false,
        })
    }

    /// The limit of the first service of this code, if there is one.
    pub fn limit(&self, code: u16) -> Option<LimitPurseProperty> {
        self.nodes.iter().find_map(|node| match node.entry {
            Entry::Service { limit, .. } if node.code == code => Some(limit),
            _ => None,
        })?
    }

    /// The accepted records, the root first.
    pub fn nodes(&self) -> &[Node] {
        &self.nodes
    }

    /// How many blocks are in use.
    pub fn used(&self) -> u32 {
        self.used
    }

    /// The blocks in use, store after store, as they lie in the arena.
    pub fn arena(&self) -> Vec<Block> {
        let stores = self.stores.iter();
        stores
            .filter_map(|&code| doors::store_of(&self.rust, code))
            .flatten()
            .collect()
    }

    /// Puts a block into the store of the first service of this code, or refuses with 23.
    pub fn set_block(&mut self, code: u16, number: u32, block: Block) -> Result<(), Refusal> {
        if doors::set_block(&self.rust, code, number as usize, block) {
            Ok(())
        } else {
            Err(refusal::NO_SUCH_BLOCK)
        }
    }

    /// The directory as pairs, into an output with room for this many 16-bit numbers.
    pub fn directory(&self, room: usize) -> Result<Vec<u16>, Refusal> {
        let entries = self.rust.directory();
        if room < entries.len() * 2 {
            return Err(refusal::OUTPUT_SHORT);
        }
        let pairs = entries.into_iter().map(|entry| match entry {
            DirectoryEntry::Area {
                area_code,
                end_service_code,
            } => [area_code, end_service_code],
            DirectoryEntry::Service(code) => [code.raw(), 0xFFFF],
        });
        Ok(pairs.flatten().collect())
    }

    /// The children of the first area of this code in their order; none if no area has it. The Rust
    /// finds the area and walks it. It hides which steps of that walk are the area's own children: they
    /// are the nodes that were given to it when the tree was built.
    pub fn children(&self, code: u16) -> Option<Vec<DirectoryEntry>> {
        let walk = doors::walk_of(&self.rust, code)?;
        let first = |node: &Node| node.code == code && matches!(node.entry, Entry::Area { .. });
        let at = self.nodes.iter().position(first);
        let at = at.expect("the Rust has no area that no record made");
        let mut next = 1;
        let children = rust::children(&self.nodes[at..at + walk.len()]).map(|part| {
            let child = walk[next];
            next += part.len();
            child
        });
        let children = children.collect();
        assert_eq!(next, walk.len(), "the Rust's walk has the records below");
        Some(children)
    }

    /// The block total of a node, 0 if unknown.
    pub fn total(&self, code: u16) -> u16 {
        doors::block_total(&self.rust, code)
    }

    /// The key version of a node, FFFF if unknown.
    pub fn key_version(&self, code: u16) -> u16 {
        doors::key_version(&self.rust, code)
    }

    /// Whether an area list is well formed.
    pub fn area_list(&mut self, codes: &[u16]) -> bool {
        doors::area_list(&mut self.rust, codes)
    }

    /// Whether a service list is well formed.
    pub fn service_list(&mut self, codes: &[u16]) -> bool {
        doors::service_list(&mut self.rust, codes)
    }

    /// The Rust's tree, for questions that need no record.
    pub fn rust(&self) -> &EmulatedSystem {
        &self.rust
    }
}
