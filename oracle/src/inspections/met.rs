//! What the lines of a text meet, by the card as it stands and by what is lent, for the counts.

use crate::felica_standard::emulator::doors;
use crate::felica_standard::{BLOCK_SIZE, RequestCodeListResult};
use crate::inspect::line::{Kind, NAMES, Question, first, kind, question};
use crate::inspect::lists::{MOST_NODES, PACKET, code_list};
use crate::inspect::{Lent, Seen, message};
use crate::replay::line::MOST_BYTES;
use crate::tree::{Card, Entry, usable};

/// What questions can meet.
const QUESTIONS: [&str; 84] = [
    "list",
    "list: no child",
    "list: sixteen children",
    "list: seventeen children",
    "list: a later packet",
    "list: more follow",
    "list: areas and services",
    "list: areas alone",
    "list: services alone",
    "list: of an area that is not the root",
    "list: of a repeated area code",
    "list: just the room",
    "list refused 44",
    "list refused 44: FFFF",
    "list refused 44: a service",
    "list refused 44: ahead of 45",
    "list refused 44: ahead of 5",
    "list refused 45",
    "list refused 45: the packet after the last",
    "list refused 45: ahead of 5",
    "list refused 5",
    "list refused 5: a byte less",
    "info",
    "info: no node",
    "info: 32 nodes",
    "info: an area",
    "info: a service",
    "info: FFFF",
    "info: an unknown node",
    "info: a repeated area code",
    "info: a total of 65535",
    "info: none free",
    "info: just the arena",
    "info: just the room",
    "info refused 7",
    "info refused 7: a byte less",
    "info refused 7: ahead of 46",
    "info refused 7: ahead of 5",
    "info refused 46",
    "info refused 46: 33 nodes",
    "info refused 46: ahead of 5",
    "info refused 5",
    "info refused 5: a byte less",
    "readlist",
    "readlist: sixteen entries",
    "readlist: more follow, and not full",
    "readlist refused 47",
    "readlist refused 47: cut by a byte",
    "readlist refused 47: lengthened by a byte",
    "readlist refused 47: the flag alone",
    "readinfo",
    "readinfo: 32 nodes",
    "readinfo refused 47",
    "readinfo refused 47: cut by a byte",
    "readinfo refused 47: lengthened by a byte",
    "readinfo refused 47: 33 nodes",
    "total",
    "total: 65535",
    "total: an area",
    "total: a service",
    "total: an unknown node",
    "ver",
    "ver: FFFF",
    "ver: an area",
    "ver: a service",
    "ver: an unknown node",
    "dir",
    "dir: just the room",
    "dir refused 5",
    "dir refused 5: a byte less",
    "areas yes",
    "areas no",
    "svcs yes",
    "svcs no",
    "block",
    "block none: no such service",
    "block none: beyond the store",
    "block none: arena short",
    "used",
    "attr",
    "attr undefined",
    "room",
    "arena",
    "? no name",
];

/// What a list has to meet.
pub fn all() -> impl Iterator<Item = String> {
    let image = (11..=24).chain([28, 30]);
    let requests = [1, 2, 3, 6].into_iter().chain(40..=43);
    let malformed = NAMES.iter().map(|name| format!("? {name}"));
    let others = [
        "? too long",
        "image after a request",
        "image after a question",
        "request after a question",
        "request done",
        "request failed",
        "board",
    ];
    (QUESTIONS.into_iter().chain(others).map(String::from))
        .chain(image.map(|number| format!("image refused {number}")))
        .chain(requests.map(|number| format!("request refused {number}")))
        .chain(malformed)
}

/// What was met so far.
#[derive(Default)]
pub struct Met {
    pub names: Vec<String>,
    requested: bool,
    asked: bool,
}

impl Met {
    /// Notes what a line met.
    pub fn watch(&mut self, seen: Seen) {
        let told: Vec<&str> = seen.printed.trim_end_matches('\n').split('\t').collect();
        match kind(seen.line) {
            Kind::Image => {
                self.when(self.requested, "image after a request");
                self.when(self.asked, "image after a question");
                if let ["image", _, refusal] = told.as_slice() {
                    self.names.push(format!("image refused {refusal}"));
                }
            }
            Kind::Request => {
                self.requested = true;
                self.when(self.asked, "request after a question");
                self.names.push(match told.as_slice() {
                    [_, "!", refusal, ..] => format!("request refused {refusal}"),
                    [_, "00", ..] => "request done".to_string(),
                    [_, _, _, _, _, _] => "request failed".to_string(),
                    _ => "board".to_string(),
                });
            }
            Kind::Other => match question(seen.line) {
                Some(asked) => {
                    self.asked = true;
                    self.question(seen.card, seen.lent, &asked, &told);
                }
                None => self.malformed(seen.line),
            },
        }
    }

    /// Notes a name if it holds.
    fn when(&mut self, holds: bool, name: &str) {
        if holds {
            self.names.push(name.to_string());
        }
    }

    /// Notes what is met by a line that is none.
    fn malformed(&mut self, line: &[u8]) {
        self.when(line.len() > MOST_BYTES, "? too long");
        let known = NAMES.iter().find(|name| name.as_bytes() == first(line));
        let name = known.map_or("? no name".to_string(), |name| format!("? {name}"));
        self.names.push(name);
    }

    /// Notes the question by the fields that are printed for it, and what else it met.
    pub fn question(&mut self, card: &Card, lent: Lent, asked: &Question, told: &[&str]) {
        let name = asked.name();
        let refused = match told {
            [_, "!", refusal] => {
                self.names.push(format!("{name} refused {refusal}"));
                Some(*refusal)
            }
            [_, answer @ ("yes" | "no")] => {
                self.names.push(format!("{name} {answer}"));
                None
            }
            [_, _, "-", ..] if name == "attr" => {
                self.names.push("attr undefined".to_string());
                None
            }
            [_, "-"] if name == "block" => None,
            _ => {
                self.names.push(name.to_string());
                None
            }
        };
        match asked {
            Question::List { parent, packet } => self.list(card, lent, (*parent, *packet), refused),
            Question::Info(nodes) => self.info(card, lent, nodes, refused),
            Question::ReadList(bytes) => self.read_list(bytes),
            Question::ReadInfo(bytes) => self.read_information(bytes),
            Question::Total(code) => {
                self.when(card.total(*code) == u16::MAX, "total: 65535");
                self.node(name, card, *code);
            }
            Question::Version(code) => self.node(name, card, *code),
            Question::Directory => {
                self.room(name, lent, 4 * card.nodes().len(), refused.is_some());
            }
            Question::Block { code, number } => self.block(card, lent, (*code, *number), told[1]),
            _ => {}
        }
    }

    /// Notes whether the room just holds what is needed, or lacks one byte.
    fn room(&mut self, name: &str, lent: Lent, needed: usize, refused: bool) {
        let just = format!("{name}: just the room");
        let less = format!("{name} refused 5: a byte less");
        self.when(!refused && lent.room == needed, &just);
        self.when(refused && lent.room + 1 == needed, &less);
    }

    /// Notes what a node is that a question names.
    fn node(&mut self, name: &str, card: &Card, code: u16) {
        let found = card.nodes().iter().filter(|node| node.code == code);
        let found: Vec<Entry> = found.map(|node| node.entry).collect();
        let what = match found.first() {
            None if code == 0xFFFF => "FFFF",
            None => "an unknown node",
            Some(Entry::Area { .. }) => "an area",
            Some(Entry::Service { .. }) => "a service",
        };
        self.names.push(format!("{name}: {what}"));
    }

    /// Notes what a code list met.
    fn list(
        &mut self,
        card: &Card,
        lent: Lent,
        (parent, packet): (u16, u32),
        refused: Option<&str>,
    ) {
        let count = card.children(parent).map_or(0, |children| children.len());
        let least = lent.room < 3;
        match refused {
            Some("44") => {
                let service = card.nodes().iter().any(|node| node.code == parent);
                self.when(parent == 0xFFFF, "list refused 44: FFFF");
                self.when(service, "list refused 44: a service");
                self.when(packet > 0, "list refused 44: ahead of 45");
                self.when(least, "list refused 44: ahead of 5");
            }
            Some("45") => {
                let next = packet as usize == count.div_ceil(PACKET).max(1);
                self.when(next, "list refused 45: the packet after the last");
                self.when(least, "list refused 45: ahead of 5");
            }
            _ => {
                let list = code_list(card, parent, packet).expect("it is answered, or has no room");
                let needed = message::of_list(&list).len();
                self.room("list", lent, needed, refused.is_some());
                if refused.is_none() {
                    self.listed(card, (parent, packet), count, &list);
                }
            }
        }
    }

    /// Notes what a code list tells, of an area of so many children.
    fn listed(
        &mut self,
        card: &Card,
        (parent, packet): (u16, u32),
        count: usize,
        list: &RequestCodeListResult,
    ) {
        let (areas, services) = (!list.areas.is_empty(), !list.services.is_empty());
        let same = card.nodes().iter().filter(|node| node.code == parent);
        self.when(same.count() > 1, "list: of a repeated area code");
        self.when(count == 0, "list: no child");
        self.when(count == PACKET, "list: sixteen children");
        self.when(count == PACKET + 1, "list: seventeen children");
        self.when(packet > 0, "list: a later packet");
        self.when(list.continue_flag, "list: more follow");
        self.when(areas && services, "list: areas and services");
        self.when(areas && !services, "list: areas alone");
        self.when(!areas && services, "list: services alone");
        self.when(parent != 0, "list: of an area that is not the root");
    }

    /// Notes what block information met.
    fn info(&mut self, card: &Card, lent: Lent, nodes: &[u16], refused: Option<&str>) {
        let (needed, many) = (1 + 4 * nodes.len(), nodes.len() > MOST_NODES);
        match refused {
            Some("7") => {
                let in_use = card.used() as usize * BLOCK_SIZE;
                self.when(lent.arena + 1 == in_use, "info refused 7: a byte less");
                self.when(many, "info refused 7: ahead of 46");
                self.when(lent.room < needed, "info refused 7: ahead of 5");
            }
            Some("46") => {
                self.when(nodes.len() == MOST_NODES + 1, "info refused 46: 33 nodes");
                self.when(lent.room < needed, "info refused 46: ahead of 5");
            }
            _ => {
                self.room("info", lent, needed, refused.is_some());
                if refused.is_none() {
                    self.informed(card, lent, nodes);
                }
            }
        }
    }

    /// Notes what block information tells.
    fn informed(&mut self, card: &Card, lent: Lent, nodes: &[u16]) {
        let in_use = card.used() as usize * BLOCK_SIZE;
        self.when(nodes.is_empty(), "info: no node");
        self.when(nodes.len() == MOST_NODES, "info: 32 nodes");
        self.when(in_use > 0 && lent.arena == in_use, "info: just the arena");
        for &code in nodes {
            let area = card.children(code).is_some();
            let same = card.nodes().iter().filter(|node| node.code == code);
            self.node("info", card, code);
            self.when(card.total(code) == u16::MAX, "info: a total of 65535");
            self.when(area && same.count() > 1, "info: a repeated area code");
            self.when(area && usable(lent.arena) == card.used(), "info: none free");
        }
    }

    /// Notes what a reader of code lists met.
    fn read_list(&mut self, bytes: &[u8]) {
        let taken = |bytes: &[u8]| message::to_list(bytes).is_some();
        if let Some(list) = message::to_list(bytes) {
            let entries = list.areas.len() + list.services.len();
            let early = list.continue_flag && entries < PACKET;
            self.when(entries == PACKET, "readlist: sixteen entries");
            self.when(early, "readlist: more follow, and not full");
            return;
        }
        self.cut_or_longer("readlist", bytes, taken);
        let flag = |flag| taken(&[&[flag], bytes.get(1..).unwrap_or(&[])].concat());
        self.when(flag(0), "readlist refused 47: the flag alone");
    }

    /// Notes what a reader of block information met.
    fn read_information(&mut self, bytes: &[u8]) {
        let taken = |bytes: &[u8]| message::to_information(bytes).is_some();
        if taken(bytes) {
            self.when(usize::from(bytes[0]) == MOST_NODES, "readinfo: 32 nodes");
            return;
        }
        self.cut_or_longer("readinfo", bytes, taken);
        let more = bytes.len() == 1 + 4 * (MOST_NODES + 1);
        let counted = bytes
            .first()
            .is_some_and(|&count| count == 1 + MOST_NODES as u8);
        self.when(more && counted, "readinfo refused 47: 33 nodes");
    }

    /// Notes whether bytes that are no message lack one byte or have one too many.
    fn cut_or_longer(&mut self, name: &str, bytes: &[u8], taken: impl Fn(&[u8]) -> bool) {
        let cut = format!("{name} refused 47: cut by a byte");
        let longer = format!("{name} refused 47: lengthened by a byte");
        self.when(taken(&[bytes, &[0]].concat()), &cut);
        let front = bytes.split_last().map(|(_, front)| front);
        self.when(front.is_some_and(taken), &longer);
    }

    /// Notes why there is no block.
    fn block(&mut self, card: &Card, lent: Lent, (code, number): (u16, u32), told: &str) {
        if told != "-" {
            return;
        }
        let store = doors::store_of(card.rust(), code);
        let there = store
            .as_ref()
            .is_some_and(|store| (number as usize) < store.len());
        let short = usable(lent.arena) < card.used();
        self.when(store.is_none(), "block none: no such service");
        self.when(store.is_some() && !there, "block none: beyond the store");
        self.when(there && short, "block none: arena short");
    }
}
