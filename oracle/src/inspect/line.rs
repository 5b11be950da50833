//! One line for the inspection tool, without its LF. The first field decides what it is.

use super::ROOM;
use crate::replay::ARENA;
use crate::replay::fields::{bytes, code, codes, decimal};
use crate::replay::line::{fields, is_request};

/// What a line is, whatever else is wrong with it.
pub enum Kind {
    Image,
    Request,
    /// A question, or nothing that is known.
    Other,
}

/// A question, or what is to be lent to those that follow.
#[derive(Clone, Debug, PartialEq, Eq)]
pub enum Question {
    List { parent: u16, packet: u32 },
    Info(Vec<u16>),
    ReadList(Vec<u8>),
    ReadInfo(Vec<u8>),
    Total(u16),
    Version(u16),
    Directory,
    Areas(Vec<u16>),
    Services(Vec<u16>),
    Block { code: u16, number: u32 },
    Used,
    Attribute(u16),
    Room(usize),
    Arena(usize),
}

/// The first fields of the lines of an image.
pub const IMAGE: [&str; 5] = ["card", "area", "svc", "lim", "blk"];

/// The names of the questions.
pub const NAMES: [&str; 14] = [
    "list", "info", "readlist", "readinfo", "total", "ver", "dir", "areas", "svcs", "block",
    "used", "attr", "room", "arena",
];

/// The first field of a line.
pub fn first(line: &[u8]) -> &[u8] {
    line.split(|&byte| byte == b'\t').next().unwrap_or(line)
}

/// What a line is.
pub fn kind(line: &[u8]) -> Kind {
    let first = first(line);
    if IMAGE.iter().any(|name| name.as_bytes() == first) {
        Kind::Image
    } else if is_request(line) {
        Kind::Request
    } else {
        Kind::Other
    }
}

/// The question that a line asks; none if it is too long, has no question's name or a malformed field.
pub fn question(line: &[u8]) -> Option<Question> {
    Some(match fields(line)?.as_slice() {
        [b"list", parent, packet] => Question::List {
            parent: code(parent)?,
            packet: decimal(packet)?,
        },
        [b"info", nodes] => Question::Info(codes(nodes)?),
        [b"readlist", message] => Question::ReadList(bytes(message)?),
        [b"readinfo", message] => Question::ReadInfo(bytes(message)?),
        [b"total", node] => Question::Total(code(node)?),
        [b"ver", node] => Question::Version(code(node)?),
        [b"dir"] => Question::Directory,
        [b"areas", list] => Question::Areas(codes(list)?),
        [b"svcs", list] => Question::Services(codes(list)?),
        [b"block", service, number] => Question::Block {
            code: code(service)?,
            number: decimal(number)?,
        },
        [b"used"] => Question::Used,
        [b"attr", service] => Question::Attribute(code(service)?),
        [b"room", length] => Question::Room(length_of(length, ROOM)?),
        [b"arena", length] => Question::Arena(length_of(length, ARENA)?),
        _ => return None,
    })
}

/// A length of at most this many bytes.
fn length_of(field: &[u8], most: usize) -> Option<usize> {
    decimal(field).filter(|&length| length <= most)
}

impl Question {
    /// The first field of its line, and of its answer.
    pub fn name(&self) -> &'static str {
        match self {
            Question::List { .. } => "list",
            Question::Info(_) => "info",
            Question::ReadList(_) => "readlist",
            Question::ReadInfo(_) => "readinfo",
            Question::Total(_) => "total",
            Question::Version(_) => "ver",
            Question::Directory => "dir",
            Question::Areas(_) => "areas",
            Question::Services(_) => "svcs",
            Question::Block { .. } => "block",
            Question::Used => "used",
            Question::Attribute(_) => "attr",
            Question::Room(_) => "room",
            Question::Arena(_) => "arena",
        }
    }
}
