//! The oracle of Uluvoli: the Rust emulator that the card is a port of, unchanged, answering
//! questions. `README.md` says what is carried, what is stood in for, and the line formats.
//!
//! From the bottom up: `felica_standard` is the Rust with our stand-ins around it. What its
//! emulator hides from the outside is asked through `emulator::doors`. `refusal` has the numbers of
//! docs/RULES.md, `tree` grows a card by its rules, `request` serves a request on it, `board` works
//! a lane board out of eight blocks, `replay` answers a whole text, `inspect` one with questions, and `salvage` what is kept of a damaged image. `leaves` asks the questions
//! that need no card, `trees` those about growing one, `requests` those about requests, `boards`
//! those about boards, `messages` those about messages, `texts` those about whole texts, `inspections`
//! those about texts with questions, `terminals` those about two lists of requests on one card,
//! `resends` those about a write that is sent twice; `draw` draws what they ask about. `beside` puts texts to another program and compares. `random`, `hex`, `lines`, `files`,
//! `cause`, `counts`, `filter` and `program` are tools.

pub mod beside;
pub mod board;
pub mod boards;
pub mod cause;
pub mod counts;
pub mod draw;
pub mod felica_standard;
pub mod files;
pub mod filter;
pub mod hex;
pub mod inspect;
pub mod inspections;
pub mod leaves;
pub mod lines;
pub mod messages;
pub mod program;
pub mod random;
pub mod refusal;
pub mod replay;
pub mod request;
pub mod requests;
pub mod resends;
pub mod salvage;
pub mod terminals;
pub mod texts;
pub mod tree;
pub mod trees;
