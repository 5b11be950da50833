//! What the lists are made of, drawn at random and the same on every run: values of purses,
//! additions to a card, codes and lists of codes, whole cards, requests, and messages.

pub mod additions;
pub mod cards;
pub mod codes;
pub mod lanes;
pub mod messages;
pub mod requests;
pub mod values;
