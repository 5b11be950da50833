//! How a call ended.

/// Why a call was refused: the card's number for it. Nothing was changed.
#[derive(Clone, Copy, Debug, PartialEq, Eq)]
pub struct Refusal(pub u32);

/// Why a request was not carried out: a refusal, which has no status pair, or a pair. The arena and the output are as they
/// were.
#[derive(Clone, Copy, Debug, PartialEq, Eq)]
pub enum Failure {
    /// It was refused.
    Refused(Refusal),
    /// It got a status pair other than 00 00.
    Pair {
        /// Status flag 1: the place of the element that failed, or FF.
        sf1: u8,
        /// Status flag 2: what failed.
        sf2: u8,
        /// Which A5 it was; none where status flag 2 is another.
        cause: Option<Cause>,
    },
}

/// Which A5 a request was told: the first that holds.
#[derive(Clone, Copy, Debug, PartialEq, Eq)]
pub enum Cause {
    /// An open request on a service that needs a key.
    KeyNeeded = 1,
    /// A write to a read-only service.
    ReadOnly = 2,
    /// Access mode 1 on a service without cashback.
    NoCashback = 3,
    /// A cyclic write that does not name block 0.
    CyclicBlock = 4,
    /// A direct write that would raise the purse.
    PurseRaised = 5,
    /// A direct write that would raise the cashback.
    CashbackRaised = 6,
    /// A direct write whose cashback and the stored purse are too much together.
    SumTooLarge = 7,
}

/// An answer of a call that is done or refused.
pub(crate) fn done(answer: u32) -> Result<(), Refusal> {
    match answer >> 16 & 0xff {
        0 => Ok(()),
        number => Err(Refusal(number)),
    }
}

/// The cause of this number.
fn cause_of(number: u8) -> Option<Cause> {
    match number {
        1 => Some(Cause::KeyNeeded),
        2 => Some(Cause::ReadOnly),
        3 => Some(Cause::NoCashback),
        4 => Some(Cause::CyclicBlock),
        5 => Some(Cause::PurseRaised),
        6 => Some(Cause::CashbackRaised),
        7 => Some(Cause::SumTooLarge),
        _ => None,
    }
}

/// An answer to a request.
pub(crate) fn replied(answer: u32) -> Result<(), Failure> {
    done(answer).map_err(Failure::Refused)?;
    match answer.to_be_bytes() {
        [_, _, 0, 0] => Ok(()),
        [cause, _, sf1, sf2] => Err(Failure::Pair {
            sf1,
            sf2,
            cause: cause_of(cause),
        }),
    }
}
