//! Refusals, each with its number and its name.
use std::fmt;

#[derive(Clone, Copy, PartialEq, Eq, Debug)]
pub enum Refusal {
    NoSuchExtent = 1,
    NotPrimary = 2,
    Stale = 3,
    NotOpen = 4,
    BadBlock = 5,
    TooManyBlocks = 6,
    ExtentFull = 7,
    PastEnd = 8,
    NotSealed = 9,
    NoReply = 10,
    NoSuchStream = 11,
    NameTaken = 12,
    LastOpen = 13,
    BadPick = 14,
    NotOwner = 30,
    LeaseHeld = 31,
    LeaseEnded = 32,
    OutOfRange = 33,
    Paused = 34,
    Busy = 35,
    BadKey = 36,
    TooLarge = 37,
    Loading = 38,
    BadSplitKey = 39,
    GenerationChanged = 41,
}

impl fmt::Display for Refusal {
    fn fmt(&self, to: &mut fmt::Formatter<'_>) -> fmt::Result {
        write!(to, "{} {self:?}", *self as u8)
    }
}
