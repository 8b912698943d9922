//! The refusal numbers of document 01, as far as this program gives them.

use std::fmt;

/// "A refusal returns the number alone; state and lent memory are unchanged."
#[derive(Clone, Copy, Debug, PartialEq, Eq)]
pub enum Refusal {
    /// "a frame's length is over 8, or its identifier over 0x1FFFFFFF
    /// (extended) or 0x7FF (standard)"
    OverLimits = 1,
    /// "a report or request is not extended, or not on the expected identifier"
    NotExpected = 2,
    /// "length 0, or a multiplexer not listed for that device kind"
    NotListed = 3,
    /// "wrong length for the multiplexer"
    WrongLength = 4,
    /// "SIM100 report E0 to E5 with status bit 4 set, or status bits 1-0
    /// equal to 01"
    BadStatus = 5,
    /// "a value to be built does not fit its field or breaks the rule of 5"
    DoesNotFit = 6,
    /// "a stamp earlier than the last accepted one (or power-on)"
    Early = 7,
    /// "power-on settings, rating or log block not legal"
    NotLegal = 8,
    /// "log length or trailer wrong"
    LogTrailer = 9,
    /// "log record wrong"
    LogRecord = 10,
    /// "order sheet wrong"
    SheetWrong = 11,
    /// "the buffer lent to the sheet writer is shorter than the text"; so it is
    /// for the buffer lent for a listing.
    NoRoom = 12,
}

impl fmt::Display for Refusal {
    fn fmt(&self, f: &mut fmt::Formatter) -> fmt::Result {
        write!(f, "refused {}", *self as u8)
    }
}
