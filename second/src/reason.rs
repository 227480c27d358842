//! Why a message was ignored (document 02, A1): the number that goes with
//! answer 1. Where several apply, the first in the order of the rules counts,
//! "no call" before all.

#[derive(Clone, Copy, PartialEq, Eq, Debug)]
pub enum Reason {
    NoCall,
    TooShort,
    OtherProtocol,
    TransactionMismatch,
    OtherIdentity,
    CommFalse,
}

use Reason::*;

/// Beside every answer but 1.
pub const NO_REASON: u8 = 0;

impl Reason {
    pub fn number(self) -> u8 {
        match self {
            NoCall => 1,
            TooShort => 2,
            OtherProtocol => 3,
            TransactionMismatch => 4,
            OtherIdentity => 5,
            CommFalse => 6,
        }
    }
}
