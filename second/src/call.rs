//! What the context of a group call holds besides that of a broadcast call
//! (document 02, A5): who chose its transaction value, and what is pending.

use Chooser::*;

/// Which side chose the transaction value.
#[derive(Clone, Copy, PartialEq, Eq, Debug)]
pub enum Chooser {
    Neither,
    Us,
    Cell,
}

/// Each of them, placed by its number.
pub const CHOOSERS: [Chooser; 3] = [Neither, Us, Cell];

impl Chooser {
    pub fn number(self) -> u8 {
        match self {
            Neither => 0,
            Us => 1,
            Cell => 2,
        }
    }

    pub fn from_number(number: u8) -> Option<Chooser> {
        CHOOSERS.get(usize::from(number)).copied()
    }

    /// The flag that a received message must carry: the side that did not choose
    /// the value sends 1. Whether the MS still takes itself for the originator
    /// is another matter, so this is remembered apart from ORIG.
    pub fn received_flag(self) -> Option<u8> {
        match self {
            Neither => None,
            Us => Some(1),
            Cell => Some(0),
        }
    }
}

/// What waits until COMM is true, or until the next message.
#[derive(Clone, Copy, PartialEq, Eq, Debug, Default)]
pub struct Pending {
    /// A termination was asked for (6.4.1 of 24.068).
    pub termination: bool,
    /// GET STATUS was heard (6.5.1.1).
    pub status: bool,
    /// The next message tells the transaction value (6.3.1.1).
    pub value: bool,
}

impl Pending {
    /// 4 termination + 2 status + awaiting a value.
    pub fn number(self) -> u8 {
        4 * u8::from(self.termination) + 2 * u8::from(self.status) + u8::from(self.value)
    }

    /// The reverse of `number`, for 0 to 7.
    pub fn from_number(number: u8) -> Pending {
        Pending {
            termination: number & 4 != 0,
            status: number & 2 != 0,
            value: number & 1 != 0,
        }
    }
}
