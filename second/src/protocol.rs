//! The two protocols: broadcast calls (GSM 04.69) and group calls with talk-back
//! (24.068; document 02, A5), and where their messages and command words differ.

use crate::state::{State, BROADCAST_STATES, GROUP_STATES};
use Protocol::*;

#[derive(Clone, Copy, PartialEq, Eq, Debug)]
pub enum Protocol {
    Broadcast,
    Group,
}

impl Protocol {
    /// The low four bits of octet 1 of its messages (9.1 of either standard).
    pub fn discriminator(self) -> u8 {
        match self {
            Broadcast => 1,
            Group => 0,
        }
    }

    /// What stands before the word of a command that is about this protocol.
    pub fn prefix(self) -> &'static str {
        match self {
            Broadcast => "",
            Group => "g",
        }
    }

    /// The states of its MS side, by their numbers in a log.
    pub fn states(self) -> &'static [State] {
        match self {
            Broadcast => &BROADCAST_STATES,
            Group => &GROUP_STATES,
        }
    }
}
