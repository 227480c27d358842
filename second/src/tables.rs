//! The step tables that a call can follow, and all in which they differ but
//! their rows and timers, which stand in `step::table` and `timer`. A log is
//! judged by the table of its version (document 02, A2, A13 and A5).

use crate::protocol::Protocol;
use crate::state::State::{self, *};
use crate::timer::Setting;
use Table::*;

#[derive(Clone, Copy, PartialEq, Eq, Debug)]
pub enum Table {
    /// Document 01: a rejected termination stays in U5, without a timer.
    First,
    /// A2: it leads back to the state that it was asked from.
    Second,
    /// A13: besides, an invitation runs out.
    Third,
    /// A5: a group call with talk-back.
    Group,
}

/// Every table, in the order of their versions.
pub const TABLES: [Table; 4] = [First, Second, Third, Group];
/// Those of a broadcast call.
pub const BROADCAST_TABLES: [Table; 3] = [First, Second, Third];

impl Table {
    /// What the step and the recorder of a broadcast call follow; older tables
    /// live in the judge alone.
    pub const NEWEST: Table = Third;

    /// What the step and the recorder of this protocol follow.
    pub fn newest_of(protocol: Protocol) -> Table {
        match protocol {
            Protocol::Broadcast => Table::NEWEST,
            Protocol::Group => Group,
        }
    }

    pub fn protocol(self) -> Protocol {
        match self {
            First | Second | Third => Protocol::Broadcast,
            Group => Protocol::Group,
        }
    }

    /// The number that begins a log of this table.
    pub fn version(self) -> u32 {
        match self {
            First => 1,
            Second => 2,
            Third => 3,
            Group => 16,
        }
    }

    /// None for a number that is no version.
    pub fn of_version(version: u32) -> Option<Table> {
        TABLES.into_iter().find(|table| table.version() == version)
    }

    /// The states of which one is remembered in U5; none where nothing is.
    pub fn asked_from(self) -> &'static [State] {
        match self {
            First => &[],
            Second | Third => &[U1, U2],
            // COMM is false in the other two sub-states, so nothing is sent from them.
            Group => &[U1, U2sl, U2wr, U2ws, U2sr],
        }
    }

    /// The greatest state number that an entry of a log may claim.
    pub fn greatest_state(self) -> u32 {
        match self {
            First | Second | Third => 7,
            Group => 13,
        }
    }

    /// The greatest sum of actions that an entry of a log may claim.
    pub fn greatest_actions(self) -> u32 {
        match self {
            First | Second | Third => 63,
            Group => 127,
        }
    }

    /// The settings that a log of this table is judged under, in the order in
    /// which the judge reports them.
    pub fn settings(self) -> &'static [Setting] {
        match self {
            First | Second | Group => &[Setting::Joining],
            Third => &[Setting::Joining, Setting::Invitation],
        }
    }
}
