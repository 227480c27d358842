//! Events by their numbers, and what each of them carries (document 01,
//! "Events and steps"; document 02, A13, for event 19 and A5 for 32 to 36).

use crate::tables::Table;

pub const SET_UP_REQUEST: u32 = 1;
pub const IMMEDIATE_SET_UP_REQUEST: u32 = 2;
pub const JOIN: u32 = 3;
pub const TERMINATE: u32 = 4;
pub const RELEASE: u32 = 5;
pub const MM_CONNECTION_ESTABLISHED: u32 = 6;
pub const MM_ESTABLISHMENT_FAILED: u32 = 7;
pub const RADIO_LINK_FAILURE: u32 = 8;
pub const ABORT_OR_RELEASE_DETECTED: u32 = 9;
pub const BROADCAST_NOTIFIED: u32 = 10;
pub const GROUP_RECEIVE_MODE_ENTERED: u32 = 11;
pub const NO_CHANNEL: u32 = 12;
pub const CHANNEL_AVAILABLE: u32 = 13;
pub const EXPIRY_MM_EST: u32 = 14;
pub const EXPIRY_TERM: u32 = 15;
pub const EXPIRY_CONN_REQ: u32 = 16;
pub const EXPIRY_NO_CHANNEL: u32 = 17;
pub const MESSAGE_RECEIVED: u32 = 18;
pub const EXPIRY_PRES: u32 = 19;
pub const RECEIVE_MODE_REQUEST: u32 = 32;
pub const TALK_REQUEST: u32 = 33;
pub const GROUP_TRANSMIT_MODE_ENTERED: u32 = 34;
pub const DEDICATED_MODE_ENTERED: u32 = 35;
pub const DELETE_PENDING_TERMINATION: u32 = 36;

/// Mode of event 18: 0 is acknowledged, 1 is not, and nothing lies above.
pub const UNACKNOWLEDGED: u32 = 1;

/// An event as it is handed in: numbers may be out of range, and fields that
/// the event does not carry have no effect.
#[derive(Clone, PartialEq, Eq, Debug)]
pub struct Event {
    pub number: u32,
    pub transaction_value: u32,
    pub reference: [u8; 4],
    pub mode: u32,
    pub octets: Vec<u8>,
}

/// What an event carries besides its number.
#[derive(Clone, Copy, PartialEq, Eq, Debug)]
pub enum Carries {
    Nothing,
    /// Transaction value and reference.
    Call,
    /// Mode and octets.
    Message,
}

/// None for a number that is no event of this table.
pub fn carries(table: Table, number: u32) -> Option<Carries> {
    match number {
        SET_UP_REQUEST | IMMEDIATE_SET_UP_REQUEST | BROADCAST_NOTIFIED => Some(Carries::Call),
        MESSAGE_RECEIVED => Some(Carries::Message),
        1..=17 => Some(Carries::Nothing),
        EXPIRY_PRES if table == Table::Third => Some(Carries::Nothing),
        RECEIVE_MODE_REQUEST..=DELETE_PENDING_TERMINATION if table == Table::Group => {
            Some(Carries::Nothing)
        }
        _ => None,
    }
}

/// The numbers of this table's events that are no message.
pub fn all_but_messages(table: Table) -> Vec<u32> {
    (1..=DELETE_PENDING_TERMINATION)
        .filter(|number| *number != MESSAGE_RECEIVED && carries(table, *number).is_some())
        .collect()
}

impl Event {
    /// An event that carries nothing, for tests and generators.
    pub fn plain(number: u32) -> Event {
        Event {
            number,
            transaction_value: 0,
            reference: [0; 4],
            mode: 0,
            octets: Vec::new(),
        }
    }

    pub fn call(number: u32, transaction_value: u32, reference: [u8; 4]) -> Event {
        Event {
            transaction_value,
            reference,
            ..Event::plain(number)
        }
    }

    pub fn received(mode: u32, octets: Vec<u8>) -> Event {
        Event {
            mode,
            octets,
            ..Event::plain(MESSAGE_RECEIVED)
        }
    }
}
