//! The five timers: how long they run and, by the table, in which states
//! (document 01, "The context"; document 02, A2, A13 and A5; table 6.1 of either standard).

use crate::state::State;
use crate::tables::Table;
use State::*;

#[derive(Clone, Copy, PartialEq, Eq, Debug)]
pub enum Timer {
    MmEst,
    Term,
    ConnReq,
    NoChannel,
    Pres,
}

use Timer::*;

/// A timer's length that the settings file gives.
#[derive(Clone, Copy, PartialEq, Eq, Debug)]
pub enum Setting {
    /// T_conn req.
    Joining,
    /// T_pres.
    Invitation,
}

impl Setting {
    /// The least and the greatest number of milliseconds that it may have.
    pub fn bounds(self) -> (u64, u64) {
        match self {
            Setting::Joining => (10_000, 30_000),
            Setting::Invitation => (1_000, 600_000),
        }
    }
}

#[derive(Clone, Copy, PartialEq, Eq, Debug)]
pub enum Length {
    Milliseconds(u64),
    Set(Setting),
}

/// Both settings, chosen.
#[derive(Clone, Copy, PartialEq, Eq, Debug)]
pub struct Chosen {
    pub joining: u64,
    pub invitation: u64,
}

impl Length {
    pub fn milliseconds(self, chosen: &Chosen) -> u64 {
        match self {
            Milliseconds(number) => number,
            Set(Setting::Joining) => chosen.joining,
            Set(Setting::Invitation) => chosen.invitation,
        }
    }
}

use Length::*;

pub struct TimerRow {
    pub timer: Timer,
    pub length: Length,
    pub always_in: &'static [State],
    pub optionally_in: &'static [State],
    /// The event that is this timer's expiry.
    pub expiry: u32,
}

#[rustfmt::skip]
mod rows {
    use super::*;

    use Setting::*;

    pub const MM_EST: TimerRow          = TimerRow { timer: MmEst,     length: Milliseconds(5_000),  always_in: &[U0p], optionally_in: &[U1], expiry: 14 };
    pub const TERM_AT_FIRST: TimerRow   = TimerRow { timer: Term,      length: Milliseconds(10_000), always_in: &[],    optionally_in: &[U5], expiry: 15 };
    pub const TERM: TimerRow            = TimerRow { timer: Term,      length: Milliseconds(10_000), always_in: &[U5],  optionally_in: &[],   expiry: 15 };
    pub const CONN_REQ: TimerRow        = TimerRow { timer: ConnReq,   length: Set(Joining),         always_in: &[U4],  optionally_in: &[],   expiry: 16 };
    pub const NO_CHANNEL: TimerRow      = TimerRow { timer: NoChannel, length: Milliseconds(3_000),  always_in: &[],    optionally_in: &[U6], expiry: 17 };
    pub const NO_CHANNEL_BOUND: TimerRow = TimerRow { timer: NoChannel, length: Milliseconds(3_000), always_in: &[U2nc], optionally_in: &[],  expiry: 17 };
    pub const NEVER_PRES: TimerRow      = TimerRow { timer: Pres,      length: Set(Invitation),      always_in: &[],    optionally_in: &[],   expiry: 19 };
    pub const PRES: TimerRow            = TimerRow { timer: Pres,      length: Set(Invitation),      always_in: &[U3],  optionally_in: &[],   expiry: 19 };
}

/// So many timers there are.
pub const TIMERS: usize = 5;

impl Table {
    pub fn timers(self) -> &'static [TimerRow; TIMERS] {
        use rows::*;
        match self {
            Table::First => &[MM_EST, TERM_AT_FIRST, CONN_REQ, NO_CHANNEL, NEVER_PRES],
            Table::Second => &[MM_EST, TERM, CONN_REQ, NO_CHANNEL, NEVER_PRES],
            Table::Third => &[MM_EST, TERM, CONN_REQ, NO_CHANNEL, PRES],
            Table::Group => &[MM_EST, TERM, CONN_REQ, NO_CHANNEL_BOUND, NEVER_PRES],
        }
    }
}

/// Which of the five timers run.
#[derive(Clone, Copy, PartialEq, Eq, Debug, Default)]
pub struct RunningTimers {
    mm_est: bool,
    term: bool,
    conn_req: bool,
    no_channel: bool,
    pres: bool,
}

impl RunningTimers {
    pub fn runs(&self, timer: Timer) -> bool {
        match timer {
            MmEst => self.mm_est,
            Term => self.term,
            ConnReq => self.conn_req,
            NoChannel => self.no_channel,
            Pres => self.pres,
        }
    }

    pub fn turn(&mut self, timer: Timer, running: bool) {
        match timer {
            MmEst => self.mm_est = running,
            Term => self.term = running,
            ConnReq => self.conn_req = running,
            NoChannel => self.no_channel = running,
            Pres => self.pres = running,
        }
    }

    /// 16 T_pres + 8 T_MM-est + 4 T_term + 2 T_conn req + T_no channel.
    pub fn number(&self) -> u8 {
        16 * u8::from(self.pres)
            + 8 * u8::from(self.mm_est)
            + 4 * u8::from(self.term)
            + 2 * u8::from(self.conn_req)
            + u8::from(self.no_channel)
    }

    /// The reverse of `number`, for 0 to 31.
    pub fn from_number(number: u8) -> RunningTimers {
        RunningTimers {
            pres: number & 16 != 0,
            mm_est: number & 8 != 0,
            term: number & 4 != 0,
            conn_req: number & 2 != 0,
            no_channel: number & 1 != 0,
        }
    }

    /// Each timer runs where it always does, and runs nowhere that the table does not name.
    pub fn fit_for(&self, table: Table, state: State) -> bool {
        table.timers().iter().all(|row| {
            let runs = self.runs(row.timer);
            let must = row.always_in.contains(&state);
            let may = must || row.optionally_in.contains(&state);
            (runs || !must) && (!runs || may)
        })
    }
}
