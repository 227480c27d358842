//! The context of one call and when it is fit (document 01, "The context", and
//! document 02, A2, for what it remembers, A13 for the timer of an invitation,
//! A5 for group calls).

use crate::call::{Chooser, Pending};
use crate::protocol::Protocol;
use crate::state::{Parameters, State, SUB_STATES};
use crate::tables::Table;
use crate::timer::RunningTimers;

/// The greatest transaction value that a call of ours can have.
pub const GREATEST_TRANSACTION_VALUE: u32 = 6;
/// Where a number says which state is remembered, as the log numbers them: none.
pub const NOTHING_REMEMBERED: u8 = 0;

#[derive(Clone, PartialEq, Eq, Debug)]
pub struct Context {
    pub state: State,
    pub parameters: Parameters,
    pub timers: RunningTimers,
    pub transaction_value: u8,
    pub reference: [u8; 4],
    /// The state that the termination was asked from, while it is.
    pub remembered: Option<State>,
    /// In a group call alone, and so is what is pending.
    pub chooser: Chooser,
    pub pending: Pending,
}

impl Context {
    /// U0, parameters false, no timer, value 0, reference zero, nothing
    /// remembered, chosen or pending.
    pub fn cleared() -> Context {
        Context {
            state: State::U0,
            parameters: Parameters::from_number(0),
            timers: RunningTimers::from_number(0),
            transaction_value: 0,
            reference: [0; 4],
            remembered: None,
            chooser: Chooser::Neither,
            pending: Pending::default(),
        }
    }

    /// Fit asks only what the papers list; a row of parameters that no run
    /// reaches, such as U2 with ORIG false, is fit.
    pub fn is_fit(&self, table: Table) -> bool {
        table.protocol().states().contains(&self.state)
            && self.parameters.consistent_with(self.state)
            && u32::from(self.transaction_value) <= GREATEST_TRANSACTION_VALUE
            && (self.state != State::U0 || *self == Context::cleared())
            && self.timers.fit_for(table, self.state)
            && self.remembers_as(table)
            && self.choosers(table.protocol()).contains(&self.chooser)
            && self.pends_as(table.protocol())
    }

    pub fn remembered_number(&self) -> u8 {
        self.remembered.map_or(NOTHING_REMEMBERED, State::number)
    }

    /// The flag that a received message must carry; None where there is no call.
    /// That of a broadcast call follows from its state.
    pub fn received_flag(&self, protocol: Protocol) -> Option<u8> {
        match protocol {
            Protocol::Broadcast => self.state.received_flag(),
            Protocol::Group => self.chooser.received_flag(),
        }
    }

    /// In U5 one of the states that the table names, if it names any; nothing elsewhere.
    fn remembers_as(&self, table: Table) -> bool {
        let named: &[State] = match self.state {
            State::U5 => table.asked_from(),
            _ => &[],
        };
        match self.remembered {
            None => named.is_empty(),
            Some(state) => named.contains(&state),
        }
    }

    /// Who may have chosen the value in this state. U1 is always ours, so U5 is
    /// where it leads back to U1.
    fn choosers(&self, protocol: Protocol) -> &'static [Chooser] {
        match (protocol, self.state, self.remembered) {
            (Protocol::Broadcast, ..) | (_, State::U0, _) => &[Chooser::Neither],
            (_, State::U0p | State::U1, _) | (_, State::U5, Some(State::U1)) => &[Chooser::Us],
            (_, State::U3 | State::U4, _) => &[Chooser::Cell],
            _ => &[Chooser::Us, Chooser::Cell],
        }
    }

    /// Nothing waits that could have been sent, or for what is not to come.
    fn pends_as(&self, protocol: Protocol) -> bool {
        let Parameters { orig, comm, .. } = self.parameters;
        let active = SUB_STATES.contains(&self.state);
        match protocol {
            Protocol::Broadcast => self.pending == Pending::default(),
            Protocol::Group => {
                (!self.pending.termination
                    || (active || self.state == State::U1) && !(orig && comm))
                    && (!self.pending.status || !comm)
                    && (!self.pending.value || active && !orig)
            }
        }
    }
}
