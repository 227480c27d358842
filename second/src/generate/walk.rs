//! True runs: entries that the step by one table gives, under one T_conn req and
//! one T_pres and within the time rules, led so that they reach every state and
//! every row.

use super::log::bytes;
use super::messages::{self, Transaction};
use super::random::Random;
use crate::commands::Identity;
use crate::context::Context;
use crate::event::{all_but_messages, carries, Carries, Event};
use crate::log::entry::Entry;
use crate::message::Kind;
use crate::own::Own;
use crate::state::State;
use crate::step::step;
use crate::step::table::{Next, Row, Trigger};
use crate::tables::Table;
use crate::timer::Chosen;

pub struct Walk {
    pub table: Table,
    pub own: Identity,
    pub context: Context,
    pub chosen: Chosen,
    pub entries: Vec<Entry>,
    /// How long the running timer still has, if one runs.
    left: Option<u64>,
}

impl Walk {
    pub fn begin(table: Table, own: Identity, chosen: Chosen) -> Walk {
        Walk {
            table,
            own,
            context: Context::cleared(),
            chosen,
            entries: Vec::new(),
            left: None,
        }
    }

    pub fn go(&mut self, random: &mut Random, count: usize) {
        for _ in 0..count {
            let event = likely_event(random, self.table, &self.context, &self.own.identity);
            let delta = self.delta(random, event.number);
            self.enter(event, delta);
        }
    }

    /// Its bytes as a log.
    pub fn log(&self) -> Vec<u8> {
        bytes(self.table, &self.entries)
    }

    /// Goes on until no call is left.
    pub fn go_home(&mut self, random: &mut Random) {
        while self.context.state != State::U0 {
            self.go(random, 1);
        }
    }

    /// One entry, true by construction.
    pub fn enter(&mut self, event: Event, delta: u64) {
        let own = Own {
            key_number: self.own.key_number,
            classmark: self.own.classmark,
            identity: &self.own.identity,
        };
        let outcome = step(self.table, &self.context, &own, 255, &event);
        self.left = self.left.map(|left| left.saturating_sub(delta));
        for row in self.table.timers() {
            let before = self.context.timers.runs(row.timer);
            match (before, outcome.context.timers.runs(row.timer)) {
                (false, true) => self.left = Some(row.length.milliseconds(&self.chosen)),
                (true, false) if outcome.context.timers.number() == 0 => self.left = None,
                _ => (),
            }
        }
        self.entries.push(Entry {
            delta: delta as u32,
            event,
            answer: u32::from(outcome.answer),
            state: u32::from(outcome.context.state.number()),
            parameters: u32::from(outcome.context.parameters.number()),
            actions: u32::from(outcome.actions),
            reply: outcome.reply,
        });
        self.context = outcome.context;
    }

    /// A time that the rules allow: all that is left for the expiry of a
    /// running timer, at most that for anything else.
    pub fn delta(&self, random: &mut Random, event: u32) -> u64 {
        let Some(left) = self.left else {
            return random.pick(&[
                0, 1, 127, 128, 999, 60_000, 16_384, 600_000, 600_001, 86_400_000,
            ]);
        };
        let expires = self
            .table
            .timers()
            .iter()
            .any(|row| row.expiry == event && self.context.timers.runs(row.timer));
        match random.below(6) {
            _ if expires => left,
            0 => left,
            1 => left.saturating_sub(1),
            2 => random.between(0, left),
            3 => left / 4,
            _ => random.below(left.min(200) + 1),
        }
    }
}

/// An event in range that is likely to have a step in this context.
pub fn likely_event(random: &mut Random, table: Table, context: &Context, own: &[u8]) -> Event {
    let transaction = likely_transaction(random, table, context);
    let mode = u32::from(random.octet() & 1);
    match random.below(20) {
        0..=12 => {
            let trigger = match running_out(table, context) {
                Some(expiry) if random.one_in(6) => Trigger::Event(expiry),
                _ => likely_row(random, table, context).trigger,
            };
            on_trigger(random, table, trigger, context, own)
        }
        13 | 14 => {
            let kind = random.pick(&[Kind::GetStatus, Kind::SetParameter]);
            Event::received(mode, messages::good(random, kind, transaction, own))
        }
        15..=17 => {
            let kind = messages::likely_kind(random, context.state);
            let mut octets = messages::any(random, kind, transaction, own);
            octets.truncate(251);
            Event::received(mode, octets)
        }
        _ => {
            let number = random.pick(&all_but_messages(table));
            on_trigger(random, table, Trigger::Event(number), context, own)
        }
    }
}

/// That of this call; where the call awaits its value, often another value.
pub fn likely_transaction(random: &mut Random, table: Table, context: &Context) -> Transaction {
    let protocol = table.protocol();
    let value = match context.pending.value && random.one_in(2) {
        true => random.octet() & 7,
        false => context.transaction_value,
    };
    Transaction {
        protocol,
        flag: context.received_flag(protocol).unwrap_or(1),
        value,
    }
}

/// The expiry of a timer that runs.
fn running_out(table: Table, context: &Context) -> Option<u32> {
    let mut rows = table.timers().iter();
    rows.find(|row| context.timers.runs(row.timer))
        .map(|row| row.expiry)
}

/// A row of this state; rows that end the call are mostly passed over.
fn likely_row(random: &mut Random, table: Table, context: &Context) -> &'static Row {
    let rows: Vec<&Row> = table
        .rows()
        .filter(|row| row.states.contains(&context.state))
        .collect();
    let going_on: Vec<&Row> = rows
        .iter()
        .copied()
        .filter(|row| row.next != Next::To(State::U0))
        .collect();
    if going_on.is_empty() || random.one_in(4) {
        return random.pick(&rows);
    }
    random.pick(&going_on)
}

fn on_trigger(
    random: &mut Random,
    table: Table,
    trigger: Trigger,
    context: &Context,
    own: &[u8],
) -> Event {
    let transaction = likely_transaction(random, table, context);
    match trigger {
        Trigger::Message(kind) => {
            let mode = u32::from(random.octet() & 1);
            Event::received(mode, messages::good(random, kind, transaction, own))
        }
        Trigger::Event(number) if carries(table, number) == Some(Carries::Call) => {
            Event::call(number, random.below(7) as u32, random.reference())
        }
        Trigger::Event(number) => Event::plain(number),
    }
}
