//! `step` by chance: fit and unfit contexts, all events, and messages that
//! concern the call or not.

use super::messages;
use super::random::Random;
use super::walk::{likely_event, likely_transaction};
use super::write::buffer_length;
use crate::call::{Pending, CHOOSERS};
use crate::commands::{Identity, Step};
use crate::context::Context;
use crate::event::{all_but_messages, Event};
use crate::protocol::Protocol;
use crate::state::{Parameters, State};
use crate::tables::Table;
use crate::timer::RunningTimers;

pub fn command(random: &mut Random, table: Table) -> String {
    let own = own(random, 12);
    let context = fit_context(random, table);
    let event = event(random, table, &context, &own);
    let mut step = Step::from(table.protocol(), &context, &own, &event);
    step.buffer_length = buffer_length(random);
    if random.one_in(10) {
        match table.protocol() {
            Protocol::Broadcast => unfit(random, &mut step),
            Protocol::Group => unfit_group(random, &mut step),
        }
    }
    step.to_string()
}

/// Identity settings, out of range once in `share`.
pub fn own(random: &mut Random, share: u64) -> Identity {
    let in_range = !random.one_in(share);
    let length = match in_range {
        true => random.pick(&[1, 2, 2, 2, 5, 7, 8]),
        false => random.pick(&[0, 9, 1, 20]),
    };
    let key_number = match in_range {
        true => random.octet() & 7,
        false => random.pick(&[0, 7, 8, 255]),
    };
    let identity = match random.one_in(3) {
        true => vec![0x29; length],
        false => random.octets(length),
    };
    let classmark = [random.octet(), random.octet(), random.octet()];
    Identity {
        key_number,
        classmark,
        identity,
    }
}

/// A context of any state that is fit by this table; start rows stand out among
/// the parameters, and so does what is pending where it may be.
pub fn fit_context(random: &mut Random, table: Table) -> Context {
    let state = random.pick(table.protocol().states());
    loop {
        let mut parameters = state.start_row();
        if random.one_in(3) {
            parameters = Parameters::from_number(random.octet() & 15);
        }
        // Every state has a fit set among no timer and each single one.
        let timers = RunningTimers::from_number(random.pick(&[0, 1, 2, 4, 8, 16]));
        let remembered = match state {
            State::U5 => Some(random.pick(table.asked_from())),
            _ => None,
        };
        let mut context = Context {
            state,
            parameters,
            timers,
            transaction_value: random.below(7) as u8,
            reference: random.reference(),
            remembered,
            chooser: random.pick(&CHOOSERS),
            pending: Pending::from_number(random.octet() & 7),
        };
        if table.protocol() == Protocol::Broadcast {
            context.chooser = Context::cleared().chooser;
            context.pending = Pending::default();
        }
        if state.number() == 0 {
            context = Context::cleared();
        }
        if context.is_fit(table) {
            return context;
        }
    }
}

fn event(random: &mut Random, table: Table, context: &Context, own: &Identity) -> Event {
    match random.below(12) {
        0..=3 => likely_event(random, table, context, &own.identity),
        4 => Event {
            number: random.pick(&[
                0,
                18,
                19,
                20,
                31,
                32,
                36,
                37,
                255,
                256,
                65_536,
                4_294_967_295,
            ]),
            ..filled(random)
        },
        5..=6 => Event {
            number: random.pick(&all_but_messages(table)),
            ..filled(random)
        },
        _ => Event {
            number: 18,
            mode: mode(random),
            octets: message(random, table, context, &own.identity),
            ..filled(random)
        },
    }
}

/// Every field filled, those too that the event does not carry.
fn filled(random: &mut Random) -> Event {
    Event {
        number: 0,
        transaction_value: random.pick(&[0, 1, 2, 3, 4, 5, 6, 6, 7, 8, 255]),
        reference: random.reference(),
        mode: mode(random),
        octets: match random.below(20) {
            0 => random.octets(251),
            1 => random.octets(252),
            2 | 3 => random.octets(4),
            _ => Vec::new(),
        },
    }
}

/// Acknowledged or not, now and then neither.
fn mode(random: &mut Random) -> u32 {
    match random.below(20) {
        0 => random.pick(&[2, 255]),
        _ => random.below(2) as u32,
    }
}

/// Mostly for this call; the flag or the value of another one now and then.
fn message(random: &mut Random, table: Table, context: &Context, own: &[u8]) -> Vec<u8> {
    let mut transaction = likely_transaction(random, table, context);
    match random.below(12) {
        0 => transaction.flag = 1 - transaction.flag,
        1 => transaction.value = random.octet() & 7,
        _ => (),
    }
    let kind = messages::likely_kind(random, context.state);
    let mut octets = messages::any(random, kind, transaction, own);
    if random.one_in(12) {
        let length = random.pick(&[244, 245, 246, 247, 250, 251, 252, 252, 253]);
        messages::fill(random, &mut octets, length);
    }
    if random.one_in(30) && !octets.is_empty() {
        octets[0] = random.octet();
    }
    octets
}

fn unfit(random: &mut Random, step: &mut Step) {
    match random.below(10) {
        0 => step.parameters = random.octet() & 15,
        1 => step.timers = random.octet() & 31,
        2 => step.transaction_value = random.pick(&[6, 7, 8, 255]),
        3 => step.state = random.pick(&[7, 8, 9, 255]),
        4 => step.state = random.octet() & 7,
        5 => step.reference = random.reference(),
        6 => step.remembered = random.pick(&[0, 1, 2, 3, 4, 5, 6, 7, 8, 255]),
        7 => in_u5_by_chance(random, step),
        8 => with_the_invitation(random, step),
        _ => {
            step.parameters = random.octet() & 15;
            step.timers = random.octet() & 31;
            step.state = random.octet() & 15;
        }
    }
}

/// A context of a group call with something that does not go with the rest.
fn unfit_group(random: &mut Random, step: &mut Step) {
    match random.below(9) {
        0 => step.parameters = random.octet() & 15,
        1 => step.timers = random.octet() & 15,
        2 => step.transaction_value = random.pick(&[6, 7, 8, 255]),
        3 => step.state = random.pick(&[3, 7, 14, 15, 255]),
        4 => step.state = random.octet() & 15,
        5 => step.reference = random.reference(),
        6 => step.remembered = random.pick(&[0, 1, 2, 3, 6, 8, 9, 10, 11, 12, 13, 14, 255]),
        7 => step.chooser = random.pick(&[0, 1, 2, 3, 255]),
        _ => step.pending = random.octet() & 7,
    }
}

/// U5 with one timer or none and with anything remembered, fit or not.
fn in_u5_by_chance(random: &mut Random, step: &mut Step) {
    step.state = State::U5.number();
    step.timers = random.pick(&[0, 4, 4, 8]);
    step.remembered = random.pick(&[0, 1, 2, 3, 4, 255]);
}

/// U3 with T_pres or without it, beside another timer or not; or T_pres elsewhere.
fn with_the_invitation(random: &mut Random, step: &mut Step) {
    if random.one_in(2) {
        step.timers ^= 16;
        return;
    }
    step.state = State::U3.number();
    step.parameters = random.octet() & 3;
    step.timers = random.pick(&[0, 16, 16, 17, 18, 20, 24]);
    step.remembered = 0;
}
