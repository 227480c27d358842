//! Runs of group calls from a cleared context, as steps and as a log: each step of
//! a run, the recorder's last entry, and the log judged, true and then with one
//! entry changed. They are stirred so that they come to everything that can be
//! pending in every sub-state.

use super::log::{chosen, claim, time};
use super::messages;
use super::random::Random;
use super::step::own;
use super::walk::{likely_event, likely_transaction, Walk};
use crate::commands::{judge, record, Step};
use crate::event::*;
use crate::generate::log::bytes;
use crate::message::Kind;
use crate::protocol::Protocol;
use crate::state::State;
use crate::tables::Table;
use std::io::{self, Write};

const GROUP: Protocol = Protocol::Group;

/// Prints so many runs.
pub fn run(seed: u64, count: u64, output: &mut dyn Write) -> io::Result<()> {
    let mut random = Random::from_seed(seed);
    for _ in 0..count {
        for line in lines(&mut random) {
            output.write_all(line.as_bytes())?;
            output.write_all(b"\n")?;
        }
    }
    Ok(())
}

/// The steps of one run, then `grecord` for its last entry, `judge` for its log and
/// `judge` for the log with one entry changed.
pub fn lines(random: &mut Random) -> Vec<String> {
    let identity = own(random, u64::MAX);
    let chosen = chosen(random);
    let mut walk = Walk::begin(Table::Group, identity, chosen);
    let mut lines = Vec::new();
    for _ in 0..random.length(1, 40) {
        let event = event(random, &walk);
        let delta = walk.delta(random, event.number);
        lines.push(Step::from(GROUP, &walk.context, &walk.own, &event).to_string());
        walk.enter(event, delta);
    }
    lines.push(recorded(&walk));
    lines.push(judge(&walk.own, &walk.log()));
    let mut entries = walk.entries.clone();
    match random.one_in(3) {
        true => time(random, &mut entries),
        false => claim(random, &mut entries),
    }
    lines.push(judge(&walk.own, &bytes(Table::Group, &entries)));
    lines
}

/// The last entry recorded behind the others, in exactly the room that it takes.
fn recorded(walk: &Walk) -> String {
    let (last, before) = walk.entries.split_last().expect("a run has an entry");
    let used = match before {
        [] => 0,
        _ => bytes(Table::Group, before).len(),
    };
    let mut buffer = walk.log();
    buffer[used..].fill(0);
    record(GROUP, &buffer, used as u32, last)
}

const MODES: [u32; 5] = [
    GROUP_RECEIVE_MODE_ENTERED,
    NO_CHANNEL,
    RECEIVE_MODE_REQUEST,
    GROUP_TRANSMIT_MODE_ENTERED,
    DEDICATED_MODE_ENTERED,
];

/// Where a call is active mostly something that makes things pending, or lets
/// them out; else what is likely.
fn event(random: &mut Random, walk: &Walk) -> Event {
    let context = &walk.context;
    if context.state == State::U0 || random.one_in(3) {
        return likely_event(random, walk.table, context, &walk.own.identity);
    }
    // A termination and a value are pending together only where ORIG was lost
    // between asking for the one and for the uplink, and no message came since.
    if context.pending.value && !random.one_in(3) {
        return Event::plain(random.pick(&MODES));
    }
    if context.pending.termination && random.one_in(2) {
        return match context.parameters.orig {
            true => message(random, walk, Kind::SetParameter, 0x03),
            false => Event::plain(random.pick(&[GROUP_RECEIVE_MODE_ENTERED, TALK_REQUEST])),
        };
    }
    if context.state == State::U5 && random.one_in(2) {
        let kinds = match (context.pending.status, context.parameters.comm) {
            (true, _) => [Kind::TerminationReject; 2],
            (false, false) => [Kind::GetStatus, Kind::TerminationReject],
            (false, true) => [Kind::SetParameter, Kind::TerminationReject],
        };
        let kind = random.pick(&kinds);
        return message(random, walk, kind, 0x02);
    }
    match random.below(8) {
        0 | 1 => message(random, walk, Kind::GetStatus, 0),
        2 => message(random, walk, Kind::SetParameter, 0),
        // COMM false, so that something can be pending.
        3 | 4 => message(random, walk, Kind::SetParameter, 0x02),
        5 => Event::plain(TERMINATE),
        6 => Event::plain(TALK_REQUEST),
        _ => Event::plain(random.pick(&MODES)),
    }
}

/// One without an identity, for this call; these state attributes are false.
fn message(random: &mut Random, walk: &Walk, kind: Kind, without: u8) -> Event {
    let transaction = likely_transaction(random, walk.table, &walk.context);
    let mut octets = messages::good(random, kind, transaction, &walk.own.identity);
    match kind {
        Kind::GetStatus => octets.truncate(2),
        Kind::SetParameter => octets[2] &= !without,
        _ => (),
    }
    Event::received(0, octets)
}
