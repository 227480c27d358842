//! Runs by each broadcast table, judged under the number of every version of
//! broadcast logs: true, and with one entry changed. Most of them ask for a termination or are invited to a
//! call, in whose rows the tables part.

use super::log::{bytes, chosen, claim, time};
use super::messages::{self, Transaction};
use super::random::Random;
use super::step::own;
use super::walk::Walk;
use crate::commands;
use crate::event::{carries, Event};
use crate::log::entry::Entry;
use crate::message::Kind;
use crate::protocol::Protocol;
use crate::state::State;
use crate::tables::{Table, BROADCAST_TABLES};
use std::io::{self, Write};

/// Prints so many rounds: for each table a run, its entries as they are under
/// each version, then with one of them changed under each.
pub fn run(seed: u64, count: u64, output: &mut dyn Write) -> io::Result<()> {
    let mut random = Random::from_seed(seed);
    for _ in 0..count {
        for table in BROADCAST_TABLES {
            for line in round(&mut random, table) {
                output.write_all(line.as_bytes())?;
                output.write_all(b"\n")?;
            }
        }
    }
    Ok(())
}

pub fn round(random: &mut Random, table: Table) -> Vec<String> {
    let walk = walk(random, table);
    let changed = changed(random, &walk);
    let mut lines = Vec::new();
    for entries in [&walk.entries, &changed] {
        for version in BROADCAST_TABLES {
            lines.push(commands::judge(&walk.own, &bytes(version, entries)));
        }
    }
    lines
}

fn walk(random: &mut Random, table: Table) -> Walk {
    let identity = own(random, u64::MAX);
    let chosen = chosen(random);
    let mut walk = Walk::begin(table, identity, chosen);
    if random.one_in(5) {
        let count = random.length(0, 12);
        walk.go(random, count);
        walk.go_home(random);
    }
    let calls = random.below(6);
    if calls < 3 {
        for _ in 0..=calls {
            be_invited(random, &mut walk);
        }
    }
    if random.below(3) > 0 {
        ask_for_termination(random, &mut walk);
    }
    let count = random.length(0, 8);
    walk.go(random, count);
    walk
}

/// From U0 by U1, and U2 perhaps, to U5.
fn ask_for_termination(random: &mut Random, walk: &mut Walk) {
    let value = random.below(7) as u32;
    if random.one_in(2) {
        walk.enter(Event::call(2, value, random.reference()), 3);
    } else {
        walk.enter(Event::call(1, value, random.reference()), 3);
        walk.enter(Event::plain(6), 4_000);
    }
    while walk.context.state == State::U1 && random.one_in(2) {
        // One in four does not name us, and leaves U1 as it is.
        let transaction = Transaction {
            protocol: Protocol::Broadcast,
            flag: 1,
            value: value as u8,
        };
        let octets = messages::good(random, Kind::Connect, transaction, &[]);
        walk.enter(Event::received(0, octets), 5);
    }
    walk.enter(Event::plain(4), 100);
}

/// From U0 to U3 and back: often, where there is such a timer, by its expiry, or
/// else by a join that fails or by a release, after something that stays or not.
fn be_invited(random: &mut Random, walk: &mut Walk) {
    let value = random.below(7) as u32;
    walk.enter(Event::call(10, value, random.reference()), 3);
    if random.one_in(3) {
        let delta = walk.delta(random, 12);
        walk.enter(Event::plain(12), delta);
    }
    let ends: &[u32] = match walk.table {
        Table::First | Table::Second | Table::Group => &[3, 3, 5],
        Table::Third => &[19, 19, 19, 3, 3, 5],
    };
    let end = random.pick(ends);
    let delta = walk.delta(random, end);
    walk.enter(Event::plain(end), delta);
    if end == 3 {
        let end = random.pick(&[16, 16, 9]);
        let delta = walk.delta(random, end);
        walk.enter(Event::plain(end), delta);
    }
}

/// The entries with one of them changed: to what another table gives there, in a
/// claim, or in its time.
fn changed(random: &mut Random, walk: &Walk) -> Vec<Entry> {
    let mut entries = walk.entries.clone();
    match random.below(5) {
        0 | 1 => as_by_another(random, walk, &mut entries),
        2 => claim(random, &mut entries),
        3 => time_in_u3(random, &mut entries),
        _ => time(random, &mut entries),
    }
    entries
}

/// Another time of one entry in U3: none, short of the least timer, or about the
/// greatest and far beyond it.
fn time_in_u3(random: &mut Random, entries: &mut [Entry]) {
    let u3 = u32::from(State::U3.number());
    let places: Vec<usize> = (1..entries.len())
        .filter(|&place| entries[place - 1].state == u3)
        .collect();
    if !places.is_empty() {
        let place = random.pick(&places);
        entries[place].delta = random.pick(&[0, 500, 999, 600_000, 600_001, 86_400_000]);
    }
}

/// The first entry in which another table's run of the same events differs,
/// before one that the other table does not know.
fn as_by_another(random: &mut Random, walk: &Walk, entries: &mut [Entry]) {
    let others: Vec<Table> = BROADCAST_TABLES
        .into_iter()
        .filter(|t| *t != walk.table)
        .collect();
    let mut another = Walk::begin(random.pick(&others), walk.own.clone(), walk.chosen);
    for entry in &walk.entries {
        if carries(another.table, entry.event.number).is_none() {
            break;
        }
        another.enter(entry.event.clone(), u64::from(entry.delta));
    }
    let pairs = entries.iter_mut().zip(another.entries);
    for (entry, instead) in pairs {
        if *entry != instead {
            *entry = instead;
            return;
        }
    }
}
