//! Logs by chance: a true run by one of the tables, then in part damaged in one
//! place.

use super::random::Random;
use super::step::own;
use super::walk::Walk;
use crate::log::entry::Entry;
use crate::log::number;
use crate::tables::{Table, TABLES};
use crate::timer::Chosen;

/// The bytes of a log with these entries, of this table's version.
pub fn bytes(table: Table, entries: &[Entry]) -> Vec<u8> {
    let mut log = Vec::new();
    number::push(&mut log, table.version());
    for entry in entries {
        entry.push(table, &mut log);
    }
    log
}

/// A true run by one of the tables.
pub fn true_run(random: &mut Random) -> Walk {
    let table = random.pick(&TABLES);
    true_run_by(random, table)
}

/// A true run by this table under one timer of each setting, sometimes of several
/// calls.
pub fn true_run_by(random: &mut Random, table: Table) -> Walk {
    let identity = own(random, u64::MAX);
    let chosen = chosen(random);
    let mut walk = Walk::begin(table, identity, chosen);
    let count = random.pick(&[0, 1, 2, 4, 6, 8, 10, 14, 20, 30]);
    walk.go(random, count);
    walk
}

/// Lengths that the settings may have, often at a limit.
pub fn chosen(random: &mut Random) -> Chosen {
    Chosen {
        joining: match random.below(4) {
            0 => 10_000,
            1 => 30_000,
            2 => random.pick(&[10_001, 12_000, 20_000, 29_999]),
            _ => random.between(10_000, 30_000),
        },
        invitation: match random.below(4) {
            0 => 1_000,
            1 => 600_000,
            2 => random.pick(&[1_001, 10_000, 30_000, 60_000, 599_999]),
            _ => random.between(1_000, 600_000),
        },
    }
}

/// The run's log with one thing wrong, which now and then changes nothing.
pub fn damaged(random: &mut Random, mut walk: Walk) -> (Walk, Vec<u8>) {
    let mut log = Vec::new();
    match random.below(12) {
        0 | 1 => claim(random, &mut walk.entries),
        2 | 3 => time(random, &mut walk.entries),
        4 => order(random, &mut walk.entries),
        5 => another_timer(random, &mut walk),
        6 => log = longer_number(random, walk.table, &walk.entries),
        // As one of another version, or of its own.
        7 | 8 => log = bytes(random.pick(&TABLES), &walk.entries),
        9 => {
            log = walk.log();
            let count = random.length(1, 4);
            log.extend(random.octets(count));
        }
        10 => {
            log = walk.log();
            let length = random.length(0, log.len());
            log.truncate(length);
        }
        _ => {
            log = walk.log();
            let place = random.place(log.len());
            log[place] = match random.one_in(2) {
                true => log[place] ^ 1 << random.below(8),
                false => random.octet(),
            };
        }
    }
    if log.is_empty() {
        log = walk.log();
    }
    (walk, log)
}

/// One field of one entry, mostly in its range.
pub fn claim(random: &mut Random, entries: &mut [Entry]) {
    if entries.is_empty() {
        return;
    }
    let entry = &mut entries[random.place(entries.len())];
    match random.below(8) {
        0 => entry.answer = random.between(0, 4) as u32,
        1 => entry.state = random.between(0, 14) as u32,
        2 => entry.parameters = random.between(0, 16) as u32,
        3 => entry.actions = random.pick(&[0, 1, 2, 4, 8, 9, 16, 17, 32, 63, 64, 127, 128]),
        4 => entry.reply.push(0),
        5 => entry.reply = vec![0x51; random.pick(&[1, 255, 256])],
        6 => {
            entry.reply.pop();
        }
        _ => {
            entry.event.number = match random.one_in(3) {
                true => random.between(30, 37),
                false => random.between(0, 20),
            } as u32
        }
    }
}

/// One millisecond more or less, mostly at an expiry.
pub fn time(random: &mut Random, entries: &mut [Entry]) {
    if entries.is_empty() {
        return;
    }
    let expiries: Vec<usize> = (0..entries.len())
        .filter(|&place| [14, 15, 16, 17, 19].contains(&entries[place].event.number))
        .collect();
    let place = match expiries.is_empty() || random.one_in(3) {
        true => random.place(entries.len()),
        false => random.pick(&expiries),
    };
    let delta = &mut entries[place].delta;
    *delta = match random.below(5) {
        0 | 1 => *delta + 1,
        2 | 3 => delta.saturating_sub(1),
        _ => random.pick(&[
            999, 3_001, 5_001, 10_001, 30_001, 600_000, 600_001, 86_400_000, 86_400_001,
        ]),
    };
}

/// An entry left out, doubled, or changed about with its neighbour.
fn order(random: &mut Random, entries: &mut Vec<Entry>) {
    if entries.is_empty() {
        return;
    }
    let place = random.place(entries.len());
    match random.below(3) {
        0 => {
            entries.remove(place);
        }
        1 => entries.insert(place, entries[place].clone()),
        _ => entries.swap(0, place),
    }
}

/// The run goes on with another T_conn req and another T_pres, as no true log does.
fn another_timer(random: &mut Random, walk: &mut Walk) {
    walk.go_home(random);
    walk.chosen = chosen(random);
    let count = random.length(4, 12);
    walk.go(random, count);
}

/// One entry's time, or the version, written a byte longer than it needs.
fn longer_number(random: &mut Random, table: Table, entries: &[Entry]) -> Vec<u8> {
    let chosen = random.place(entries.len() + 1);
    let mut log = bytes(table, &entries[..chosen]);
    if chosen == entries.len() {
        log[0] |= 0x80;
        log.insert(1, 0);
        return log;
    }
    let mut longer = Vec::new();
    number::push(&mut longer, entries[chosen].delta);
    let length = longer.len();
    let mut rest = Vec::new();
    entries[chosen].push(table, &mut rest);
    longer[length - 1] |= 0x80;
    longer.push(0);
    log.extend(longer);
    log.extend(&rest[length..]);
    log.extend(&bytes(table, &entries[chosen + 1..])[1..]);
    log
}
