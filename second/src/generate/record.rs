//! `record` by chance: room exact or short by one, fields at and over their
//! limits, and now and then a log as long as one may be.

use super::log::true_run_by;
use super::random::Random;
use crate::commands;
use crate::event::{all_but_messages, Event, MESSAGE_RECEIVED};
use crate::log::entry::Entry;
use crate::tables::Table;

pub fn command(random: &mut Random, table: Table, long: bool) -> String {
    let mut entry = match random.one_in(2) {
        true => from_a_run(random, table),
        false => by_chance(random, table),
    };
    if random.one_in(3) {
        at_a_limit(random, table, &mut entry);
    }
    let mut added = Vec::new();
    entry.push(table, &mut added);
    let used = match long {
        true => 65_536 - added.len().min(65_000) + random.length(0, 1),
        false => random.pick(&[0, 0, 1, 2, 9, 30]),
    };
    let needed = used + added.len() + usize::from(used == 0);
    let length = match random.below(8) {
        0 => needed.saturating_sub(1),
        1..=3 => needed,
        4 => needed + 1,
        5 => used,
        _ => needed + random.length(2, 20),
    };
    let buffer = match long {
        true => vec![random.octet(); length],
        false => random.octets(length),
    };
    let used = match random.below(16) {
        0 => length as u32 + 1,
        1 => length as u32,
        2 => random.pick(&[65_536, 65_537, 4_294_967_295]),
        _ => used as u32,
    };
    commands::record(table.protocol(), &buffer, used, &entry)
}

fn from_a_run(random: &mut Random, table: Table) -> Entry {
    let run = true_run_by(random, table);
    run.entries
        .last()
        .cloned()
        .unwrap_or_else(|| by_chance(random, table))
}

fn by_chance(random: &mut Random, table: Table) -> Entry {
    let octets = random.length(0, 6);
    let reply = random.pick(&[0, 0, 1, 5]);
    Entry {
        delta: random.pick(&[0, 1, 127, 128, 300, 16_383, 16_384, 2_097_152, 86_400_000]),
        event: Event {
            number: match random.one_in(4) {
                true => MESSAGE_RECEIVED,
                false => random.pick(&all_but_messages(table)),
            },
            transaction_value: random.pick(&[0, 3, 6, 6, 7]),
            reference: random.reference(),
            mode: random.pick(&[0, 1, 1, 2]),
            octets: random.octets(octets),
        },
        answer: random.between(0, 3) as u32,
        state: random.below(u64::from(table.greatest_state()) + 1) as u32,
        parameters: random.between(0, 15) as u32,
        actions: random.below(u64::from(table.greatest_actions()) + 1) as u32,
        reply: random.octets(reply),
    }
}

fn at_a_limit(random: &mut Random, table: Table, entry: &mut Entry) {
    let beyond = 4_294_967_295;
    match random.below(10) {
        0 => entry.delta = random.pick(&[86_399_999, 86_400_000, 86_400_001, beyond]),
        1 => {
            entry.event.number = random.pick(&[0, 1, 2, 10, 18, 19, 20, 31, 32, 36, 37, beyond]);
        }
        2 => entry.event.transaction_value = random.pick(&[6, 7, beyond]),
        3 => entry.event.mode = random.pick(&[1, 2, beyond]),
        4 => entry.answer = at_or_over(random, 3),
        5 => entry.state = at_or_over(random, table.greatest_state()),
        6 => entry.parameters = at_or_over(random, 15),
        7 => entry.actions = at_or_over(random, table.greatest_actions()),
        8 => {
            let length = random.pick(&[127, 128, 254, 255, 256]);
            entry.reply = random.octets(length);
        }
        _ => {
            let length = random.pick(&[127, 128, 250, 251, 252]);
            entry.event.number = random.pick(&[18, 18, 18, 9]);
            entry.event.octets = random.octets(length);
        }
    }
}

fn at_or_over(random: &mut Random, limit: u32) -> u32 {
    random.pick(&[limit, limit + 1, 4_294_967_295])
}
