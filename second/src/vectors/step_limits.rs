//! The fixed set for `step`, second part: fit and unfit contexts, arguments at
//! and outside their ranges, and the order 7, 5, 6, 4.

use super::step::{step, CONTEXTS, OWN};
use crate::probe::tokens::hexadecimal;
use crate::state::{State, BROADCAST_STATES};

pub fn all(lines: &mut Vec<String>) {
    fitness(lines);
    cleared(lines);
    own_settings(lines);
    arguments(lines);
    message_lengths(lines);
    order_of_tests(lines);
}

/// The timers that run in this state always, as a number.
pub fn asked_timers(state: State) -> u8 {
    match state {
        State::U0p => 8,
        State::U3 => 16,
        State::U4 => 2,
        State::U5 => 4,
        _ => 0,
    }
}

/// A transaction value and a reference that are fit in this state.
pub fn value_and_reference(state: State) -> (u8, &'static str) {
    match state {
        State::U0 => (0, "00000000"),
        _ => (5, "0a0b0c0d"),
    }
}

/// In each state all parameters beside the timers that it asks for, and all
/// timers beside its start row.
fn fitness(lines: &mut Vec<String>) {
    for state in BROADCAST_STATES {
        let number = state.number();
        let row = state.start_row().number();
        let asked = asked_timers(state);
        let from = if state == State::U5 { 3 } else { 0 };
        let (value, reference) = value_and_reference(state);
        let parameters = (0..=15).map(|parameters| (parameters, asked));
        let timers = (0..=31).map(|timers| (row, timers));
        for (parameters, timers) in parameters.chain(timers) {
            let context = format!("{number} {parameters} {timers} {value} {reference} {from}");
            lines.push(step(&context, "9 0 00000000 0 -"));
        }
        for value in [0, 1, 5, 6, 7, 8, 127, 128, 255] {
            let context = format!("{number} {row} {asked} {value} {reference} {from}");
            lines.push(step(&context, "5 0 00000000 0 -"));
        }
    }
    // Numbers that are no state, whatever stands beside them.
    for number in [8, 9, 15, 16, 100, 254, 255] {
        for rest in [
            "0 0 0 00000000 0",
            "15 15 255 ffffffff 255",
            "12 8 5 0a0b0c0d 2",
            "0 16 5 0a0b0c0d 0",
            "0 31 5 0a0b0c0d 0",
        ] {
            lines.push(step(&format!("{number} {rest}"), "5 0 00000000 0 -"));
        }
    }
}

/// U0 that is not cleared, in one place at a time.
fn cleared(lines: &mut Vec<String>) {
    for context in [
        "0 0 0 0 00000000 0",
        "0 8 0 0 00000000 0",
        "0 4 0 0 00000000 0",
        "0 2 0 0 00000000 0",
        "0 1 0 0 00000000 0",
        "0 0 8 0 00000000 0",
        "0 0 4 0 00000000 0",
        "0 0 2 0 00000000 0",
        "0 0 1 0 00000000 0",
        "0 0 16 0 00000000 0",
        "0 0 0 1 00000000 0",
        "0 0 0 6 00000000 0",
        "0 0 0 0 01000000 0",
        "0 0 0 0 00010000 0",
        "0 0 0 0 00000100 0",
        "0 0 0 0 00000001 0",
    ] {
        lines.push(step(context, "1 3 01020304 0 -"));
    }
}

/// Key number 7 and 8, identities of 0, 1, 8 and 9 octets, buffers of 254 and
/// 255: with an event that has a step, one that has none, and a message.
fn own_settings(lines: &mut Vec<String>) {
    let events = [
        "5 0 00000000 0 -",
        "3 0 00000000 0 -",
        "18 0 00000000 1 d139",
    ];
    for event in events {
        let context = "3 15 0 5 0a0b0c0d 0";
        for key_number in (0..=9).chain([15, 16, 128, 255]) {
            lines.push(format!(
                "step {context} {key_number} 3359a2 29f1 255 {event}"
            ));
        }
        for length in (0..=10).chain([16, 255, 256, 264]) {
            let identity = hexadecimal(&vec![0x29; length]);
            lines.push(format!("step {context} 3 3359a2 {identity} 255 {event}"));
        }
        for length in [0, 1, 127, 128, 253, 254, 255, 256, 511, 4_294_967_295u32] {
            lines.push(format!("step {context} {OWN} {length} {event}"));
        }
    }
}

/// Event numbers, transaction values and modes on both sides; where the event
/// does not carry the field, it has no effect.
fn arguments(lines: &mut Vec<String>) {
    for (context, _) in [CONTEXTS[0], CONTEXTS[2], CONTEXTS[4], CONTEXTS[10]] {
        for event in [0, 19, 20, 255, 256, 274, 65_537, 4_294_967_295u32] {
            lines.push(step(context, &format!("{event} 0 00000000 0 -")));
        }
        for value in [6, 7, 8, 255] {
            for event in [1, 2, 10] {
                lines.push(step(context, &format!("{event} {value} 0e0f1011 0 -")));
            }
        }
        for mode in [0, 1, 2, 255] {
            lines.push(step(context, &format!("18 0 00000000 {mode} -")));
        }
    }
    for event in 0..=20 {
        for (context, _) in [CONTEXTS[0], CONTEXTS[4]] {
            lines.push(step(context, &format!("{event} 7 00000000 2 -")));
            lines.push(step(context, &format!("{event} 255 ffffffff 255 d1")));
        }
    }
}

/// Messages of 250 to 253 octets, and as many octets beside every other event.
fn message_lengths(lines: &mut Vec<String>) {
    for length in [0, 1, 2, 3, 250, 251, 252, 253, 300, 507] {
        let octets = hexadecimal(&vec![0xD1; length]);
        lines.push(step(
            "3 15 0 5 0a0b0c0d 0",
            &format!("18 0 00000000 0 {octets}"),
        ));
        lines.push(step(
            "0 0 0 0 00000000 0",
            &format!("18 0 00000000 0 {octets}"),
        ));
    }
    let long = hexadecimal(&[0xD1; 252]);
    for event in 0..=20 {
        lines.push(step(
            "3 15 0 5 0a0b0c0d 0",
            &format!("{event} 0 00000000 0 {long}"),
        ));
        lines.push(step(
            "0 0 0 0 00000000 0",
            &format!("{event} 0 00000000 0 {long}"),
        ));
    }
}

/// All sets of the five things that can be wrong at once: whether the context is,
/// and the rest of the command, with a message of this octet.
pub fn wrong_at_once(octet: u8) -> impl Iterator<Item = (bool, String)> {
    (0..32).map(move |set| {
        let wrong = |place: u32| set >> place & 1 == 1;
        let buffer_length = if wrong(1) { 254 } else { 255 };
        let length = if wrong(2) { 252 } else { 251 };
        let mode = if wrong(3) { 2 } else { 0 };
        let own = if wrong(4) { "8 3359a2 -" } else { OWN };
        let octets = hexadecimal(&vec![octet; length]);
        let rest = format!("{own} {buffer_length} 18 0 00000000 {mode} {octets}");
        (wrong(0), rest)
    })
}

fn order_of_tests(lines: &mut Vec<String>) {
    for (unfit, rest) in wrong_at_once(0x51) {
        let parameters = if unfit { 4 } else { 0 };
        lines.push(format!("step 4 {parameters} 16 5 0a0b0c0d 0 {rest}"));
    }
}
