//! The fixed set for `step`, fifth part: the state that a termination was asked
//! from (document 02, A2). Every row that remembers it or leads back to it,
//! with all parameters; what is fit beside it and what is not.

use super::step::{received, step, OWN};
use super::step_limits::{asked_timers, value_and_reference};
use crate::probe::tokens::hexadecimal;
use crate::state::BROADCAST_STATES;

const REJECT: &[u8] = &[0xD1, 0x36, 0x01, 0x98];

pub fn all(lines: &mut Vec<String>) {
    remembered(lines);
    timers_in_u5(lines);
    asking(lines);
    rejected(lines);
    rejects_that_are_none(lines);
    order_of_tests(lines);
}

/// Anything remembered in each state.
fn remembered(lines: &mut Vec<String>) {
    for state in BROADCAST_STATES {
        let (number, row) = (state.number(), state.start_row().number());
        let (value, reference) = value_and_reference(state);
        let timers = asked_timers(state);
        for from in (0..=8).chain([255]) {
            let context = format!("{number} {row} {timers} {value} {reference} {from}");
            lines.push(step(&context, "9 0 00000000 0 -"));
        }
    }
}

/// Every set of timers in U5, beside nothing remembered and beside U1; U2 stands
/// in `step_limits`. What document 01 leaves after TERMINATION REJECT is among them.
fn timers_in_u5(lines: &mut Vec<String>) {
    for from in [0, 2] {
        for timers in 0..=31 {
            let context = format!("6 15 {timers} 5 0a0b0c0d {from}");
            lines.push(step(&context, "15 0 00000000 0 -"));
        }
    }
}

/// Event 4 in U1, with its timer and without, and in U2.
fn asking(lines: &mut Vec<String>) {
    for (state, timers) in [(2, 8), (2, 0), (3, 0)] {
        for parameters in 0..=15 {
            let context = format!("{state} {parameters} {timers} 5 0a0b0c0d 0");
            lines.push(step(&context, "4 0 00000000 0 -"));
        }
    }
}

/// TERMINATION REJECT in U5: whatever the parameters were, the row of the state
/// that is entered; the value and the reference stay.
fn rejected(lines: &mut Vec<String>) {
    for from in [2, 3] {
        for parameters in 0..=15u8 {
            let context = format!("6 {parameters} 4 5 0a0b0c0d {from}");
            lines.push(received(&context, parameters & 1, REJECT));
        }
        for value in 0..=6 {
            let context = format!("6 15 4 {value} f{value}f{value}f{value}f{value} {from}");
            let octets = [0x81 | value << 4, 0x36, 0x01, 0x98];
            lines.push(received(&context, 0, &octets));
        }
    }
}

/// Cut short, faulty, for another call: these lead nowhere. COMM true and false.
fn rejects_that_are_none(lines: &mut Vec<String>) {
    for context in ["6 15 4 5 0a0b0c0d 2", "6 11 4 5 0a0b0c0d 2"] {
        for octets in [
            &[0xD1, 0x36][..],
            &[0xD1, 0x36, 0x00],
            &[0xD1, 0x36, 0x02, 0x98],
            &[0xD1, 0x36, 0x01, 0x98, 0x05],
            &[0xD1, 0x76, 0x01, 0x98, 0x80], // bit 7 and what is skipped: one
            &[0x51, 0x36, 0x01, 0x98],
            &[0xC1, 0x36, 0x01, 0x98],
        ] {
            lines.push(received(context, 0, octets));
        }
    }
}

/// 7 comes before 5, 6 and 4, where nothing but what is remembered is not fit.
fn order_of_tests(lines: &mut Vec<String>) {
    for set in 0..8 {
        let wrong = |place: u32| set >> place & 1 == 1;
        let buffer_length = if wrong(0) { 254 } else { 255 };
        let length = if wrong(1) { 252 } else { 251 };
        let mode = if wrong(2) { 2 } else { 0 };
        let octets = hexadecimal(&vec![0xD1; length]);
        for from in [0, 3, 4] {
            lines.push(format!(
                "step 6 15 4 5 0a0b0c0d {from} {OWN} {buffer_length} 18 0 00000000 {mode} {octets}"
            ));
        }
    }
}
