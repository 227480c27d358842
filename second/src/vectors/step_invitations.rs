//! The fixed set for `step`, sixth part: the timer of an invitation (document
//! 02, A13). Every row that sets it, stops it or is its expiry; U3 without it
//! and every other state with it, which are not fit; its expiry elsewhere.

use super::step::{received, step, OWN};
use super::step_limits::{asked_timers, value_and_reference};
use crate::probe::tokens::hexadecimal;
use crate::state::{State, BROADCAST_STATES};

const NOTHING: &str = "0 00000000 0 -";
const TERMINATION: &[u8] = &[0x51, 0x34, 0x01, 0x90];

pub fn all(lines: &mut Vec<String>) {
    notified(lines);
    timers_in_u3(lines);
    ends(lines);
    elsewhere(lines);
    what_it_does_not_carry(lines);
    order_of_tests(lines);
}

/// Event 10 sets it, whatever value and reference are stored.
fn notified(lines: &mut Vec<String>) {
    for (value, reference) in [(0, "00000000"), (6, "ffffffff"), (7, "00000001")] {
        lines.push(step(
            "0 0 0 0 00000000 0",
            &format!("10 {value} {reference} 0 -"),
        ));
    }
}

/// Every set of timers in U3 with its expiry, a join and a message: one is fit.
fn timers_in_u3(lines: &mut Vec<String>) {
    for timers in 0..=31 {
        let context = format!("4 0 {timers} 5 0a0b0c0d 0");
        lines.push(step(&context, &format!("19 {NOTHING}")));
        lines.push(step(&context, &format!("3 {NOTHING}")));
        lines.push(received(&context, 0, &[0x51, 0x39]));
    }
}

/// Every row of U3 with all parameters, of which four are fit, and with the
/// values at the ends of their range.
fn ends(lines: &mut Vec<String>) {
    for parameters in 0..=15 {
        let context = format!("4 {parameters} 16 5 0a0b0c0d 0");
        for event in [3, 5, 8, 9, 10, 16, 19] {
            lines.push(step(&context, &format!("{event} {NOTHING}")));
        }
        lines.push(received(&context, 1, TERMINATION));
    }
    for (value, first) in [(0, 0x01), (6, 0x61)] {
        let context = format!("4 0 16 {value} ffffffff 0");
        for event in [3, 19] {
            lines.push(step(&context, &format!("{event} {NOTHING}")));
        }
        lines.push(received(&context, 0, &[first, 0x34, 0x01, 0x90]));
        lines.push(received(&context, 0, &[first, 0x3A, 0x0C]));
    }
}

/// Its expiry in each other state, with the timers that run there and with T_pres
/// besides; U5 with either state remembered.
fn elsewhere(lines: &mut Vec<String>) {
    for state in BROADCAST_STATES
        .into_iter()
        .filter(|state| *state != State::U3)
    {
        let (number, row) = (state.number(), state.start_row().number());
        let (value, reference) = value_and_reference(state);
        let froms: &[u8] = if state == State::U5 { &[2, 3] } else { &[0] };
        for from in froms {
            for timers in [asked_timers(state), 16 | asked_timers(state), 16] {
                let context = format!("{number} {row} {timers} {value} {reference} {from}");
                lines.push(step(&context, &format!("19 {NOTHING}")));
            }
        }
    }
    for context in ["2 12 8 5 0a0b0c0d 0", "7 2 1 5 0a0b0c0d 0"] {
        lines.push(step(context, &format!("19 {NOTHING}")));
    }
}

/// Values, modes and messages beside it have no effect, as long as they may be.
fn what_it_does_not_carry(lines: &mut Vec<String>) {
    let long = hexadecimal(&[0x51; 252]);
    for context in ["4 0 16 5 0a0b0c0d 0", "3 15 0 5 0a0b0c0d 0"] {
        for rest in ["7 00000000 2 -", "255 ffffffff 255 51", "0 00000000 0 5134"] {
            lines.push(step(context, &format!("19 {rest}")));
        }
        for event in [19, 20] {
            lines.push(step(context, &format!("{event} 0 00000000 0 {long}")));
        }
    }
}

/// All sets of three things that can be wrong, beside U3 with its timer and
/// without, and with event 19 and 20: 7, 5, 4.
fn order_of_tests(lines: &mut Vec<String>) {
    for set in 0..8 {
        let wrong = |place: u32| set >> place & 1 == 1;
        let timers = if wrong(0) { 0 } else { 16 };
        let buffer_length = if wrong(1) { 254 } else { 255 };
        let own = if wrong(2) { "8 3359a2 -" } else { OWN };
        for event in [19, 20] {
            lines.push(format!(
                "step 4 0 {timers} 5 0a0b0c0d 0 {own} {buffer_length} {event} {NOTHING}"
            ));
        }
    }
}
