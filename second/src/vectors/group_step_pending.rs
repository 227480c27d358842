//! The fixed set for `gstep`, second part: what is pending in each state with each
//! ORIG and COMM, when it goes out and in which order; the value that a message
//! tells; and the places that a rejected termination leads back to.

use super::group_step::{contexts, first, messages, plain, received, start};

pub fn all(lines: &mut Vec<String>) {
    pending(lines);
    elsewhere(lines);
    connects(lines);
    awaiting(lines);
    first_octets(lines);
    rejected(lines);
    rejects_that_are_none(lines);
}

/// The timers that always run in a state: in U1, T_MM-est need not.
fn asked_timers(state: u8) -> u8 {
    match start(state) {
        [2, ..] => 0,
        [_, _, timers, ..] => timers,
    }
}

/// Everything pending with every ORIG and COMM in U1 and the sub-states, fit or
/// not: a termination asked for, deleted, and what lets it out.
fn pending(lines: &mut Vec<String>) {
    for state in [2, 8, 9, 10, 11, 12, 13] {
        for parameters in [0, 4, 8, 12] {
            for pending in 0..=7 {
                let chooser = if state == 2 { 1 } else { 1 + pending % 2 };
                let tokens = [state, parameters, asked_timers(state), 0, chooser, pending];
                // Awaiting a value with ORIG is not fit: once is enough.
                if parameters & 8 != 0 && pending % 2 == 1 && pending > 1 {
                    continue;
                }
                lines.push(plain(tokens, 4));
                lines.push(plain(tokens, if state == 8 { 32 } else { 35 }));
                if pending % 2 == 0 {
                    lines.push(plain(tokens, 36));
                    lines.push(received(tokens, 0, &[first(tokens), 0x39]));
                    lines.push(received(tokens, 0, &[first(tokens), 0x3A, 0x03]));
                }
            }
        }
    }
}

/// A status that waits in the other states, and what no other state can have.
fn elsewhere(lines: &mut Vec<String>) {
    for (state, from, chooser, next) in [(1, 0, 1, 6), (4, 0, 2, 3), (5, 0, 2, 35), (6, 9, 1, 15)] {
        for parameters in [0, 4, 8] {
            for pending in 0..=7 {
                let tokens = [
                    state,
                    parameters,
                    asked_timers(state),
                    from,
                    chooser,
                    pending,
                ];
                lines.push(plain(tokens, next));
                if pending < 4 {
                    lines.push(received(tokens, 1, &[first(tokens), 0x39]));
                }
            }
        }
    }
    for pending in 0..=7 {
        lines.push(plain([0, 0, 0, 0, 0, pending], 9));
    }
}

/// CONNECT with every octet of the originator indication about 0 and 1, with
/// what waits in U0.p and U1.
fn connects(lines: &mut Vec<String>) {
    for tokens in contexts("188010 188012 2c8010 2c0010 288016 280014 248014 200012") {
        for octet in [0x00, 0x01, 0x02, 0x03, 0x10, 0xFE, 0xFF] {
            lines.push(received(
                tokens,
                0,
                &[0xD0, 0x33, 0xF1, 0xF2, 0xF3, 0xF4, octet],
            ));
        }
    }
}

/// Where the value is awaited: each value with each flag; messages that are taken,
/// reported and ignored; each end of the waiting.
fn awaiting(lines: &mut Vec<String>) {
    for tokens in contexts("870021 960011 a20021 b30011 b30023 c30027 d31021") {
        for value in 0..=7 {
            let first = first(tokens) & 0x80 | value << 4;
            lines.push(received(tokens, 0, &[first, 0x39]));
            lines.push(received(tokens, 0, &[first ^ 0x80, 0x39]));
        }
        let other = first(tokens) ^ 0x60;
        let words = "00 32 3a 3a00 3a01 3a02 3a0f 340190 3698000000 39170130 3905";
        for octets in messages(other, words) {
            lines.push(received(tokens, 0, &octets));
        }
        lines.push(received(tokens, 1, &[other, 0x39, 0x17, 0x01, 0x30]));
        for event in [11, 12, 32, 33, 34, 35, 5, 8] {
            lines.push(plain(tokens, event));
        }
    }
}

/// All first octets, where the value is awaited and where it is known.
fn first_octets(lines: &mut Vec<String>) {
    for octet in 0..=255 {
        if octet & 0x0F <= 1 || octet & 0xF0 == 0xD0 {
            lines.push(received([8, 15, 0, 0, 1, 0], 0, &[octet, 0x39]));
            lines.push(received([12, 3, 0, 0, 2, 1], 0, &[octet, 0x39]));
        }
    }
}

/// TERMINATION REJECT with all parameters of U5 and each place, a status waiting
/// where it can.
fn rejected(lines: &mut Vec<String>) {
    for from in [2, 8, 9, 11, 12] {
        for parameters in 0..=15 {
            let chooser = if from == 2 { 1 } else { 1 + parameters % 2 };
            let tokens = [6, parameters, 4, from, chooser, 0];
            let reject = [first(tokens), 0x36, 0x98, 0x00, 0x00, 0x00];
            lines.push(received(tokens, parameters & 1, &reject));
            if parameters & 7 < 2 {
                let waits = [6, parameters, 4, from, chooser, 2];
                lines.push(received(waits, 0, &reject));
            }
        }
    }
}

/// Under four octets of cause, faulty behind them, or as a broadcast call has it.
fn rejects_that_are_none(lines: &mut Vec<String>) {
    for tokens in contexts("6f4810 6b4212") {
        let words = "36 360198 36029800 369800000005 769800000080 3603980000";
        for octets in messages(0xD0, words) {
            lines.push(received(tokens, 0, &octets));
        }
        // Another protocol, the other flag, another value.
        for first in [0xD1, 0x50, 0xC0] {
            let reject = [first, 0x36, 0x98, 0x00, 0x00, 0x00];
            lines.push(received(tokens, 0, &reject));
        }
    }
}
