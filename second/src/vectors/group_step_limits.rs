//! The fixed set for `gstep`, third part: fit and unfit contexts, every reason for
//! which a message is ignored, arguments on both sides of their ranges, and the
//! order 7, 5, 6, 4.

use super::group_step::{
    context, context_of, contexts, first, messages, plain, received, start, step, step_in,
};
use super::step::OWN;
use super::step_limits::wrong_at_once;
use crate::probe::tokens::hexadecimal;
use crate::state::GROUP_STATES;

pub fn all(lines: &mut Vec<String>) {
    fitness(lines);
    cleared(lines);
    reasons(lines);
    copies(lines);
    arguments(lines);
    order_of_tests(lines);
}

/// What each place of a context is tried with; `group_step_pending` has the last.
const TRIED: [(usize, &[u8]); 4] = [
    (1, &[0, 1, 2, 3, 4, 5, 6, 7, 8, 9, 10, 11, 12, 13, 14, 15]),
    (2, &[0, 1, 2, 3, 4, 8, 12, 15]),
    (3, &[0, 1, 2, 3, 6, 8, 9, 10, 11, 12, 13, 14, 255]),
    (4, &[0, 1, 2, 3, 255]),
];

/// In each state one thing at a time: all parameters, sets of timers, everything
/// remembered, each chooser; in U5 two at a time; then what is no state, no value.
fn fitness(lines: &mut Vec<String>) {
    for state in GROUP_STATES.map(|state| state.number()) {
        for (place, tried) in TRIED {
            for &number in tried {
                let mut tokens = start(state);
                tokens[place] = number;
                lines.push(plain(tokens, 9));
            }
        }
        if state == 6 {
            for tokens in contexts("6f4200 6f4210 6f4220 6f4800 6f4810 6f4820 6f4c20") {
                lines.push(plain(tokens, 9));
            }
        }
    }
    for state in [3, 7, 14, 15, 16, 128, 255] {
        for tokens in [
            [state, 0, 0, 0, 0, 0],
            [state, 15, 0, 0, 1, 0],
            [state, 2, 1, 8, 2, 7],
            [state, 15, 15, 255, 255, 7],
        ] {
            lines.push(plain(tokens, 9));
        }
    }
    for value in [0, 1, 6, 7, 8, 128, 255] {
        for tokens in contexts("8f0010 b30021") {
            let context = context_of(&format!("{value} 0a0b0c0d"), tokens);
            lines.push(step_in(&context, "5 0 00000000 0 -"));
        }
    }
}

/// U0 that is not cleared, in one place at a time.
fn cleared(lines: &mut Vec<String>) {
    for given in [
        "0 0 0 1 00000000 0 0 0",
        "0 0 0 0 01000000 0 0 0",
        "0 0 0 0 00000001 0 0 0",
        "0 0 0 0 00000000 2 0 0",
        "0 0 0 0 00000000 0 1 0",
        "0 0 0 0 00000000 0 2 0",
        "0 0 0 0 00000000 0 0 1",
        "0 0 0 0 00000000 0 0 2",
        "0 0 0 0 00000000 0 0 4",
        "0 1 0 0 00000000 0 0 0",
        "0 0 1 0 00000000 0 0 0",
    ] {
        lines.push(step_in(given, "1 3 01020304 0 -"));
    }
}

/// Each reason in each state, COMM false and true, in either mode where it matters.
fn reasons(lines: &mut Vec<String>) {
    let all = "000000 188010 280010 2c0010 8b0010 870020 920020 a20020 \
        b30021 c30010 d31020 400020 502020 684c10 6f4210";
    for tokens in contexts(all) {
        let ours = first(tokens);
        for octets in [&[][..], &[ours], &[ours | 1]] {
            lines.push(received(tokens, 0, octets));
        }
        for other in [
            ours | 1,
            ours | 2,
            ours ^ 0x80,
            ours ^ 0x10,
            ours ^ 0x91,
            ours | 0x70,
        ] {
            lines.push(received(tokens, 0, &[other, 0x39]));
        }
        for octets in messages(ours, "00 3201020304 3a 3a01 3a02 330102030400 34 3905") {
            lines.push(received(tokens, 0, &octets));
        }
        lines.push(received(tokens, 0, &[ours ^ 0x80, 0x00]));
        // For another, for us, for another and faulty, for nobody by fault.
        for octets in messages(ours, "39170229f2 39170229f1 39170229f205 391700") {
            for mode in [0, 1] {
                lines.push(received(tokens, mode, &octets));
            }
        }
    }
}

/// Reports of each cause, about the length at which the copy is left out.
fn copies(lines: &mut Vec<String>) {
    for head in [&[0xD0, 0x34, 0x00][..], &[0xD0, 0x00], &[0xD0, 0x32]] {
        for length in [3, 244, 245, 246, 251, 252] {
            let octets = [head, &vec![0x80; length - head.len()]].concat();
            lines.push(received([8, 15, 0, 0, 1, 0], 0, &octets));
        }
    }
}

/// Event numbers, values, modes, buffers and own settings on both sides.
fn arguments(lines: &mut Vec<String>) {
    let calls = [[0; 6], [13, 11, 1, 0, 2, 4]];
    for tokens in calls {
        for event in (0..=40).chain([64, 255, 256 + 32, 4_294_967_295u32]) {
            lines.push(step(tokens, &format!("{event} 7 00000000 2 -")));
        }
        for value in [6, 7, 255] {
            for event in [1, 2, 10] {
                lines.push(step(tokens, &format!("{event} {value} 0e0f1011 0 -")));
            }
        }
        for mode in [0, 1, 2, 255] {
            lines.push(step(tokens, &format!("18 0 00000000 {mode} -")));
        }
        for length in [250, 251, 252, 300] {
            let octets = hexadecimal(&vec![0xD0; length]);
            for event in [18, 32, 37] {
                lines.push(step(tokens, &format!("{event} 0 00000000 0 {octets}")));
            }
        }
        let mut ask = |rest: String| lines.push(format!("gstep {} {rest}", context(tokens)));
        for own in [
            "7 3359a2 29f1",
            "8 3359a2 29f1",
            "3 3359a2 -",
            "3 3359a2 29",
        ] {
            ask(format!("{own} 255 36 0 00000000 0 -"));
        }
        for length in [8, 9] {
            let identity = hexadecimal(&vec![0x29; length]);
            ask(format!("3 3359a2 {identity} 255 33 0 00000000 0 -"));
        }
        for buffer_length in [0, 254, 255, 256, 4_294_967_295u32] {
            ask(format!("{OWN} {buffer_length} 35 0 00000000 0 -"));
        }
    }
}

/// All sets of the five things that can be wrong at once.
fn order_of_tests(lines: &mut Vec<String>) {
    for (unfit, rest) in wrong_at_once(0x50) {
        let pending = if unfit { 4 } else { 0 };
        let context = context([4, 0, 0, 0, 2, pending]);
        lines.push(format!("gstep {context} {rest}"));
    }
}
