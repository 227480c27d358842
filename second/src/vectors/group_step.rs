//! The fixed set for `gstep`: every cell of the group step's matrix in each of its
//! outcomes, each kind of message in each state and mode, every set of parameters.

use super::messages::{behind, examples, of_protocol};
use super::step::OWN;
use crate::probe::tokens::{hexadecimal, octets};
use crate::protocol::Protocol;

/// Of each state its contexts, in the words that `contexts` reads: its start row,
/// with ORIG and without, by either side; then what SET PARAMETER makes of it, and
/// each thing that can be pending; in U5 also from each place that is remembered.
const CONTEXTS: [&str; 12] = [
    "000000",                                                  // U0
    "188010 188012 1c8010",                                    // U0.p
    "2c8010 2c0010 288010 280016 240014",                      // U1
    "8f0010 870020 880010 880012 880024 8b0016 870021 870014", // U2sl
    "9e0010 960020 980012 9a0014 980026 920023",               // U2wr
    "aa0010 a20020 aa0012 aa0024 aa0016 a20021 a20023",        // U2r
    "bb0010 b30021 bb0012 bb0014 bb0016 b30023 b30017 bf0010", // U2ws
    "cf0010 c70020 c30021 cb0012 cb0024 cb0016 c30023",        // U2sr
    "db1010 d31020 db1012 db1014 db1016 d31023",               // U2nc
    "400020 400022",                                           // U3
    "502020 502022",                                           // U4
    "6f4210 6f4810 6f4920 6f4b10 6f4c20 684812 674b20",        // U5
];

/// Contexts from words of six hexadecimal digits, `STATE PARAMS TIMERS FROM CHOOSER
/// PENDING`; what stands between, `context` puts there.
pub fn contexts(words: &str) -> impl Iterator<Item = [u8; 6]> + '_ {
    words.split(' ').map(|word| {
        let digit = |character: char| character.to_digit(16).expect("a digit") as u8;
        let digits: Vec<u8> = word.chars().map(digit).collect();
        digits.try_into().expect("six digits")
    })
}

/// Each context of the table, and whether it is the first of its state.
fn table() -> impl Iterator<Item = ([u8; 6], bool)> {
    CONTEXTS.into_iter().flat_map(|words| {
        let numbered = contexts(words).enumerate();
        numbered.map(|(place, tokens)| (tokens, place == 0))
    })
}

/// The first context of a state, which is fit, with its start row and by us where
/// that may be.
pub fn start(state: u8) -> [u8; 6] {
    let found = table().find(|(tokens, _)| tokens[0] == state);
    found.expect("every state has one").0
}

/// The eight tokens of a context, with value 5 and reference 0A 0B 0C 0D but in U0.
pub fn context(tokens: [u8; 6]) -> String {
    let call = if tokens[0] == 0 {
        "0 00000000"
    } else {
        "5 0a0b0c0d"
    };
    context_of(call, tokens)
}

/// The eight tokens of a context of this call.
pub fn context_of(
    call: &str,
    [state, parameters, timers, from, chooser, pending]: [u8; 6],
) -> String {
    format!("{state} {parameters} {timers} {call} {from} {chooser} {pending}")
}

/// The first octet of a message for a context: flag 1 if we chose its value.
pub fn first(tokens: [u8; 6]) -> u8 {
    match (tokens[0], tokens[4]) {
        (0, _) => 0x80,
        (_, 1) => 0xD0,
        _ => 0x50,
    }
}

/// A step in this context, written out, with a buffer of 255 octets.
pub fn step_in(context: &str, event: &str) -> String {
    format!("gstep {context} {OWN} 255 {event}")
}

pub fn step(tokens: [u8; 6], event: &str) -> String {
    step_in(&context(tokens), event)
}

/// An event that carries nothing.
pub fn plain(tokens: [u8; 6], event: u32) -> String {
    step(tokens, &format!("{event} 0 00000000 0 -"))
}

/// A message received in this mode.
pub fn received(tokens: [u8; 6], mode: u8, octets: &[u8]) -> String {
    let octets = hexadecimal(octets);
    step(tokens, &format!("18 0 00000000 {mode} {octets}"))
}

/// Messages with this first octet, each with the octets of one word behind it.
pub fn messages(first: u8, words: &str) -> impl Iterator<Item = Vec<u8>> + '_ {
    words.split(' ').map(move |word| {
        let rest = octets(word.as_bytes()).expect("hexadecimal octets");
        behind(&[first], &rest)
    })
}

pub fn all(lines: &mut Vec<String>) {
    matrix(lines);
    kinds(lines);
    set_parameters(lines);
    own_messages(lines);
}

/// Every event in every state, and those whose outcome depends on more than the
/// state in every context.
fn matrix(lines: &mut Vec<String>) {
    for (tokens, is_first) in table() {
        for event in (1..=17).chain(32..=36) {
            if is_first || [4, 5, 6, 7, 11, 12, 14].contains(&event) || event >= 32 {
                lines.push(step(tokens, &format!("{event} 4 0e0f1011 0 -")));
            }
        }
    }
}

/// Each kind in every context, addressed to us; in every state in either mode.
fn kinds(lines: &mut Vec<String>) {
    for (tokens, is_first) in table() {
        for (_, octets, _) in examples(Protocol::Group) {
            let mut octets = of_protocol(Protocol::Group, octets);
            octets[0] = first(tokens);
            lines.push(received(tokens, 0, &octets));
            if is_first {
                lines.push(received(tokens, 1, &octets));
            }
        }
    }
}

/// Every set of attributes in every state, and where all is pending that can be.
fn set_parameters(lines: &mut Vec<String>) {
    for (tokens, is_first) in table() {
        let all_that_can_be = match tokens[0] {
            1 | 4 | 5 | 6 => 2,
            _ => 6,
        };
        if !is_first && tokens[5] != all_that_can_be {
            continue;
        }
        for attributes in 0..=15 {
            let spare = if attributes % 5 == 3 { 0xF0 } else { 0 };
            let octets = [first(tokens), 0x3A, spare | attributes];
            lines.push(received(tokens, attributes & 1, &octets));
        }
    }
}

/// The messages that we send, with every value and either flag.
fn own_messages(lines: &mut Vec<String>) {
    for value in 0..=6u8 {
        for event in [1, 2, 10] {
            let carried = format!("{event} {value} f0f1f2f3 0 -");
            lines.push(step([0; 6], &carried));
        }
        let call = format!("{value} f0f1f2f3");
        for (tokens, event) in [
            ([1, 8, 8, 0, 1, 2], 6),
            ([8, 15, 0, 0, 1, 0], 4),
            ([9, 15, 0, 0, 2, 0], 4),
            ([12, 11, 0, 0, 2, 6], 35),
        ] {
            let event = format!("{event} 0 00000000 0 -");
            lines.push(step_in(&context_of(&call, tokens), &event));
        }
    }
    for number in 0..=7u8 {
        let identity = hexadecimal(&vec![0x20 + number; usize::from(number) + 1]);
        lines.push(format!(
            "gstep {} {number} 0a0b0c {identity} 255 2 3 ffffffff 0 -",
            context([0; 6])
        ));
    }
}
