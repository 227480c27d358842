//! The fixed set for `step`: every context of interest with every event, each
//! row of the step table and each pair that has none, each kind in each state.

use super::messages::EXAMPLES;
use crate::probe::tokens::hexadecimal;

/// The identity settings used where they do not matter: key number, classmark, identity.
pub const OWN: &str = "3 3359a2 29f1";

/// Contexts `STATE PARAMS TIMERS TV REF FROM` and the flag that messages need there.
/// First each state's start row, with and without its optional timer, and with
/// each state that it remembers; then what SET PARAMETER can make of it.
pub const CONTEXTS: [(&str, u8); 24] = [
    ("0 0 0 0 00000000 0", 1),  // U0
    ("1 8 8 5 0a0b0c0d 0", 1),  // U0.p
    ("2 12 8 5 0a0b0c0d 0", 1), // U1 after IMMEDIATE SETUP
    ("2 12 0 5 0a0b0c0d 0", 1), // U1 after SETUP
    ("3 15 0 5 0a0b0c0d 0", 1), // U2
    ("4 0 16 5 0a0b0c0d 0", 0), // U3
    ("5 0 2 5 0a0b0c0d 0", 0),  // U4
    ("6 15 4 5 0a0b0c0d 3", 1), // U5, asked from U2
    ("6 15 4 5 0a0b0c0d 2", 1), // U5, asked from U1
    ("7 2 0 5 0a0b0c0d 0", 0),  // U6
    ("7 2 1 5 0a0b0c0d 0", 0),  // U6 with no channel
    ("1 12 8 5 0a0b0c0d 0", 1), // U0.p, COMM true
    ("1 0 8 5 0a0b0c0d 0", 1),  // U0.p, ORIG false
    ("2 4 8 5 0a0b0c0d 0", 1),  // U1, ORIG false
    ("2 8 0 5 0a0b0c0d 0", 1),  // U1, COMM false
    ("2 0 0 5 0a0b0c0d 0", 1),  // U1, both false
    ("3 7 0 5 0a0b0c0d 0", 1),  // U2, ORIG false
    ("3 11 0 5 0a0b0c0d 0", 1), // U2, COMM false
    ("3 0 0 5 0a0b0c0d 0", 1),  // U2, all false
    ("4 3 16 5 0a0b0c0d 0", 0), // U3, both attached
    ("5 1 2 5 0a0b0c0d 0", 0),  // U4, uplink attached
    ("6 7 4 5 0a0b0c0d 3", 1),  // U5, ORIG false
    ("6 8 4 5 0a0b0c0d 2", 1),  // U5, COMM false
    ("7 1 1 5 0a0b0c0d 0", 0),  // U6, uplink instead of downlink
];

/// So many of them are start rows.
pub const START_ROWS: usize = 11;

/// A step with a buffer of 255 octets.
pub fn step(context: &str, event: &str) -> String {
    format!("step {context} {OWN} 255 {event}")
}

/// A message received in this mode.
pub fn received(context: &str, mode: u8, octets: &[u8]) -> String {
    step(
        context,
        &format!("18 0 00000000 {mode} {}", hexadecimal(octets)),
    )
}

/// The same octets with this flag and this value.
pub fn addressed(octets: &[u8], flag: u8, value: u8) -> Vec<u8> {
    let mut octets = octets.to_vec();
    if let Some(first) = octets.first_mut() {
        *first = flag << 7 | value << 4 | 1;
    }
    octets
}

/// The transaction value that a context of the table has.
pub fn value_of(context: &str) -> u8 {
    let value = context.split(' ').nth(3).expect("six tokens");
    value.parse().expect("a number")
}

pub fn all(lines: &mut Vec<String>) {
    events(lines);
    kinds(lines);
    own_messages(lines);
    set_parameters(lines);
}

/// Every event in every context; 18 here with TERMINATION for this call.
fn events(lines: &mut Vec<String>) {
    for (context, flag) in CONTEXTS {
        for event in (1..=17).chain([19]) {
            lines.push(step(context, &format!("{event} 4 0e0f1011 0 -")));
        }
        let termination = addressed(&[0, 0x34, 0x01, 0x90], flag, value_of(context));
        lines.push(received(context, 0, &termination));
    }
}

/// Each kind in each context, addressed to us in either mode; TERMINATION also
/// with the other flag and with another value.
fn kinds(lines: &mut Vec<String>) {
    for (context, flag) in CONTEXTS {
        let value = value_of(context);
        for (name, octets, _) in EXAMPLES {
            lines.push(received(context, 0, &addressed(octets, flag, value)));
            lines.push(received(context, 1, &addressed(octets, flag, value)));
            if name == "termination" {
                lines.push(received(context, 0, &addressed(octets, 1 - flag, value)));
                let other = (value + 1) % 7;
                lines.push(received(context, 0, &addressed(octets, flag, other)));
            }
        }
    }
}

/// The messages that we send, with every key number, identity length and value.
fn own_messages(lines: &mut Vec<String>) {
    for value in 0..=6 {
        for event in [1, 2, 10] {
            let carried = format!("{event} {value} f0f1f2f3 0 -");
            lines.push(step("0 0 0 0 00000000 0", &carried));
        }
        lines.push(step(
            &format!("1 8 8 {value} f0f1f2f3 0"),
            "6 0 00000000 0 -",
        ));
        lines.push(step(
            &format!("3 15 0 {value} f0f1f2f3 0"),
            "4 0 00000000 0 -",
        ));
        let get_status = addressed(&[0, 0x39], 1, value);
        lines.push(received(
            &format!("3 15 0 {value} f0f1f2f3 0"),
            0,
            &get_status,
        ));
    }
    for number in 0..=7u8 {
        for (key_number, length) in [(number, 2), (3, usize::from(number) + 1)] {
            let identity = hexadecimal(&vec![0x20 + number; length]);
            lines.push(format!(
                "step 0 0 0 0 00000000 0 {key_number} 0a0b0c {identity} 255 2 3 ffffffff 0 -"
            ));
        }
    }
}

/// Every set of attributes in every context, the spare half clear and set.
fn set_parameters(lines: &mut Vec<String>) {
    for (context, flag) in &CONTEXTS[..START_ROWS] {
        for attributes in 0..=15 {
            let spare = if attributes % 5 == 3 { 0xF0 } else { 0 };
            let octets = addressed(&[0, 0x3A, spare | attributes], *flag, value_of(context));
            lines.push(received(context, attributes & 1, &octets));
        }
    }
}
