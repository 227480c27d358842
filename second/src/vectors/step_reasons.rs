//! The fixed set for `step`, fourth part: every reason for which a message is
//! ignored (document 02, A1), in every state where it can be and in either
//! mode, and both sides of each border between one and the next.

use super::messages::behind;
use super::step::{received, value_of};

/// Each state, with COMM false and with COMM true where both are fit, and the
/// flag that messages need there. Three calls have a value at an end of its range.
const HEARING: [(&str, u8); 15] = [
    ("0 0 0 0 00000000 0", 1),
    ("1 8 8 5 0a0b0c0d 0", 1),  // U0.p
    ("1 12 8 5 0a0b0c0d 0", 1), // COMM true
    ("2 8 8 5 0a0b0c0d 0", 1),  // U1, COMM false
    ("2 12 0 5 0a0b0c0d 0", 1),
    ("3 11 0 5 0a0b0c0d 0", 1), // U2, COMM false
    ("3 15 0 5 0a0b0c0d 0", 1),
    ("3 7 0 0 0a0b0c0d 0", 1),  // ORIG false, value 0
    ("4 0 16 5 0a0b0c0d 0", 0), // U3
    ("4 0 16 6 0a0b0c0d 0", 0), // value 6
    ("5 0 2 5 0a0b0c0d 0", 0),  // U4
    ("6 8 4 5 0a0b0c0d 3", 1),  // U5, COMM false
    ("6 15 4 5 0a0b0c0d 2", 1),
    ("7 2 0 5 0a0b0c0d 0", 0), // U6
    ("7 2 1 0 0a0b0c0d 0", 0), // value 0
];

const GET_STATUS: u8 = 0x39;
const UNKNOWN: u8 = 0x00;
/// Behind GET STATUS: an identity that is not ours, 29 F1.
const ANOTHER: &[u8] = &[0x17, 0x02, 0x29, 0xF2];

/// What stands behind the first octet of a message that concerns us: each is
/// ignored with COMM false, but for what the state takes.
const CONTENTS: [&[u8]; 16] = [
    &[0x39, 0x17, 0x02, 0x29, 0xF2],       // for another
    &[0x39, 0x17, 0x02, 0x29, 0xF1],       // for us
    &[0x39, 0x17, 0x01, 0x29],             // for another, whose identity begins ours
    &[0x39, 0x17, 0x00],                   // for nobody by fault
    &[0x39, 0x17, 0x02, 0x29, 0xF2, 0x05], // for another, and faulty
    &[UNKNOWN],
    &[0x32],                   // one that the MS sends
    &[0x33, 1, 2, 3, 4, 0x01], // CONNECT that names us
    &[0x33, 1, 2, 3, 4, 0x00], // and one that does not
    &[0x36, 0x01, 0x90],       // TERMINATION REJECT
    &[0x34],                   // TERMINATION cut short
    &[0x34, 0x00],             // its length octet too small
    &[0x3A],                   // SET PARAMETER cut short
    &[0x3A, 0x01],             // ORIG
    &[0x3A, 0x02],             // COMM
    &[0x3A, 0x0C],             // neither
];

pub fn all(lines: &mut Vec<String>) {
    for (context, flag) in HEARING {
        let value = value_of(context);
        let mut messages = borders(flag, value);
        let first = first(flag, value);
        messages.extend(CONTENTS.iter().map(|rest| behind(&[first], rest)));
        for octets in messages {
            for mode in [0, 1] {
                lines.push(received(context, mode, &octets));
            }
        }
    }
}

/// The first octet of a message for this flag and this value.
fn first(flag: u8, value: u8) -> u8 {
    flag << 7 | (value & 7) << 4 | 1
}

/// Rule 1, part by part: each part on both sides, then two parts at once.
fn borders(flag: u8, value: u8) -> Vec<Vec<u8>> {
    let ours = first(flag, value);
    let lower = first(flag, value.wrapping_sub(1));
    let higher = first(flag, value + 1);
    let other_flag = first(1 - flag, value);
    vec![
        // None, one and two octets.
        vec![],
        vec![ours],
        vec![ours, GET_STATUS],
        // Discriminators 0 and 2.
        vec![ours - 1, GET_STATUS],
        vec![ours + 1, GET_STATUS],
        // The value one off to either side, the flag off, and both.
        vec![lower, GET_STATUS],
        vec![higher, GET_STATUS],
        vec![other_flag, GET_STATUS],
        vec![first(1 - flag, value + 1), GET_STATUS],
        // Too short and another protocol; too short and another call.
        vec![ours + 1],
        vec![other_flag],
        // Another protocol and another call.
        vec![higher + 1, GET_STATUS],
        // Another call, and what rules 2 and 4 would find.
        vec![other_flag, UNKNOWN],
        behind(&[higher, GET_STATUS], ANOTHER),
    ]
}
