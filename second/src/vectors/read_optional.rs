//! The fixed set for `read`, second part: optional elements behind every kind.

use super::messages::{behind, example, examples, read, TAILS};
use crate::protocol::Protocol;

pub fn all(lines: &mut Vec<String>, protocol: Protocol) {
    tails(lines, protocol);
    identifiers(lines, protocol);
    identities(lines, protocol);
    status_elements(lines, protocol);
    to_the_end(lines, protocol);
}

/// Each optional part behind each kind, and two of them behind each other.
fn tails(lines: &mut Vec<String>, protocol: Protocol) {
    for (_, octets, _) in examples(protocol) {
        for tail in TAILS {
            lines.push(read(protocol, &behind(octets, tail)));
        }
    }
    for first in TAILS {
        for second in [&[0xA7][..], &[0x05], &[0x17, 0x01, 0x30]] {
            let tail = behind(first, second);
            lines.push(read(protocol, &behind(&[0x51, 0x39], &tail)));
            lines.push(read(protocol, &behind(&[0x51, 0x38, 0x01, 0x9E], &tail)));
        }
    }
}

/// All identifiers behind GET STATUS: alone, with an empty value before an
/// identity, and past the end.
fn identifiers(lines: &mut Vec<String>, protocol: Protocol) {
    for identifier in 0..=255 {
        lines.push(read(protocol, &[0x51, 0x39, identifier]));
        lines.push(read(
            protocol,
            &[0x51, 0x39, identifier, 0x00, 0x17, 0x01, 0x29],
        ));
        lines.push(read(
            protocol,
            &[0x51, 0x39, identifier, 0x85, 0x17, 0x01, 0x29],
        ));
    }
}

/// Identities of 0 to 10 octets, whole and cut by one, then another 17.
pub fn identities(lines: &mut Vec<String>, protocol: Protocol) {
    for length in 0..=10u8 {
        let mut octets = vec![0x51, 0x39, 0x17, length];
        octets.extend((0..length).map(|place| 0x20 + place));
        lines.push(read(protocol, &octets));
        lines.push(read(protocol, &octets[..octets.len() - 1]));
        lines.push(read(protocol, &behind(&octets, &[0x17, 0x01, 0x30])));
    }
}

/// Every call state and every set of attributes, alone and in either order.
fn status_elements(lines: &mut Vec<String>, protocol: Protocol) {
    let head = [0x51, 0x38, 0x01, 0x9E];
    for half in 0..=15u8 {
        let (state, attributes) = (0xA0 | half, 0xB0 | half);
        for tail in [
            &[state][..],
            &[attributes],
            &[state, 0xB1],
            &[attributes, 0xA1],
            &[state, 0xA1],
            &[attributes, 0xB1, state],
        ] {
            lines.push(read(protocol, &behind(&head, tail)));
        }
    }
    for skipped in [0x80, 0x90, 0xC0, 0xD0, 0xE0, 0xF0] {
        lines.push(read(
            protocol,
            &behind(&head, &[skipped | 3, 0xA2, skipped, 0xB2]),
        ));
    }
}

/// A fault at the very end of the longest message, and its harmless like.
fn to_the_end(lines: &mut Vec<String>, protocol: Protocol) {
    for (last, name) in [
        (0x05, "get_status"),
        (0x85, "get_status"),
        (0x0F, "termination"),
    ] {
        let octets = example(name);
        let filler = vec![0x80; 250 - octets.len()];
        let longest = behind(&behind(&octets, &filler), &[last]);
        lines.push(read(protocol, &longest));
        lines.push(read(protocol, &behind(&longest, &[0x80])));
    }
    // One element that fills the message exactly, and one octet too long.
    for length in [246, 247, 248, 255] {
        let element = behind(&[0x51, 0x39, 0x20, length], &[0x05; 247]);
        lines.push(read(protocol, &element));
    }
}
