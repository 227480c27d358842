//! The fixed set for `read`: faults in their order, type codes, tables 8.1 to
//! 8.9 with each field at its limits and cut at every octet, and lengths.

use super::messages::{behind, example, examples, read};
use crate::protocol::Protocol;

pub fn all(lines: &mut Vec<String>, protocol: Protocol) {
    whole_and_cut(lines, protocol);
    first_octets(lines, protocol);
    types(lines, protocol);
    half_octets(lines, protocol);
    length_octets(lines, protocol);
    length_octets_alone(lines, protocol);
    longest(lines, protocol);
}

/// Each kind whole, cut at every octet, and with bit 7 of its type set.
pub fn whole_and_cut(lines: &mut Vec<String>, protocol: Protocol) {
    for (_, octets, _) in examples(protocol) {
        for length in 0..=octets.len() {
            lines.push(read(protocol, &octets[..length]));
        }
        let mut other = octets.to_vec();
        other[1] |= 0x40;
        lines.push(read(protocol, &other));
        // Flag 0, value 7, and a reference of ones: any code passes.
        other[0] = 0x71;
        lines.push(read(protocol, &other));
    }
    for reference in [[0x00; 4], [0xFF; 4], [0x00, 0x00, 0x00, 0x0F]] {
        for name in ["connect", "setup", "termination_request"] {
            let mut octets = example(name);
            octets[2..6].copy_from_slice(&reference);
            lines.push(read(protocol, &octets));
        }
    }
}

/// All first octets: discriminator, value and flag.
pub fn first_octets(lines: &mut Vec<String>, protocol: Protocol) {
    for first in 0..=255 {
        lines.push(read(protocol, &[first, 0x39]));
    }
    // Under two octets comes before the discriminator, that before the type.
    for octets in [&[0x01][..], &[0x02], &[0x02, 0xFF], &[0x01, 0xFF]] {
        lines.push(read(protocol, octets));
    }
}

/// All type octets, with nothing behind them and with enough for any kind.
fn types(lines: &mut Vec<String>, protocol: Protocol) {
    for code in 0..=255 {
        lines.push(read(protocol, &[0xD1, code]));
        lines.push(read(
            protocol,
            &[
                0xD1, code, 0x03, 0x03, 0x80, 0x80, 0x80, 0x01, 0x80, 0x90, 0x90, 0x90, 0x90,
            ],
        ));
    }
}

/// Octets of two halves: each code of either half, and what is spare in them.
fn half_octets(lines: &mut Vec<String>, protocol: Protocol) {
    for octet in 0..=255u8 {
        let one_half = octet < 0x20 || octet & 0x0F == 0 || octet & 0x0F == 0x0F;
        for (name, place) in [("connect", 6), ("immediate_setup", 2), ("set_parameter", 2)] {
            if one_half || name == "set_parameter" {
                let mut octets = example(name);
                octets[place] = octet;
                lines.push(read(protocol, &octets));
            }
        }
    }
}

/// Every length octet inside and outside what its table draws, with exactly so
/// many octets behind it, one less and one more.
fn length_octets(lines: &mut Vec<String>, protocol: Protocol) {
    let head = [0x51, 0x31, 0x30];
    let reference = [1, 2, 3, 4];
    for classmark in [0, 1, 2, 3, 4, 5, 128, 255] {
        for identity in [0, 1, 2, 7, 8, 9, 10] {
            let mut octets = head.to_vec();
            octets.push(classmark);
            octets.extend(vec![0x33; usize::from(classmark.min(5))]);
            octets.push(identity);
            octets.extend(vec![0x29; usize::from(identity)]);
            octets.extend(reference);
            lines.push(read(protocol, &octets));
            lines.push(read(protocol, &octets[..octets.len() - 1]));
            octets.push(0x80);
            lines.push(read(protocol, &octets));
        }
    }
    for code in [0x34, 0x36, 0x38] {
        for length in [0, 1, 2, 3, 127, 128, 244, 245, 246, 247, 248, 249, 255] {
            let mut octets = vec![0xD1, code, length];
            octets.extend(vec![0x90; usize::from(length.min(248))]);
            lines.push(read(protocol, &octets));
            lines.push(read(protocol, &octets[..octets.len() - 1]));
            octets.push(0xA3);
            lines.push(read(protocol, &octets));
        }
        // Odd inner forms of a cause pass: no last cause part, cause 127.
        for value in [[0x00, 0x00], [0x7F, 0xFF], [0xFF, 0x00]] {
            lines.push(read(protocol, &behind(&[0xD1, code, 2], &value)));
        }
    }
}

/// Each length octet changed in an otherwise good message.
fn length_octets_alone(lines: &mut Vec<String>, protocol: Protocol) {
    for (name, place) in [
        ("get_status", 3),
        ("immediate_setup", 3),
        ("immediate_setup", 7),
        ("status", 2),
        ("termination", 2),
        ("termination_reject", 2),
    ] {
        for length in (0..=9).chain([128, 247, 248, 255]) {
            let mut octets = example(name);
            octets[place] = length;
            lines.push(read(protocol, &octets));
        }
    }
}

/// 250 to 253 octets of each kind, filled up with one-octet elements; and 252
/// octets before every other fault.
pub fn longest(lines: &mut Vec<String>, protocol: Protocol) {
    for (_, octets, _) in examples(protocol) {
        for length in [250, 251, 252, 253] {
            let filled = behind(octets, &vec![0x80; length - octets.len()]);
            lines.push(read(protocol, &filled));
        }
    }
    for first in [0x01, 0x02] {
        for length in [251, 252, 300, 65_536] {
            lines.push(read(protocol, &vec![first; length]));
        }
    }
}
