//! The fixed set for `step`, third part: the rules on received messages one by
//! one, and the STATUS that each report writes.

use super::messages::{behind, EXAMPLES, TAILS};
use super::step::{addressed, received, step, CONTEXTS, START_ROWS};
use crate::probe::tokens::hexadecimal;

const U1: &str = "2 12 8 5 0a0b0c0d 0";
const U2: &str = "3 15 0 5 0a0b0c0d 0";
const U2_SILENT: &str = "3 11 0 5 0a0b0c0d 0";
const U3: &str = "4 0 16 5 0a0b0c0d 0";
const U5: &str = "6 15 4 5 0a0b0c0d 3";

pub fn all(lines: &mut Vec<String>) {
    rule_1(lines);
    rule_2(lines);
    rule_3(lines);
    rule_4(lines);
    rule_5(lines);
    copies(lines);
}

/// All first octets, where the flag must be 1 and where it must be 0; and
/// messages of no octet and of one.
fn rule_1(lines: &mut Vec<String>) {
    for first in 0..=255 {
        lines.push(received(U2, 0, &[first, 0x34, 0x01, 0x90]));
        if first & 0x0F == 1 {
            lines.push(received(U3, 0, &[first, 0x34, 0x01, 0x90]));
        }
    }
    for (context, flag) in CONTEXTS {
        lines.push(received(context, 0, &[]));
        lines.push(received(context, 0, &addressed(&[0], flag, 5)));
        // Value 7 is nobody's.
        lines.push(received(
            context,
            0,
            &addressed(&[0, 0x34, 0x01, 0x90], flag, 7),
        ));
    }
}

/// All types where COMM is true, and some where it is false.
fn rule_2(lines: &mut Vec<String>) {
    for code in 0..=255 {
        lines.push(received(U2, 0, &[0xD1, code, 0x01, 0x90, 0x90, 0x90, 0x90]));
    }
    for (context, flag) in CONTEXTS.into_iter().take(START_ROWS + 1) {
        for code in [0x00, 0x30, 0x37, 0x3B, 0x70, 0x7B, 0x80, 0xB4, 0xF4, 0xFF] {
            lines.push(received(context, 1, &addressed(&[0, code], flag, 5)));
        }
        // The state is asked before the contents: each kind bare.
        for (_, octets, _) in EXAMPLES {
            lines.push(received(context, 0, &addressed(&octets[..2], flag, 5)));
        }
    }
}

/// Each kind that we receive, where it has a row, cut at every octet and with
/// every optional part; COMM true and COMM false.
fn rule_3(lines: &mut Vec<String>) {
    for (name, octets, receives) in EXAMPLES {
        if !receives {
            continue;
        }
        let contexts = match name {
            "connect" => [U1, "2 8 8 5 0a0b0c0d 0"],
            "termination_reject" => [U5, "6 11 4 5 0a0b0c0d 3"],
            _ => [U2, U2_SILENT],
        };
        for context in contexts {
            for length in 2..octets.len() {
                lines.push(received(context, 0, &octets[..length]));
            }
            lines.push(received(context, 0, &behind(octets, &[0x05])));
        }
        for tail in TAILS {
            lines.push(received(contexts[0], 0, &behind(octets, tail)));
        }
    }
    for length in [0, 1, 247, 248, 255] {
        let mut octets = vec![0xD1, 0x34, length];
        octets.extend(vec![0x90; usize::from(length.min(248))]);
        lines.push(received(U2, 0, &octets));
        octets[1] = 0x36;
        lines.push(received(U5, 0, &octets));
    }
}

/// GET STATUS: every optional part in either mode, COMM true and false; then
/// own identities of one to eight octets, met and missed by one octet.
fn rule_4(lines: &mut Vec<String>) {
    for tail in TAILS {
        for mode in [0, 1] {
            for context in [U2, U2_SILENT] {
                lines.push(received(context, mode, &behind(&[0xD1, 0x39], tail)));
            }
            lines.push(received(U3, mode, &behind(&[0x51, 0x39], tail)));
        }
    }
    for own in 1..=8usize {
        for named in [own - 1, own, own + 1] {
            let identity = hexadecimal(&vec![0x29; own]);
            let mut octets = vec![0xD1, 0x39, 0x17, named as u8];
            octets.extend(vec![0x29; named]);
            let octets = hexadecimal(&octets);
            for mode in [0, 1] {
                lines.push(format!(
                    "step {U2} 3 3359a2 {identity} 255 18 0 00000000 {mode} {octets}"
                ));
            }
        }
    }
}

/// CONNECT with every octet of the originator indication, where it is awaited.
fn rule_5(lines: &mut Vec<String>) {
    for octet in (0..=16).chain([0x80, 0xF0, 0xFE, 0xFF]) {
        for context in [
            "1 8 8 5 0a0b0c0d 0",
            "1 12 8 5 0a0b0c0d 0",
            U1,
            "2 12 0 5 0a0b0c0d 0",
            "2 8 0 5 0a0b0c0d 0",
        ] {
            lines.push(received(
                context,
                0,
                &[0xD1, 0x33, 0xF1, 0xF2, 0xF3, 0xF4, octet],
            ));
        }
    }
    // The transaction value stays, the reference is the message's own.
    lines.push(step("1 8 8 0 ffffffff 0", "18 6 0e0f1011 0 81330000000001"));
}

/// Reports of each cause on messages of every length about 245: copied up to
/// 245 octets, left out from 246 on.
fn copies(lines: &mut Vec<String>) {
    let heads: [(&str, &[u8]); 4] = [
        (U1, &[0xD1, 0x33, 0x01, 0x02, 0x03, 0x04, 0x00]), // 95
        (U2, &[0xD1, 0x34, 0x00]),                         // 96
        (U2, &[0xD1, 0x00]),                               // 97
        (U2, &[0xD1, 0x32]),                               // 98
    ];
    for (context, head) in heads {
        for length in [
            7, 8, 100, 127, 128, 243, 244, 245, 246, 247, 248, 249, 250, 251, 252,
        ] {
            let octets = behind(head, &vec![0x80; length - head.len()]);
            lines.push(received(context, 0, &octets));
        }
    }
}
