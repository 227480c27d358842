//! The fixed sets for `gread` and `gwrite`: what `read` and `write` have, for the
//! other discriminator, and TERMINATION REJECT, which alone is drawn otherwise
//! (24.068, table 8.8).

use super::messages::{behind, examples, read, TAILS};
use super::{read as reads, read_optional, write};
use crate::probe::tokens::hexadecimal;
use crate::protocol::Protocol;

const GROUP: Protocol = Protocol::Group;

pub fn to_read(lines: &mut Vec<String>) {
    reads::whole_and_cut(lines, GROUP);
    reads::first_octets(lines, GROUP);
    reads::longest(lines, GROUP);
    read_optional::identities(lines, GROUP);
    types(lines);
    tails(lines);
    rejects(lines);
}

/// All type octets, with enough behind them for any kind.
fn types(lines: &mut Vec<String>) {
    for code in 0..=255 {
        let octets = [
            0xD1, code, 3, 3, 0x80, 0x80, 0x80, 1, 0x80, 0x90, 0x90, 0x90, 0x90,
        ];
        lines.push(read(GROUP, &octets));
    }
}

/// Each optional part behind the kinds that read some of it, and behind one that
/// reads none.
fn tails(lines: &mut Vec<String>) {
    for (name, octets, _) in examples(GROUP) {
        if ["get_status", "status", "set_parameter"].contains(&name) {
            for tail in TAILS {
                lines.push(read(GROUP, &behind(octets, tail)));
            }
        }
    }
}

/// TERMINATION REJECT with each optional part behind three, four and five octets,
/// and with causes that would be length octets in a broadcast call.
fn rejects(lines: &mut Vec<String>) {
    for length in 3..=5 {
        for tail in TAILS {
            let octets = behind(&[0x51, 0x36], &vec![0x98; length]);
            lines.push(read(GROUP, &behind(&octets, tail)));
        }
    }
    for first in (0..=5).chain([127, 128, 246, 247, 248, 249, 255]) {
        let octets = [0xD1, 0x36, first, 0x98, 0x80, 0x81];
        lines.push(read(GROUP, &octets[..5]));
        lines.push(read(GROUP, &octets));
    }
}

/// What `write` has of numbers and lengths, since fields say nothing of the
/// protocol; each kind on both sides of its value and its buffer.
pub fn to_write(lines: &mut Vec<String>) {
    let mut broadcast = Vec::new();
    write::numbers(&mut broadcast);
    write::lengths(&mut broadcast);
    lines.extend(broadcast.iter().map(|line| format!("g{line}")));
    for good in write::GOOD {
        for head in [
            "254 0 5",
            "255 0 0",
            "255 1 6",
            "255 0 7",
            "255 1 255",
            "256 1 5",
        ] {
            lines.push(format!("gwrite {head} {good}"));
        }
    }
    for bad in write::BAD {
        lines.push(format!("gwrite 254 0 5 {bad}"));
        lines.push(format!("gwrite 255 0 5 {bad}"));
    }
    for length in 0..=9 {
        for octet in [0x00, 0xFF] {
            let cause = hexadecimal(&vec![octet; length]);
            for head in ["254 1 5", "255 1 5", "255 0 6", "255 1 7"] {
                lines.push(format!("gwrite {head} termination_reject {cause}"));
            }
        }
    }
}
