//! The fixed set for `judge`: the cases of document 01, true runs through every
//! row of its step table, and the same with each claim changed or the end cut.
//! These are logs of version 1; `judge_versions` has those of version 2,
//! `judge_invitations` those of version 3.

use crate::commands::{judge, Identity};
use crate::event::Event;
use crate::generate::log::bytes;
use crate::generate::walk::Walk;
use crate::log::entry::Entry;
use crate::tables::Table;
use crate::timer::Chosen;

/// The settings of every log here but those about settings.
pub fn own() -> Identity {
    Identity {
        key_number: 3,
        classmark: [0x33, 0x59, 0xA2],
        identity: vec![0x29, 0xF1],
    }
}

/// One entry of a script: milliseconds, event, and the octets that 18 carries.
/// Events 1, 2 and 10 carry value 5 and reference 0A 0B 0C 0D.
pub type Line = (u64, u32, &'static [u8]);

/// A true run of a script by a table. What it claims is what the step gives;
/// whether its times are allowed is the script's own affair.
pub fn run(table: Table, script: &[Line]) -> Vec<Entry> {
    let chosen = Chosen {
        joining: 12_000,
        invitation: 60_000,
    };
    let mut walk = Walk::begin(table, own(), chosen);
    for &(delta, number, octets) in script {
        let event = match number {
            1 | 2 | 10 => Event::call(number, 5, [0x0A, 0x0B, 0x0C, 0x0D]),
            18 => Event::received(0, octets.to_vec()),
            _ => Event::plain(number),
        };
        walk.enter(event, delta);
    }
    walk.entries
}

/// The same as a log of this table's version.
pub fn true_log(table: Table, script: &[Line]) -> Vec<u8> {
    bytes(table, &run(table, script))
}

pub fn push(lines: &mut Vec<String>, log: &[u8]) {
    lines.push(judge(&own(), log));
}

pub const CONNECT: &[u8] = &[0xD1, 0x33, 0x01, 0x02, 0x03, 0x04, 0x01];
pub const GET_STATUS: &[u8] = &[0xD1, 0x39];
pub const TERMINATION: &[u8] = &[0xD1, 0x34, 0x01, 0x90];
pub const TERMINATION_TO_LISTENER: &[u8] = &[0x51, 0x34, 0x01, 0x90];
pub const REJECT: &[u8] = &[0xD1, 0x36, 0x01, 0x98];
/// ORIG and D-ATT false, COMM and U-ATT true.
pub const SET_PARAMETER: &[u8] = &[0xD1, 0x3A, 0x06];
const NOT_ORIGINATOR: &[u8] = &[0xD1, 0x33, 0x01, 0x02, 0x03, 0x04, 0x00];
const UNKNOWN: &[u8] = &[0xD1, 0x00];
const CUT: &[u8] = &[0xD1, 0x34];
const NONE: &[u8] = &[];

/// Scripts that together take every row, and the sentences on messages.
pub const SCRIPTS: [&[Line]; 14] = [
    // Set-up, connect, status, a refused termination, release.
    &[
        (0, 1, NONE),
        (700, 6, NONE),
        (900, 18, CONNECT),
        (60_000, 18, GET_STATUS),
        (1, 4, NONE),
        (800, 18, REJECT),
        (20_000, 5, NONE),
    ],
    // Immediate set-up, connect, a termination that nobody answers.
    &[
        (5, 2, NONE),
        (4_000, 18, CONNECT),
        (3_600_000, 4, NONE),
        (10_000, 15, NONE),
    ],
    // MM establishment fails, or takes too long; U0.p and U1.
    &[
        (0, 1, NONE),
        (4_999, 7, NONE),
        (0, 1, NONE),
        (5_000, 14, NONE),
    ],
    &[
        (0, 2, NONE),
        (5_000, 7, NONE),
        (0, 2, NONE),
        (5_000, 14, NONE),
    ],
    // Radio link failure in U0.p, U1 and U2.
    &[(0, 1, NONE), (1, 8, NONE), (0, 2, NONE), (1, 8, NONE)],
    &[(0, 1, NONE), (0, 18, CONNECT), (9, 8, NONE)],
    // A termination from U1, taken.
    &[(0, 2, NONE), (2_000, 4, NONE), (10_000, 18, TERMINATION)],
    // Reports of each cause, and messages that are ignored.
    &[
        (0, 2, NONE),
        (1, 18, NOT_ORIGINATOR),
        (1, 18, UNKNOWN),
        (1, 18, CUT),
        (1, 18, REJECT),
        (1, 18, &[0xE1, 0x34, 0x01, 0x90]),
        (1, 18, NONE),
        (1, 9, NONE),
    ],
    // SET PARAMETER clears ORIG in U2: no termination of ours, but flag 1 still.
    &[
        (0, 1, NONE),
        (0, 6, NONE),
        (0, 18, CONNECT),
        (0, 18, SET_PARAMETER),
        (0, 4, NONE),
        (0, 18, GET_STATUS),
        (0, 18, TERMINATION),
    ],
    // Joining, channels lost and found, then lost for good.
    &[
        (10, 10, NONE),
        (20, 3, NONE),
        (9_000, 11, NONE),
        (100, 12, NONE),
        (2_000, 12, NONE),
        (1_000, 13, NONE),
        (500, 12, NONE),
        (3_000, 17, NONE),
    ],
    // Joining that fails, after everything that asks nothing.
    &[
        (0, 10, NONE),
        (86_400_000, 3, NONE),
        (1, 18, &[0x51, 0x3A, 0x0C]),
        (11_999, 16, NONE),
    ],
    // Ends of a listener's call.
    &[
        (0, 10, NONE),
        (0, 5, NONE),
        (0, 10, NONE),
        (0, 3, NONE),
        (0, 9, NONE),
    ],
    &[
        (0, 10, NONE),
        (0, 18, TERMINATION_TO_LISTENER),
        (0, 10, NONE),
        (0, 3, NONE),
        (0, 11, NONE),
        (0, 18, &[0x51, 0x3A, 0x03]),
        (0, 8, NONE),
    ],
    // Events that have no step, and messages in U0.
    &[
        (0, 3, NONE),
        (0, 14, NONE),
        (0, 15, NONE),
        (0, 16, NONE),
        (0, 17, NONE),
        (0, 18, TERMINATION),
        (0, 18, NONE),
    ],
];

pub fn all(lines: &mut Vec<String>) {
    cases(lines);
    for script in SCRIPTS {
        let entries = run(Table::First, script);
        push(lines, &bytes(Table::First, &entries));
        claims(lines, Table::First, &entries);
    }
    let whole: Vec<Line> = SCRIPTS.concat();
    let log = true_log(Table::First, &whole);
    push(lines, &log);
    for length in 0..220 {
        push(lines, &log[..length]);
    }
}

/// What comes behind notified and joined in cases c5 to c8 and c10.
const JOINED_THEN: [&[Line]; 10] = [
    &[(12_000, 16, NONE)], // c5
    &[(20_000, 11, NONE)], // c6
    &[(30_000, 11, NONE)], // c7, one millisecond less
    &[(30_001, 11, NONE)], // c7
    &[
        (12_000, 16, NONE),
        (0, 10, NONE),
        (0, 3, NONE),
        (12_000, 11, NONE),
    ], // c8, one less
    &[
        (12_000, 16, NONE),
        (0, 10, NONE),
        (0, 3, NONE),
        (12_001, 11, NONE),
    ], // c8
    &[
        (0, 11, NONE),
        (0, 12, NONE),
        (2_000, 12, NONE),
        (1_000, 17, NONE),
    ], // c10
    &[
        (0, 11, NONE),
        (0, 12, NONE),
        (2_000, 12, NONE),
        (999, 17, NONE),
    ], // c10, early
    &[
        (0, 11, NONE),
        (0, 12, NONE),
        (2_000, 12, NONE),
        (1_001, 17, NONE),
    ], // c10, late
    &[
        (0, 11, NONE),
        (0, 12, NONE),
        (2_000, 12, NONE),
        (3_000, 17, NONE),
    ], // c10, restarted
];

/// Cases c1 to c10, both sides of their numbers.
fn cases(lines: &mut Vec<String>) {
    push(lines, &[0x01]); // c1
    push(lines, &[]); // c2
    push(lines, &[0x01, 0x00, 0x03, 0x03, 0x00, 0x00, 0x00, 0x00]); // c3
    push(lines, &[0x01, 0x80, 0x00]); // c4
    let joined: &[Line] = &[(0, 10, NONE), (0, 3, NONE)];
    for script in JOINED_THEN {
        push(lines, &true_log(Table::First, &[joined, script].concat()));
    }
    push(lines, &true_log(Table::First, &[(0, 18, TERMINATION)])); // c9
}

/// Each claim of each entry changed by itself, and the entry left out.
pub fn claims(lines: &mut Vec<String>, table: Table, entries: &[Entry]) {
    for place in 0..entries.len() {
        for change in 0..8 {
            let mut changed = entries.to_vec();
            let entry = &mut changed[place];
            match change {
                0 => entry.answer = (entry.answer + 1) % 4,
                1 => entry.state = (entry.state + 1) % (table.greatest_state() + 1),
                2 => entry.parameters ^= 1 << (place % 4),
                3 => entry.actions ^= 1 << (place % 6),
                4 => entry.reply.push(0),
                5 if entry.reply.is_empty() => continue,
                5 => entry.reply[0] ^= 0x80,
                6 if entry.reply.is_empty() => continue,
                6 => {
                    entry.reply.pop();
                }
                _ => {
                    changed.remove(place);
                }
            }
            push(lines, &bytes(table, &changed));
        }
    }
}
