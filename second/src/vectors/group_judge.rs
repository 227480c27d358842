//! The fixed set `judge16`: logs of group calls, version 16 (document 02, A5).
//! True runs through every row, the same with each claim changed, under the
//! numbers of the other versions, ranges, and times.

use super::judge::{claims, push, run, true_log, Line};
use super::judge_limits::entries;
use super::judge_versions::{joining_timer, longer_forms};
use crate::generate::log::bytes;
use crate::tables::{Table, BROADCAST_TABLES};

const NONE: &[u8] = &[];
/// For a call that we began: flag 1. For one that the cell did: flag 0.
const CONNECT: &[u8] = &[0xD0, 0x33, 0x01, 0x02, 0x03, 0x04, 0x01];
const NOT_ORIGINATOR: &[u8] = &[0xD0, 0x33, 0x01, 0x02, 0x03, 0x04, 0x00];
const GET_STATUS: &[u8] = &[0xD0, 0x39];
const GET_STATUS_TO_LISTENER: &[u8] = &[0x50, 0x39];
const ALL_PARAMETERS: &[u8] = &[0xD0, 0x3A, 0x0F];
const NO_PARAMETERS: &[u8] = &[0xD0, 0x3A, 0x00];
const COMM: &[u8] = &[0xD0, 0x3A, 0x02];
const ORIG: &[u8] = &[0xD0, 0x3A, 0x01];
/// COMM for a listener, under another value: 3.
const GRANTED: &[u8] = &[0x30, 0x3A, 0x0E];
const TERMINATION: &[u8] = &[0xD0, 0x34, 0x01, 0x90];
const TERMINATION_TO_LISTENER: &[u8] = &[0x50, 0x34, 0x01, 0x90];
const REJECT: &[u8] = &[0xD0, 0x36, 0x98, 0x00, 0x00, 0x00];
const REJECT_CUT: &[u8] = &[0xD0, 0x36, 0x01, 0x98];
const UNKNOWN: &[u8] = &[0xD0, 0x00];

/// Scripts that together take every row.
pub const SCRIPTS: [&[Line]; 15] = [
    // Listening, asked for a status, the uplink granted under another value.
    &[
        (0, 10, NONE),
        (9, 3, NONE),
        (9, 11, NONE),
        (9, 18, GET_STATUS_TO_LISTENER),
        (9, 34, NONE),
        (9, 18, GRANTED),
        (9, 18, GET_STATUS_TO_LISTENER),
        (9, 12, NONE),
        (3_000, 17, NONE),
    ],
    // Begun by us; a status and a termination wait, go out together, are rejected.
    &[
        (0, 2, NONE),
        (9, 18, CONNECT),
        (9, 32, NONE),
        (9, 11, NONE),
        (9, 18, GET_STATUS),
        (9, 4, NONE),
        (9, 34, NONE),
        (9, 18, ALL_PARAMETERS),
        (9, 18, REJECT),
        (9, 5, NONE),
    ],
    // Set up after an MM connection, with a status that waits in U0.p.
    &[
        (0, 1, NONE),
        (9, 18, GET_STATUS),
        (9, 6, NONE),
        (9, 4, NONE),
        (9, 18, REJECT_CUT),
        (9, 18, REJECT),
        (9, 7, NONE),
        (9, 18, NOT_ORIGINATOR),
        (9, 4, NONE),
        (9, 18, TERMINATION),
    ],
    // A termination deleted in time, then asked in dedicated mode; T_term runs out.
    &[
        (0, 2, NONE),
        (9, 18, CONNECT),
        (9, 12, NONE),
        (9, 4, NONE),
        (9, 36, NONE),
        (9, 36, NONE),
        (9, 35, NONE),
        (9, 4, NONE),
        (10_000, 15, NONE),
    ],
    // The same, not deleted: entering U2sl sends it.
    &[
        (0, 2, NONE),
        (9, 18, CONNECT),
        (9, 12, NONE),
        (9, 4, NONE),
        (9, 18, GET_STATUS),
        (9, 35, NONE),
        (9, 18, REJECT),
        (9, 8, NONE),
    ],
    // In receive mode asking for a termination asks for the uplink.
    &[
        (0, 2, NONE),
        (9, 18, CONNECT),
        (9, 11, NONE),
        (9, 4, NONE),
        (9, 11, NONE),
        (9, 4, NONE),
        (9, 34, NONE),
        (9, 32, NONE),
        (9, 18, REJECT),
        (9, 9, NONE),
    ],
    // Without ORIG it waits on, whatever COMM is.
    &[
        (0, 2, NONE),
        (9, 18, NO_PARAMETERS),
        (9, 18, ORIG),
        (9, 4, NONE),
        (9, 18, COMM),
        (9, 4, NONE),
        (9, 18, ALL_PARAMETERS),
        (9, 18, REJECT),
        (9, 8, NONE),
    ],
    // Talking in turn: every mode from every other.
    &[
        (0, 1, NONE),
        (9, 18, CONNECT),
        (9, 34, NONE),
        (9, 35, NONE),
        (9, 35, NONE),
        (9, 32, NONE),
        (9, 33, NONE),
        (9, 34, NONE),
        (9, 34, NONE),
        (9, 11, NONE),
        (9, 33, NONE),
        (9, 12, NONE),
        (9, 12, NONE),
        (9, 11, NONE),
        (9, 18, UNKNOWN),
        (9, 13, NONE),
        (9, 18, TERMINATION),
    ],
    // Joined in transmit mode and in dedicated mode.
    &[
        (0, 10, NONE),
        (0, 18, GET_STATUS_TO_LISTENER),
        (86_400_000, 3, NONE),
        (9, 35, NONE),
        (9, 4, NONE),
        (9, 18, TERMINATION_TO_LISTENER),
        (0, 10, NONE),
        (0, 3, NONE),
        (9, 34, NONE),
        (9, 8, NONE),
    ],
    // Joining that fails, and ends of an invitation.
    &[
        (0, 10, NONE),
        (0, 3, NONE),
        (9, 12, NONE),
        (11_991, 16, NONE),
    ],
    &[
        (0, 10, NONE),
        (0, 18, TERMINATION_TO_LISTENER),
        (0, 10, NONE),
        (0, 5, NONE),
    ],
    // MM establishment.
    &[
        (0, 1, NONE),
        (4_999, 7, NONE),
        (0, 1, NONE),
        (5_000, 14, NONE),
        (0, 2, NONE),
        (5_000, 14, NONE),
        (0, 2, NONE),
        (5_000, 7, NONE),
    ],
    &[(0, 1, NONE), (1, 8, NONE), (0, 2, NONE), (1, 8, NONE)],
    // Events that have no step, and messages in U0.
    &[
        (0, 32, NONE),
        (0, 33, NONE),
        (0, 34, NONE),
        (0, 35, NONE),
        (0, 36, NONE),
        (0, 13, NONE),
        (0, 18, TERMINATION),
        (0, 18, NONE),
    ],
    // A status that waits in U5, and one who is no originator any more comes back.
    &[
        (0, 2, NONE),
        (9, 18, CONNECT),
        (9, 33, NONE),
        (9, 32, NONE),
        (9, 33, NONE),
        (9, 18, ALL_PARAMETERS),
        (9, 4, NONE),
        (9, 18, NO_PARAMETERS),
        (9, 18, GET_STATUS),
        (9, 18, REJECT),
        (9, 18, GET_STATUS),
        (9, 35, NONE),
        (9, 8, NONE),
    ],
];

pub fn all(lines: &mut Vec<String>) {
    longer_forms(lines, 16);
    for log in [&[0x10][..], &[0x0F], &[0x11], &[0x90, 0x01], &[0x80, 0x10]] {
        push(lines, log);
    }
    push(lines, &[0x10, 0x00, 0x03, 0x03, 0x00, 0x00, 0x00, 0x00]);
    for script in SCRIPTS {
        let entries = run(Table::Group, script);
        push(lines, &bytes(Table::Group, &entries));
        claims(lines, Table::Group, &entries);
    }
    under_other_numbers(lines);
    cut(lines);
    entries(lines, Table::Group);
    states_that_are_none(lines);
    joining_timer(lines, Table::Group);
    joined(lines);
    no_channel(lines);
    times_of_term(lines);
}

fn script(lines: &mut Vec<String>, parts: &[&[Line]]) {
    push(lines, &true_log(Table::Group, &parts.concat()));
}

/// What the group table gives as a log of each other version, and what the third
/// table gives to the same events as a group log.
fn under_other_numbers(lines: &mut Vec<String>) {
    for script in SCRIPTS {
        let entries = run(Table::Group, script);
        for table in BROADCAST_TABLES {
            push(lines, &bytes(table, &entries));
        }
        push(lines, &bytes(Table::Group, &run(Table::Third, script)));
    }
}

/// One log cut at every byte, from its third entry on.
fn cut(lines: &mut Vec<String>) {
    let log = true_log(Table::Group, SCRIPTS[1]);
    for length in 50..log.len() {
        push(lines, &log[..length]);
    }
}

/// States 3 and 7, readable and never explained, at entry 1 and behind a true one.
fn states_that_are_none(lines: &mut Vec<String>) {
    let entries = run(Table::Group, &[(0, 10, NONE), (0, 3, NONE)]);
    for state in 0..=15 {
        for place in [0, 1] {
            let mut changed = entries.clone();
            changed[place].state = state;
            push(lines, &bytes(Table::Group, &changed));
        }
    }
}

/// The joining timer ends by each mode that is entered.
fn joined(lines: &mut Vec<String>) {
    for event in [11, 34, 35, 16, 12, 5] {
        for delta in [0, 9_999, 10_000, 10_001, 29_999, 30_000, 30_001] {
            script(
                lines,
                &[&[(0, 10, NONE), (7, 3, NONE), (delta, event, NONE)]],
            );
        }
    }
    // Under one timer for the whole log.
    for second in [11_999, 12_000, 12_001] {
        for event in [16, 34, 35] {
            script(
                lines,
                &[
                    &[(0, 10, NONE), (0, 3, NONE), (12_000, 16, NONE)],
                    &[(0, 10, NONE), (0, 3, NONE), (second, event, NONE)],
                ],
            );
        }
    }
}

/// T_no channel in U2nc: a repeat does not start it anew, a mode stops it.
fn no_channel(lines: &mut Vec<String>) {
    let lost: &[Line] = &[(0, 10, NONE), (0, 3, NONE), (0, 35, NONE), (0, 12, NONE)];
    for (event, octets) in [
        (17, NONE),
        (12, NONE),
        (11, NONE),
        (13, NONE),
        (18, GRANTED),
    ] {
        for delta in [0, 2_999, 3_000, 3_001, 86_400_000] {
            script(lines, &[lost, &[(delta, event, octets)]]);
        }
    }
    for event in [12, 13, 11, 34, 35] {
        for (first, second) in [(2_000, 999), (2_000, 1_000), (2_000, 1_001), (2_000, 3_000)] {
            let parts: [&[Line]; 2] = [lost, &[(first, event, NONE), (second, 17, NONE)]];
            script(lines, &parts);
            script(lines, &[parts[0], parts[1], &[(0, 5, NONE)]]);
            // Lost again: the timer is a new one.
            let again: &[Line] = &[(first, event, NONE), (0, 12, NONE), (second, 17, NONE)];
            script(lines, &[lost, again]);
        }
    }
}

/// T_term, set by the event or by what goes out later.
fn times_of_term(lines: &mut Vec<String>) {
    let at_once: &[Line] = &[(0, 2, NONE), (9, 18, CONNECT), (9, 4, NONE)];
    let later: &[Line] = &[
        (0, 2, NONE),
        (9, 18, CONNECT),
        (9, 12, NONE),
        (9, 4, NONE),
        (2_000, 35, NONE),
    ];
    let from_u1: &[Line] = &[
        (0, 2, NONE),
        (9, 18, ORIG),
        (9, 4, NONE),
        (2_000, 18, ALL_PARAMETERS),
    ];
    for asked in [at_once, later, from_u1] {
        for (event, octets) in [(15, NONE), (18, REJECT), (18, GET_STATUS), (14, NONE)] {
            for delta in [0, 3_000, 4_999, 9_999, 10_000, 10_001] {
                script(lines, &[asked, &[(delta, event, octets)]]);
            }
        }
    }
}
