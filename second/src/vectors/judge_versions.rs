//! The fixed set for `judge`, fourth part: logs of version 2, in which a rejected
//! termination leads back (document 02, A2), and logs of versions 1 and 2 under
//! each other's number.

use super::judge::{claims, push, run, true_log, Line, SCRIPTS};
use super::judge::{CONNECT, GET_STATUS, REJECT, SET_PARAMETER, TERMINATION};
use super::judge_limits::entries;
use crate::generate::log::bytes;
use crate::tables::Table;

const NONE: &[u8] = &[];
const ALL_PARAMETERS: &[u8] = &[0xD1, 0x3A, 0x0F];
const REJECT_CUT: &[u8] = &[0xD1, 0x36];
/// The tables that part at a rejected termination.
const PARTED: [Table; 2] = [Table::First, Table::Second];

/// Scripts about a rejected termination. Every table has a run of each.
pub const RETURNS: [&[Line]; 6] = [
    // From U2 and back, asked again, and nobody answers.
    &[
        (0, 1, NONE),
        (700, 6, NONE),
        (900, 18, CONNECT),
        (10, 4, NONE),
        (800, 18, REJECT),
        (1, 18, GET_STATUS),
        (5_000, 4, NONE),
        (10_000, 15, NONE),
    ],
    // From U1 after IMMEDIATE SETUP: T_MM-est does not come back.
    &[
        (0, 2, NONE),
        (1_000, 4, NONE),
        (2_000, 18, REJECT),
        (0, 18, GET_STATUS),
        (86_400_000, 14, NONE),
        (1, 7, NONE),
        (1, 18, CONNECT),
        (1, 5, NONE),
    ],
    // From U1 after SETUP, at the last moment; then the radio link fails.
    &[
        (0, 1, NONE),
        (0, 6, NONE),
        (0, 4, NONE),
        (10_000, 18, REJECT),
        (0, 8, NONE),
    ],
    // Parameters set meanwhile: the start row comes back, and ORIG with it.
    &[
        (0, 2, NONE),
        (0, 18, CONNECT),
        (0, 4, NONE),
        (0, 18, SET_PARAMETER),
        (0, 18, REJECT),
        (0, 18, GET_STATUS),
        (0, 4, NONE),
        (0, 18, TERMINATION),
    ],
    // Set before it is asked: without ORIG there is no asking.
    &[
        (0, 2, NONE),
        (0, 18, SET_PARAMETER),
        (0, 4, NONE),
        (0, 18, ALL_PARAMETERS),
        (0, 4, NONE),
        (0, 18, REJECT),
        (0, 9, NONE),
    ],
    // A reject cut short, a good one, and one too many.
    &[
        (0, 2, NONE),
        (0, 18, CONNECT),
        (0, 4, NONE),
        (3, 18, REJECT_CUT),
        (3, 18, REJECT),
        (3, 18, REJECT),
        (86_400_000, 15, NONE),
        (0, 8, NONE),
    ],
];

pub fn all(lines: &mut Vec<String>) {
    versions(lines);
    for table in PARTED {
        for script in RETURNS {
            claims_of(lines, table, script);
        }
    }
    for script in SCRIPTS {
        claims_of(lines, Table::Second, script);
    }
    for script in SCRIPTS.into_iter().chain(RETURNS) {
        under_the_other_number(lines, script);
    }
    entries(lines, Table::Second);
    times_of_term(lines);
    after_a_return(lines);
    joining_timer(lines, Table::Second);
}

/// Longer forms of a number below 128.
pub fn longer_forms(lines: &mut Vec<String>, number: u8) {
    let first = 0x80 + number;
    for log in [
        &[first, 0x00][..],
        &[first, 0x80, 0x00],
        &[first, 0x80, 0x80, 0x80, 0x10],
        &[first, 0x80, 0x80, 0x80, 0x80, 0x00],
    ] {
        push(lines, log);
    }
}

/// Longer forms of 2, and numbers whose low group is 1 or 2.
fn versions(lines: &mut Vec<String>) {
    longer_forms(lines, 2);
    for log in [[0x81, 0x01], [0x82, 0x01], [0x80, 0x02], [0x82, 0x02]] {
        push(lines, &log);
    }
}

fn claims_of(lines: &mut Vec<String>, table: Table, script: &[Line]) {
    let entries = run(table, script);
    push(lines, &bytes(table, &entries));
    claims(lines, table, &entries);
}

/// What one table gives, as a log of the other, whole and entry by entry: there
/// is a first entry at which they part, or none.
fn under_the_other_number(lines: &mut Vec<String>, script: &[Line]) {
    let [first, second] = PARTED.map(|table| run(table, script));
    for length in 1..=script.len() {
        push(lines, &bytes(Table::Second, &first[..length]));
        push(lines, &bytes(Table::First, &second[..length]));
    }
}

fn script(lines: &mut Vec<String>, parts: &[&[Line]]) {
    push(lines, &true_log(Table::Second, &parts.concat()));
}

const ASKED_FROM_U1: &[Line] = &[(0, 2, NONE), (1_000, 4, NONE)];
const ASKED_FROM_U2: &[Line] = &[(0, 2, NONE), (9, 18, CONNECT), (60_000, 4, NONE)];

/// Each event in U5 about the length of T_term, asked once and asked again
/// after a return: the timer is a new one.
fn times_of_term(lines: &mut Vec<String>) {
    for asked in [ASKED_FROM_U1, ASKED_FROM_U2] {
        let again: &[Line] = &[(4_000, 18, REJECT), (1_000, 4, NONE)];
        for before in [asked.to_vec(), [asked, again].concat()] {
            for (event, octets) in [(15, NONE), (18, REJECT), (18, GET_STATUS), (3, NONE)] {
                for delta in [0, 4_999, 5_000, 5_001, 9_999, 10_000, 10_001, 86_400_000] {
                    script(lines, &[&before, &[(delta, event, octets)]]);
                }
            }
        }
    }
}

/// Back in U1 or U2 no timer runs: nothing is late, and an expiry has no step.
fn after_a_return(lines: &mut Vec<String>) {
    for asked in [ASKED_FROM_U1, ASKED_FROM_U2] {
        for rejected in [0, 4_000, 9_999, 10_000, 10_001] {
            for (event, octets) in [
                (14, NONE),
                (15, NONE),
                (7, NONE),
                (8, NONE),
                (18, CONNECT),
                (18, REJECT),
            ] {
                script(
                    lines,
                    &[
                        asked,
                        &[(rejected, 18, REJECT), (86_400_000, event, octets)],
                    ],
                );
            }
        }
    }
}

/// Cases c5 to c8 of document 01 as logs of a table.
pub fn joining_timer(lines: &mut Vec<String>, table: Table) {
    let joined: &[Line] = &[(0, 10, NONE), (0, 3, NONE)];
    for delta in [9_999, 10_000, 12_000, 20_000, 30_000, 30_001] {
        for event in [16, 11] {
            let parts: &[&[Line]] = &[joined, &[(delta, event, NONE)]];
            push(lines, &true_log(table, &parts.concat()));
        }
    }
    for delta in [12_000, 12_001] {
        let parts: &[&[Line]] = &[joined, &[(12_000, 16, NONE)], joined, &[(delta, 11, NONE)]];
        push(lines, &true_log(table, &parts.concat()));
    }
}
