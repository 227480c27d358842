//! The fixed set for `judge`, fifth part: logs of version 3, in which an
//! invitation runs out (document 02, A13): its timer on both sides of each
//! number, both settings beside each other, and the same entries under the
//! numbers of the other versions.

use super::judge::{claims, push, run, true_log, Line, SCRIPTS};
use super::judge::{CONNECT, TERMINATION_TO_LISTENER};
use super::judge_limits::entries;
use super::judge_versions::{joining_timer, longer_forms, RETURNS};
use crate::generate::log::bytes;
use crate::tables::{Table, BROADCAST_TABLES};

const NONE: &[u8] = &[];
const GET_STATUS_TO_LISTENER: &[u8] = &[0x51, 0x39];
/// Both attachments, nothing else: consistent in U3.
const ATTACHED: &[u8] = &[0x51, 0x3A, 0x0C];

/// Scripts about invitations; 19 in them is known to the third table alone.
const INVITATIONS: [&[Line]; 6] = [
    // Two that run out, after the same time.
    &[
        (0, 10, NONE),
        (5_000, 19, NONE),
        (1, 10, NONE),
        (5_000, 19, NONE),
    ],
    // One pair of timers alone explains this: 5,000 and 12,000.
    &[
        (0, 10, NONE),
        (5_000, 19, NONE),
        (0, 10, NONE),
        (5_000, 3, NONE),
        (12_000, 16, NONE),
    ],
    // What stays in U3 does not start the timer anew.
    &[
        (0, 10, NONE),
        (100, 18, GET_STATUS_TO_LISTENER),
        (100, 18, ATTACHED),
        (100, 14, NONE),
        (100, 10, NONE),
        (59_600, 19, NONE),
    ],
    // Ends before it runs out.
    &[
        (0, 10, NONE),
        (600_000, 5, NONE),
        (0, 10, NONE),
        (600_000, 8, NONE),
        (0, 10, NONE),
        (600_000, 9, NONE),
        (0, 10, NONE),
        (600_000, 18, TERMINATION_TO_LISTENER),
    ],
    // The expiry where there is no invitation: U0, U0.p, U1, U2, U5.
    &[
        (86_400_000, 19, NONE),
        (0, 1, NONE),
        (5_000, 19, NONE),
        (0, 6, NONE),
        (86_400_000, 19, NONE),
        (0, 18, CONNECT),
        (86_400_000, 19, NONE),
        (0, 4, NONE),
        (10_000, 19, NONE),
        (0, 15, NONE),
    ],
    // U4, and U6 with its timer and without.
    &[
        (0, 10, NONE),
        (0, 3, NONE),
        (10_000, 19, NONE),
        (0, 11, NONE),
        (86_400_000, 19, NONE),
        (0, 12, NONE),
        (3_000, 19, NONE),
        (0, 17, NONE),
    ],
];

pub fn all(lines: &mut Vec<String>) {
    versions(lines);
    for script in RETURNS.into_iter().chain(INVITATIONS) {
        let entries = run(Table::Third, script);
        push(lines, &bytes(Table::Third, &entries));
        claims(lines, Table::Third, &entries);
    }
    under_other_numbers(lines);
    entries(lines, Table::Third);
    unknown_to_the_first_two(lines);
    times(lines);
    in_two_parts(lines);
    two_invitations(lines);
    both_settings(lines);
    joining_timer(lines, Table::Third);
    stopped(lines);
    long_times(lines);
}

/// Longer forms of 3, and numbers whose low group is 3.
fn versions(lines: &mut Vec<String>) {
    longer_forms(lines, 3);
    for log in [[0x83, 0x01], [0x80, 0x03]] {
        push(lines, &log);
    }
}

/// What the first table gives, and the third, as a log of version 3; and each
/// script about invitations entry by entry as logs of versions 1 and 2.
fn under_other_numbers(lines: &mut Vec<String>) {
    for script in SCRIPTS.into_iter().chain(RETURNS) {
        for table in [Table::First, Table::Third] {
            push(lines, &bytes(Table::Third, &run(table, script)));
        }
    }
    for script in INVITATIONS {
        let entries = run(Table::Third, script);
        for length in 1..=entries.len() {
            for table in BROADCAST_TABLES {
                push(lines, &bytes(table, &entries[..length]));
            }
        }
    }
}

/// Event 19 at entry 1, 2 and 3, true or not: in versions 1 and 2 unreadable,
/// unless an entry before it is unexplained.
fn unknown_to_the_first_two(lines: &mut Vec<String>) {
    let notified = run(Table::Third, &[(0, 10, NONE), (1_000, 19, NONE)]);
    let in_u0 = run(Table::Third, &[(0, 3, NONE), (0, 3, NONE), (0, 19, NONE)]);
    for entries in [
        &notified[..],
        &notified[1..],
        &in_u0,
        &in_u0[1..],
        &in_u0[2..],
    ] {
        for table in BROADCAST_TABLES {
            push(lines, &bytes(table, entries));
            // As taken, where it is not; and the entry before it as taken.
            let mut changed = entries.to_vec();
            let last = changed.len() - 1;
            changed[last].answer = 3 - changed[last].answer;
            push(lines, &bytes(table, &changed));
            let mut changed = entries.to_vec();
            if let Some(before) = changed.iter_mut().rev().nth(1) {
                before.actions ^= 1;
            }
            push(lines, &bytes(table, &changed));
        }
    }
}

fn script(lines: &mut Vec<String>, parts: &[&[Line]]) {
    push(lines, &true_log(Table::Third, &parts.concat()));
}

const NOTIFIED: &[Line] = &[(7, 10, NONE)];

/// Both sides of the least and the greatest length, and times far from them.
const TIMES: [u64; 12] = [
    0, 1, 999, 1_000, 1_001, 10_000, 30_000, 60_000, 599_999, 600_000, 600_001, 86_400_000,
];

/// Every event in U3 at every time: it ends the invitation, or stays.
fn times(lines: &mut Vec<String>) {
    let events: [(u32, &[u8]); 10] = [
        (19, NONE),
        (3, NONE),
        (5, NONE),
        (8, NONE),
        (9, NONE),
        (18, TERMINATION_TO_LISTENER),
        (18, GET_STATUS_TO_LISTENER),
        (18, ATTACHED),
        (16, NONE),
        (10, NONE),
    ];
    for (event, octets) in events {
        for delta in TIMES {
            script(lines, &[NOTIFIED, &[(delta, event, octets)]]);
        }
    }
    // What the first two tables give to a day in U3: they have no timer there.
    for delta in TIMES {
        for table in BROADCAST_TABLES {
            push(
                lines,
                &true_log(table, &[NOTIFIED, &[(delta, 3, NONE)]].concat()),
            );
        }
    }
}

/// An entry of each answer that stays, then the expiry: the time runs on, and
/// the sum of both parts is the timer.
fn in_two_parts(lines: &mut Vec<String>) {
    for (event, octets) in [(12, NONE), (18, GET_STATUS_TO_LISTENER), (18, ATTACHED)] {
        for (first, second) in [
            (500, 499),
            (500, 500),
            (999, 0),
            (999, 1),
            (1_000, 0),
            (1_000, 1),
            (300_000, 299_999),
            (300_000, 300_000),
            (300_000, 300_001),
            (600_000, 0),
            (600_000, 1),
            (600_001, 0),
        ] {
            for end in [19, 3] {
                script(
                    lines,
                    &[NOTIFIED, &[(first, event, octets), (second, end, NONE)]],
                );
            }
        }
    }
}

/// Two invitations under one timer: every pair of an expiry or a join.
fn two_invitations(lines: &mut Vec<String>) {
    let times = [
        999, 1_000, 1_001, 4_999, 5_000, 5_001, 599_999, 600_000, 600_001,
    ];
    for first in times {
        for second in times {
            for (one, other) in [(19, 19), (19, 3), (3, 19)] {
                // Back to U0 from U4 by a release.
                let home: &[Line] = if one == 3 { &[(0, 5, NONE)] } else { &[] };
                script(
                    lines,
                    &[
                        NOTIFIED,
                        &[(first, one, NONE)],
                        home,
                        NOTIFIED,
                        &[(second, other, NONE)],
                    ],
                );
            }
        }
    }
    // A third that agrees with the first two, and with one of them alone.
    for third in [19_999, 20_000, 25_000, 25_001] {
        script(
            lines,
            &[
                &[(0, 10, NONE), (20_000, 3, NONE), (0, 5, NONE)],
                &[(0, 10, NONE), (25_000, 19, NONE)],
                &[(0, 10, NONE), (third, 19, NONE)],
            ],
        );
    }
}

/// The same two lengths of an invitation and a join, in either order, so that a
/// judge with one window for both, or with the two changed about, is found out.
/// A window is empty while the other is not, and the log ends at that entry.
pub fn both_settings(lines: &mut Vec<String>) {
    let ran_out = |time| [(0, 10, NONE), (time, 19, NONE)];
    let join_failed = |wait, time| [(0, 10, NONE), (wait, 3, NONE), (time, 16, NONE)];
    let times = [
        999, 1_000, 9_999, 10_000, 12_000, 30_000, 30_001, 600_000, 600_001,
    ];
    for invitation in times {
        for joining in times {
            script(lines, &[&ran_out(invitation), &join_failed(0, joining)]);
            script(lines, &[&join_failed(0, joining), &ran_out(invitation)]);
        }
    }
    // Both fixed at 15,000 and 20,000; then each again, exactly and one off.
    let fixed = [&ran_out(15_000)[..], &join_failed(15_000, 20_000)].concat();
    script(lines, &[&fixed]);
    for time in [14_999, 15_000, 15_001, 20_000] {
        script(lines, &[&fixed, &ran_out(time)]);
        script(lines, &[&fixed, &join_failed(time, 20_000)]);
    }
    for time in [15_000, 19_999, 20_000, 20_001] {
        script(lines, &[&fixed, &join_failed(0, time)]);
        script(
            lines,
            &[&fixed, &[(0, 10, NONE), (0, 3, NONE), (time, 11, NONE)]],
        );
    }
    // Bounds alone: at least 15,000 in U3, at least 20,000 in U4.
    script(
        lines,
        &[&[(0, 10, NONE), (15_000, 3, NONE), (20_000, 11, NONE)]],
    );
}

/// Once the invitation is over its timer asks nothing more; the next one has a
/// new beginning; one that still runs at the end asks nothing.
fn stopped(lines: &mut Vec<String>) {
    let long = 86_400_000;
    for over in [
        &[(0, 10, NONE), (1_000, 3, NONE), (0, 11, NONE)][..],
        &[(0, 10, NONE), (1_000, 5, NONE)],
        &[(0, 10, NONE), (1_000, 8, NONE)],
        &[(0, 10, NONE), (1_000, 9, NONE)],
        &[(0, 10, NONE), (1_000, 18, TERMINATION_TO_LISTENER)],
        &[(0, 10, NONE), (1_000, 19, NONE)],
    ] {
        for event in [19, 12, 18] {
            script(lines, &[over, &[(long, event, NONE)]]);
        }
        script(lines, &[over, &[(0, 19, NONE)]]);
        script(
            lines,
            &[over, &[(0, 5, NONE), (long, 10, NONE), (1_000, 19, NONE)]],
        );
        script(
            lines,
            &[over, &[(0, 5, NONE), (long, 10, NONE), (2_000, 19, NONE)]],
        );
    }
    script(lines, &[NOTIFIED]);
    script(lines, &[NOTIFIED, &[(600_000, 12, NONE)]]);
}

/// Time beyond 32 bits: 49 days and a part of one, so that an invitation stands
/// on 4,294,967,296 ms.
fn long_times(lines: &mut Vec<String>) {
    let days = vec![(86_400_000, 3, NONE); 49];
    // 49 days are 4,233,600,000 ms; 61,367,296 more make 2 to the 32.
    for short in [0, 1, 1_000, 600_000] {
        let notified: Line = (61_367_296 - short, 10, NONE);
        for delta in [999, 1_000, 600_000, 600_001] {
            script(lines, &[&days, &[notified, (delta, 19, NONE)]]);
        }
    }
}
