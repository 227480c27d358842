//! The fixed set for `judge`, third part: each timer one millisecond early, in
//! time and late, and the one T_conn req of a whole log. Logs of version 1.

use super::judge::{push, true_log, Line, CONNECT, GET_STATUS, REJECT, TERMINATION};
use crate::tables::Table;

const NONE: &[u8] = &[];

pub fn all(lines: &mut Vec<String>) {
    single_timers(lines);
    joining_timer(lines);
    two_calls(lines);
    no_channel(lines);
    stopped_timers(lines);
    long_times(lines);
}

fn script(lines: &mut Vec<String>, parts: &[&[Line]]) {
    push(lines, &true_log(Table::First, &parts.concat()));
}

/// Each timer's expiry and every other event about its length. Entries that are
/// refused or ignored are under the same rule.
fn single_timers(lines: &mut Vec<String>) {
    let timers: [(&[Line], u64, u32); 6] = [
        (&[(7, 1, NONE)], 5_000, 14),
        (&[(7, 2, NONE)], 5_000, 14),
        (&[(0, 2, NONE), (1_000, 4, NONE)], 10_000, 15),
        (
            &[(0, 1, NONE), (0, 6, NONE), (9, 18, CONNECT), (9, 4, NONE)],
            10_000,
            15,
        ),
        (&[(0, 10, NONE), (3, 3, NONE)], 30_000, 16),
        (
            &[(0, 10, NONE), (0, 3, NONE), (5, 11, NONE), (5, 12, NONE)],
            3_000,
            17,
        ),
    ];
    for (before, length, expiry) in timers {
        let other = if expiry == 14 { 15 } else { 14 };
        for event in [expiry, other, 3, 5, 8, 9, 18] {
            let octets = if event == 18 { TERMINATION } else { NONE };
            for delta in [0, 1, length - 1, length, length + 1, 86_400_000] {
                script(lines, &[before, &[(delta, event, octets)]]);
            }
            // In two parts, the first of them an event that has no step.
            for rest in [length - 1_001, length - 1_000, length - 999] {
                script(
                    lines,
                    &[
                        before,
                        &[(1_000, 14 + (expiry - 13) % 4, NONE), (rest, event, octets)],
                    ],
                );
            }
        }
    }
}

/// T_conn req: expiry and entering about 10,000 and 30,000.
fn joining_timer(lines: &mut Vec<String>) {
    let joined = [(0, 10, NONE), (0, 3, NONE)];
    for delta in [
        0, 1, 9_998, 9_999, 10_000, 10_001, 12_000, 20_000, 29_999, 30_000, 30_001, 40_000,
    ] {
        for event in [16, 11, 5, 9, 8, 12] {
            script(lines, &[&joined, &[(delta, event, NONE)]]);
        }
        // An entry in between asks for as much time as has gone by.
        for between in [9_999, 10_000, 10_001, 15_000] {
            if between <= delta {
                script(
                    lines,
                    &[&joined, &[(between, 12, NONE), (delta - between, 16, NONE)]],
                );
                script(
                    lines,
                    &[&joined, &[(between, 18, NONE), (delta - between, 11, NONE)]],
                );
            }
        }
    }
}

/// Two calls under one timer: every pair of an expiry or an entering.
fn two_calls(lines: &mut Vec<String>) {
    let joined = [(0, 10, NONE), (0, 3, NONE)];
    let times = [9_999, 10_000, 11_999, 12_000, 12_001, 30_000, 30_001];
    for first in times {
        for second in times {
            for (one, other) in [(16, 16), (16, 11), (11, 16), (11, 11)] {
                // Back to U0 from U6 by a release.
                let home: &[Line] = if one == 11 { &[(0, 5, NONE)] } else { &[] };
                script(
                    lines,
                    &[
                        &joined,
                        &[(first, one, NONE)],
                        home,
                        &joined,
                        &[(second, other, NONE)],
                    ],
                );
            }
        }
    }
    // A third call that agrees with the first two.
    script(
        lines,
        &[
            &joined,
            &[(20_000, 11, NONE), (0, 5, NONE)],
            &joined,
            &[(25_000, 16, NONE)],
            &joined,
            &[(25_000, 18, NONE), (0, 11, NONE)],
        ],
    );
}

/// A repeat does not restart T_no channel; a channel found stops it, and the
/// next loss starts it anew.
fn no_channel(lines: &mut Vec<String>) {
    let lost = [(0, 10, NONE), (0, 3, NONE), (0, 11, NONE), (0, 12, NONE)];
    for repeat in [0, 1, 2_000, 2_999, 3_000, 3_001] {
        for rest in [0, 1, 999, 1_000, 1_001, 2_999, 3_000, 3_001] {
            script(lines, &[&lost, &[(repeat, 12, NONE), (rest, 17, NONE)]]);
            script(lines, &[&lost, &[(repeat, 13, NONE), (rest, 17, NONE)]]);
            script(
                lines,
                &[
                    &lost,
                    &[(repeat, 13, NONE), (rest, 12, NONE), (3_000, 17, NONE)],
                ],
            );
        }
    }
}

/// A timer that was stopped asks nothing more, however long it takes.
fn stopped_timers(lines: &mut Vec<String>) {
    let long = 86_400_000;
    for stopped in [
        &[(0, 1, NONE), (5_000, 6, NONE)][..],
        &[(0, 1, NONE), (5_000, 18, CONNECT)],
        &[(0, 2, NONE), (5_000, 18, CONNECT)],
        &[(0, 2, NONE), (0, 4, NONE), (10_000, 18, REJECT)],
        &[(0, 10, NONE), (0, 3, NONE), (10_000, 11, NONE)],
        &[
            (0, 10, NONE),
            (0, 3, NONE),
            (0, 11, NONE),
            (0, 12, NONE),
            (3_000, 13, NONE),
        ],
    ] {
        for event in [3, 14, 15, 16, 17, 18, 9] {
            script(lines, &[stopped, &[(long, event, GET_STATUS)]]);
        }
        script(
            lines,
            &[
                stopped,
                &[(long, 5, NONE), (long, 10, NONE), (long, 3, NONE)],
            ],
        );
    }
    // A timer still running at the end asks nothing.
    for running in [
        &[(0, 1, NONE)][..],
        &[(0, 2, NONE)],
        &[(0, 10, NONE), (0, 3, NONE)],
    ] {
        script(lines, &[running]);
    }
}

/// Time beyond 32 bits: 49 days and a part of one, so that a call stands on
/// 4,294,967,296 ms.
fn long_times(lines: &mut Vec<String>) {
    let mut days = vec![(86_400_000, 3, NONE); 49];
    // 49 days are 4,233,600,000 ms; 61,367,296 more make 2 to the 32.
    for short in [0, 1, 5_000, 11_999, 12_000] {
        let day: Line = (61_367_296 - short, 10, NONE);
        let join: Line = (0, 3, NONE);
        for delta in [11_999, 12_000, 30_000, 30_001] {
            for event in [16, 11] {
                script(lines, &[&days, &[day, join, (delta, event, NONE)]]);
            }
        }
    }
    days.extend(vec![(86_400_000, 3, NONE); 60]);
    script(lines, &[&days, &[(0, 2, NONE), (5_000, 14, NONE)]]);
    script(lines, &[&days, &[(0, 2, NONE), (5_001, 14, NONE)]]);
}
