//! The fixed set for `mend` (document 02, A9): both sides of every number, logs
//! of all four versions cut at every byte, with every claim changed and with
//! every field at its limits, and each way in which a run of entries ends.

use super::group_judge;
use super::judge::{claims, own, run, Line, SCRIPTS};
use super::judge_invitations::both_settings;
use super::judge_limits::entries;
use super::judge_versions::{joining_timer, longer_forms, RETURNS};
use crate::commands::{mend, Identity};
use crate::generate::log::bytes;
use crate::tables::{Table, TABLES};

const NONE: &[u8] = &[];
/// "Join in U0": the entry of document 01's whole log.
const JOIN_IN_U0: [u8; 7] = [0x00, 0x03, 0x03, 0x00, 0x00, 0x00, 0x00];
/// It claims to be taken, which in U0 no join is.
const UNEXPLAINED: [u8; 7] = [0x00, 0x03, 0x00, 0x00, 0x00, 0x00, 0x00];
/// 0 in a longer form than it needs.
const UNREADABLE: [u8; 2] = [0x80, 0x00];

/// A call of each table, in the order of the tables: one with its termination
/// rejected, the same where that leads back, invitations that run out, talk-back.
const CALLS: [&[Line]; 4] = [
    SCRIPTS[0],
    RETURNS[0],
    &[
        (0, 10, NONE),
        (60_000, 19, NONE),
        (5, 10, NONE),
        (59_999, 3, NONE),
        (12_000, 16, NONE),
        (86_400_000, 10, NONE),
        (60_000, 19, NONE),
    ],
    group_judge::SCRIPTS[1],
];

pub fn all(lines: &mut Vec<String>) {
    settings(lines);
    versions(lines);
    lengths(lines);
    for (table, script) in TABLES.into_iter().zip(CALLS) {
        let entries = run(table, script);
        let log = bytes(table, &entries);
        buffers(lines, table, &log);
        for length in 0..=log.len() {
            push(lines, &log[..length]);
        }
        as_judged(lines, &|judged| claims(judged, table, &entries));
        as_other_versions(lines, &log);
    }
    for table in TABLES {
        endings(lines, table);
        as_judged(lines, &|judged| joining_timer(judged, table));
        as_judged(lines, &|judged| self::entries(judged, table));
    }
    // The entry that empties either window ends the run.
    as_judged(lines, &both_settings);
}

/// Mended into a buffer as long as the log, and of one byte for an empty log.
fn push(lines: &mut Vec<String>, log: &[u8]) {
    lines.push(mend(&own(), log.len().max(1) as u32, log));
}

/// The logs of these judge commands.
fn as_judged(lines: &mut Vec<String>, commands: &dyn Fn(&mut Vec<String>)) {
    let mut judged = Vec::new();
    commands(&mut judged);
    for line in judged {
        let (before, log) = line.rsplit_once(' ').expect("a log");
        let identity = before.strip_prefix("judge ").expect("settings");
        let length = if log == "-" { 1 } else { log.len() / 2 };
        lines.push(format!("mend {identity} {length} {log}"));
    }
}

/// Key number 7 and 8, identities of 0, 1, 8 and 9 octets; 4 before 5.
fn settings(lines: &mut Vec<String>) {
    let key_numbers = [0, 7, 8, 255].map(|key_number| Identity {
        key_number,
        ..own()
    });
    let identities = [0, 1, 8, 9, 256, 264].map(|length| Identity {
        identity: vec![0x29; length],
        ..own()
    });
    for identity in key_numbers.into_iter().chain(identities) {
        for log in [&[][..], &[0x03], &[0x00], &[0x01, 0x80]] {
            for buffer_length in 0..=2 {
                lines.push(mend(&identity, buffer_length, log));
            }
        }
    }
}

/// All first bytes, alone, before an entry and before one that is unreadable;
/// longer forms.
fn versions(lines: &mut Vec<String>) {
    for first in 0..=255 {
        push(lines, &[first]);
        push(lines, &[&[first], &JOIN_IN_U0[..]].concat());
        push(lines, &[&[first], &UNREADABLE[..]].concat());
    }
    for table in TABLES {
        as_judged(lines, &|judged| longer_forms(judged, table.version() as u8));
    }
}

/// Copy buffers about the length of the log, whole and with each damage, in no
/// relation to the length of the copy.
fn buffers(lines: &mut Vec<String>, table: Table, log: &[u8]) {
    let version = &bytes(table, &[])[..];
    for log in [
        log,
        &log[..log.len() - 1],
        &[log, &UNEXPLAINED].concat(),
        &[version, &UNREADABLE].concat(),
        &[&[0x00], log].concat(),
        version,
        &[],
    ] {
        let length = log.len() as u32;
        for buffer_length in [
            0,
            1,
            2,
            length.saturating_sub(1),
            length,
            length + 1,
            2 * length,
            65_535,
            65_536,
            65_537,
            4_294_967_295,
        ] {
            lines.push(mend(&own(), buffer_length, log));
        }
    }
}

/// A log under the numbers of the other versions: the tables part somewhere, and
/// the version stays what it is.
fn as_other_versions(lines: &mut Vec<String>, log: &[u8]) {
    for table in TABLES {
        push(lines, &[&bytes(table, &[]), &log[1..]].concat());
    }
}

/// Good entries, then one of each ending, then more that would be good.
fn endings(lines: &mut Vec<String>, table: Table) {
    for good in 0..3 {
        for ending in [&UNEXPLAINED[..], &UNREADABLE, &JOIN_IN_U0[..6], &[]] {
            for behind in 0..2 {
                let mut log = bytes(table, &[]);
                log.extend(JOIN_IN_U0.repeat(good));
                log.extend(ending);
                log.extend(JOIN_IN_U0.repeat(behind));
                push(lines, &log);
            }
        }
    }
}

/// 65,536 and 65,537 bytes: 9,362 entries of seven bytes, one or two of them with
/// a delta of two. 10 comes before 4 and before 5.
fn lengths(lines: &mut Vec<String>) {
    let mut long = vec![0x03];
    long.extend(JOIN_IN_U0.repeat(9_362));
    long.splice(1..2, [0x80, 0x01]);
    push(lines, &long);
    lines.push(mend(&own(), 65_535, &long));
    // No version: all of them are dropped.
    long[0] = 0x00;
    push(lines, &long);
    long.splice(9..10, [0x80, 0x01]);
    let refused = Identity {
        key_number: 8,
        ..own()
    };
    lines.push(mend(&refused, 0, &long));
    lines.push(mend(&own(), 65_537, &long));
}
