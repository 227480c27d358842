//! The fixed set for `judge`, second part: settings, length of the log, version,
//! each field of an entry at its limits, and forms of numbers.

use super::judge::{own, push};
use crate::commands::judge;
use crate::generate::log::bytes;
use crate::log::number;
use crate::tables::Table;

pub fn all(lines: &mut Vec<String>) {
    settings(lines);
    versions(lines);
    entries(lines, Table::First);
    lengths(lines);
}

/// All that is about entries, in logs of this table's version.
pub fn entries(lines: &mut Vec<String>, table: Table) {
    fields(lines, table);
    event_data(lines, table);
    forms(lines, table);
    runs(lines, table);
    precedence(lines, table);
}

/// Key number 7 and 8, identities of 0, 1, 8 and 9 octets; 4 before 8.
fn settings(lines: &mut Vec<String>) {
    for key_number in (0..=9).chain([255]) {
        for log in [&[0x01][..], &[]] {
            lines.push(judge(
                &crate::commands::Identity {
                    key_number,
                    ..own()
                },
                log,
            ));
        }
    }
    for length in (0..=10).chain([256, 264]) {
        for log in [
            &[0x01][..],
            &[0x01, 0x00, 0x03, 0x03, 0x00, 0x00, 0x00, 0x00],
            &[0x00],
        ] {
            let identity = vec![0x29; length];
            lines.push(judge(&crate::commands::Identity { identity, ..own() }, log));
        }
    }
}

/// All first bytes, alone and before an entry, and longer forms of 1.
fn versions(lines: &mut Vec<String>) {
    for first in 0..=255 {
        push(lines, &[first]);
        push(lines, &[first, 0x00, 0x03, 0x03, 0x00, 0x00, 0x00, 0x00]);
    }
    for log in [
        &[0x81, 0x00][..],
        &[0x81, 0x80, 0x00],
        &[0x81, 0x80, 0x80, 0x80, 0x10],
        &[0x81, 0x80, 0x80, 0x80, 0x80, 0x00],
    ] {
        push(lines, log);
    }
}

/// The numbers of an entry "join in U0": delta, event, answer, state,
/// parameters, actions, reply length.
const JOIN_IN_U0: [u32; 7] = [0, 3, 3, 0, 0, 0, 0];

/// A log of one entry with these numbers and these octets behind the event.
fn log(table: Table, numbers: [u32; 7], data: &[u8], reply: usize) -> Vec<u8> {
    let mut log = bytes(table, &[]);
    for (place, number) in numbers.iter().enumerate() {
        number::push(&mut log, *number);
        if place == 1 {
            log.extend(data);
        }
    }
    log.extend(vec![0x51; reply]);
    log
}

/// Each number at its limit, over it, and as great as numbers are.
fn fields(lines: &mut Vec<String>, table: Table) {
    let event = match table {
        Table::First | Table::Second => 18,
        Table::Third => 19,
        Table::Group => 36,
    };
    let (state, actions) = (table.greatest_state(), table.greatest_actions());
    let greatest = [86_400_000, event, 3, state, 15, actions, 255];
    for (place, limit) in greatest.into_iter().enumerate() {
        for number in [
            0,
            1,
            127,
            128,
            limit - 1,
            limit,
            limit + 1,
            2 * limit,
            4_294_967_295,
        ] {
            let mut numbers = JOIN_IN_U0;
            numbers[place] = number;
            // As many reply octets as are claimed, where so many are readable.
            let reply = if place == 6 { number.min(300) } else { 0 };
            push(lines, &log(table, numbers, &[], reply as usize));
        }
    }
}

/// Each event with no data, with a call's and with a message's; values and modes.
fn event_data(lines: &mut Vec<String>, table: Table) {
    let events = match table {
        Table::Group => 0..=38,
        _ => 0..=20,
    };
    for event in events {
        let mut numbers = JOIN_IN_U0;
        numbers[1] = event;
        push(lines, &log(table, numbers, &[], 0));
        push(
            lines,
            &log(table, numbers, &[0x05, 0x0A, 0x0B, 0x0C, 0x0D], 0),
        );
        push(lines, &log(table, numbers, &[0x00, 0x01, 0xD1], 0));
    }
    for event in [1, 2, 10] {
        for value in (0..=8).chain([127]) {
            push(
                lines,
                &log(table, [0, event, 3, 0, 0, 0, 0], &[value, 0, 0, 0, 1], 0),
            );
        }
    }
    for mode in (0..=3).chain([127]) {
        push(
            lines,
            &log(table, [0, 18, 1, 0, 0, 0, 0], &[mode, 0x02, 0x81, 0x39], 0),
        );
    }
}

/// Numbers that are longer than they need, or too great, in every place.
fn forms(lines: &mut Vec<String>, table: Table) {
    let good = log(table, JOIN_IN_U0, &[], 0);
    let odd: [&[u8]; 10] = [
        &[0x80, 0x00],
        &[0x83, 0x00],
        &[0x80, 0x80, 0x00],
        &[0x80, 0x80, 0x80, 0x80, 0x00],
        &[0x80, 0x80, 0x80, 0x80, 0x80, 0x00],
        &[0xFF, 0xFF, 0xFF, 0xFF, 0x0F],
        &[0xFF, 0xFF, 0xFF, 0xFF, 0x10],
        &[0x83, 0x80, 0x80, 0x80, 0x10],
        &[0xFF, 0xFF, 0xFF, 0xFF, 0xFF, 0x01],
        &[0x80],
    ];
    for place in 0..good.len() {
        for number in odd {
            push(
                lines,
                &[&good[..place], number, &good[place + 1..]].concat(),
            );
        }
    }
    // 300 is AC 02, and 86,400,000 is 80 B8 99 29.
    for delta in [
        &[0xAC, 0x02][..],
        &[0x80, 0xB8, 0x99, 0x29],
        &[0x81, 0xB8, 0x99, 0x29],
        &[0xAC, 0x82, 0x00],
    ] {
        push(lines, &[&good[..1], delta, &good[2..]].concat());
    }
}

/// Messages and replies of 0, 251, 252 and 255, 256 octets, exact, cut by one
/// and with one more.
fn runs(lines: &mut Vec<String>, table: Table) {
    for length in [0, 1, 2, 127, 128, 200, 250, 251, 252, 300] {
        let mut data = vec![0x01];
        number::push(&mut data, length);
        data.extend(vec![0x81; length as usize]);
        let whole = log(table, [5, 18, 1, 0, 0, 0, 0], &data, 0);
        push(lines, &whole);
        push(lines, &whole[..whole.len() - 6]);
        push(lines, &[&whole[..], &[0x00]].concat());
    }
    for length in [1, 127, 128, 254, 255, 256] {
        for given in [length - 1, length, length + 1] {
            push(
                lines,
                &log(table, [0, 3, 3, 0, 0, 0, length], &[], given as usize),
            );
        }
    }
}

/// At one entry unreadable precedes unexplained; an unexplained entry hides
/// what stands behind it.
fn precedence(lines: &mut Vec<String>, table: Table) {
    let good = &log(table, JOIN_IN_U0, &[], 0)[1..];
    let unexplained = &log(table, [0, 3, 0, 0, 0, 0, 0], &[], 0)[1..];
    let both = &log(
        table,
        [0, 3, 0, table.greatest_state() + 1, 0, 0, 0],
        &[],
        0,
    )[1..];
    let unreadable = &[0x80, 0x00][..];
    let sorts = [good, unexplained, both, unreadable, &good[..3], &[]];
    let version = &bytes(table, &[])[..];
    for first in sorts {
        for second in sorts {
            push(lines, &[version, first, second].concat());
            push(lines, &[version, good, first, second].concat());
        }
    }
}

/// Logs of 65,535, 65,536 and 65,537 bytes: 9,362 entries of seven bytes, some
/// with a delta of two bytes. 10 comes before 4, and before any look inside.
fn lengths(lines: &mut Vec<String>) {
    let mut long = vec![1];
    for _ in 0..9_362 {
        long.extend([0x00, 0x03, 0x03, 0x00, 0x00, 0x00, 0x00]);
    }
    push(lines, &long);
    long.splice(1..2, [0x80, 0x01]);
    push(lines, &long);
    long.splice(9..10, [0x80, 0x01]);
    push(lines, &long);
    let refused = crate::commands::Identity {
        key_number: 8,
        ..own()
    };
    lines.push(judge(&refused, &long));
    lines.push(judge(&refused, &long[..65_536]));
    // Cut by one: the last entry is unreadable.
    push(lines, &long[..65_536]);
}
