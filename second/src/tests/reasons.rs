//! Why a message is ignored: each reason by itself, then the order where
//! several apply. Reasons are those of document 02, A1: 1 no call, 2 too short,
//! 3 other protocol, 4 transaction mismatch, 5 other identity, 6 COMM false.

use super::{expect, expect_ignored, expect_step};
use crate::commands::Identity;
use crate::event::Event;
use crate::generate::walk::Walk;
use crate::log::record::record;
use crate::probe::tokens::hexadecimal;
use crate::tables::Table;
use crate::timer::Chosen;

const U0: &str = "0 0 0 0 00000000 0";
/// Each state but U0, once with COMM true where that is consistent and once
/// with COMM false, and the first octet that a message needs there.
const COMM_TRUE: [(&str, &str); 4] = [
    ("1 12 8 5 0a0b0c0d 0", "d1"),
    ("2 12 8 5 0a0b0c0d 0", "d1"),
    ("3 15 0 5 0a0b0c0d 0", "d1"),
    ("6 15 4 5 0a0b0c0d 3", "d1"),
];
const COMM_FALSE: [(&str, &str); 7] = [
    ("1 8 8 5 0a0b0c0d 0", "d1"),
    ("2 8 0 5 0a0b0c0d 0", "d1"),
    ("3 11 0 5 0a0b0c0d 0", "d1"),
    ("4 0 16 5 0a0b0c0d 0", "51"),
    ("5 0 2 5 0a0b0c0d 0", "51"),
    ("6 11 4 5 0a0b0c0d 3", "d1"),
    ("7 2 1 5 0a0b0c0d 0", "51"),
];
const U2: &str = "3 15 0 5 0a0b0c0d 0";

/// Ignored for this reason in either mode.
fn ignored(context: &str, octets: &str, reason: u8) {
    for mode in [0, 1] {
        expect_ignored(context, mode, octets, reason);
    }
}

fn all_but_u0() -> impl Iterator<Item = (&'static str, &'static str)> {
    COMM_TRUE.into_iter().chain(COMM_FALSE)
}

#[test]
fn no_call_comes_before_all() {
    // Empty, one octet, other protocols, value 0 with either flag, another
    // value, an unknown type, GET STATUS for us and for another, 251 octets.
    let longest = format!("81.00.{}", "00".repeat(249));
    for octets in [
        "-",
        "81",
        "82",
        "80.39",
        "8f.39",
        "01.34.01.90",
        "81.34.01.90",
        "91.34.01.90",
        "81.00",
        "81.34",
        "81.39",
        "81.39.17.02.29f1",
        "81.39.17.02.29f2",
        "81.3a.02",
        &longest,
    ] {
        ignored(U0, octets, 1);
    }
}

#[test]
fn too_short_comes_before_the_protocol() {
    for (context, first) in all_but_u0() {
        ignored(context, "-", 2);
        ignored(context, first, 2);
        // One octet of another protocol, of another value, of the other flag.
        for octet in ["d0", "d2", "50", "52", "c1", "41", "ff", "00"] {
            ignored(context, octet, 2);
        }
    }
}

#[test]
fn other_protocol_comes_before_the_transaction() {
    for (context, first) in all_but_u0() {
        let high = &first[..1];
        for low in ["0", "2", "3", "5", "9", "f"] {
            ignored(context, &format!("{high}{low}.34.01.90"), 3);
            ignored(context, &format!("{high}{low}.39"), 3);
        }
        // Another value and the other flag as well.
        ignored(context, "02.39", 3);
        ignored(context, "f0.00", 3);
    }
}

#[test]
fn a_mismatch_comes_before_the_contents() {
    for (context, first) in all_but_u0() {
        let (lower, higher, other_flag) = match first {
            "d1" => ("c1", "e1", "51"),
            _ => ("41", "61", "d1"),
        };
        for head in [lower, higher, other_flag, "f1", "71", "01", "81"] {
            ignored(context, &format!("{head}.34.01.90"), 4);
            // Unknown type, nothing behind the type, GET STATUS for another.
            ignored(context, &format!("{head}.00"), 4);
            ignored(context, &format!("{head}.34"), 4);
            ignored(context, &format!("{head}.39.17.02.29f2"), 4);
        }
    }
}

#[test]
fn other_identity_comes_before_comm() {
    for (context, first) in all_but_u0() {
        for other in ["17.02.29f2", "17.01.29", "17.03.29f100"] {
            expect_ignored(context, 1, &format!("{first}.39.{other}"), 5);
        }
    }
    // Acknowledged, no message is for another: COMM alone decides.
    for (context, first) in COMM_FALSE {
        expect_ignored(context, 0, &format!("{first}.39.17.02.29f2"), 6);
    }
    expect_step(
        U2,
        "18 0 00000000 0 d1.39.17.02.29f2",
        &format!("0 {U2} 0 51.38.01.9e.a2.bf"),
    );
}

#[test]
fn a_fault_comes_before_the_identity() {
    for (context, first) in COMM_FALSE {
        ignored(context, &format!("{first}.39.17.02.29f2.05"), 6);
        ignored(context, &format!("{first}.39.05.00.17.02.29f2"), 6);
    }
    expect_step(
        U2,
        "18 0 00000000 1 d1.39.17.02.29f2.05",
        &format!("2 {U2} 0 51.38.08.e0.d139170229f205.a2.bf"),
    );
}

#[test]
fn comm_false() {
    for (context, first) in COMM_FALSE {
        // Rule 2: unknown types, and types that the MS sends.
        for octets in ["00", "37", "b9", "31", "32", "35", "38"] {
            ignored(context, &format!("{first}.{octets}"), 6);
        }
        // Rule 3: cut short, a length octet of 0, an element that must be known.
        for octets in ["34", "34.00", "34.02.90", "34.01.90.05", "3a"] {
            ignored(context, &format!("{first}.{octets}"), 6);
        }
        // GET STATUS for nobody, for us, and with an identity absent by fault.
        for octets in ["39", "39.17.02.29f1", "39.17.00", "79"] {
            ignored(context, &format!("{first}.{octets}"), 6);
        }
    }
}

#[test]
fn comm_false_and_no_row_in_the_state() {
    for (context, first) in COMM_FALSE {
        let state = &context[..1];
        // CONNECT has rows in U0.p and U1, TERMINATION REJECT in U5.
        if !"12".contains(state) {
            ignored(context, &format!("{first}.33.01020304.01"), 6);
        }
        if state != "6" {
            ignored(context, &format!("{first}.36.01.90"), 6);
        }
    }
}

#[test]
fn comm_false_and_a_connect_for_another() {
    for context in [
        "1 8 8 5 0a0b0c0d 0",
        "2 8 8 5 0a0b0c0d 0",
        "2 8 0 5 0a0b0c0d 0",
    ] {
        ignored(context, "d1.33.01020304.00", 6);
        ignored(context, "d1.33.01020304.fe", 6);
        ignored(context, "d1.33.01020304", 6);
    }
}

#[test]
fn comm_false_and_inconsistent_parameters() {
    for context in [
        "4 0 16 5 0a0b0c0d 0",
        "5 0 2 5 0a0b0c0d 0",
        "7 2 0 5 0a0b0c0d 0",
    ] {
        for attributes in ["01", "02", "03", "0f", "f1", "f2"] {
            ignored(context, &format!("51.3a.{attributes}"), 6);
        }
    }
}

#[test]
fn answers_that_ignore_nothing_have_reason_0() {
    // 7 by a number that is no state and by a state that is not fit, 5, 6, 4.
    let long = "51".repeat(252);
    expect(
        "step 9 0 0 0 00000000 0 3 3359a2 29f1 255 18 0 00000000 0 -",
        "7 9 0 0 0 00000000 0 0 - 0",
    );
    expect(
        "step 0 4 0 0 00000000 0 3 3359a2 29f1 255 18 0 00000000 0 -",
        "7 0 4 0 0 00000000 0 0 - 0",
    );
    expect(
        &format!("step {U0} 3 3359a2 29f1 254 18 0 00000000 0 -"),
        &format!("5 {U0} 0 - 0"),
    );
    expect_step(
        U0,
        &format!("18 0 00000000 0 {long}"),
        &format!("6 {U0} 0 -"),
    );
    expect_step(U0, "18 0 00000000 2 -", &format!("4 {U0} 0 -"));
    // 3, 2 and 0.
    expect_step(U0, "3 0 00000000 0 -", &format!("3 {U0} 0 -"));
    expect_step(
        U2,
        "18 0 00000000 1 d1.00",
        &format!("2 {U2} 0 51.38.03.e1.d100.a2.bf"),
    );
    expect_step(U2, "18 0 00000000 1 d1.3a.00", "0 3 0 0 5 0a0b0c0d 0 0 -");
}

/// A call that is joined, five messages that are ignored in U6, the release,
/// and one more in U0.
fn ignored_in_turn() -> Vec<Event> {
    let unacknowledged = |octets: &[u8]| Event::received(1, octets.to_vec());
    vec![
        Event::call(10, 5, [1, 2, 3, 4]),
        Event::plain(3),
        Event::plain(11),
        unacknowledged(&[]),
        unacknowledged(&[0x52, 0x39]),
        unacknowledged(&[0x41, 0x39]),
        unacknowledged(&[0x51, 0x39, 0x17, 0x01, 0x29]),
        unacknowledged(&[0x51, 0x39]),
        Event::plain(5),
        unacknowledged(&[0x51, 0x39]),
    ]
}

#[test]
fn the_log_writes_1_for_all_six() {
    let own = Identity {
        key_number: 3,
        classmark: [0x33, 0x59, 0xA2],
        identity: vec![0x29, 0xF1],
    };
    let chosen = Chosen {
        joining: 10_000,
        invitation: 1_000,
    };
    let mut walk = Walk::begin(Table::NEWEST, own, chosen);
    let (mut log, mut used) = (vec![0; 200], 0);
    for event in ignored_in_turn() {
        walk.enter(event, 0);
        let entry = walk.entries.last().expect("the one just entered");
        used = record(walk.table, &mut log, used, entry).expect("there is room");
    }
    // Delta, event, mode, length, octets; answer 1, U6, D-ATT, no action, no
    // reply; then the release, and the last one in U0.
    let expected = "03 000a05010203040004000100 00030005000400 000b0007020100 \
        001201000107020000 0012010252390107020000 0012010241390107020000 \
        0012010551391701290107020000 0012010251390107020000 \
        00050000001000 0012010251390100000000";
    let expected = expected.replace(' ', "");
    assert_eq!(hexadecimal(&log[..used]), expected);
    let judge = format!("judge 3 3359a2 29f1 {expected}");
    expect(&judge, "0 10 10000 30000 1000 600000");
    // What the log does not tell: 2, 3, 4, 5, 6 and 1.
    let context = "7 2 0 5 01020304 0";
    expect_ignored(context, 1, "-", 2);
    expect_ignored(context, 1, "5239", 3);
    expect_ignored(context, 1, "4139", 4);
    expect_ignored(context, 1, "5139170129", 5);
    expect_ignored(context, 1, "5139", 6);
    expect_ignored(U0, 1, "5139", 1);
}
