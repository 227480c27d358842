//! The rules on received messages, in their order, and the STATUS messages
//! that a step writes.

use super::{cleared, expect_ignored as ignored, expect_step};

const U2: &str = "3 15 0 5 0a0b0c0d 0";

fn receive(context: &str, mode: u8, octets: &str, answer: &str) {
    expect_step(context, &format!("18 0 00000000 {mode} {octets}"), answer);
}

/// Answer 2 with this STATUS.
fn reported(context: &str, octets: &str, status: &str) {
    receive(context, 0, octets, &format!("2 {context} 0 {status}"));
}

#[test]
fn rule_1() {
    for (octets, reason) in [
        ("-", 2),
        ("d1", 2),
        ("51.34.01.90", 4),
        ("c1.34.01.90", 4),
        ("f1.34.01.90", 4),
        ("d2.34.01.90", 3),
    ] {
        ignored(U2, 0, octets, reason);
    }
    ignored("0 0 0 0 00000000 0", 0, "81.34.01.90", 1);
    ignored("0 0 0 0 00000000 0", 1, "01.34.01.90", 1);
    // The flag follows the state, not ORIG: U2 with ORIG false still takes flag 1.
    receive("3 7 0 5 0a0b0c0d 0", 0, "d1.34.01.90", &cleared(17));
    ignored("3 7 0 5 0a0b0c0d 0", 0, "51.34.01.90", 4);
    receive("5 0 2 5 0a0b0c0d 0", 0, "51.34.01.90", &cleared(17));
    ignored("5 0 2 5 0a0b0c0d 0", 0, "d1.34.01.90", 4);
}

#[test]
fn rule_2() {
    // Cause 97 is E1, 98 is E2; U2 is A2; all four true is BF.
    reported(U2, "d1.00", "51.38.03.e1.d100.a2.bf");
    reported(U2, "d1.b4.01.90", "51.38.05.e1.d1b40190.a2.bf");
    // A type that the MS sends, or with no row here, before any look at its contents.
    for octets in ["d131", "d132", "d138", "d135", "d133", "d136"] {
        reported(U2, octets, &format!("51.38.03.e2.{octets}.a2.bf"));
    }
    // COMM false: ignored.
    ignored("4 0 16 5 0a0b0c0d 0", 0, "51.00", 6);
    ignored("4 0 16 5 0a0b0c0d 0", 0, "51.33.01020304.01", 6);
    ignored("1 8 8 5 0a0b0c0d 0", 0, "d1.36.01.90", 6);
    // U0.p with COMM true by SET PARAMETER: call state 6, COMM and ORIG.
    reported("1 12 8 5 0a0b0c0d 0", "d1.36", "51.38.03.e2.d136.a6.b3");
    // Bit 7 of the type is no part of the code.
    receive(U2, 0, "d1.74.01.90", &cleared(17));
}

#[test]
fn rule_3() {
    // Cause 96 is E0.
    reported(U2, "d1.34", "51.38.03.e0.d134.a2.bf");
    reported(U2, "d1.34.00", "51.38.04.e0.d13400.a2.bf");
    reported(U2, "d1.34.01.90.05", "51.38.06.e0.d134019005.a2.bf");
    reported(U2, "d1.3a", "51.38.03.e0.d13a.a2.bf");
    ignored("3 11 0 5 0a0b0c0d 0", 0, "d1.34", 6);
}

#[test]
fn rule_4() {
    let status = format!("0 {U2} 0 51.38.01.9e.a2.bf");
    for octets in [
        "d1.39",
        "d1.39.17.02.29f1",
        "d1.39.17.00",
        "d1.39.17.09.29f100000000000000",
    ] {
        receive(U2, 0, octets, &status);
        receive(U2, 1, octets, &status);
    }
    for other in ["d1.39.17.02.29f2", "d1.39.17.01.29", "d1.39.17.03.29f100"] {
        receive(U2, 0, other, &status);
        ignored(U2, 1, other, 5);
    }
    // Rule 3 comes first, whoever it is for.
    receive(
        U2,
        1,
        "d1.39.17.01.29.05",
        &format!("2 {U2} 0 51.38.07.e0.d13917012905.a2.bf"),
    );
    // 17 in another message is unknown.
    receive(U2, 1, "d1.34.01.90.17.01.00", &cleared(17));
}

#[test]
fn rule_5() {
    // Cause 95 is DF; U1 is A1; COMM and ORIG are B3.
    reported(
        "2 12 8 5 0a0b0c0d 0",
        "d1.33.01020304.00",
        "51.38.08.df.d1330102030400.a1.b3",
    );
    ignored("1 8 8 5 0a0b0c0d 0", 0, "d1.33.01020304.fe", 6);
    // A faulty CONNECT is rule 3's.
    reported(
        "2 12 0 5 0a0b0c0d 0",
        "d1.33.01020304",
        "51.38.07.e0.d13301020304.a1.b3",
    );
}

#[test]
fn get_status_shows_the_context() {
    receive(
        "6 14 4 0 ffffffff 3",
        0,
        "81.39",
        "0 6 14 4 0 ffffffff 3 0 01.38.01.9e.a5.bb",
    );
    ignored("7 2 1 5 0a0b0c0d 0", 0, "51.39", 6);
    ignored("3 11 0 5 0a0b0c0d 0", 0, "d1.39", 6);
}

#[test]
fn set_parameter() {
    // D-ATT 8, U-ATT 4, COMM 2, ORIG 1 become 8 ORIG + 4 COMM + 2 D-ATT + U-ATT.
    receive(U2, 0, "d1.3a.08", "0 3 2 0 5 0a0b0c0d 0 0 -");
    receive(U2, 0, "d1.3a.04", "0 3 1 0 5 0a0b0c0d 0 0 -");
    receive(U2, 0, "d1.3a.02", "0 3 4 0 5 0a0b0c0d 0 0 -");
    receive(U2, 0, "d1.3a.f1", "0 3 8 0 5 0a0b0c0d 0 0 -");
    receive(
        "1 8 8 5 0a0b0c0d 0",
        0,
        "d1.3a.0f",
        "0 1 15 8 5 0a0b0c0d 0 0 -",
    );
    for state in ["4 0 16", "5 0 2", "7 2 1"] {
        let context = format!("{state} 5 0a0b0c0d 0");
        ignored(&context, 0, "51.3a.01", 6);
        ignored(&context, 0, "51.3a.02", 6);
        ignored(&context, 0, "51.3a.0f", 6);
        let (number, timers) = (&state[..1], &state[4..]);
        let set = format!("0 {number} 3 {timers} 5 0a0b0c0d 0 0 -");
        receive(&context, 0, "51.3a.0c", &set);
    }
}

#[test]
fn the_copy_in_a_status() {
    // 245 octets are copied, and the STATUS has 251; 246 are not.
    let copied = format!("d1.00.{}", "aa".repeat(243));
    reported(U2, &copied, &format!("51.38.f6.e1.{copied}.a2.bf"));
    let left_out = format!("{copied}aa");
    reported(U2, &left_out, "51.38.01.e1.a2.bf");
    let longest = format!("d1.00.{}", "aa".repeat(249));
    reported(U2, &longest, "51.38.01.e1.a2.bf");
}
