//! A rejected termination leads back to the state that it was asked from
//! (document 02, A2): the rows, what is fit, and logs of versions 1 and 2. FROM is
//! 2 for U1, 3 for U2, 0 for nothing.

use super::{cleared, expect, expect_ignored, expect_step};

const U1_TIMER: &str = "2 12 8 5 0a0b0c0d 0";
const U1: &str = "2 12 0 5 0a0b0c0d 0";
const U2: &str = "3 15 0 5 0a0b0c0d 0";
const U5_FROM_U1: &str = "6 15 4 5 0a0b0c0d 2";
const U5_FROM_U2: &str = "6 15 4 5 0a0b0c0d 3";
const TERMINATE: &str = "4 0 00000000 0 -";
const REJECT: &str = "18 0 00000000 0 d1.36.01.98";

fn no_step(context: &str, event: u32) {
    let event = format!("{event} 0 00000000 0 -");
    expect_step(context, &event, &format!("3 {context} 0 -"));
}

#[test]
fn asking_remembers_the_state() {
    // T_term runs, T_MM-est does not; TERMINATION REQUEST goes out.
    let asked = |from: u8| format!("0 {} 0 51.35.0a0b0c0d", u5(15, from));
    expect_step(U1_TIMER, TERMINATE, &asked(2));
    expect_step(U1, TERMINATE, &asked(2));
    expect_step(U2, TERMINATE, &asked(3));
}

#[test]
fn without_orig_nothing_is_asked_nor_remembered() {
    for context in [
        "2 4 8 5 0a0b0c0d 0",
        "2 7 0 5 0a0b0c0d 0",
        "3 7 0 5 0a0b0c0d 0",
    ] {
        no_step(context, 4);
    }
    // Nor in U5 again, nor where there is nothing to terminate.
    for context in [
        "0 0 0 0 00000000 0",
        "1 8 8 5 0a0b0c0d 0",
        "4 0 16 5 0a0b0c0d 0",
        "5 0 2 5 0a0b0c0d 0",
        U5_FROM_U1,
        U5_FROM_U2,
        "7 2 0 5 0a0b0c0d 0",
    ] {
        no_step(context, 4);
    }
}

fn u5(parameters: u8, from: u8) -> String {
    format!("6 {parameters} 4 5 0a0b0c0d {from}")
}

#[test]
fn a_reject_leads_back() {
    // Whatever SET PARAMETER made of U5: U1's row is 12, U2's 15. No timer runs,
    // nothing is remembered, action 1; value and reference are as they were.
    for parameters in 0..=15 {
        expect_step(&u5(parameters, 2), REJECT, &format!("0 {U1} 1 -"));
        expect_step(&u5(parameters, 3), REJECT, &format!("0 {U2} 1 -"));
    }
    // In unacknowledged mode too, with bit 7 of the type and an element to be skipped.
    let odd = "18 0 00000000 1 d1.76.02.98.00.20.01.05";
    expect_step(U5_FROM_U1, odd, &format!("0 {U1} 1 -"));
    expect_step(
        "6 15 4 0 ffffffff 3",
        "18 0 00000000 0 81.36.01.98",
        "0 3 15 0 0 ffffffff 0 1 -",
    );
}

#[test]
fn a_reject_that_is_none_leaves_u5() {
    for context in [U5_FROM_U1, U5_FROM_U2] {
        // Cause 96 is E0; U5 is A5, all attributes BF.
        let reported = format!("2 {context} 0 51.38.03.e0.d136.a5.bf");
        expect_step(context, "18 0 00000000 0 d1.36", &reported);
        expect_ignored(context, 0, "51.36.01.98", 4);
        expect_ignored(context, 0, "e1.36.01.98", 4);
    }
    expect_ignored("6 11 4 5 0a0b0c0d 2", 0, "d1.36.00", 6);
    // Outside U5 it has no row: cause 98 is E2; U1 is A1 with B3, U2 A2 with BF.
    for (context, shown) in [(U1_TIMER, "a1.b3"), (U1, "a1.b3"), (U2, "a2.bf")] {
        let reported = format!("2 {context} 0 51.38.05.e2.d1360198.{shown}");
        expect_step(context, REJECT, &reported);
    }
}

#[test]
fn what_stays_in_u5_keeps_what_is_remembered() {
    for from in [2, 3] {
        let context = u5(15, from);
        let status = format!("0 {context} 0 51.38.01.9e.a5.bf");
        expect_step(&context, "18 0 00000000 0 d1.39", &status);
        let set = format!("0 {} 0 -", u5(4, from));
        expect_step(&context, "18 0 00000000 0 d1.3a.02", &set);
        expect_ignored(&context, 1, "d1.39.17.01.29", 5);
        for event in [1, 2, 3, 6, 7, 10, 11, 12, 13, 14, 16, 17, 19] {
            no_step(&context, event);
        }
    }
}

#[test]
fn ends_from_u5_forget() {
    for context in [U5_FROM_U1, U5_FROM_U2] {
        let ended = |event: &str, actions| expect_step(context, event, &cleared(actions));
        ended("5 0 00000000 0 -", 16);
        ended("8 0 00000000 0 -", 9);
        ended("9 0 00000000 0 -", 9);
        ended("15 0 00000000 0 -", 9);
        ended("18 0 00000000 0 d1.34.01.90", 17);
    }
}

/// Not fit, with an event, with a message and with a short buffer.
fn unfit(context: &str) {
    let refused = format!("7 {context} 0 - 0");
    for rest in [
        "255 9 0 00000000 0 -",
        "255 18 0 00000000 0 d1.36.01.98",
        "254 0 0 00000000 2 -",
    ] {
        expect(&format!("step {context} 3 3359a2 29f1 {rest}"), &refused);
    }
}

#[test]
fn contexts_that_are_not_fit() {
    // U5 without T_term: document 01's U5 after a reject, and with a state remembered.
    unfit("6 15 0 5 0a0b0c0d 0");
    unfit("6 15 0 5 0a0b0c0d 2");
    unfit("6 15 0 5 0a0b0c0d 3");
    // U5 with nothing remembered, or with another timer.
    unfit("6 15 4 5 0a0b0c0d 0");
    unfit("6 15 8 5 0a0b0c0d 2");
    unfit("6 15 12 5 0a0b0c0d 2");
    // What is no state to return to, and what is no state at all.
    for from in [1, 4, 5, 6, 7, 8, 127, 128, 254, 255] {
        unfit(&u5(15, from));
        unfit(&format!("3 15 0 5 0a0b0c0d {from}"));
        unfit(&format!("0 0 0 0 00000000 {from}"));
    }
    // Something remembered outside U5.
    for from in [2, 3] {
        for context in [
            "0 0 0 0 00000000",
            "1 8 8 5 0a0b0c0d",
            "2 12 8 5 0a0b0c0d",
            "2 12 0 5 0a0b0c0d",
            "3 15 0 5 0a0b0c0d",
            "4 0 16 5 0a0b0c0d",
            "5 0 2 5 0a0b0c0d",
            "7 2 0 5 0a0b0c0d",
            "7 2 1 5 0a0b0c0d",
        ] {
            unfit(&format!("{context} {from}"));
        }
    }
}

// Entries, worked out by hand: milliseconds, event and its data; answer, state,
// parameters, actions, reply.

/// Immediate set-up at once; U1, IMMEDIATE SETUP of 14 octets.
const SET_UP: &str = "00.02.05.0a0b0c0d.00.02.0c.00.0e.51313003.3359a2.0229f1.0a0b0c0d";
/// CONNECT at once in U1 with T_MM-est; U2, action 32.
const CONNECTED: &str = "00.12.00.07.d13301020304.01.00.03.0f.20.00";
/// Terminate after 1,000 ms (E8 07); U5, TERMINATION REQUEST.
const ASKED_IN_U1: &str = "e807.04.00.06.0f.00.06.5135.0a0b0c0d";
/// The same in U2, where the reference is CONNECT's.
const ASKED_IN_U2: &str = "e807.04.00.06.0f.00.06.5135.01020304";
/// A reject after 2,000 ms (D0 0F) and its claim: answer 0, action 1, and the
/// state with its parameters.
const REJECTED: &str = "d00f.12.00.04.d1360198.00";
const IN_U5: &str = "06.0f.01.00";
const IN_U1: &str = "02.0c.01.00";
const IN_U2: &str = "03.0f.01.00";
/// Expiry of T_term, without its delta; U0, actions 1 + 8.
const EXPIRED: &str = "0f.00.00.00.09.00";

fn judged(log: &str, answer: &str) {
    expect(&format!("judge 3 3359a2 29f1 {log}"), answer);
}

#[test]
fn version_1_stays_in_u5_and_version_2_does_not() {
    for (before, entry) in [
        (format!("{SET_UP}.{ASKED_IN_U1}"), 3),
        (format!("{SET_UP}.{CONNECTED}.{ASKED_IN_U2}"), 4),
    ] {
        let log = format!("{before}.{REJECTED}.{IN_U5}");
        judged(&format!("01.{log}"), &format!("0 {entry} 10000 30000"));
        judged(&format!("02.{log}"), &format!("9 {entry}"));
        // Up to there both say the same.
        let count = entry - 1;
        judged(&format!("01.{before}"), &format!("0 {count} 10000 30000"));
        judged(&format!("02.{before}"), &format!("0 {count} 10000 30000"));
    }
}

#[test]
fn version_2_returns_to_u1() {
    let log = format!("{SET_UP}.{ASKED_IN_U1}.{REJECTED}.{IN_U1}");
    judged(&format!("02.{log}"), "0 3 10000 30000");
    judged(&format!("01.{log}"), "9 3");
    // Not to U2, nor with T_MM-est's action: CONNECT gives 0 and not 32.
    judged(
        &format!("02.{SET_UP}.{ASKED_IN_U1}.{REJECTED}.{IN_U2}"),
        "9 3",
    );
    let connect = "00.12.00.07.d13301020304.01.00.03.0f";
    judged(&format!("02.{log}.{connect}.00.00"), "0 4 10000 30000");
    judged(&format!("02.{log}.{connect}.20.00"), "9 4");
}

#[test]
fn version_2_returns_to_u2() {
    let before = format!("{SET_UP}.{CONNECTED}.{ASKED_IN_U2}");
    let log = format!("{before}.{REJECTED}.{IN_U2}");
    judged(&format!("02.{log}"), "0 4 10000 30000");
    judged(&format!("01.{log}"), "9 4");
    judged(&format!("02.{before}.{REJECTED}.{IN_U1}"), "9 4");
    // The reference is still CONNECT's: the next request carries it.
    judged(&format!("02.{log}.{ASKED_IN_U2}"), "0 5 10000 30000");
    judged(
        &format!("02.{log}.e807.04.00.06.0f.00.06.5135.0a0b0c0d"),
        "9 5",
    );
}

#[test]
fn a_second_termination_has_a_timer_of_its_own() {
    let [from_u1, from_u2] = [
        format!("{SET_UP}.{ASKED_IN_U1}.{REJECTED}.{IN_U1}.{ASKED_IN_U1}"),
        format!("{SET_UP}.{CONNECTED}.{ASKED_IN_U2}.{REJECTED}.{IN_U2}.{ASKED_IN_U2}"),
    ];
    for (log, entry) in [(from_u1, 5), (from_u2, 6)] {
        // 10,000 is 90 4E, one less 8F 4E, one more 91 4E; 7,000 is D8 36, when
        // the first timer would have ended.
        let accepted = format!("0 {entry} 10000 30000");
        judged(&format!("02.{log}.904e.{EXPIRED}"), &accepted);
        for delta in ["8f4e", "914e", "d836"] {
            judged(
                &format!("02.{log}.{delta}.{EXPIRED}"),
                &format!("9 {entry}"),
            );
        }
    }
    // A second reject leads back once more.
    let twice = format!("{REJECTED}.{IN_U1}.{ASKED_IN_U1}.{REJECTED}.{IN_U1}");
    judged(
        &format!("02.{SET_UP}.{ASKED_IN_U1}.{twice}"),
        "0 5 10000 30000",
    );
}

#[test]
fn a_reject_in_time_and_too_late() {
    let asked = format!("02.{SET_UP}.{ASKED_IN_U1}");
    let reject = |delta: &str| format!("{asked}.{delta}.12.00.04.d1360198.00.{IN_U1}");
    judged(&reject("8f4e"), "0 3 10000 30000");
    judged(&reject("904e"), "0 3 10000 30000");
    judged(&reject("914e"), "9 3");
}

#[test]
fn no_timer_runs_after_a_return() {
    // A day is 80 B8 99 29. Expiries have no step and no rule of time.
    let from_u1 = format!("02.{SET_UP}.{ASKED_IN_U1}.{REJECTED}.{IN_U1}");
    for event in ["0e", "0f", "07"] {
        let refused = format!("80b89929.{event}.03.02.0c.00.00");
        judged(&format!("{from_u1}.{refused}"), "0 4 10000 30000");
        // Taken, as with a timer: not so.
        let taken = format!("00.{event}.00.00.00.08.00");
        judged(&format!("{from_u1}.{taken}"), "9 4");
    }
    let from_u2 = format!("02.{SET_UP}.{CONNECTED}.{ASKED_IN_U2}.{REJECTED}.{IN_U2}");
    judged(
        &format!("{from_u2}.80b89929.0f.03.03.0f.00.00"),
        "0 5 10000 30000",
    );
    judged(&format!("{from_u2}.904e.{EXPIRED}"), "9 5");
    // In version 1 U5 has no timer after a reject either.
    let in_u5 = format!("01.{SET_UP}.{ASKED_IN_U1}.{REJECTED}.{IN_U5}");
    judged(
        &format!("{in_u5}.80b89929.0f.03.06.0f.00.00"),
        "0 4 10000 30000",
    );
    judged(&format!("{in_u5}.904e.{EXPIRED}"), "9 4");
    // And takes a second reject.
    judged(
        &format!("{in_u5}.{REJECTED}.{IN_U5}.00.05.00.00.00.10.00"),
        "0 5 10000 30000",
    );
}

#[test]
fn the_row_comes_back_with_orig() {
    // SET PARAMETER in U5 leaves U-ATT and COMM (5); after the return ORIG is
    // true again, and the termination can be asked once more.
    let set = "00.12.00.03.d13a06.00.06.05.00.00";
    let log = format!("{SET_UP}.{CONNECTED}.{ASKED_IN_U2}.{set}.{REJECTED}");
    judged(
        &format!("02.{log}.{IN_U2}.{ASKED_IN_U2}"),
        "0 6 10000 30000",
    );
    judged(&format!("02.{log}.03.05.01.00"), "9 5");
    // Version 1 stays, and keeps what was set.
    judged(&format!("01.{log}.06.05.01.00"), "0 5 10000 30000");
    judged(&format!("01.{log}.{IN_U5}"), "9 5");
}
