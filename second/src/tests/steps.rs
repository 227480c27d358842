//! Each row of the step table of document 01, and its edges; `returns` and
//! `invitations` have those that document 02 changes. Contexts are `STATE PARAMS TIMERS TV REF FROM`;
//! value 5, reference 0A 0B 0C 0D throughout.

use super::{cleared, expect, expect_step};

const U0: &str = "0 0 0 0 00000000 0";
const U0P: &str = "1 8 8 5 0a0b0c0d 0";
const U1_TIMER: &str = "2 12 8 5 0a0b0c0d 0";
const U1: &str = "2 12 0 5 0a0b0c0d 0";
const U2: &str = "3 15 0 5 0a0b0c0d 0";
const U3: &str = "4 0 16 5 0a0b0c0d 0";
const U4: &str = "5 0 2 5 0a0b0c0d 0";
const U5_FROM_U1: &str = "6 15 4 5 0a0b0c0d 2";
const U5_FROM_U2: &str = "6 15 4 5 0a0b0c0d 3";
const U6: &str = "7 2 0 5 0a0b0c0d 0";
const U6_TIMER: &str = "7 2 1 5 0a0b0c0d 0";
const ALL_BUT_U0: [&str; 10] = [
    U0P, U1_TIMER, U1, U2, U3, U4, U5_FROM_U1, U5_FROM_U2, U6, U6_TIMER,
];

fn on(context: &str, event: u32, answer: &str) {
    expect_step(context, &format!("{event} 5 0a0b0c0d 0 -"), answer);
}

fn no_step(context: &str, event: u32) {
    on(context, event, &format!("3 {context} 0 -"));
}

#[test]
fn set_up_and_immediate_set_up() {
    on(U0, 1, "0 1 8 8 5 0a0b0c0d 0 2 -");
    // Flag 0, value 5; key number 3 in the upper half.
    on(
        U0,
        2,
        "0 2 12 8 5 0a0b0c0d 0 0 51.31.30.033359a2.0229f1.0a0b0c0d",
    );
    on(U0P, 6, "0 2 12 0 5 0a0b0c0d 0 0 51.32.0a0b0c0d");
    no_step(U2, 1);
    no_step(U0, 6);
}

#[test]
fn establishment_fails() {
    on(U0P, 7, &cleared(0));
    on(U1_TIMER, 7, &cleared(0));
    no_step(U1, 7);
    on(U0P, 14, &cleared(8));
    on(U1_TIMER, 14, &cleared(8));
    no_step(U1, 14);
    on(U0P, 8, &cleared(8));
    on(U1_TIMER, 8, &cleared(8));
    on(U1, 8, &cleared(8));
}

#[test]
fn connect() {
    let received = "18 0 00000000 0 d1.33.01020304.01";
    expect_step(U0P, received, "0 3 15 0 5 01020304 0 0 -");
    expect_step(U1_TIMER, received, "0 3 15 0 5 01020304 0 32 -");
    expect_step(U1, received, "0 3 15 0 5 01020304 0 0 -");
}

#[test]
fn joining() {
    on(U0, 10, "0 4 0 16 5 0a0b0c0d 0 1 -");
    on(U3, 3, "0 5 0 2 5 0a0b0c0d 0 4 -");
    on(U4, 11, "0 7 2 0 5 0a0b0c0d 0 1 -");
    on(U4, 16, &cleared(9));
    no_step(U0, 3);
    no_step(U3, 10);
}

#[test]
fn channels() {
    on(U6, 12, "0 7 2 1 5 0a0b0c0d 0 1 -");
    on(U6_TIMER, 12, "0 7 2 1 5 0a0b0c0d 0 1 -");
    on(U6, 13, "0 7 2 0 5 0a0b0c0d 0 1 -");
    on(U6_TIMER, 13, "0 7 2 0 5 0a0b0c0d 0 1 -");
    on(U6_TIMER, 17, &cleared(9));
    no_step(U6, 17);
    // Staying keeps the parameters: D-ATT false and U-ATT true stay so.
    on("7 1 0 5 0a0b0c0d 0", 12, "0 7 1 1 5 0a0b0c0d 0 1 -");
}

#[test]
fn nobody_answers_the_termination() {
    on(U5_FROM_U1, 15, &cleared(9));
    on(U5_FROM_U2, 15, &cleared(9));
    for context in [U5_FROM_U1, U5_FROM_U2] {
        no_step(context, 4);
        no_step(context, 14);
    }
    no_step(U2, 15);
}

#[test]
fn ends_in_all_states() {
    for context in ALL_BUT_U0 {
        on(context, 5, &cleared(16));
        on(context, 9, &cleared(9));
        // Flag 1 in U0.p, U1, U2, U5, flag 0 in U3, U4, U6.
        let flag = if "1236".contains(&context[..1]) {
            "d1"
        } else {
            "51"
        };
        let termination = format!("18 0 00000000 1 {flag}.34.01.90");
        expect_step(context, &termination, &cleared(17));
    }
    for context in [U2, U3, U4, U5_FROM_U1, U5_FROM_U2, U6, U6_TIMER] {
        on(context, 8, &cleared(9));
    }
    for event in [5, 8, 9] {
        no_step(U0, event);
    }
}

#[test]
fn order_of_the_tests() {
    let long = "51".repeat(252);
    // 7 before 5 before 6 before 4.
    expect(
        &format!("step 0 8 0 0 00000000 0 8 000000 - 254 18 0 00000000 2 {long}"),
        "7 0 8 0 0 00000000 0 0 - 0",
    );
    expect(
        &format!("step 0 0 0 0 00000000 0 8 000000 - 254 18 0 00000000 2 {long}"),
        "5 0 0 0 0 00000000 0 0 - 0",
    );
    expect(
        &format!("step 0 0 0 0 00000000 0 8 000000 - 255 18 0 00000000 2 {long}"),
        "6 0 0 0 0 00000000 0 0 - 0",
    );
    // Only event 18 carries a message.
    expect(
        &format!("step 0 0 0 0 00000000 0 0 000000 29 255 20 0 00000000 0 {long}"),
        "4 0 0 0 0 00000000 0 0 - 0",
    );
    expect(
        &format!("step 0 0 0 0 00000000 0 0 000000 29 255 3 0 00000000 0 {long}"),
        "3 0 0 0 0 00000000 0 0 - 0",
    );
}

#[test]
fn arguments_outside_their_range() {
    let refused = |own: &str, event: &str| {
        expect(
            &format!("step {U2} {own} 255 {event}"),
            &format!("4 {U2} 0 - 0"),
        );
    };
    refused("8 000000 29", "3 0 00000000 0 -");
    refused("0 000000 -", "3 0 00000000 0 -");
    refused("0 000000 290000000000000000", "3 0 00000000 0 -");
    refused("0 000000 29", "0 0 00000000 0 -");
    refused("0 000000 29", "20 0 00000000 0 -");
    refused("0 000000 29", "4294967295 0 00000000 0 -");
    refused("0 000000 29", "18 0 00000000 2 d139");
    for event in [1, 2, 10] {
        refused("0 000000 29", &format!("{event} 7 00000000 0 -"));
        no_step(U2, event);
    }
    // What the event does not carry has no effect.
    expect(
        &format!("step {U2} 0 000000 29 255 3 255 ffffffff 255 00"),
        &format!("3 {U2} 0 - 0"),
    );
}

#[test]
fn states_that_are_none() {
    expect_step(
        "8 0 0 0 00000000 0",
        "3 0 00000000 0 -",
        "7 8 0 0 0 00000000 0 0 -",
    );
    expect_step(
        "255 15 15 255 ffffffff 0",
        "3 0 00000000 0 -",
        "7 255 15 15 255 ffffffff 0 0 -",
    );
}
