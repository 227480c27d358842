//! Group calls with talk-back (document 02, A5): the worked run, what waits for
//! COMM and in which order it goes out, the value that a message tells, and where
//! a rejected termination leads back to. Contexts are `STATE PARAMS TIMERS TV REF
//! FROM CHOOSER PENDING`; pending is 4 termination + 2 status + awaiting a value.

use super::expect;

/// A step of an MS with key number 3, classmark 33 59 A2 and identity 29 F1.
fn gstep(context: &str, event: &str, answer: &str) {
    expect(
        &format!("gstep {context} 3 3359a2 29f1 255 {event}"),
        answer,
    );
}

/// A step in a line: `CONTEXT | on EVENT` for an event that carries nothing or
/// `CONTEXT | hear OCTETS` for a message; then `| ANSWER` without its reason, which
/// is 0, `| ignored REASON` or `| no step`.
fn step(line: &str) {
    let parts: Vec<&str> = line.split(" | ").collect();
    let [context, happens, answer] = parts[..] else {
        panic!("not three parts: {line}");
    };
    let event = match happens.split_once(' ') {
        Some(("on", event)) => format!("{event} 0 00000000 0 -"),
        Some(("hear", octets)) => format!("18 0 00000000 0 {octets}"),
        _ => panic!("neither on nor hear: {line}"),
    };
    let answer = match answer.split_once(' ') {
        Some(("ignored", reason)) => format!("1 {context} 0 - {reason}"),
        Some(("no", "step")) => format!("3 {context} 0 - 0"),
        _ => format!("{answer} 0"),
    };
    gstep(context, &event, &answer);
}

fn steps(lines: &[&str]) {
    lines.iter().for_each(|line| step(line));
}

/// Event; then answer, context, actions, reply and reason, which lead on.
const WORKED_RUN: [(&str, &str); 18] = [
    ("10 2 00000020 0 -", "0 4 0 0 2 00000020 0 2 0 1 - 0"),
    ("3 0 00000000 0 -", "0 5 0 2 2 00000020 0 2 0 4 - 0"),
    ("11 0 00000000 0 -", "0 10 2 0 2 00000020 0 2 0 1 - 0"),
    ("18 0 00000000 0 2039", "0 11 3 0 2 00000020 0 2 3 64 - 0"),
    ("34 0 00000000 0 -", "0 12 3 0 2 00000020 0 2 3 0 - 0"),
    ("18 0 00000000 0 c03a0e", "1 12 3 0 2 00000020 0 2 3 0 - 4"),
    (
        "18 0 00000000 0 403a0e",
        "0 12 7 0 4 00000020 0 2 0 0 c038019eaabe 0",
    ),
    ("12 0 00000000 0 -", "0 13 3 1 4 00000020 0 2 0 0 - 0"),
    ("17 0 00000000 0 -", "0 0 0 0 0 00000000 0 0 0 9 - 0"),
    (
        "2 1 00000020 0 -",
        "0 2 12 8 1 00000020 0 1 0 0 10315003010203.021122.00000020 0",
    ),
    (
        "18 0 00000000 0 90330000012001",
        "0 8 15 0 1 00000120 0 1 0 32 - 0",
    ),
    ("32 0 00000000 0 -", "0 9 14 0 1 00000120 0 1 0 4 - 0"),
    ("11 0 00000000 0 -", "0 10 10 0 1 00000120 0 1 0 0 - 0"),
    ("18 0 00000000 0 9039", "0 11 11 0 1 00000120 0 1 2 64 - 0"),
    ("4 0 00000000 0 -", "0 11 11 0 1 00000120 0 1 6 0 - 0"),
    ("34 0 00000000 0 -", "0 12 11 0 1 00000120 0 1 6 0 - 0"),
    (
        "18 0 00000000 0 903a0f",
        "0 6 15 4 1 00000120 12 1 0 0 1038019eaabf.103500000120 0",
    ),
    (
        "18 0 00000000 0 903698000000",
        "0 12 15 0 1 00000120 0 1 0 1 - 0",
    ),
];

#[test]
fn the_worked_run_step_by_step() {
    let mut context = "0 0 0 0 00000000 0 0 0".to_string();
    for (event, answer) in WORKED_RUN {
        expect(
            &format!("gstep {context} 5 010203 1122 255 {event}"),
            answer,
        );
        let tokens: Vec<&str> = answer.split(' ').collect();
        context = tokens[1..9].join(" ");
    }
}

/// The same as a log: deltas of 0, but 3,000 ms (B8 17) before the expiry.
const WORKED_LOG: &str = "10\
    .00.0a.02.00000020.00.04.00.01.00\
    .00.03.00.05.00.04.00\
    .00.0b.00.0a.02.01.00\
    .00.12.00.02.2039.00.0b.03.40.00\
    .00.22.00.0c.03.00.00\
    .00.12.00.03.c03a0e.01.0c.03.00.00\
    .00.12.00.03.403a0e.00.0c.07.00.06.c038019eaabe\
    .00.0c.00.0d.03.00.00\
    .b817.11.00.00.00.09.00\
    .00.02.01.00000020.00.02.0c.00.0e.1031500301020302112200000020\
    .00.12.00.07.90330000012001.00.08.0f.20.00\
    .00.20.00.09.0e.04.00\
    .00.0b.00.0a.0a.00.00\
    .00.12.00.02.9039.00.0b.0b.40.00\
    .00.04.00.0b.0b.00.00\
    .00.22.00.0c.0b.00.00\
    .00.12.00.03.903a0f.00.06.0f.00.0c.1038019eaabf103500000120\
    .00.12.00.06.903698000000.00.0c.0f.01.00";

#[test]
fn the_worked_run_as_a_log() {
    let judged = |log: &str, answer: &str| expect(&format!("judge 5 010203 1122 {log}"), answer);
    judged(WORKED_LOG, "0 18 10000 30000");
    // One thing changed: a time, an action, a state, an octet of a reply, the order
    // in a reply, the version, under which state 10 is unreadable.
    for (old, new, answer) in [
        ("b817.11", "b717.11", "9 9"),
        ("b817.11", "b917.11", "9 9"),
        ("03.40.00.00.22", "03.00.00.00.22", "9 4"),
        (
            "00.0c.03.00.00.00.12.00.03.c0",
            "00.0b.03.00.00.00.12.00.03.c0",
            "9 5",
        ),
        ("c038019eaabe", "b038019eaabe", "9 7"),
        (
            "0c.1038019eaabf103500000120",
            "0c.1035000001201038019eaabf",
            "9 17",
        ),
        ("10.00.0a", "03.00.0a", "8 3"),
    ] {
        assert!(WORKED_LOG.contains(old), "{old}");
        judged(&WORKED_LOG.replacen(old, new, 1), answer);
    }
}

#[test]
fn status_then_termination_request() {
    // ORIG true, COMM false, both pending, in U2sr, U2ws, U2r, U2nc: dedicated
    // mode enters U2sl, whose row has COMM.
    let both = "50.38.01.9e.a2.bf.50.35.0a0b0c0d";
    for context in [
        "12 11 0 5 0a0b0c0d 0 1 6",
        "11 11 0 5 0a0b0c0d 0 1 6",
        "10 10 0 5 0a0b0c0d 0 1 6",
        "13 11 1 5 0a0b0c0d 0 1 6",
        "9 8 0 5 0a0b0c0d 0 1 6",
    ] {
        let asked = format!("0 6 15 4 5 0a0b0c0d 8 1 0 0 {both}");
        step(&format!("{context} | on 35 | {asked}"));
    }
    steps(&[
        // Receive mode asked for: U2wr, call state 7, without U-ATT; action 4 stays.
        "12 11 0 5 0a0b0c0d 0 2 6 | on 32 | 0 6 15 4 5 0a0b0c0d 9 2 0 4 \
         d0.38.01.9e.a7.bb.d0.35.0a0b0c0d",
        // One of them alone.
        "8 8 0 5 0a0b0c0d 0 1 2 | on 32 | 0 9 14 0 5 0a0b0c0d 0 1 0 4 50.38.01.9e.a7.bb",
        "8 8 0 5 0a0b0c0d 0 1 4 | on 32 | 0 6 15 4 5 0a0b0c0d 9 1 0 4 50.35.0a0b0c0d",
        // The row's own message first: SETUP, then STATUS in U1.
        "1 8 8 5 0a0b0c0d 0 1 2 | on 6 | 0 2 12 0 5 0a0b0c0d 0 1 0 0 \
         50.32.0a0b0c0d.50.38.01.9e.a1.b3",
        // Joined on a dedicated link.
        "5 0 2 5 0a0b0c0d 0 2 2 | on 35 | 0 8 7 0 5 0a0b0c0d 0 2 0 1 d0.38.01.9e.a2.be",
    ]);
}

#[test]
fn set_parameter_lets_out_what_was_pending() {
    // In each state where COMM may be true; call states 6, 1, 2, 7, 9, 10, 5.
    for (context, state) in [
        ("1 8 8 5 0a0b0c0d 0 1", "a6"),
        ("2 8 8 5 0a0b0c0d 0 1", "a1"),
        ("8 8 0 5 0a0b0c0d 0 1", "a2"),
        ("9 8 0 5 0a0b0c0d 0 1", "a7"),
        ("11 8 0 5 0a0b0c0d 0 1", "a9"),
        ("12 8 0 5 0a0b0c0d 0 1", "aa"),
        ("6 8 4 5 0a0b0c0d 9 1", "a5"),
    ] {
        let set = context.replacen(" 8 ", " 4 ", 1);
        let status = format!("0 {set} 0 0 50.38.01.9e.{state}.b2");
        step(&format!("{context} 2 | hear d0.3a.02 | {status}"));
        // COMM still false: it waits on.
        let waits = context.replacen(" 8 ", " 0 ", 1);
        step(&format!("{context} 2 | hear d0.3a.00 | 0 {waits} 2 0 -"));
    }
    // A termination from U1: T_MM-est stops, U1 is remembered.
    step("2 8 8 5 0a0b0c0d 0 1 4 | hear d0.3a.03 | 0 6 15 4 5 0a0b0c0d 2 1 0 0 50.35.0a0b0c0d");
}

#[test]
fn without_orig_a_termination_waits_on() {
    steps(&[
        // The cell sets COMM alone: nothing goes out, and it can be deleted.
        "11 11 0 5 0a0b0c0d 0 1 4 | hear d0.3a.02 | 0 11 4 0 5 0a0b0c0d 0 1 4 0 -",
        "11 4 0 5 0a0b0c0d 0 1 4 | on 35 | 0 8 7 0 5 0a0b0c0d 0 1 4 0 -",
        "8 7 0 5 0a0b0c0d 0 1 4 | on 36 | 0 8 7 0 5 0a0b0c0d 0 1 0 0 -",
        // ORIG comes back with COMM: now it goes out.
        "8 7 0 5 0a0b0c0d 0 1 4 | hear d0.3a.0f | 0 6 15 4 5 0a0b0c0d 8 1 0 0 50.35.0a0b0c0d",
        // Another event 4 has no step without ORIG; deleting nothing neither.
        "8 7 0 5 0a0b0c0d 0 1 4 | on 4 | no step",
        "8 7 0 5 0a0b0c0d 0 1 0 | on 36 | no step",
        "11 11 0 5 0a0b0c0d 0 1 2 | on 36 | no step",
    ]);
}

#[test]
fn asking_in_receive_mode_asks_for_the_uplink() {
    steps(&[
        "10 10 0 5 0a0b0c0d 0 1 0 | on 4 | 0 11 11 0 5 0a0b0c0d 0 1 4 64 -",
        "10 10 0 5 0a0b0c0d 0 1 0 | hear d0.39 | 0 11 11 0 5 0a0b0c0d 0 1 2 64 -",
        // Again, with it already pending.
        "10 10 0 5 0a0b0c0d 0 1 4 | on 4 | 0 11 11 0 5 0a0b0c0d 0 1 4 64 -",
        "10 10 0 5 0a0b0c0d 0 1 2 | hear d0.39 | 0 11 11 0 5 0a0b0c0d 0 1 2 64 -",
        "11 11 0 5 0a0b0c0d 0 1 4 | on 4 | 0 11 11 0 5 0a0b0c0d 0 1 4 0 -",
        // Without a channel it waits there.
        "13 11 1 5 0a0b0c0d 0 1 0 | on 4 | 0 13 11 1 5 0a0b0c0d 0 1 4 0 -",
        "13 11 1 5 0a0b0c0d 0 1 0 | hear d0.39 | 0 13 11 1 5 0a0b0c0d 0 1 2 0 -",
        // A status waits in every state but U0, for listeners too.
        "4 0 0 5 0a0b0c0d 0 2 0 | hear 50.39 | 0 4 0 0 5 0a0b0c0d 0 2 2 0 -",
        "5 0 2 5 0a0b0c0d 0 2 0 | hear 50.39 | 0 5 0 2 5 0a0b0c0d 0 2 2 0 -",
        "1 8 8 5 0a0b0c0d 0 1 0 | hear d0.39 | 0 1 8 8 5 0a0b0c0d 0 1 2 0 -",
        "6 8 4 5 0a0b0c0d 12 1 0 | hear d0.39 | 0 6 8 4 5 0a0b0c0d 12 1 2 0 -",
        "0 0 0 0 00000000 0 0 0 | hear 80.39 | ignored 1",
        // A faulty one is reported, so without COMM ignored; one for another too.
        "4 0 0 5 0a0b0c0d 0 2 0 | hear 50.39.05 | ignored 6",
    ]);
    gstep(
        "4 0 0 5 0a0b0c0d 0 2 0",
        "18 0 00000000 1 50.39.17.01.29",
        "1 4 0 0 5 0a0b0c0d 0 2 0 0 - 5",
    );
}

#[test]
fn connect_says_who_the_originator_is() {
    steps(&[
        "2 12 8 5 0a0b0c0d 0 1 0 | hear d0.33.01020304.01 | 0 8 15 0 5 01020304 0 1 0 32 -",
        "2 12 8 5 0a0b0c0d 0 1 0 | hear d0.33.01020304.fe | 0 8 7 0 5 01020304 0 1 0 32 -",
        "2 12 0 5 0a0b0c0d 0 1 0 | hear d0.33.01020304.00 | 0 8 7 0 5 01020304 0 1 0 0 -",
        "1 8 8 5 0a0b0c0d 0 1 0 | hear d0.33.01020304.01 | 0 8 15 0 5 01020304 0 1 0 0 -",
        // What waited in U1 goes out in U2sl, with CONNECT's reference; 32 stays.
        "2 8 8 5 0a0b0c0d 0 1 6 | hear d0.33.01020304.01 | 0 6 15 4 5 01020304 8 1 0 32 \
         50.38.01.9e.a2.bf.50.35.01020304",
        // Not the originator: the termination waits on.
        "2 8 0 5 0a0b0c0d 0 1 6 | hear d0.33.01020304.00 | 0 8 7 0 5 01020304 0 1 4 0 \
         50.38.01.9e.a2.be",
    ]);
}

#[test]
fn the_flag_follows_the_chooser() {
    steps(&[
        // U2sl with ORIG false: flag 1 if we chose, 0 if the cell did; U5 too.
        "8 7 0 5 0a0b0c0d 0 1 0 | hear d0.39 | 0 8 7 0 5 0a0b0c0d 0 1 0 0 50.38.01.9e.a2.be",
        "8 7 0 5 0a0b0c0d 0 1 0 | hear 50.39 | ignored 4",
        "8 15 0 5 0a0b0c0d 0 2 0 | hear 50.39 | 0 8 15 0 5 0a0b0c0d 0 2 0 0 d0.38.01.9e.a2.bf",
        "8 15 0 5 0a0b0c0d 0 2 0 | hear d0.39 | ignored 4",
        "6 15 4 5 0a0b0c0d 9 2 0 | hear 50.39 | 0 6 15 4 5 0a0b0c0d 9 2 0 0 d0.38.01.9e.a5.bf",
        "6 15 4 5 0a0b0c0d 9 2 0 | hear d0.39 | ignored 4",
        // Discriminator 1 is another protocol.
        "8 15 0 5 0a0b0c0d 0 1 0 | hear d1.39 | ignored 3",
        "8 15 0 5 0a0b0c0d 0 1 0 | hear d0 | ignored 2",
    ]);
}

#[test]
fn the_next_message_tells_the_value() {
    steps(&[
        // Asking for the uplink without ORIG; with it nothing is awaited.
        "10 2 0 5 0a0b0c0d 0 2 0 | on 33 | 0 11 3 0 5 0a0b0c0d 0 2 1 64 -",
        "9 6 0 5 0a0b0c0d 0 1 0 | on 33 | 0 11 3 0 5 0a0b0c0d 0 1 1 64 -",
        "10 10 0 5 0a0b0c0d 0 2 0 | on 33 | 0 11 11 0 5 0a0b0c0d 0 2 0 64 -",
    ]);
    // Any value 0 to 6 with the flag; it lasts into other sub-states.
    for (first, value) in [("00", 0), ("30", 3), ("50", 5), ("60", 6)] {
        let set = format!("0 12 3 0 {value} 0a0b0c0d 0 2 0 0 -");
        step(&format!(
            "12 3 0 5 0a0b0c0d 0 2 1 | hear {first}.3a.0c | {set}"
        ));
    }
    steps(&[
        "12 3 0 5 0a0b0c0d 0 2 1 | hear 70.3a.0c | ignored 4",
        "12 3 0 5 0a0b0c0d 0 2 1 | hear b0.3a.0c | ignored 4",
        "11 3 0 5 0a0b0c0d 0 1 1 | hear b0.39 | 0 11 3 0 3 0a0b0c0d 0 1 2 0 -",
        "11 3 0 5 0a0b0c0d 0 1 1 | hear 30.39 | ignored 4",
        // Ignored or reported: it is awaited on. The STATUS has the value received.
        "11 3 0 5 0a0b0c0d 0 2 1 | hear 30.00 | ignored 6",
        "8 7 0 5 0a0b0c0d 0 2 1 | hear 30.00 | 2 8 7 0 5 0a0b0c0d 0 2 1 0 b0.38.03.e1.3000.a2.be",
        "13 3 1 5 0a0b0c0d 0 2 1 | hear 30.3a.02 | ignored 6",
        // Taken with COMM true: the answer has the value received too.
        "8 7 0 5 0a0b0c0d 0 2 1 | hear 30.39 | 0 8 7 0 3 0a0b0c0d 0 2 0 0 b0.38.01.9e.a2.be",
        // In receive mode GET STATUS is told the value, then awaits the next.
        "10 2 0 5 0a0b0c0d 0 2 1 | hear 30.39 | 0 11 3 0 3 0a0b0c0d 0 2 3 64 -",
        // ORIG set: nothing is awaited any more.
        "11 3 0 5 0a0b0c0d 0 2 1 | hear 30.3a.0d | 0 11 11 0 3 0a0b0c0d 0 2 0 0 -",
        "11 3 0 5 0a0b0c0d 0 2 1 | hear 30.34.01.90 | 0 0 0 0 0 00000000 0 0 0 17 -",
        // Due by an event: the context's own value, and it is awaited on.
        "12 3 0 5 0a0b0c0d 0 2 3 | on 35 | 0 8 7 0 5 0a0b0c0d 0 2 1 0 d0.38.01.9e.a2.be",
    ]);
}

/// U5 with these parameters, having asked from there, and pending.
fn u5(parameters: u8, from: u8, pending: u8) -> String {
    format!("6 {parameters} 4 5 0a0b0c0d {from} 1 {pending}")
}

const REJECT: &str = "d0.36.98.00.00.00";

#[test]
fn a_reject_leads_back_to_five_places() {
    for parameters in 0..=15u8 {
        let (orig, comm) = (parameters & 8, parameters & 4);
        let awaits = u8::from(orig == 0);
        // What the row does not set stays as it was in U5.
        for (from, row, pending) in [
            (2, 12, 0),
            (8, orig + 7, 0),
            (9, orig + 6, 0),
            (11, orig + 3, awaits),
            (12, orig + comm + 3, 0),
        ] {
            let back = format!("0 {from} {row} 0 5 0a0b0c0d 0 1 {pending} 1 -");
            step(&format!(
                "{} | hear {REJECT} | {back}",
                u5(parameters, from, 0)
            ));
        }
    }
    // Without T_MM-est: 7 and 14 have no step in U1 then.
    for event in [7, 14] {
        step(&format!("2 12 0 5 0a0b0c0d 0 1 0 | on {event} | no step"));
    }
    // Mode changes in U5 have no step; what is remembered stays.
    for event in [4, 11, 12, 13, 32, 33, 34, 35, 36] {
        step(&format!("{} | on {event} | no step", u5(15, 9, 0)));
    }
}

#[test]
fn a_status_waits_for_a_reject() {
    // It goes out where the row has COMM, and waits on elsewhere.
    for (parameters, from, back) in [
        (8, 2, "2 12 0 5 0a0b0c0d 0 1 0 1 50.38.01.9e.a1.b3"),
        (8, 8, "8 15 0 5 0a0b0c0d 0 1 0 1 50.38.01.9e.a2.bf"),
        (0, 8, "8 7 0 5 0a0b0c0d 0 1 0 1 50.38.01.9e.a2.be"),
        (0, 9, "9 6 0 5 0a0b0c0d 0 1 0 1 50.38.01.9e.a7.ba"),
        (8, 11, "11 11 0 5 0a0b0c0d 0 1 2 1 -"),
        (0, 11, "11 3 0 5 0a0b0c0d 0 1 3 1 -"),
        (8, 12, "12 11 0 5 0a0b0c0d 0 1 2 1 -"),
    ] {
        let waits = u5(parameters, from, 2);
        step(&format!("{waits} | hear {REJECT} | 0 {back}"));
    }
}

#[test]
fn asking_remembers_where() {
    for (context, from) in [
        ("2 12 8 5 0a0b0c0d 0 1 0", 2),
        ("8 15 0 5 0a0b0c0d 0 1 0", 8),
        ("9 14 0 5 0a0b0c0d 0 1 0", 9),
        ("11 15 0 5 0a0b0c0d 0 1 0", 11),
        ("12 15 0 5 0a0b0c0d 0 1 0", 12),
    ] {
        let asked = u5(15, from, 0);
        step(&format!("{context} | on 4 | 0 {asked} 0 50.35.0a0b0c0d"));
    }
}

#[test]
fn a_termination_reject_has_four_octets() {
    expect("gread d0.36.98000000", "0 1 5 termination_reject 98000000");
    expect(
        "gread d0.36.01.98.00.00.80",
        "0 1 5 termination_reject 01980000",
    );
    for fault in ["d0.36", "d0.36.01.98", "d0.36.980000", "d0.36.98000000.05"] {
        expect(&format!("gread {fault}"), "13 4");
    }
    expect(
        "gwrite 255 1 5 termination_reject 98000000",
        "0 d036.98000000",
    );
    for cause in ["-", "98", "980000", "9800000000"] {
        expect(&format!("gwrite 255 1 5 termination_reject {cause}"), "4");
    }
    // Its like in a broadcast call is reported here, cause 96; TERMINATION is as before.
    let u5 = u5(15, 8, 0);
    step(&format!(
        "{u5} | hear d0.36.01.98 | 2 {u5} 0 50.38.05.e0.d0360198.a5.bf"
    ));
    expect("gread d0.34.01.90", "0 1 5 termination 90");
    expect("gread d1.34.01.90", "13 2");
    expect("read d0.34.01.90", "13 2");
    expect("gwrite 255 0 6 setup 01020304", "0 60.32.01020304");
    expect("gwrite 254 0 6 setup 01020304", "5");
    expect("gwrite 255 0 7 setup 01020304", "4");
}

const NOT_FIT: [&str; 36] = [
    // No state, or one of the other protocol; no chooser.
    "3 15 0 5 0a0b0c0d 0 1 0",
    "7 2 0 5 0a0b0c0d 0 2 0",
    "14 0 0 5 0a0b0c0d 0 2 0",
    "255 0 0 5 0a0b0c0d 0 2 0",
    "8 15 0 5 0a0b0c0d 0 3 0",
    "8 15 0 5 0a0b0c0d 0 255 0",
    // The chooser does not go with the state, nor with what is remembered.
    "8 15 0 5 0a0b0c0d 0 0 0",
    "0 0 0 0 00000000 0 1 0",
    "1 8 8 5 0a0b0c0d 0 2 0",
    "2 12 0 5 0a0b0c0d 0 2 0",
    "4 0 0 5 0a0b0c0d 0 1 0",
    "5 0 2 5 0a0b0c0d 0 1 0",
    "6 15 4 5 0a0b0c0d 2 2 0",
    "6 15 4 5 0a0b0c0d 8 0 0",
    // Remembered from where nothing is asked, or outside U5.
    "6 15 4 5 0a0b0c0d 0 1 0",
    "6 15 4 5 0a0b0c0d 3 1 0",
    "6 15 4 5 0a0b0c0d 10 1 0",
    "6 15 4 5 0a0b0c0d 13 1 0",
    "6 15 4 5 0a0b0c0d 14 1 0",
    "8 15 0 5 0a0b0c0d 8 1 0",
    // U2nc without its timer, others with it; U3 has none.
    "13 3 0 5 0a0b0c0d 0 1 0",
    "12 3 1 5 0a0b0c0d 0 1 0",
    "4 0 1 5 0a0b0c0d 0 2 0",
    // COMM in U2r and U2nc.
    "10 6 0 5 0a0b0c0d 0 1 0",
    "13 7 1 5 0a0b0c0d 0 1 0",
    // Pending what could be sent, or where it cannot be.
    "8 15 0 5 0a0b0c0d 0 1 4",
    "8 7 0 5 0a0b0c0d 0 1 2",
    "8 15 0 5 0a0b0c0d 0 1 1",
    "1 8 8 5 0a0b0c0d 0 1 4",
    "4 0 0 5 0a0b0c0d 0 2 4",
    "4 0 0 5 0a0b0c0d 0 2 1",
    "6 8 4 5 0a0b0c0d 8 1 4",
    "6 0 4 5 0a0b0c0d 8 1 1",
    "2 0 0 5 0a0b0c0d 0 1 1",
    "0 0 0 0 00000000 0 0 2",
    "8 15 0 7 0a0b0c0d 0 1 0",
];

#[test]
fn contexts_that_are_not_fit() {
    for context in NOT_FIT {
        let refused = format!("7 {context} 0 - 0");
        gstep(context, "9 0 00000000 0 -", &refused);
        expect(
            &format!("gstep {context} 8 3359a2 - 254 19 7 00000000 2 -"),
            &refused,
        );
    }
    // More timers or pending than there are, a chooser of 256, a token too few: no command.
    for context in [
        "0 0 16 0 00000000 0 0 0",
        "0 0 0 0 00000000 0 0 8",
        "0 0 0 0 00000000 0 256 0",
        "0 0 0 0 00000000 0 0",
    ] {
        gstep(context, "9 0 00000000 0 -", "?");
    }
}

#[test]
fn events_that_are_none() {
    for event in [0, 19, 20, 31, 37, 255, 256 + 32] {
        let context = "8 15 0 5 0a0b0c0d 0 1 0";
        step(&format!("{context} | on {event} | 4 {context} 0 -"));
    }
    for context in ["8 15 0 5 0a0b0c0d 0 1 0", "13 11 1 5 0a0b0c0d 0 2 4"] {
        step(&format!("{context} | on 13 | no step"));
    }
}
