//! Logs of group calls, version 16 (document 02, A5): ranges, times of the timer
//! that is bound to U2nc, the joining timer, and the recorder.

use super::expect;

fn judged(entries: &str, answer: &str) {
    expect(&format!("judge 3 3359a2 29f1 10.{entries}"), answer);
}

#[test]
fn the_whole_log() {
    judged("00.03.03.00.00.00.00", "0 1 10000 30000");
    expect("judge 3 3359a2 29f1 10", "0 0 10000 30000");
    expect("judge 3 3359a2 29f1 9000", "8 0");
    expect("judge 3 3359a2 29f1 11", "8 0");
}

#[test]
fn events_in_their_range() {
    // 1 to 17 and 32 to 36 without a step in U0; the first two carry a call.
    for event in (3..=9).chain(11..=17).chain(32..=36) {
        judged(&format!("00.{event:02x}.03.00.00.00.00"), "0 1 10000 30000");
    }
    for event in [0, 19, 20, 31, 37, 127] {
        judged(&format!("00.{event:02x}.03.00.00.00.00"), "8 1");
    }
    // In broadcast logs they are unreadable.
    for version in ["01", "02", "03"] {
        for event in ["20", "24"] {
            let log = format!("{version}.00.{event}.03.00.00.00.00");
            expect(&format!("judge 3 3359a2 29f1 {log}"), "8 1");
        }
    }
}

#[test]
fn states_and_actions_in_their_range() {
    for state in 1..=13 {
        // 3 and 7 among them: readable, and never explained.
        judged(&format!("00.03.03.{state:02x}.00.00.00"), "9 1");
    }
    judged("00.03.03.0e.00.00.00", "8 1");
    judged("00.03.03.00.00.40.00", "9 1");
    judged("00.03.03.00.00.7f.00", "9 1");
    judged("00.03.03.00.00.8001.00", "8 1");
}

/// Notified, value 5; joined; group receive mode entered, all at once.
const LISTENING: &str =
    "00.0a.05.0a0b0c0d.00.04.00.01.00.00.03.00.05.00.04.00.00.0b.00.0a.02.01.00";
/// No channel, on entering U2nc.
const LOST: &str = "0c.00.0d.03.00.00";

#[test]
fn the_timer_of_u2nc() {
    let lost = format!("{LISTENING}.00.{LOST}");
    let expiry = "11.00.00.00.09.00";
    // 2,999, 3,000 and 3,001 ms.
    judged(&format!("{lost}.b717.{expiry}"), "9 5");
    judged(&format!("{lost}.b817.{expiry}"), "0 5 10000 30000");
    judged(&format!("{lost}.b917.{expiry}"), "9 5");
    // A second "no channel" after 2,000 ms (D0 0F) does not start it anew.
    judged(
        &format!("{lost}.d00f.{LOST}.e807.{expiry}"),
        "0 6 10000 30000",
    );
    judged(&format!("{lost}.d00f.{LOST}.b817.{expiry}"), "9 6");
    // Receive mode again: it is stopped, and the next loss starts it anew.
    let found = format!("{lost}.d00f.0b.00.0a.02.00.00");
    judged(
        &format!("{found}.80b89929.{LOST}.b817.{expiry}"),
        "0 7 10000 30000",
    );
    judged(&format!("{found}.00.{LOST}.e807.{expiry}"), "9 7");
    // Its expiry where it does not run has no step, at any time.
    judged(
        &format!("{LISTENING}.80b89929.11.03.0a.02.00.00"),
        "0 4 10000 30000",
    );
}

#[test]
fn the_joining_timer() {
    let joined = "00.0a.05.0a0b0c0d.00.04.00.01.00.00.03.00.05.00.04.00";
    // 12,000 ms (E0 5D): run out; or entered by each mode: U2r, U2sr, U2sl.
    judged(
        &format!("{joined}.e05d.10.00.00.00.09.00"),
        "0 3 12000 12000",
    );
    for entered in [
        "0b.00.0a.02.01.00",
        "22.00.0c.03.01.00",
        "23.00.08.07.01.00",
    ] {
        judged(&format!("{joined}.e05d.{entered}"), "0 3 12000 30000");
        // 30,001 ms.
        judged(&format!("{joined}.b1ea01.{entered}"), "9 3");
    }
    // No timer in U3: a day (80 B8 99 29).
    let day = "00.0a.05.0a0b0c0d.00.04.00.01.00.80b89929.03.00.05.00.04.00";
    judged(day, "0 2 10000 30000");
}

#[test]
fn the_recorder() {
    let join = "3 0 00000000 0 - 3 0 0 0 -";
    expect(
        &format!("grecord eeeeeeeeeeeeeeeeee 0 0 {join}"),
        "0 8 1000030300000000.ee",
    );
    expect(&format!("grecord eeeeeeeeeeeeee 0 0 {join}"), "11");
    expect(
        &format!("grecord 01eeeeeeeeeeeeee 1 0 {join}"),
        "0 8 0100030300000000",
    );
    let buffer = "00".repeat(20);
    let entry = |event: u32, state: u32, actions: u32| {
        let line = format!("grecord {buffer} 1 0 {event} 7 00000000 2 - 0 {state} 15 {actions} -");
        crate::probe::answer(line.as_bytes())[..2].to_string()
    };
    for event in [17, 32, 33, 34, 35, 36] {
        assert_eq!(entry(event, 13, 127), "0 ");
    }
    for event in [0, 19, 31, 37] {
        let line = format!("grecord {buffer} 1 0 {event} 0 00000000 0 - 0 0 0 0 -");
        expect(&line, "4");
    }
    // 3 and 7 are written, 14 and 128 are not.
    for (state, actions, answer) in [(3, 0, "0 "), (7, 0, "0 "), (13, 127, "0 ")] {
        assert_eq!(entry(5, state, actions), answer);
    }
    expect(
        &format!("grecord {buffer} 1 0 5 0 00000000 0 - 0 14 0 0 -"),
        "4",
    );
    expect(
        &format!("grecord {buffer} 1 0 5 0 00000000 0 - 0 0 0 128 -"),
        "4",
    );
}
