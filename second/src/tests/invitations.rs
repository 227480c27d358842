//! A forgotten invitation runs out (document 02, A13): the rows about T_pres,
//! which is 16 among the timers, what is fit, and logs of version 3 beside the
//! two older versions.

use super::{cleared, expect, expect_ignored, expect_step};

const U0: &str = "0 0 0 0 00000000 0";
const U3: &str = "4 0 16 5 0a0b0c0d 0";
/// Every other shape of a fit context, with its start row.
const ELSEWHERE: [&str; 10] = [
    U0,
    "1 8 8 5 0a0b0c0d 0",
    "2 12 8 5 0a0b0c0d 0",
    "2 12 0 5 0a0b0c0d 0",
    "3 15 0 5 0a0b0c0d 0",
    "5 0 2 5 0a0b0c0d 0",
    "6 15 4 5 0a0b0c0d 2",
    "6 15 4 5 0a0b0c0d 3",
    "7 2 0 5 0a0b0c0d 0",
    "7 2 1 5 0a0b0c0d 0",
];
const EXPIRY: &str = "19 0 00000000 0 -";

#[test]
fn notified_sets_it_and_join_stops_it() {
    expect_step(U0, "10 5 0a0b0c0d 0 -", &format!("0 {U3} 1 -"));
    expect_step(U3, "3 0 00000000 0 -", "0 5 0 2 5 0a0b0c0d 0 4 -");
    // Value 7 is refused, and nothing is set.
    expect_step(U0, "10 7 0a0b0c0d 0 -", &format!("4 {U0} 0 -"));
}

#[test]
fn its_expiry_clears_without_an_action() {
    for parameters in 0..=3 {
        let context = format!("4 {parameters} 16 5 0a0b0c0d 0");
        expect_step(&context, EXPIRY, &cleared(0));
    }
    // What the event does not carry has no effect, 252 octets of a message neither.
    expect_step(U3, "19 7 ffffffff 2 d139", &cleared(0));
    let long = "51".repeat(252);
    expect_step(U3, &format!("19 0 00000000 0 {long}"), &cleared(0));
}

#[test]
fn other_ends_are_as_before() {
    for (event, actions) in [
        ("5 0 00000000 0 -", 16),
        ("8 0 00000000 0 -", 9),
        ("9 0 00000000 0 -", 9),
        ("18 0 00000000 1 51.34.01.90", 17),
    ] {
        expect_step(U3, event, &cleared(actions));
    }
}

#[test]
fn what_stays_in_u3_keeps_it() {
    expect_step(U3, "18 0 00000000 0 51.3a.0c", "0 4 3 16 5 0a0b0c0d 0 0 -");
    expect_ignored(U3, 0, "51.39", 6);
    expect_ignored(U3, 0, "51.3a.02", 6);
    expect_ignored(U3, 0, "d1.34.01.90", 4);
    for event in [1, 2, 4, 6, 7, 10, 11, 12, 13, 14, 15, 16, 17] {
        let event = format!("{event} 5 0a0b0c0d 0 -");
        expect_step(U3, &event, &format!("3 {U3} 0 -"));
    }
}

#[test]
fn its_expiry_elsewhere_has_no_step() {
    for context in ELSEWHERE {
        expect_step(context, EXPIRY, &format!("3 {context} 0 -"));
        // The number behind it is no event.
        let next = "20 0 00000000 0 -";
        expect_step(context, next, &format!("4 {context} 0 -"));
    }
    expect_step(U3, "20 0 00000000 0 -", &format!("4 {U3} 0 -"));
}

/// Not fit: 7, before a short buffer and before an event that is none.
fn unfit(context: &str) {
    for rest in ["255 19 0", "255 3 0", "254 20 7"] {
        expect(
            &format!("step {context} 3 3359a2 29f1 {rest} 00000000 0 -"),
            &format!("7 {context} 0 - 0"),
        );
    }
}

#[test]
fn u3_without_it_and_others_with_it_are_not_fit() {
    for timers in (0..=31).filter(|timers| *timers != 16) {
        unfit(&format!("4 0 {timers} 5 0a0b0c0d 0"));
    }
    unfit("4 8 16 5 0a0b0c0d 0");
    unfit("4 4 16 5 0a0b0c0d 0");
    unfit("4 0 16 7 0a0b0c0d 0");
    unfit("4 0 16 5 0a0b0c0d 3");
    for context in ELSEWHERE {
        let mut tokens: Vec<String> = context.split(' ').map(str::to_string).collect();
        let timers: u8 = tokens[2].parse().unwrap();
        for with_it in [16, 16 | timers] {
            tokens[2] = with_it.to_string();
            unfit(&tokens.join(" "));
        }
    }
}

// Entries, worked out by hand: milliseconds, event and its data; answer, state,
// parameters, actions, reply. Most stand here without their milliseconds.

/// Notified at once, value 0, reference 00 00 00 01; U3, action 1.
const NOTIFIED: &str = "00.0a.00.00000001.00.04.00.01.00";
/// Expiry of T_pres: U0, no action.
const RAN_OUT: &str = "13.00.00.00.00.00";
/// The same where there is no invitation: answer 3 in U0.
const NO_STEP: &str = "13.03.00.00.00.00";
/// Join: U4, action 4.
const JOINED: &str = "03.00.05.00.04.00";
/// Expiry of T_conn req: U0, actions 1 + 8.
const JOIN_FAILED: &str = "10.00.00.00.09.00";
/// Group receive mode entered: U6, D-ATT, action 1.
const ENTERED: &str = "0b.00.07.02.01.00";
/// Released: U0, action 16.
const RELEASED: &str = "05.00.00.00.10.00";
/// No channel in U3: answer 3, nothing changes.
const NOTHING: &str = "0c.03.04.00.00.00";

// Milliseconds. 1,000 is 7 * 128 + 104; 5,000 is 39 * 128 + 8; 12,000 is 93 * 128
// + 96; 600,000 is (36 * 128 + 79) * 128 + 64.
const MS_499: &str = "f303";
const MS_500: &str = "f403";
const MS_999: &str = "e707";
const MS_1000: &str = "e807";
const MS_1001: &str = "e907";
const MS_4999: &str = "8727";
const MS_5000: &str = "8827";
const MS_5001: &str = "8927";
const MS_9999: &str = "8f4e";
const MS_10000: &str = "904e";
const MS_12000: &str = "e05d";
const MS_12001: &str = "e15d";
const MS_30001: &str = "b1ea01";
const MS_599999: &str = "bfcf24";
const MS_600000: &str = "c0cf24";
const MS_600001: &str = "c1cf24";
const DAY: &str = "80b89929";

fn judged(version: u8, entries: &str, answer: &str) {
    expect(
        &format!("judge 3 3359a2 29f1 {version:02x}.{entries}"),
        answer,
    );
}

/// Notified, then this after so many milliseconds.
fn invited(milliseconds: &str, entry: &str) -> String {
    format!("{NOTIFIED}.{milliseconds}.{entry}")
}

#[test]
fn the_log_reports_two_windows() {
    expect("judge 3 3359a2 29f1 03", "0 0 10000 30000 1000 600000");
    judged(3, NOTIFIED, "0 1 10000 30000 1000 600000");
    judged(2, NOTIFIED, "0 1 10000 30000");
    judged(1, NOTIFIED, "0 1 10000 30000");
    expect("judge 3 3359a2 29f1 04", "8 0");
    judged(4, NOTIFIED, "8 0");
}

#[test]
fn the_expiry_fixes_the_timer_within_its_bounds() {
    for (milliseconds, answer) in [
        ("00", "9 2"),
        (MS_999, "9 2"),
        (MS_1000, "0 2 10000 30000 1000 1000"),
        (MS_1001, "0 2 10000 30000 1001 1001"),
        (MS_599999, "0 2 10000 30000 599999 599999"),
        (MS_600000, "0 2 10000 30000 600000 600000"),
        (MS_600001, "9 2"),
        (DAY, "9 2"),
    ] {
        judged(3, &invited(milliseconds, RAN_OUT), answer);
    }
}

#[test]
fn every_other_entry_raises_the_least() {
    for (milliseconds, least) in [
        ("00", "1000"),
        (MS_999, "1000"),
        (MS_1000, "1000"),
        (MS_1001, "1001"),
        (MS_599999, "599999"),
        (MS_600000, "600000"),
    ] {
        for entry in [JOINED, RELEASED, NOTHING] {
            let accepted = format!("0 2 10000 30000 {least} 600000");
            judged(3, &invited(milliseconds, entry), &accepted);
        }
    }
    for milliseconds in [MS_600001, DAY] {
        for entry in [JOINED, RELEASED, NOTHING] {
            judged(3, &invited(milliseconds, entry), "9 2");
            // The older versions have no timer there.
            judged(2, &invited(milliseconds, entry), "0 2 10000 30000");
            judged(1, &invited(milliseconds, entry), "0 2 10000 30000");
        }
    }
}

#[test]
fn nothing_starts_it_anew() {
    let waited = invited(MS_500, NOTHING);
    judged(
        3,
        &format!("{waited}.{MS_500}.{RAN_OUT}"),
        "0 3 10000 30000 1000 1000",
    );
    judged(3, &format!("{waited}.{MS_499}.{RAN_OUT}"), "9 3");
    // SET PARAMETER, taken: D-ATT and U-ATT. A GET STATUS, ignored.
    for entry in [
        "12.00.03.013a0c.00.04.03.00.00",
        "12.00.02.0139.01.04.00.00.00",
    ] {
        let waited = invited(MS_5000, entry);
        let at_once = format!("{waited}.00.{RAN_OUT}");
        judged(3, &at_once, "0 3 10000 30000 5000 5000");
        let later = format!("{waited}.{MS_5000}.{RAN_OUT}");
        judged(3, &later, "0 3 10000 30000 10000 10000");
    }
}

#[test]
fn one_timer_for_all_invitations() {
    let first = invited(MS_5000, RAN_OUT);
    let fixed = "0 4 10000 30000 5000 5000";
    for (milliseconds, entry, answer) in [
        (MS_4999, RAN_OUT, "9 4"),
        (MS_5000, RAN_OUT, fixed),
        (MS_5001, RAN_OUT, "9 4"),
        (MS_4999, JOINED, fixed),
        (MS_5000, JOINED, fixed),
        (MS_5001, JOINED, "9 4"),
    ] {
        let second = invited(milliseconds, entry);
        judged(3, &format!("{first}.{second}"), answer);
    }
    // A join after 5,000 ms first: the timer is that or more.
    let joined = format!("{}.00.{RELEASED}", invited(MS_5000, JOINED));
    for (milliseconds, answer) in [
        (MS_4999, "9 5"),
        (MS_5000, "0 5 10000 30000 5000 5000"),
        (MS_5001, "0 5 10000 30000 5001 5001"),
    ] {
        let second = invited(milliseconds, RAN_OUT);
        judged(3, &format!("{joined}.{second}"), answer);
    }
}

#[test]
fn the_two_timers_do_not_touch_each_other() {
    // 5,000 and 12,000: one pair explains it, the joining timer told first.
    let ran_out = invited(MS_5000, RAN_OUT);
    let failed = format!("{}.{MS_12000}.{JOIN_FAILED}", invited("00", JOINED));
    let one_pair = "0 5 12000 12000 5000 5000";
    judged(3, &format!("{ran_out}.{failed}"), one_pair);
    judged(3, &format!("{failed}.{ran_out}"), one_pair);
    // Changed about: 10,000 to join, 12,000 for the invitation.
    let ran_out = invited(MS_12000, RAN_OUT);
    let failed = format!("{}.{MS_10000}.{JOIN_FAILED}", invited("00", JOINED));
    judged(
        3,
        &format!("{ran_out}.{failed}"),
        "0 5 10000 10000 12000 12000",
    );
    // T_conn req counts from the join: 5,000 and 12,000 are 17,000.
    let waited = format!("{}.{MS_12000}.{JOIN_FAILED}", invited(MS_5000, JOINED));
    judged(3, &waited, "0 3 12000 12000 5000 600000");
    let entered = format!("{}.{MS_12000}.{ENTERED}", invited(MS_5000, JOINED));
    judged(3, &entered, "0 3 12000 30000 5000 600000");
}

#[test]
fn either_window_alone_can_be_empty() {
    let fixed = format!(
        "{}.{}.{MS_12000}.{JOIN_FAILED}",
        invited(MS_5000, RAN_OUT),
        invited(MS_5000, JOINED)
    );
    judged(3, &fixed, "0 5 12000 12000 5000 5000");
    // The invitation a millisecond too long, with a join that agrees behind it.
    let late = invited(MS_5001, JOINED);
    judged(
        3,
        &format!("{fixed}.{late}.{MS_12000}.{JOIN_FAILED}"),
        "9 7",
    );
    // The join too long, after an invitation that agrees.
    let joined = invited(MS_5000, JOINED);
    judged(3, &format!("{fixed}.{joined}.{MS_12001}.{ENTERED}"), "9 8");
    judged(
        3,
        &format!("{fixed}.{joined}.{MS_12000}.{ENTERED}"),
        "0 8 12000 12000 5000 5000",
    );
    // Bounds of the other setting: 9,999 is enough for an invitation alone,
    // 30,001 is not too much for one.
    let joined = invited("00", JOINED);
    judged(3, &format!("{joined}.{MS_9999}.{JOIN_FAILED}"), "9 3");
    judged(3, &format!("{joined}.{MS_30001}.{ENTERED}"), "9 3");
    judged(3, &invited(MS_9999, RAN_OUT), "0 2 10000 30000 9999 9999");
    judged(
        3,
        &invited(MS_30001, RAN_OUT),
        "0 2 10000 30000 30001 30001",
    );
}

#[test]
fn no_timer_is_left_behind() {
    // Joined and entered: a day in U6, where 19 has no step and D-ATT stays.
    let in_u6 = format!("{}.00.{ENTERED}", invited(MS_1001, JOINED));
    let day = format!("{in_u6}.{DAY}.13.03.07.02.00.00");
    judged(3, &day, "0 4 10000 30000 1001 600000");
    // Released or run out: a day in U0, and the next invitation counts anew.
    for (entry, window) in [(RELEASED, "1001 600000"), (RAN_OUT, "1001 1001")] {
        let over = invited(MS_1001, entry);
        let day = format!("{over}.{DAY}.{NO_STEP}");
        judged(3, &day, &format!("0 3 10000 30000 {window}"));
        let again = format!("{day}.{}", invited(MS_1001, RAN_OUT));
        judged(3, &again, "0 5 10000 30000 1001 1001");
    }
    // In U4 an expiry of T_pres has no step, but T_conn req runs on.
    let in_u4 = invited("00", JOINED);
    let no_step = "13.03.05.00.00.00";
    judged(
        3,
        &format!("{in_u4}.{MS_12000}.{no_step}"),
        "0 3 12000 30000 1000 600000",
    );
    judged(3, &format!("{in_u4}.{MS_30001}.{no_step}"), "9 3");
}

#[test]
fn claims_about_the_expiry() {
    // An answer of 3, another state, D-ATT, an action, a reply octet.
    for claim in [
        "13.03.00.00.00.00",
        "13.03.04.00.00.00",
        "13.00.04.00.00.00",
        "13.00.00.02.00.00",
        "13.00.00.00.01.00",
        "13.00.00.00.09.00",
        "13.00.00.00.00.01.51",
    ] {
        judged(3, &invited(MS_5000, claim), "9 2");
    }
    // It is taken in U3 alone.
    judged(3, &format!("00.{NO_STEP}"), "0 1 10000 30000 1000 600000");
    judged(3, &format!("00.{RAN_OUT}"), "9 1");
}

#[test]
fn event_19_is_unreadable_in_the_older_versions() {
    for version in [1, 2] {
        judged(version, &invited(MS_5000, RAN_OUT), "8 2");
        judged(version, &format!("00.{NO_STEP}"), "8 1");
        // A join in U0 claimed as taken comes first, and hides it.
        judged(
            version,
            &format!("00.03.00.05.00.04.00.00.{NO_STEP}"),
            "9 1",
        );
    }
    // 20 is unreadable in all.
    for version in [1, 2, 3] {
        judged(version, "00.14.03.00.00.00.00", "8 1");
    }
}

#[test]
fn cases_of_document_01_as_version_3() {
    let joined = invited("00", JOINED);
    let failed = format!("{joined}.{MS_12000}.{JOIN_FAILED}");
    judged(3, &failed, "0 3 12000 12000 1000 600000");
    judged(3, &format!("{joined}.{MS_30001}.{ENTERED}"), "9 3");
    judged(3, &format!("{failed}.{joined}.{MS_12001}.{ENTERED}"), "9 6");
    // TERMINATION in U0.
    judged(
        3,
        "00.12.00.04.81340190.01.00.00.00.00",
        "0 1 10000 30000 1000 600000",
    );
}

#[test]
fn a_rejected_termination_leads_back_as_in_version_2() {
    // Immediate set-up, terminate after 1,000 ms, a reject at once: U1, action 1.
    let asked = "00.02.05.0a0b0c0d.00.02.0c.00.0e.51313003.3359a2.0229f1.0a0b0c0d.\
        e807.04.00.06.0f.00.06.5135.0a0b0c0d.00.12.00.04.d1360198.00";
    let back = format!("{asked}.02.0c.01.00");
    judged(3, &back, "0 3 10000 30000 1000 600000");
    judged(2, &back, "0 3 10000 30000");
    judged(1, &back, "9 3");
    let stays = format!("{asked}.06.0f.01.00");
    judged(3, &stays, "9 3");
    judged(2, &stays, "9 3");
    judged(1, &stays, "0 3 10000 30000");
}

#[test]
fn the_recorder_takes_the_expiry() {
    let ran_out = "19 7 ffffffff 2 d139 0 0 0 0 -";
    expect(
        &format!("record eeeeeeeeeeeeeeeeee 0 0 {ran_out}"),
        "0 8 03.00.13.00.00.00.00.00.ee",
    );
    expect(
        &format!("record 01eeeeeeeeeeeeee 1 0 {ran_out}"),
        "0 8 01.00.13.00.00.00.00.00",
    );
    expect(&format!("record eeeeeeeeeeeeee 0 0 {ran_out}"), "11");
    // 20 is outside the range, before there is no room for it.
    expect("record eeeeeeee 0 0 20 0 00000000 0 - 3 0 0 0 -", "4");
    expect("record eeeeeeee 0 0 19 0 00000000 0 - 3 0 0 0 -", "11");
}
