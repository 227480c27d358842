//! Cases c1 to c10 of document 01 as logs in bytes, which are of version 1, its
//! whole log, and the number that it gives as an example.

use super::expect;

/// Entry: notified at once, value 0, reference 00 00 00 01; U3, action 1.
const NOTIFIED: &str = "000a00.00000001.0004000100";
/// Entry: join at once; U4, action 4.
const JOINED: &str = "00030005000400";
/// Entry without its delta: expiry of T_conn req; U0, actions 1 + 8.
const EXPIRED: &str = "100000000900";
/// Entry without its delta: group receive mode entered; U6, D-ATT, action 1.
const ENTERED: &str = "0b0007020100";
/// Entry without its delta: no channel; U6, D-ATT, action 1.
const NO_CHANNEL: &str = "0c0007020100";
/// Entry without its delta: expiry of T_no channel; U0, actions 1 + 8.
const GONE: &str = "110000000900";

fn judged(log: &str, answer: &str) {
    expect(&format!("judge 3 3359a2 29f1 {log}"), answer);
}

#[test]
fn c1_version_alone() {
    judged("01", "0 0 10000 30000");
}

#[test]
fn c2_empty() {
    judged("-", "8 0");
}

#[test]
fn c3_whole_log() {
    judged("0100030300000000", "0 1 10000 30000");
}

#[test]
fn c4_not_the_shortest_form() {
    judged("018000", "8 1");
}

#[test]
fn c5_expiry_fixes_the_timer() {
    // 12,000 is 93 * 128 + 96: E0 5D.
    let log = format!("01{NOTIFIED}{JOINED}e05d{EXPIRED}");
    judged(&log, "0 3 12000 12000");
}

#[test]
fn c6_entering_bounds_the_timer() {
    // 20,000 is (1 * 128 + 28) * 128 + 32: A0 9C 01.
    let log = format!("01{NOTIFIED}{JOINED}a09c01{ENTERED}");
    judged(&log, "0 3 20000 30000");
}

#[test]
fn c7_entering_too_late() {
    // 30,000 is B0 EA 01 and 30,001 is B1 EA 01.
    judged(
        &format!("01{NOTIFIED}{JOINED}b0ea01{ENTERED}"),
        "0 3 30000 30000",
    );
    judged(&format!("01{NOTIFIED}{JOINED}b1ea01{ENTERED}"), "9 3");
}

#[test]
fn c8_one_timer_for_all_calls() {
    let call = format!("{NOTIFIED}{JOINED}");
    let first = format!("{call}e05d{EXPIRED}");
    judged(&format!("01{first}{call}e05d{ENTERED}"), "0 6 12000 12000");
    // 12,001 is E1 5D.
    judged(&format!("01{first}{call}e15d{ENTERED}"), "9 6");
}

#[test]
fn c9_termination_in_u0() {
    // TERMINATION for value 0 with cause 16, answer 1.
    judged("0100.12.00.04.81340190.0100000000", "0 1 10000 30000");
}

#[test]
fn c10_no_channel_is_not_restarted() {
    let before = format!("01{NOTIFIED}{JOINED}00{ENTERED}00{NO_CHANNEL}");
    // 2,000 is D0 0F, 1,000 is E8 07, 3,000 is B8 17.
    judged(
        &format!("{before}d00f{NO_CHANNEL}e807{GONE}"),
        "0 6 10000 30000",
    );
    judged(&format!("{before}d00f{NO_CHANNEL}b817{GONE}"), "9 6");
    judged(&format!("{before}b817{GONE}"), "0 5 10000 30000");
}

#[test]
fn an_unexplained_entry_hides_what_stands_behind() {
    // Join in U0 claimed as taken, then a number that is not the shortest.
    judged("01.00030004000400.8000", "9 1");
    judged("01.00030300000000.8000", "8 2");
}

#[test]
fn version_in_other_forms() {
    for log in [
        "00",
        "04",
        "0f",
        "11",
        "7f",
        "8100",
        "8200",
        "80",
        "8001",
        "8101",
        "8002",
        "81808000",
        "82808000",
        "8300",
        "8301",
        "8003",
        "9000",
        "9001",
        "8010",
        "ffffffff0f",
    ] {
        judged(log, "8 0");
    }
    judged("02", "0 0 10000 30000");
    judged("10", "0 0 10000 30000");
    judged("0200030300000000", "0 1 10000 30000");
    judged("028000", "8 1");
    judged("03", "0 0 10000 30000 1000 600000");
    judged("0300030300000000", "0 1 10000 30000 1000 600000");
    judged("038000", "8 1");
}

#[test]
fn the_number_300_is_ac_02() {
    let mut bytes = Vec::new();
    crate::log::number::push(&mut bytes, 300);
    assert_eq!(bytes, [0xAC, 0x02]);
    assert_eq!(crate::log::number::take(&mut &bytes[..]), Some(300));
}

#[test]
fn numbers_at_their_limits() {
    let cases: [(&[u8], Option<u32>); 12] = [
        (&[0x00], Some(0)),
        (&[0x7F], Some(127)),
        (&[0x80, 0x01], Some(128)),
        (&[0x80, 0x00], None),
        (&[0xFF, 0x7F], Some(16_383)),
        (&[0x80, 0x80, 0x01], Some(16_384)),
        (&[0x80, 0xB8, 0x99, 0x29], Some(86_400_000)),
        (&[0xFF, 0xFF, 0xFF, 0xFF, 0x0F], Some(4_294_967_295)),
        (&[0x80, 0x80, 0x80, 0x80, 0x10], None),
        (&[0x80, 0x80, 0x80, 0x80, 0x80, 0x01], None),
        (&[0x80], None),
        (&[], None),
    ];
    for (bytes, number) in cases {
        assert_eq!(crate::log::number::take(&mut &bytes[..]), number);
    }
}
