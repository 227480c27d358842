//! The recorder (document 01, "The log"), which begins logs with 3 (document 02,
//! A13).

use super::expect;

const JOIN: &str = "3 0 00000000 0 - 3 0 0 0 -";

#[test]
fn the_entry_of_document_01() {
    expect(
        &format!("record eeeeeeeeeeeeeeeeee 0 0 {JOIN}"),
        "0 8 0300030300000000.ee",
    );
    expect(
        &format!("record eeeeeeeeeeeeeeee 0 0 {JOIN}"),
        "0 8 0300030300000000",
    );
    expect(&format!("record eeeeeeeeeeeeee 0 0 {JOIN}"), "11");
    expect(&format!("record - 0 0 {JOIN}"), "11");
}

#[test]
fn behind_the_bytes_used() {
    // 300 is AC 02; what is used isn't looked at, so a log that another version
    // began goes on.
    expect(
        &format!("record 01ffffffffffffffffff 1 300 {JOIN}"),
        "0 9 01.ac02030300000000.ff",
    );
    expect(
        &format!("record eeffffffffffffffffffff 1 300 {JOIN}"),
        "0 9 ee.ac02030300000000.ffff",
    );
    expect(&format!("record eeffff 3 300 {JOIN}"), "11");
    expect(&format!("record eeffff 4 300 {JOIN}"), "4");
    expect(&format!("record eeffff 4294967295 300 {JOIN}"), "4");
}

#[test]
fn what_events_carry() {
    let buffer = "00".repeat(20);
    expect(
        &format!("record {buffer} 1 0 10 6 0a0b0c0d 9 ff 0 4 0 1 -"),
        &format!("0 13 00.000a06.0a0b0c0d.0004000100.{}", "00".repeat(7)),
    );
    expect(
        &format!("record {buffer} 1 5 18 99 ffffffff 1 d139 0 3 15 0 0138"),
        &format!("0 14 00.051201.02d139.00030f00.020138.{}", "00".repeat(6)),
    );
    expect(
        &format!("record {buffer} 1 0 10 7 00000000 0 - 0 4 0 1 -"),
        "4",
    );
    expect(
        &format!("record {buffer} 1 0 18 0 00000000 2 - 0 4 0 1 -"),
        "4",
    );
}

#[test]
fn lengths_are_numbers_of_the_log() {
    // 200 is C8 01.
    let (buffer, octets) = ("00".repeat(211), "ab".repeat(200));
    expect(
        &format!("record {buffer} 1 0 18 0 00000000 0 {octets} 1 0 0 0 -"),
        &format!("0 211 00.001200.c801{octets}.0100000000"),
    );
    let (buffer, octets) = ("00".repeat(600), "ab".repeat(251));
    let line = format!("record {buffer} 1 0 18 0 00000000 0 {octets}");
    assert!(crate::probe::answer(format!("{line} 1 0 0 0 -").as_bytes()).starts_with("0 "));
    expect(&format!("{line}00 1 0 0 0 -"), "4");
    let reply = "cd".repeat(255);
    assert!(crate::probe::answer(format!("{line} 1 0 0 0 {reply}").as_bytes()).starts_with("0 "));
    expect(&format!("{line} 1 0 0 0 {reply}00"), "4");
}

#[test]
fn fields_at_their_limits() {
    let buffer = "00".repeat(20);
    let record = |fields: &str| {
        let line = format!("record {buffer} 1 {fields}");
        crate::probe::answer(line.as_bytes())
    };
    assert!(record("86400000 17 7 00000000 2 - 3 7 15 63 -").starts_with("0 "));
    assert!(record("86400000 19 7 00000000 2 - 3 7 15 63 -").starts_with("0 "));
    for refused in [
        "86400001 17 7 00000000 2 - 3 7 15 63 -",
        "0 0 0 00000000 0 - 3 7 15 63 -",
        "0 20 0 00000000 0 - 3 7 15 63 -",
        "0 17 0 00000000 0 - 4 7 15 63 -",
        "0 17 0 00000000 0 - 3 8 15 63 -",
        "0 17 0 00000000 0 - 3 7 16 63 -",
        "0 17 0 00000000 0 - 3 7 15 64 -",
    ] {
        assert_eq!(record(refused), "4", "{refused}");
    }
}

#[test]
fn total_of_65536_and_one_more() {
    let buffer = "00".repeat(65_540);
    let line = |used: u32| format!("record {buffer} {used} 0 {JOIN}");
    // An entry of seven bytes behind 65,529 and behind 65,530.
    assert!(crate::probe::answer(line(65_529).as_bytes()).starts_with("0 65536 "));
    expect(&line(65_530), "10");
    expect(&line(65_540), "10");
    expect(&line(65_541), "4");
    // 10 comes before 11, 4 before both.
    let short = "00".repeat(65_530);
    expect(&format!("record {short} 65530 0 {JOIN}"), "10");
    expect(&format!("record {short} 65530 86400001 {JOIN}"), "4");
    expect(&format!("record {short} 65529 0 {JOIN}"), "11");
}
