//! The line protocol itself: what is malformed, and how lines end.

use crate::probe::{answer, run};

const NO_COMMANDS: &[&str] = &[
    "",
    " ",
    "read",
    "read ",
    " read -",
    "read  -",
    "read - ",
    "read - -",
    "read 5",
    "read 5G",
    "read AB",
    "read 0x",
    "read -\r",
    "reads -",
    "READ -",
    "?",
    "write 255 0 0",
    "write",
    "write 255 2 0 setup 01020304",
    "write 255 0 256 setup 01020304",
    "write 255 00 0 setup 01020304",
    "write 0255 0 0 setup 01020304",
    "write -1 0 0 setup 01020304",
    "write 4294967296 0 0 setup 01020304",
    "write 99999999999999999999999 0 0 setup 01020304",
    "write 255 0 0 setup 010203",
    "write 255 0 0 setup -",
    "write 255 0 0 setup 0102030405",
    "write 255 0 0 set_up 01020304",
    "write 255 0 0 setup 01020304 0",
    "write 255 0 0 connect 01020304",
    "write 255 0 0 connect 01020304 256",
    "write 255 0 0 connect 01020304 -",
    "write 255 0 0 set_parameter -",
    "write 255 0 0 status 80 256 -",
    "write 255 0 0 status 80 -",
    "write 255 0 0 immediate_setup 256 000000 29 00000000",
    "write 255 0 0 immediate_setup 0 000000 29 -",
    "settings",
    "settings 0",
    "settings - -",
    "step 0 16 0 0 00000000 0 0 000000 29 255 3 0 00000000 0 -",
    "step 0 0 32 0 00000000 0 0 000000 29 255 3 0 00000000 0 -",
    "step 256 0 0 0 00000000 0 0 000000 29 255 3 0 00000000 0 -",
    "step 0 0 0 256 00000000 0 0 000000 29 255 3 0 00000000 0 -",
    "step 0 0 0 0 - 0 0 000000 29 255 3 0 00000000 0 -",
    "step 0 0 0 0 00000000 256 0 000000 29 255 3 0 00000000 0 -",
    "step 0 0 0 0 00000000 - 0 000000 29 255 3 0 00000000 0 -",
    "step 0 0 0 0 00000000 02 0 000000 29 255 3 0 00000000 0 -",
    // A context of five words.
    "step 0 0 0 0 00000000 0 000000 29 255 3 0 00000000 0 -",
    "step 0 0 0 0 00000000 0 256 000000 29 255 3 0 00000000 0 -",
    "step 0 0 0 0 00000000 0 0 00000 29 255 3 0 00000000 0 -",
    "step 0 0 0 0 00000000 0 0 - 29 255 3 0 00000000 0 -",
    "step 0 0 0 0 00000000 0 0 000000 29 4294967296 3 0 00000000 0 -",
    "step 0 0 0 0 00000000 0 0 000000 29 255 4294967296 0 00000000 0 -",
    "step 0 0 0 0 00000000 0 0 000000 29 255 3 256 00000000 0 -",
    "step 0 0 0 0 00000000 0 0 000000 29 255 3 0 0000000 0 -",
    "step 0 0 0 0 00000000 0 0 000000 29 255 3 0 00000000 256 -",
    "step 0 0 0 0 00000000 0 0 000000 29 255 3 0 00000000 0",
    "step 0 0 0 0 00000000 0 0 000000 29 255 3 0 00000000 0 - -",
    "judge 0 000000 29",
    "judge 256 000000 29 01",
    "judge 0 0000 29 01",
    "judge 0 000000 2 01",
    "record 00 0 0 3 0 00000000 0 - 3 0 0 0",
    "record 00 0 0 3 0 - 0 - 3 0 0 0 -",
    "record 00 4294967296 0 3 0 00000000 0 - 3 0 0 0 -",
];

#[test]
fn malformed_lines() {
    for line in NO_COMMANDS {
        assert_eq!(answer(line.as_bytes()), "?", "{line:?}");
    }
    assert_eq!(answer(b"read \xff\xff"), "?");
}

#[test]
fn judge_refusals_in_their_order() {
    let long = "01".repeat(65_537);
    assert_eq!(answer(format!("judge 8 000000 - {long}").as_bytes()), "10");
    assert_eq!(answer(b"judge 8 000000 29 -"), "4");
    assert_eq!(answer(b"judge 0 000000 - -"), "4");
    assert_eq!(answer(b"judge 0 000000 290000000000000000 01"), "4");
    assert_eq!(
        answer(b"judge 7 ffffff 2900000000000000 01"),
        "0 0 10000 30000"
    );
    // 65,536 bytes are looked at: the second 01 begins an entry of event 1.
    assert_eq!(
        answer(format!("judge 7 000000 29 {}", "01".repeat(65_536)).as_bytes()),
        "9 1"
    );
}

#[test]
fn ends_of_lines() {
    let mut output = Vec::new();
    run(
        &mut &b"read -\n\nread 5139\nread -\r\nread 51"[..],
        &mut output,
    )
    .unwrap();
    assert_eq!(output, b"13 1\n?\n0 0 5 get_status -\n?\n13 1\n");
    let mut output = Vec::new();
    run(&mut &b""[..], &mut output).unwrap();
    assert_eq!(output, b"");
}
