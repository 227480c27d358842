//! Both sides of each limit of reading and writing messages.

use super::expect;

#[test]
fn message_of_251_and_252_octets() {
    // GET STATUS with an unknown element of 247 and of 248 value octets.
    let longest = format!("read 5139.20.f7.{}", "00".repeat(247));
    expect(&longest, "0 0 5 get_status -");
    expect(&format!("{longest}00"), "6");
    // 6 comes before every fault.
    expect(&format!("read {}", "ff".repeat(252)), "6");
    expect(&format!("read {}", "ff".repeat(251)), "13 2");
}

#[test]
fn buffer_of_254_and_255_octets() {
    expect("write 254 0 0 setup 01020304", "5");
    expect("write 255 0 0 setup 01020304", "0 013201020304");
    expect("write 0 0 7 setup 01020304", "5");
    expect("write 4294967295 0 0 setup 01020304", "0 013201020304");
}

#[test]
fn transaction_value_of_6_and_7() {
    expect("write 255 1 6 set_parameter 0", "0 e13a00");
    expect("write 255 1 7 set_parameter 0", "4");
    expect("write 255 1 255 set_parameter 0", "4");
}

#[test]
fn widths_of_half_octets() {
    expect("write 255 1 0 connect 00000000 1", "0 81330000000001");
    expect("write 255 1 0 connect 00000000 2", "4");
    expect("write 255 1 0 set_parameter 15", "0 813a0f");
    expect("write 255 1 0 set_parameter 16", "4");
    expect("write 255 0 0 status 80 15 15", "0 01380180afbf");
    expect("write 255 0 0 status 80 16 15", "4");
    expect("write 255 0 0 status 80 15 16", "4");
    expect(
        "write 255 0 0 immediate_setup 7 000000 29 00000000",
        "0 0131.70.03000000.0129.00000000",
    );
    expect("write 255 0 0 immediate_setup 8 000000 29 00000000", "4");
}

#[test]
fn lengths_to_be_written() {
    expect("write 255 0 0 immediate_setup 0 0000 29 00000000", "4");
    expect("write 255 0 0 immediate_setup 0 00000000 29 00000000", "4");
    expect("write 255 0 0 immediate_setup 0 - 29 00000000", "4");
    expect("write 255 0 0 immediate_setup 0 000000 - 00000000", "4");
    expect(
        "write 255 0 0 immediate_setup 0 000000 290000000000000000 00000000",
        "4",
    );
    expect("write 255 1 0 get_status 290000000000000000", "4");
    for kind in ["termination", "termination_reject"] {
        expect(&format!("write 255 1 0 {kind} -"), "4");
        let longest = "80".repeat(247);
        let code = if kind == "termination" { "34" } else { "36" };
        expect(
            &format!("write 255 1 0 {kind} {longest}"),
            &format!("0 81{code}f7{longest}"),
        );
        expect(&format!("write 255 1 0 {kind} {longest}80"), "4");
    }
}

#[test]
fn status_of_251_and_252_octets() {
    let longest = "80".repeat(247);
    expect(
        &format!("write 255 0 0 status {longest} 1 -"),
        &format!("0 0138f7{longest}a1"),
    );
    expect(
        &format!("write 255 0 0 status {longest} - 1"),
        &format!("0 0138f7{longest}b1"),
    );
    expect(&format!("write 255 0 0 status {longest} 1 1"), "4");
    let shorter = "80".repeat(246);
    expect(
        &format!("write 255 0 0 status {shorter} 1 1"),
        &format!("0 0138f6{shorter}a1b1"),
    );
    expect("write 255 0 0 status - 1 1", "4");
    expect(&format!("write 255 0 0 status {longest}80 - -"), "4");
}
