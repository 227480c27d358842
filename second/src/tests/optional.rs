//! Optional elements (document 01, "Received messages"): which are seen, which
//! are skipped, and where skipping stops.

use super::expect;

fn get_status(rest: &str, answer: &str) {
    expect(&format!("read 5139{rest}"), answer);
}

const ABSENT: &str = "0 0 5 get_status -";

#[test]
fn the_first_17_decides() {
    get_status("17.01.29.17.01.30", "0 0 5 get_status 29");
    get_status("17.00.17.01.30", ABSENT);
    get_status("17.09.290000000000000000.17.01.30", ABSENT);
}

#[test]
fn unknown_elements_are_skipped() {
    get_status("80.17.01.29", "0 0 5 get_status 29");
    get_status("a1.b2.ff.17.01.29", "0 0 5 get_status 29");
    get_status("20.02.0505.17.01.29", "0 0 5 get_status 29");
    get_status("20.00.17.01.29", "0 0 5 get_status 29");
    get_status("7f.01.17.17.01.29", "0 0 5 get_status 29");
    // 10 is the first identifier that is not "comprehension required".
    get_status("10.00.17.01.29", "0 0 5 get_status 29");
}

#[test]
fn comprehension_required() {
    for identifier in 0x00..=0x0F {
        get_status(&format!("{identifier:02x}.00"), "13 4");
        get_status(&format!("{identifier:02x}"), "13 4");
        get_status(&format!("17.01.29.{identifier:02x}.01.00"), "13 4");
    }
    get_status("17.01.07.05", "13 4");
    get_status("05.ff", "13 4");
    get_status("20.01.05", ABSENT);
}

#[test]
fn an_element_past_the_end() {
    get_status("17", ABSENT);
    get_status("17.01", ABSENT);
    get_status("17.02.29", ABSENT);
    get_status("20", ABSENT);
    // Behind it nothing is an identifier any more.
    get_status("20.ff.05", ABSENT);
    get_status("20.ff.17.01.29", ABSENT);
    get_status("17.01.29.20.ff", "0 0 5 get_status 29");
}

#[test]
fn every_kind_has_an_optional_part() {
    for (message, read) in [
        ("b133.12345678.01", "1 3 connect 12345678 1"),
        (
            "2131.40.033359a2.01f4.00001020",
            "0 2 immediate_setup 4 3359a2 f4 00001020",
        ),
        ("813a.0b", "1 0 set_parameter 11"),
        ("6132.aabbccdd", "0 6 setup aabbccdd"),
        ("1138.01.9e", "0 1 status 9e - -"),
        ("c134.01.90", "1 4 termination 90"),
        ("c136.01.90", "1 4 termination_reject 90"),
        ("0135.01020304", "0 0 termination_request 01020304"),
    ] {
        for skipped in ["17.01.29", "80", "20.00", "17", "20.ff.05"] {
            expect(&format!("read {message}.{skipped}"), &format!("0 {read}"));
        }
        for fault in ["05", "00.00", "80.0f", "17.01.29.0a"] {
            expect(&format!("read {message}.{fault}"), "13 4");
        }
    }
}

#[test]
fn call_state_and_attributes() {
    // Known in STATUS alone; elsewhere skipped as one octet.
    expect("read 1138.01.9e.17.01.29.a3", "0 0 1 status 9e 3 -");
    expect("read 1138.01.9e.20.01.a3.b1", "0 0 1 status 9e - 1");
    expect("read 1138.01.9e.20.02.a3", "0 0 1 status 9e - -");
    expect("read 1138.01.9e.c1.90.a8", "0 0 1 status 9e 8 -");
}
