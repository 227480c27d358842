//! Each table of clause 8 with an example worked out by hand: octet 1 is flag,
//! value and discriminator 1, octet 2 the code of table 9.1.

use super::expect;

/// Reading gives the message, and writing it gives the octets back.
fn both_ways(octets: &str, message: &str) {
    expect(&format!("read {octets}"), &format!("0 {message}"));
    expect(&format!("write 255 {message}"), &format!("0 {octets}"));
}

#[test]
fn table_8_1_connect() {
    // 1 011 0001; 0011 0011; four octets; OI in bit 1, spare half above.
    both_ways("b1.33.12345678.01", "1 3 connect 12345678 1");
    both_ways("31.33.00000000.00", "0 3 connect 00000000 0");
    // Spare bits are read as anything.
    expect("read b13312345678ff", "0 1 3 connect 12345678 1");
    expect("read b13312345678fe", "0 1 3 connect 12345678 0");
}

#[test]
fn table_8_2_get_status() {
    // 0 101 0001; 0011 1001; identifier 17, length, value.
    both_ways("51.39", "0 5 get_status -");
    both_ways("51.39.17.03.290102", "0 5 get_status 290102");
    both_ways("51.39.17.01.29", "0 5 get_status 29");
    both_ways(
        "51.39.17.08.2900000000000007",
        "0 5 get_status 2900000000000007",
    );
}

#[test]
fn table_8_3_immediate_setup() {
    // 0 010 0001; 0011 0001; spare half in bits 1 to 4, key number 4 in bits 5
    // to 7; length 3 and classmark; length 5 and identity; reference.
    both_ways(
        "21.31.40.033359a2.05f401020304.00001020",
        "0 2 immediate_setup 4 3359a2 f401020304 00001020",
    );
    // Bit 8 of octet 3 and the spare half are read as anything.
    expect(
        "read 21.31.cf.033359a2.05f401020304.00001020",
        "0 0 2 immediate_setup 4 3359a2 f401020304 00001020",
    );
    // The longest and the shortest identity.
    both_ways(
        "21.31.70.03000000.08.2900000000000007.ffffffff",
        "0 2 immediate_setup 7 000000 2900000000000007 ffffffff",
    );
    both_ways(
        "21.31.00.03000000.01.29.ffffffff",
        "0 2 immediate_setup 0 000000 29 ffffffff",
    );
}

#[test]
fn table_8_4_set_parameter() {
    // 1 000 0001; 0011 1010; DA UA COMM OI in bits 4 to 1.
    both_ways("81.3a.0b", "1 0 set_parameter 11");
    both_ways("81.3a.0f", "1 0 set_parameter 15");
    expect("read 813af4", "0 1 0 set_parameter 4");
}

#[test]
fn table_8_5_setup() {
    both_ways("61.32.aabbccdd", "0 6 setup aabbccdd");
}

#[test]
fn table_8_6_status() {
    // 0 001 0001; 0011 1000; length, cause 30 with bit 8; A- U2; B- all true.
    both_ways("11.38.01.9e.a2.bf", "0 1 status 9e 2 15");
    both_ways("11.38.01.9e", "0 1 status 9e - -");
    both_ways("11.38.01.9e.af", "0 1 status 9e 15 -");
    both_ways("11.38.02.e011.b0", "0 1 status e011 - 0");
    // Read in any order, the first of each.
    expect("read 11.38.01.9e.b3.a1.a2.b4", "0 0 1 status 9e 1 3");
}

#[test]
fn table_8_7_termination() {
    both_ways("c1.34.01.90", "1 4 termination 90");
    // An odd inner form of a cause passes.
    both_ways("c1.34.02.0010", "1 4 termination 0010");
}

#[test]
fn table_8_8_termination_reject() {
    both_ways("c1.36.02.9700", "1 4 termination_reject 9700");
}

#[test]
fn table_8_9_termination_request() {
    both_ways("01.35.01020304", "0 0 termination_request 01020304");
}

#[test]
fn bit_7_of_the_type_is_read_as_anything_and_bit_8_is_not() {
    expect("read 51.79", "0 0 5 get_status -");
    expect("read 51.b9", "13 3");
    expect("read 51.37", "13 3");
    expect("read 51.30", "13 3");
    expect("read 51.3b", "13 3");
}

#[test]
fn faults_in_their_order() {
    expect("read -", "13 1");
    expect("read 52", "13 1");
    expect("read 52ff", "13 2");
    expect("read 51ff", "13 3");
    expect("read 5132010203", "13 4");
    expect("read f139", "0 1 7 get_status -");
}

#[test]
fn mandatory_parts_cut_short() {
    for octets in [
        "b133",
        "b133.123456",
        "b133.12345678",
        "2131",
        "213140",
        "213140.03",
        "213140.033359",
        "213140.033359a2",
        "213140.033359a2.05",
        "213140.033359a2.05f4010203",
        "213140.033359a2.05f401020304",
        "213140.033359a2.05f401020304.000010",
        "813a",
        "6132.aabbcc",
        "1138",
        "1138.01",
        "1138.02.9e",
        "c134",
        "c134.01",
        "c136.03.9700",
        "0135.010203",
    ] {
        expect(&format!("read {octets}"), "13 4");
    }
}

#[test]
fn length_octets_outside_what_the_table_draws() {
    // Classmark exactly 3, identity 1 to 8, cause 1 to 247.
    expect("read 213140.023359.05f401020304.00001020", "13 4");
    expect("read 213140.043359a200.05f401020304.00001020", "13 4");
    expect("read 213140.033359a2.00.00001020", "13 4");
    expect(
        "read 213140.033359a2.09.290000000000000000.00001020",
        "13 4",
    );
    expect("read c134.00", "13 4");
    expect("read c136.00.90", "13 4");
    expect("read 1138.00", "13 4");
    let longest = "90".repeat(247);
    expect(
        &format!("read c134.f7.{longest}"),
        &format!("0 1 4 termination {longest}"),
    );
    expect(&format!("read c134.f8.{longest}90"), "13 4");
}
