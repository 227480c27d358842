//! The settings file (document 01, "Settings file"; document 02, A13, for the
//! fifth line).

fn file(text: &str) -> String {
    let hexadecimal = crate::probe::tokens::hexadecimal(text.as_bytes());
    crate::probe::answer(format!("settings {hexadecimal}").as_bytes())
}

const GOOD: [&str; 5] = [
    "cksn=3\n",
    "classmark=3359A2\n",
    "identity=29f1\n",
    "conn_req_ms=12000\n",
    "present_ms=60000\n",
];
const READ: &str = "0 3 3359a2 29f1 12000 60000";

#[test]
fn any_order() {
    let mut orders = 0;
    // Five digits to the base of five name an order where all are there.
    for code in 0..3_125usize {
        let order = [1, 5, 25, 125, 625].map(|unit| code / unit % 5);
        if (0..5).all(|place| order.contains(&place)) {
            let text: String = order.iter().map(|&place| GOOD[place]).collect();
            assert_eq!(file(&text), READ);
            orders += 1;
        }
    }
    assert_eq!(orders, 120);
}

#[test]
fn missing_and_repeated_lines() {
    assert_eq!(file(""), "12 1");
    assert_eq!(file("cksn=3\n"), "12 2");
    assert_eq!(file(&GOOD[..3].concat()), "12 4");
    for again in GOOD {
        assert_eq!(file(&format!("{}{again}", GOOD.concat())), "12 6");
    }
    assert_eq!(file("cksn=3\ncksn=4\n"), "12 2");
    assert_eq!(file(&format!("{}x=1\n", GOOD.concat())), "12 6");
    assert_eq!(file("present_ms=1000\npresent_ms=1001\n"), "12 2");
}

#[test]
fn four_good_lines_lack_the_fifth() {
    // The files of document 01, and those that lack another line than present_ms.
    for missing in 0..5 {
        let mut lines = GOOD.to_vec();
        lines.remove(missing);
        for _ in 0..4 {
            lines.rotate_left(1);
            assert_eq!(file(&lines.concat()), "12 5");
        }
        // Five lines of four names: the one that comes again is named.
        for again in &lines {
            assert_eq!(file(&format!("{}{again}", lines.concat())), "12 5");
        }
    }
}

#[test]
fn ends_of_lines() {
    let whole = GOOD.concat();
    assert_eq!(file(&whole[..whole.len() - 1]), "12 5");
    assert_eq!(file("\n"), "12 1");
    assert_eq!(file(&format!("{whole}\n")), "12 6");
    assert_eq!(file(&whole.replace('\n', "\r\n")), "12 1");
    assert_eq!(file("cksn=3"), "12 1");
    assert_eq!(file(&format!("{whole}c")), "12 6");
    let four = GOOD[..4].concat();
    assert_eq!(file(&four[..four.len() - 1]), "12 4");
    assert_eq!(file(&format!("{four}\n")), "12 5");
}

/// A line that stands first, followed by the other four good ones.
fn first_line(place: usize, line: &str) -> String {
    let others: String = (0..5).filter(|&o| o != place).map(|o| GOOD[o]).collect();
    file(&format!("{line}\n{others}"))
}

/// The place of a line among the five, and what it says.
const READABLE: &[(usize, &str)] = &[
    (0, "cksn=0"),
    (0, "cksn=7"),
    (1, "classmark=abcDEF"),
    (2, "identity=aB"),
    (2, "identity=0123456789abcdef"),
    (3, "conn_req_ms=10000"),
    (3, "conn_req_ms=30000"),
    (4, "present_ms=1000"),
    (4, "present_ms=1001"),
    (4, "present_ms=9999"),
    (4, "present_ms=10000"),
    (4, "present_ms=100000"),
    (4, "present_ms=599999"),
    (4, "present_ms=600000"),
];

const UNREADABLE: &[(usize, &str)] = &[
    (0, "cksn=8"),
    (0, "cksn="),
    (0, "cksn=03"),
    (0, "cksn=a"),
    (0, "CKSN=3"),
    (0, "cksn =3"),
    (0, "cksn"),
    (1, "classmark=3359a"),
    (1, "classmark=3359a2b"),
    (1, "classmark=3359a2b4"),
    (1, "classmark=3359ag"),
    (2, "identity="),
    (2, "identity=2"),
    (2, "identity=29f"),
    (2, "identity=0123456789abcdef01"),
    (2, "identity=0123456789abcdef0"),
    (3, "conn_req_ms=9999"),
    (3, "conn_req_ms=30001"),
    (3, "conn_req_ms=012000"),
    (3, "conn_req_ms=09999"),
    (3, "conn_req_ms=+12000"),
    (3, "conn_req_ms=1200 "),
    (3, "conn_req_ms=100000"),
    (3, "conn_req_ms="),
    (3, "conn_req_ms=1e4"),
    (3, "conn_req_ms=1000"),
    (3, "conn_req_ms=600000"),
    (4, "present_ms=999"),
    (4, "present_ms=600001"),
    (4, "present_ms=700000"),
    (4, "present_ms=1000000"),
    (4, "present_ms=01000"),
    (4, "present_ms=060000"),
    (4, "present_ms=0600000"),
    (4, "present_ms=0"),
    (4, "present_ms="),
    (4, "present_ms=+1000"),
    (4, "present_ms=1000 "),
    (4, "present_ms=1e3"),
    // 2 to the 32 and to the 64, and 1,000 more.
    (4, "present_ms=4294968296"),
    (4, "present_ms=18446744073709552616"),
    (4, "PRESENT_MS=60000"),
    (4, "present=60000"),
];

#[test]
fn values_at_their_limits() {
    for &(place, line) in READABLE {
        assert!(first_line(place, line).starts_with("0 "), "{line}");
    }
    for &(place, line) in UNREADABLE {
        assert_eq!(first_line(place, line), "12 1", "{line}");
    }
}

#[test]
fn the_two_timers_are_told_apart() {
    let with = |lines: &str| file(&format!("{}{lines}", GOOD[..3].concat()));
    assert_eq!(
        with("conn_req_ms=10000\npresent_ms=600000\n"),
        "0 3 3359a2 29f1 10000 600000"
    );
    assert_eq!(
        with("present_ms=1000\nconn_req_ms=30000\n"),
        "0 3 3359a2 29f1 30000 1000"
    );
    // Each with a value that only the other may have.
    assert_eq!(with("conn_req_ms=9999\npresent_ms=9999\n"), "12 4");
    assert_eq!(with("present_ms=30001\nconn_req_ms=30001\n"), "12 5");
}
