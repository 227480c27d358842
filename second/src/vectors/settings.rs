//! The fixed set for `settings`: orders, missing and repeated lines, values at
//! their limits, every byte of a good file changed, left out or doubled.

use crate::commands::settings;

const GOOD: [&str; 5] = [
    "cksn=3\n",
    "classmark=33aBcD\n",
    "identity=29f1\n",
    "conn_req_ms=12000\n",
    "present_ms=60000\n",
];

pub fn all(lines: &mut Vec<String>) {
    orders(lines);
    missing(lines);
    repeated(lines);
    ends(lines);
    values(lines);
    bytes(lines);
    single_places(lines);
}

fn push(lines: &mut Vec<String>, file: &str) {
    lines.push(settings(file.as_bytes()));
}

/// All 120 orders.
fn orders(lines: &mut Vec<String>) {
    let mut begun = vec![Vec::new()];
    for _ in GOOD {
        let longer = begun.iter().flat_map(|order: &Vec<&str>| {
            let left = GOOD.into_iter().filter(|line| !order.contains(line));
            left.map(|line| [&order[..], &[line]].concat())
        });
        begun = longer.collect();
    }
    for order in begun {
        push(lines, &order.concat());
    }
}

/// All 32 sets of lines, forwards, backwards and turned about. Among them are the
/// files of four lines that were whole before the fifth was required.
fn missing(lines: &mut Vec<String>) {
    for set in 0..32 {
        let chosen: Vec<&str> = (0..5)
            .filter(|place| set >> place & 1 == 1)
            .map(|place| GOOD[place])
            .collect();
        push(lines, &chosen.concat());
        let backwards: Vec<&str> = chosen.iter().rev().copied().collect();
        push(lines, &backwards.concat());
        for turn in 1..chosen.len() {
            let mut turned = chosen.clone();
            turned.rotate_left(turn);
            push(lines, &turned.concat());
        }
    }
}

/// Each line repeated at each place, once more, and in place of another.
fn repeated(lines: &mut Vec<String>) {
    for line in GOOD {
        for place in 0..=5 {
            let mut file = GOOD.to_vec();
            file.insert(place, line);
            push(lines, &file.concat());
        }
        push(lines, &format!("{}{line}{line}", GOOD.concat()));
        for place in 0..5 {
            let mut file = GOOD.to_vec();
            file[place] = line;
            push(lines, &file.concat());
        }
    }
    // The same name with another value, and with an unreadable one.
    push(lines, &format!("{}cksn=4\n", GOOD.concat()));
    push(lines, &format!("{}cksn=9\n", GOOD.concat()));
    push(lines, &format!("cksn=9\n{}", GOOD.concat()));
    for value in [1_000, 999, 600_000, 600_001, 60_000] {
        let again = format!("present_ms={value}\n");
        push(lines, &format!("{}{again}", GOOD.concat()));
        push(lines, &format!("{again}{}", GOOD.concat()));
        // In place of another, so that five lines hold four names.
        for place in 0..4 {
            let mut file = GOOD.to_vec();
            file[place] = &again;
            push(lines, &file.concat());
        }
    }
    push(lines, &GOOD.concat().repeat(2));
}

/// Last lines without LF, empty lines, CR, and what stands behind five lines and
/// behind four.
fn ends(lines: &mut Vec<String>) {
    let whole = GOOD.concat();
    for extra in [
        "\n", "\r\n", " \n", "x", "x\n", "\0", "cksn=3", "c", "=\n", "=1\n", "cksn\n",
    ] {
        push(lines, &format!("{whole}{extra}"));
        push(lines, &format!("{extra}{whole}"));
        push(lines, &format!("{}{extra}", GOOD[..4].concat()));
    }
    push(lines, &whole.replace('\n', "\r\n"));
    push(lines, &whole.replace('\n', "\r"));
    push(lines, &whole.replace('\n', "\n\n"));
    push(lines, &whole.replace('=', " = "));
    push(lines, &whole.to_uppercase());
    for (place, alone) in GOOD.into_iter().enumerate() {
        let mut file = GOOD.to_vec();
        file.swap(place, 4);
        let text = file.concat();
        push(lines, &text[..text.len() - 1]);
        push(lines, alone);
        push(lines, &alone[..alone.len() - 1]);
    }
}

/// Values on both sides of each limit.
const VALUES: [(&str, &[&str]); 5] = [
    (
        "cksn=",
        &[
            "0", "1", "6", "7", "8", "9", "", "00", "07", "10", "a", "-", "-1", "+1", " 1", "1 ",
            "/", ":",
        ],
    ),
    (
        "classmark=",
        &[
            "000000", "ffffff", "FFFFFF", "AbCdEf", "", "0", "00", "00000", "0000000", "00000000",
            "00000g", "g00000", "00 000", "0x0000",
        ],
    ),
    (
        "identity=",
        &[
            "00",
            "ff",
            "FF",
            "aBCd",
            "",
            "0",
            "000",
            "0123456789abcd",
            "0123456789abcde",
            "0123456789ABCDEF",
            "0123456789abcdef0",
            "0123456789abcdef01",
            "0123456789abcdef0123",
            "0g",
            "g0",
            "2 9f",
        ],
    ),
    (
        "conn_req_ms=",
        &[
            "10000",
            "10001",
            "19999",
            "20000",
            "29999",
            "30000",
            "0",
            "1",
            "999",
            "9999",
            "30001",
            "30010",
            "31000",
            "40000",
            "99999",
            "100000",
            "110000",
            "010000",
            "012000",
            "0012000",
            "00000",
            "09999",
            "",
            "1e4",
            "+12000",
            "-12000",
            "12000 ",
            " 12000",
            "12,000",
            "12000.0",
            "0x2ee0",
            "75536",
            "65536",
            "4294977296",
            "4294987296",
            "18446744073709561616",
            "340282368000000000000",
            "1200a",
            "1200:",
            "1200/",
            "1000",
            "600000",
        ],
    ),
    (
        "present_ms=",
        &[
            "1000",
            "1001",
            "9999",
            "10000",
            "30000",
            "30001",
            "99999",
            "100000",
            "599999",
            "600000",
            "999",
            "998",
            "600001",
            "600010",
            "601000",
            "610000",
            "700000",
            "999999",
            "1000000",
            "6000000",
            "0",
            "1",
            "00000",
            "01000",
            "001000",
            "0001000",
            "060000",
            "0600000",
            "0999",
            "",
            "1e3",
            "+1000",
            "-1000",
            "1000 ",
            " 1000",
            "1,000",
            "1000.0",
            "0x3e8",
            "66536",
            "65536",
            "131072",
            "4294968296",
            "4295027296",
            "18446744073709552616",
            "18446744073709611616",
            "100a",
            "100:",
            "100/",
            "a000",
            ":000",
            "/000",
        ],
    ),
];

/// Each value stands in the first line, and in the last.
fn values(lines: &mut Vec<String>) {
    for (place, (name, values)) in VALUES.into_iter().enumerate() {
        let mut others = GOOD.to_vec();
        others.remove(place);
        let others = others.concat();
        for value in values {
            push(lines, &format!("{name}{value}\n{others}"));
            push(lines, &format!("{others}{name}{value}\n"));
        }
    }
}

/// A good file cut at every byte; every byte left out, doubled, changed in its
/// lowest bit, changed in its case bit, and turned into LF.
fn bytes(lines: &mut Vec<String>) {
    let whole = GOOD.concat().into_bytes();
    for place in 0..whole.len() {
        lines.push(settings(&whole[..place]));
        let mut left_out = whole.clone();
        left_out.remove(place);
        lines.push(settings(&left_out));
        let mut doubled = whole.clone();
        doubled.insert(place, whole[place]);
        lines.push(settings(&doubled));
        for changed in [whole[place] ^ 0x01, whole[place] ^ 0x20, b'\n', 0xFF] {
            let mut file = whole.clone();
            file[place] = changed;
            lines.push(settings(&file));
        }
    }
}

/// All 256 bytes in the place of the key number, a hexadecimal digit, decimal
/// digits and a line's end.
fn single_places(lines: &mut Vec<String>) {
    let whole = GOOD.concat().into_bytes();
    // cksn=? is byte 5; its LF 6; classmark's first digit 17; the last digit of
    // conn_req_ms stands before its LF and the last line, that of present_ms before the last LF.
    let conn_req = whole.len() - GOOD[4].len() - 2;
    for place in [5, 6, 17, conn_req, whole.len() - 2] {
        every_byte(lines, &whole, place);
    }
    // The first digit of 200000: 1 to 6 are within the bounds.
    let six_digits = format!("{}present_ms=200000\n", GOOD[..4].concat());
    every_byte(lines, six_digits.as_bytes(), six_digits.len() - 7);
}

fn every_byte(lines: &mut Vec<String>, whole: &[u8], place: usize) {
    for byte in 0..=255 {
        let mut file = whole.to_vec();
        file[place] = byte;
        lines.push(settings(&file));
    }
}
