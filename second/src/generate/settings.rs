//! Settings files by chance: fit ones, then in part spoilt in one place.

use super::random::Random;

pub fn file(random: &mut Random) -> Vec<u8> {
    let mut lines = lines(random);
    for place in (1..lines.len()).rev() {
        let other = random.place(place + 1);
        lines.swap(place, other);
    }
    match random.below(16) {
        // A line repeated, behind or in place of another.
        0 => lines.push(lines[random.place(5)].clone()),
        1 => {
            let (from, to) = (random.place(5), random.place(5));
            lines[to] = lines[from].clone();
        }
        2 => {
            lines.remove(random.place(5));
        }
        3 => lines.truncate(random.place(5)),
        4 => {
            let place = random.place(6);
            lines.insert(place, "\n".to_string());
        }
        5 => {
            let place = random.place(5);
            lines[place] = lines[place].replace('\n', "\r\n");
        }
        6 | 7 => {
            let place = random.place(5);
            lines[place] = at_a_limit(random);
        }
        _ => (),
    }
    let mut bytes = lines.concat().into_bytes();
    if random.one_in(3) {
        spoil(random, &mut bytes);
    }
    bytes
}

/// The five lines, good.
fn lines(random: &mut Random) -> Vec<String> {
    let length = random.pick(&[1, 2, 3, 7, 8]);
    let conn_req = match random.below(3) {
        0 => random.pick(&[10_000, 30_000, 10_001, 29_999]),
        _ => random.between(10_000, 30_000),
    };
    // Of four, five and six digits.
    let present = match random.below(4) {
        0 => random.pick(&[
            1_000, 1_001, 9_999, 10_000, 99_999, 100_000, 599_999, 600_000,
        ]),
        1 => random.between(1_000, 9_999),
        2 => random.between(10_000, 99_999),
        _ => random.between(100_000, 600_000),
    };
    vec![
        format!("cksn={}\n", random.below(8)),
        format!("classmark={}\n", hexadecimal(random, 3)),
        format!("identity={}\n", hexadecimal(random, length)),
        format!("conn_req_ms={conn_req}\n"),
        format!("present_ms={present}\n"),
    ]
}

/// Digits of either case, mixed.
fn hexadecimal(random: &mut Random, octets: usize) -> String {
    (0..2 * octets)
        .map(|_| char::from(random.pick(b"0123456789abcdefABCDEF")))
        .collect()
}

/// A line about a limit; some of these are good.
fn at_a_limit(random: &mut Random) -> String {
    let line = random.pick(&[
        "cksn=7",
        "cksn=8",
        "cksn=00",
        "cksn=",
        "cksn=-1",
        "cksn= 1",
        "classmark=12345",
        "classmark=1234567",
        "classmark=12345678",
        "classmark=12345g",
        "classmark=",
        "identity=",
        "identity=1",
        "identity=12",
        "identity=123",
        "identity=0123456789abcdef",
        "identity=0123456789abcdef0",
        "identity=0123456789abcdef01",
        "conn_req_ms=9999",
        "conn_req_ms=10000",
        "conn_req_ms=30000",
        "conn_req_ms=30001",
        "conn_req_ms=010000",
        "conn_req_ms=00010000",
        "conn_req_ms=100000",
        "conn_req_ms=4294977296",
        "conn_req_ms=18446744073709561616",
        "conn_req_ms=+12000",
        "conn_req_ms=12000.",
        "Cksn=3",
        "identity",
        "conn-req-ms=12000",
        "present_ms=999",
        "present_ms=1000",
        "present_ms=600000",
        "present_ms=600001",
        "present_ms=01000",
        "present_ms=0600000",
        "present_ms=1000000",
        "present_ms=4294968296",
        "present_ms=18446744073709552616",
        "present_ms=+1000",
        "present_ms=",
        "present=1000",
        "conn_req_ms=1000",
        "conn_req_ms=600000",
        "",
    ]);
    format!("{line}\n")
}

/// One byte changed, left out, doubled, or the end cut.
fn spoil(random: &mut Random, bytes: &mut Vec<u8>) {
    if bytes.is_empty() {
        return;
    }
    let place = random.place(bytes.len());
    match random.below(7) {
        0 => bytes[place] ^= 1 << random.below(8),
        1 => bytes[place] = random.pick(b"\n\r =0f9Gg\x00\xff"),
        2 => {
            bytes.remove(place);
        }
        3 => bytes.insert(place, bytes[place]),
        4 => bytes.truncate(place),
        5 => {
            bytes.pop();
        }
        _ => bytes.insert(place, random.pick(b"\n 0a")),
    }
}
