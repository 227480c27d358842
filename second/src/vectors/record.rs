//! The fixed set for `record`: room, bytes used, each field at its limits, and
//! the refusals in their order 4, 10, 11.

use crate::probe::tokens::hexadecimal;

/// `EVENT ETV EREF MODE OCTETS ANSWER STATE PARAMS ACTIONS REPLY` of the entry
/// of document 01's whole log, which takes seven bytes with a delta of one.
const JOIN: &str = "3 0 00000000 0 - 3 0 0 0 -";

pub fn all(lines: &mut Vec<String>) {
    room(lines);
    deltas(lines);
    events(lines);
    runs(lines);
    claims(lines);
    invitations(lines);
    limits_together(lines);
    longest(lines);
}

pub fn buffer(length: usize) -> String {
    hexadecimal(
        &(0..length)
            .map(|place| 0xE0 | place as u8 & 0x0F)
            .collect::<Vec<u8>>(),
    )
}

/// Buffers of 0 to 17 bytes with everything used from none to one too many.
fn room(lines: &mut Vec<String>) {
    for length in 0..=17 {
        for used in 0..=length + 1 {
            lines.push(format!("record {} {used} 0 {JOIN}", buffer(length)));
        }
    }
    for used in [0, 1, 20, 21, 255, 256, 65_536, 65_537, 4_294_967_295u32] {
        lines.push(format!("record {} {used} 0 {JOIN}", buffer(20)));
    }
    // What is used is not looked at: each version, a wrong one, and rubbish.
    lines.push(format!("record 01ffffffffffffffffff 1 0 {JOIN}"));
    lines.push(format!("record 02ffffffffffffffffff 1 0 {JOIN}"));
    lines.push(format!("record 03ffffffffffffffffff 1 0 {JOIN}"));
    lines.push(format!("record 04ffffffffffffffffff 1 0 {JOIN}"));
    lines.push(format!("record 808080ffffffffffffff 3 0 {JOIN}"));
}

/// Deltas about each length of a number and about their limit, exact room and
/// one byte less.
fn deltas(lines: &mut Vec<String>) {
    let sizes = [
        (0, 1),
        (1, 1),
        (127, 1),
        (128, 2),
        (300, 2),
        (16_383, 2),
        (16_384, 3),
        (2_097_151, 3),
        (2_097_152, 4),
        (86_399_999, 4),
        (86_400_000, 4),
        (86_400_001, 4),
        (268_435_456, 5),
        (4_294_967_295u32, 5),
    ];
    for (delta, bytes) in sizes {
        for length in [6 + bytes, 7 + bytes, 8 + bytes, 20] {
            lines.push(format!("record {} 0 {delta} {JOIN}", buffer(length)));
            lines.push(format!("record {} 1 {delta} {JOIN}", buffer(length)));
        }
    }
}

/// Every event, with its data on both sides; data that it does not carry has no effect.
fn events(lines: &mut Vec<String>) {
    for event in (0..=20).chain([127, 128, 255, 256, 274, 4_294_967_295u32]) {
        for (value, mode) in [
            (0, 0),
            (6, 1),
            (7, 0),
            (0, 2),
            (7, 2),
            (255, 255),
            (4_294_967_295u32, 1),
            (1, 4_294_967_295u32),
        ] {
            lines.push(format!(
                "record {} 1 5 {event} {value} 0a0b0c0d {mode} d139 0 3 15 1 0138",
                buffer(30)
            ));
        }
    }
}

/// Messages of 251 and 252 octets, replies of 255 and 256, and lengths that take two bytes.
fn runs(lines: &mut Vec<String>) {
    for length in [0, 1, 2, 126, 127, 128, 129, 200, 250, 251, 252, 253, 300] {
        let octets = hexadecimal(&vec![0xD1; length]);
        let needed = 1 + 9 + length + usize::from(length > 127);
        for size in [needed - 2, needed - 1, needed, needed + 1] {
            lines.push(format!(
                "record {} 1 0 18 0 00000000 0 {octets} 1 3 15 0 -",
                buffer(size)
            ));
        }
        // Octets beside an event that carries none.
        lines.push(format!(
            "record {} 1 0 3 0 00000000 0 {octets} 3 0 0 0 -",
            buffer(12)
        ));
    }
    for length in [0, 1, 126, 127, 128, 129, 251, 252, 254, 255, 256, 257, 300] {
        let reply = hexadecimal(&vec![0x51; length]);
        let needed = 1 + 7 + length + usize::from(length > 127);
        for size in [needed - 1, needed, needed + 1] {
            lines.push(format!(
                "record {} 1 0 3 0 00000000 0 - 3 0 0 0 {reply}",
                buffer(size)
            ));
        }
    }
}

/// Each claim from 0 to beyond its limit.
fn claims(lines: &mut Vec<String>) {
    let fields: [(usize, u32); 4] = [(0, 3), (1, 7), (2, 15), (3, 63)];
    for (place, limit) in fields {
        let beyond = [
            limit + 2,
            64,
            127,
            128,
            255,
            256,
            256 + limit,
            4_294_967_295,
        ];
        for number in (0..=limit + 1).chain(beyond) {
            let mut claims = [0; 4];
            claims[place] = number;
            let [answer, state, parameters, actions] = claims;
            lines.push(format!(
                "record {} 1 0 3 0 00000000 0 - {answer} {state} {parameters} {actions} -",
                buffer(10)
            ));
        }
    }
    lines.push(format!(
        "record {} 0 86400000 18 6 ffffffff 1 d1 3 7 15 63 51",
        buffer(40)
    ));
}

/// Event 19, which carries nothing, at the beginning of a log and in it, with
/// exact room and one byte less; 20 beside it.
fn invitations(lines: &mut Vec<String>) {
    for event in [19, 20] {
        for (length, used) in [(7, 0), (8, 0), (9, 0), (7, 1), (8, 1), (9, 1)] {
            lines.push(format!(
                "record {} {used} 0 {event} 7 0a0b0c0d 2 d139 0 0 0 0 -",
                buffer(length)
            ));
        }
    }
}

/// 4 comes before 11: one field over its limit in a buffer without room.
fn limits_together(lines: &mut Vec<String>) {
    for wrong in [
        "86400001 3 0 00000000 0 - 3 0 0 0 -",
        "0 0 0 00000000 0 - 3 0 0 0 -",
        "0 19 0 00000000 0 - 3 0 0 0 -", // the last number that is an event: 11
        "0 20 0 00000000 0 - 3 0 0 0 -",
        "0 1 7 00000000 0 - 3 0 0 0 -",
        "0 18 0 00000000 2 - 3 0 0 0 -",
        "0 3 0 00000000 0 - 4 0 0 0 -",
        "0 3 0 00000000 0 - 3 8 0 0 -",
        "0 3 0 00000000 0 - 3 0 16 0 -",
        "0 3 0 00000000 0 - 3 0 0 64 -",
        "0 3 0 00000000 0 - 3 0 0 0 -",
    ] {
        for (length, used) in [(0, 0), (0, 1), (3, 3), (3, 4), (20, 0), (20, 13), (20, 14)] {
            lines.push(format!("record {} {used} {wrong}", buffer(length)));
        }
    }
}

/// Totals of 65,536 and 65,537 bytes, with room and without.
fn longest(lines: &mut Vec<String>) {
    let cases = [
        (65_537, 65_529, "0"),        // 65,536: fits
        (65_537, 65_530, "0"),        // 65,537: 10, though there is room
        (65_536, 65_529, "0"),        // fits exactly
        (65_535, 65_529, "0"),        // 11: 65,536 in 65,535
        (65_535, 65_530, "0"),        // 10 before 11
        (65_535, 65_528, "0"),        // fits exactly, 65,535
        (65_537, 65_529, "128"),      // a delta of two bytes: 10
        (65_537, 65_537, "0"),        // all used: 10
        (65_537, 65_537, "86400001"), // 4 before 10
        (65_537, 65_538, "0"),        // 4 before 10
    ];
    for (length, used, delta) in cases {
        let same = hexadecimal(&vec![0xEE; length]);
        lines.push(format!("record {same} {used} {delta} {JOIN}"));
    }
}
