//! The fixed set for `grecord`: the ranges of group logs on both sides, room, and
//! the refusals in their order 4, 10, 11. The fields that group logs share with
//! the others stand in `record`.

use super::record::buffer;

/// "Join in U0", seven bytes with a delta of one.
const JOIN: &str = "3 0 00000000 0 - 3 0 0 0 -";
const GREATEST: u32 = 4_294_967_295;

pub fn all(lines: &mut Vec<String>) {
    room(lines);
    events(lines);
    claims(lines);
    replies(lines);
    limits_together(lines);
    longest(lines);
}

/// With nothing used the version comes first; with something used it is not looked at.
fn room(lines: &mut Vec<String>) {
    for length in [0, 1, 6, 7, 8, 9, 10] {
        for used in [0, 1, length, length + 1] {
            for delta in [0, 128, 86_400_000, 86_400_001] {
                lines.push(format!("grecord {} {used} {delta} {JOIN}", buffer(length)));
            }
        }
    }
    for begun in ["01", "02", "03", "10", "11"] {
        lines.push(format!("grecord {begun}ffffffffffffffffff 1 0 {JOIN}"));
    }
}

/// Every number about those of events, with data on both sides.
fn events(lines: &mut Vec<String>) {
    for event in (0..=39).chain([63, 64, 127, 128, 256 + 32, GREATEST]) {
        for (value, mode) in [(6, 1), (7, 2), (GREATEST, GREATEST)] {
            lines.push(format!(
                "grecord {} 1 5 {event} {value} 0a0b0c0d {mode} d039 0 8 15 1 1038",
                buffer(30)
            ));
        }
    }
}

/// Each claim on both sides of its limit.
fn claims(lines: &mut Vec<String>) {
    let limits: [(usize, u32); 4] = [(0, 3), (1, 13), (2, 15), (3, 127)];
    for (place, limit) in limits {
        let about = [
            limit / 2,
            limit - 1,
            limit,
            limit + 1,
            2 * limit,
            256 + limit,
        ];
        for number in (0..=16).chain(about).chain([63, 64, 128, GREATEST]) {
            let mut claims = [0; 4];
            claims[place] = number;
            let [answer, state, parameters, actions] = claims;
            lines.push(format!(
                "grecord {} 1 0 32 0 00000000 0 - {answer} {state} {parameters} {actions} -",
                buffer(10)
            ));
        }
    }
}

/// Two messages in one reply are one run of octets; 255 of them fit, 256 do not.
fn replies(lines: &mut Vec<String>) {
    let both = "1038019eaabf103500000120";
    for length in [19, 20, 21, 30] {
        lines.push(format!(
            "grecord {} 1 0 35 0 00000000 0 - 0 6 15 0 {both}",
            buffer(length)
        ));
    }
    for length in [127, 128, 254, 255, 256] {
        lines.push(format!(
            "grecord {} 0 0 35 0 00000000 0 - 0 6 15 0 {}",
            buffer(300),
            "10".repeat(length)
        ));
    }
}

/// 4 comes before 11: one field over its limit in a buffer without room.
fn limits_together(lines: &mut Vec<String>) {
    for wrong in [
        "86400001 3 0 00000000 0 - 3 0 0 0 -",
        "0 19 0 00000000 0 - 3 0 0 0 -",
        "0 31 0 00000000 0 - 3 0 0 0 -",
        "0 32 0 00000000 0 - 3 0 0 0 -", // an event: 11
        "0 36 0 00000000 0 - 3 0 0 0 -", // the last one: 11
        "0 37 0 00000000 0 - 3 0 0 0 -",
        "0 10 7 00000000 0 - 3 0 0 0 -",
        "0 3 0 00000000 0 - 3 13 0 0 -", // 11
        "0 3 0 00000000 0 - 3 14 0 0 -",
        "0 3 0 00000000 0 - 3 0 0 127 -", // 11
        "0 3 0 00000000 0 - 3 0 0 128 -",
    ] {
        for (length, used) in [(0, 0), (0, 1), (3, 3), (3, 4), (20, 0), (20, 13), (20, 14)] {
            lines.push(format!("grecord {} {used} {wrong}", buffer(length)));
        }
    }
}

/// Totals of 65,536 and 65,537 bytes.
fn longest(lines: &mut Vec<String>) {
    for (length, used) in [(65_537, 65_529), (65_537, 65_530), (65_535, 65_529)] {
        let same = "ee".repeat(length);
        lines.push(format!("grecord {same} {used} 0 {JOIN}"));
    }
}
