//! The fixed set for `write`: every field at and around its limits, lent
//! buffers of 254 and 255 octets, STATUS of 251 and 252.

use crate::probe::tokens::hexadecimal;

/// Fields that are good, of each kind.
pub const GOOD: [&str; 9] = [
    "connect 01020304 1",
    "get_status 29f1",
    "immediate_setup 3 3359a2 29f1 01020304",
    "set_parameter 9",
    "setup 01020304",
    "status 9e 2 15",
    "termination 90",
    "termination_reject 9800",
    "termination_request 01020304",
];

/// Fields that are refused with 4, of each kind that can be refused so.
pub const BAD: [&str; 8] = [
    "connect 01020304 2",
    "get_status 290102030405060708",
    "immediate_setup 8 3359a2 29f1 01020304",
    "set_parameter 16",
    "status 9e 16 15",
    "status 9e 2 16",
    "termination -",
    "termination_reject -",
];

pub fn all(lines: &mut Vec<String>) {
    for good in GOOD {
        for value in [0, 1, 2, 3, 4, 5, 6, 7, 8, 15, 16, 255] {
            lines.push(format!("write 255 0 {value} {good}"));
            lines.push(format!("write 255 1 {value} {good}"));
        }
        for buffer_length in [0, 1, 128, 253, 254, 255, 256, 4_294_967_295u32] {
            lines.push(format!("write {buffer_length} 0 5 {good}"));
            // 5 comes before 4.
            lines.push(format!("write {buffer_length} 0 7 {good}"));
        }
    }
    for bad in BAD {
        for buffer_length in [254, 255, 256] {
            lines.push(format!("write {buffer_length} 0 5 {bad}"));
        }
    }
    numbers(lines);
    lengths(lines);
    status(lines);
}

/// Each half octet from 0 to beyond a half octet, and references of all sorts.
pub fn numbers(lines: &mut Vec<String>) {
    for number in (0..=18).chain([31, 32, 127, 128, 254, 255]) {
        lines.push(format!("write 255 1 0 connect 00000000 {number}"));
        lines.push(format!("write 255 1 0 set_parameter {number}"));
        lines.push(format!(
            "write 255 0 0 immediate_setup {number} 000000 29 00000000"
        ));
        lines.push(format!("write 255 0 0 status 80 {number} -"));
        lines.push(format!("write 255 0 0 status 80 - {number}"));
        lines.push(format!("write 255 0 0 status 80 {number} {number}"));
    }
    for reference in ["00000000", "ffffffff", "0000000f", "80000000"] {
        for kind in ["setup", "termination_request"] {
            lines.push(format!("write 255 0 6 {kind} {reference}"));
        }
        lines.push(format!("write 255 1 6 connect {reference} 0"));
        lines.push(format!(
            "write 255 0 6 immediate_setup 7 ffffff ff {reference}"
        ));
    }
}

/// Classmarks, identities and causes of too few, enough and too many octets.
pub fn lengths(lines: &mut Vec<String>) {
    for classmark in 0..=5 {
        for identity in [0, 1, 8, 9] {
            let classmark = hexadecimal(&vec![0x33; classmark]);
            let identity = hexadecimal(&vec![0x29; identity]);
            lines.push(format!(
                "write 255 0 1 immediate_setup 0 {classmark} {identity} 01020304"
            ));
        }
    }
    for length in (0..=10).chain([247, 255, 256, 259]) {
        let identity = hexadecimal(&vec![0x29; length]);
        lines.push(format!(
            "write 255 0 1 immediate_setup 0 3359a2 {identity} 01020304"
        ));
        lines.push(format!("write 255 1 1 get_status {identity}"));
    }
    for length in [
        0, 1, 2, 3, 127, 128, 245, 246, 247, 248, 249, 255, 256, 257, 300,
    ] {
        let cause = hexadecimal(&vec![0x90; length]);
        lines.push(format!("write 255 1 1 termination {cause}"));
        lines.push(format!("write 255 1 1 termination_reject {cause}"));
    }
    // An odd inner form of a cause passes.
    for cause in ["00", "7f", "ff", "0000", "007f80"] {
        lines.push(format!("write 255 1 1 termination {cause}"));
        lines.push(format!("write 255 0 1 status {cause} - -"));
    }
}

/// Causes of about 247 octets with none, one and both of the others.
fn status(lines: &mut Vec<String>) {
    for length in [0, 1, 2, 244, 245, 246, 247, 248, 249, 256] {
        let cause = hexadecimal(&vec![0xE0; length]);
        for call_state in ["-", "0", "15", "16"] {
            for attributes in ["-", "0", "15", "16"] {
                lines.push(format!(
                    "write 255 0 3 status {cause} {call_state} {attributes}"
                ));
            }
        }
    }
    let longest = hexadecimal(&[0xE0; 247]);
    lines.push(format!("write 254 0 3 status {longest} 1 1"));
    lines.push(format!("write 255 0 7 status {longest} 1 -"));
}
