//! One good message of each kind, in octets by hand from tables 8.1 to 8.9 and
//! 9.1, for flag 1 and value 5; and the octets of odds and ends.

use crate::commands;
use crate::protocol::Protocol;

/// The name, the octets, and whether the MS receives this kind.
pub const EXAMPLES: [(&str, &[u8], bool); 9] = [
    // 8.1: reference, originator indication in bits 1 to 4.
    ("connect", &[0xD1, 0x33, 0x01, 0x02, 0x03, 0x04, 0x01], true),
    // 8.2: identifier 17, two octets of identity.
    ("get_status", &[0xD1, 0x39, 0x17, 0x02, 0x29, 0xF1], true),
    // 8.3: key number 3 in the upper half, classmark, identity, reference.
    (
        "immediate_setup",
        &[
            0xD1, 0x31, 0x30, 0x03, 0x33, 0x59, 0xA2, 0x02, 0x29, 0xF1, 0x01, 0x02, 0x03, 0x04,
        ],
        false,
    ),
    // 8.4: D-ATT and ORIG.
    ("set_parameter", &[0xD1, 0x3A, 0x09], true),
    // 8.5: reference.
    ("setup", &[0xD1, 0x32, 0x01, 0x02, 0x03, 0x04], false),
    // 8.6: cause 30, call state U2, all attributes.
    ("status", &[0xD1, 0x38, 0x01, 0x9E, 0xA2, 0xBF], false),
    // 8.7: cause 16.
    ("termination", &[0xD1, 0x34, 0x01, 0x90], true),
    // 8.8: cause 24 and a diagnostic octet.
    ("termination_reject", &[0xD1, 0x36, 0x02, 0x98, 0x00], true),
    // 8.9: reference.
    (
        "termination_request",
        &[0xD1, 0x35, 0x01, 0x02, 0x03, 0x04],
        false,
    ),
];

/// The examples of this protocol, still addressed as of broadcast calls: in a
/// group call a TERMINATION REJECT has four octets of cause without a length octet.
pub fn examples(protocol: Protocol) -> [(&'static str, &'static [u8], bool); 9] {
    let four_octets: &[u8] = &[0xD1, 0x36, 0x98, 0x00, 0x00, 0x00];
    EXAMPLES.map(|(name, octets, receives)| match (protocol, name) {
        (Protocol::Group, "termination_reject") => (name, four_octets, receives),
        _ => (name, octets, receives),
    })
}

/// The octets of the example of this name.
pub fn example(name: &str) -> Vec<u8> {
    EXAMPLES
        .iter()
        .find(|row| row.0 == name)
        .expect("a name of the table")
        .1
        .to_vec()
}

/// Octets written down for broadcast calls, as they are for this protocol: for
/// group calls the discriminators 0 and 1 change places.
pub fn of_protocol(protocol: Protocol, octets: &[u8]) -> Vec<u8> {
    let mut octets = octets.to_vec();
    if let (Protocol::Group, Some(first)) = (protocol, octets.first_mut()) {
        if *first & 0x0F <= 1 {
            *first ^= 1;
        }
    }
    octets
}

/// Reads octets that are written down for broadcast calls.
pub fn read(protocol: Protocol, octets: &[u8]) -> String {
    commands::read(protocol, &of_protocol(protocol, octets))
}

/// These octets with others behind them.
pub fn behind(octets: &[u8], more: &[u8]) -> Vec<u8> {
    [octets, more].concat()
}

/// Optional parts, each with what it is there to show.
pub const TAILS: [&[u8]; 34] = [
    &[0x80],                                           // one octet
    &[0xFF],                                           // one octet
    &[0x97, 0x05],                                     // one octet, then a lone 05
    &[0xA3],                                           // call state, in STATUS
    &[0xB4],                                           // state attributes, in STATUS
    &[0xB4, 0xA3, 0xA5, 0xB6],                         // any order, the first of each
    &[0x10, 0x00],                                     // lowest that is skipped
    &[0x7F, 0x00],                                     // highest with a length octet
    &[0x20, 0x01, 0x05],                               // 05 as a value
    &[0x20, 0x02, 0xA1, 0xB1],                         // A1 and B1 as values
    &[0x20],                                           // length octet missing
    &[0x20, 0x01],                                     // value missing
    &[0x20, 0xFF, 0x05],                               // past the end: 05 is no identifier
    &[0x20, 0xFF, 0x17, 0x01, 0x29],                   // past the end: 17 is no identifier
    &[0x20, 0x03, 0xA1, 0xB1],                         // past the end: A1 is no identifier
    &[0x00],                                           // comprehension required, lone
    &[0x05],                                           // the same
    &[0x0F, 0x00],                                     // the same with an empty value
    &[0x0F, 0x02, 0x00],                               // the same past the end
    &[0x05, 0x01, 0x00, 0x80],                         // the same, then another
    &[0x80, 0x05, 0x00],                               // behind one octet
    &[0x20, 0x01, 0x00, 0x05],                         // behind a length-carrying one
    &[0x17, 0x01, 0x07, 0x05],                         // behind a good identity
    &[0x17],                                           // identity, lone
    &[0x17, 0x00],                                     // identity of no octet
    &[0x17, 0x02, 0x29],                               // identity past the end
    &[0x17, 0x01, 0x29],                               // identity of one octet
    &[0x17, 0x02, 0x29, 0xF1],                         // identity of two
    &[0x17, 0x02, 0x29, 0xF2],                         // another one
    &[0x17, 0x08, 0x29, 1, 2, 3, 4, 5, 6, 7],          // identity of eight
    &[0x17, 0x09, 0x29, 1, 2, 3, 4, 5, 6, 7, 8],       // of nine: absent
    &[0x17, 0x00, 0x17, 0x02, 0x29, 0xF1],             // the first decides: absent
    &[0x17, 0x02, 0x29, 0xF2, 0x17, 0x02, 0x29, 0xF1], // the first decides: another
    &[0xA1, 0x20, 0x00, 0x17, 0x02, 0x29, 0xF1, 0xB2], // among others
];
