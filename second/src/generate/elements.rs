//! Optional elements by chance, good, unknown and faulty ones (document 01,
//! "Received messages").

use super::random::Random;
use crate::message::table::IDENTITY_IDENTIFIER;

/// A few elements one behind the other. `own` is an identity that a 17 may carry.
pub fn some(random: &mut Random, own: &[u8]) -> Vec<u8> {
    let count = random.pick(&[0, 0, 1, 1, 1, 2, 3, 4]);
    (0..count).flat_map(|_| one(random, own)).collect()
}

fn one(random: &mut Random, own: &[u8]) -> Vec<u8> {
    match random.below(12) {
        // One octet, bit 8 set.
        0 => vec![0x80 | random.octet()],
        // Call state and state attributes, or what is skipped in their place.
        1 | 2 => vec![random.pick(&[0xA0, 0xB0]) | random.octet() & 0x0F],
        3..=5 => identity(random, own),
        // Comprehension required, with a value, cut short, or alone.
        6 => {
            let identifier = random.octet() & 0x0F;
            let length = random.length(0, 3);
            let mut octets = with_length(identifier, random.octets(length));
            octets.truncate(random.pick(&[1, 2, 9, 9]));
            octets
        }
        // An element that runs past the end, if nothing much stands behind it.
        7 => {
            let missing = random.pick(&[1, 3, 40, 255]);
            vec![random.octet() & 0x7F | 0x10, missing]
        }
        // A lone identifier.
        8 => vec![random.pick(&[0x10, 0x17, 0x20, 0x7F, 0x00, 0x0F])],
        // Unknown, with a length octet.
        _ => {
            let identifier = random.pick(&[0x10, 0x16, 0x18, 0x20, 0x37, 0x57, 0x7F]);
            let length = random.pick(&[0, 0, 1, 2, 5]);
            with_length(identifier, random.octets(length))
        }
    }
}

/// Identifier 17 with a value that is ours, another one, too short or too long.
fn identity(random: &mut Random, own: &[u8]) -> Vec<u8> {
    let value = match random.below(8) {
        0..=2 => own.to_vec(),
        3 => Vec::new(),
        4 => random.octets(9),
        5 => {
            let mut other = own.to_vec();
            if let Some(last) = other.last_mut() {
                *last ^= 1;
            }
            other
        }
        _ => {
            let length = random.pick(&[1, 2, 7, 8]);
            random.octets(length)
        }
    };
    with_length(IDENTITY_IDENTIFIER, value)
}

fn with_length(identifier: u8, value: Vec<u8>) -> Vec<u8> {
    let mut octets = vec![identifier, value.len() as u8];
    octets.extend(value);
    octets
}
