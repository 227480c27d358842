//! Writing a message (document 01, "Answer numbers": 5, then 4, else 0), driven
//! by the tables of clause 8.

use super::table::{self, greatest_half, Element, Format};
use super::{Fields, Message, LONGEST_MESSAGE, SHORTEST_BUFFER};
use crate::answer::{BUFFER_SHORT, OUTSIDE_RANGE};
use crate::context::GREATEST_TRANSACTION_VALUE;
use crate::protocol::Protocol;

/// The octets written, or the number of the refusal.
pub fn write(protocol: Protocol, buffer_length: u32, message: &Message) -> Result<Vec<u8>, u8> {
    if buffer_length < SHORTEST_BUFFER {
        return Err(BUFFER_SHORT);
    }
    compose(protocol, message).ok_or(OUTSIDE_RANGE)
}

/// The octets of a message, or None where a field is outside its range or the
/// message would be too long.
pub fn compose(protocol: Protocol, message: &Message) -> Option<Vec<u8>> {
    let value = message.transaction_value;
    if message.flag > 1 || u32::from(value) > GREATEST_TRANSACTION_VALUE {
        return None;
    }
    let mut octets = vec![
        message.flag << 7 | value << 4 | protocol.discriminator(),
        message.kind.type_octet(),
    ];
    let mut lower_half: Option<u8> = None;
    for &(element, _, format) in table::of(protocol, message.kind) {
        match format {
            Format::HalfV => {
                let half = half_of(&message.fields, element)?;
                lower_half = match lower_half {
                    // The first named of two half octets takes bits 1 to 4.
                    None => Some(half),
                    Some(lower) => {
                        octets.push(half << 4 | lower);
                        None
                    }
                };
            }
            Format::V(length) => {
                let value = octets_of(&message.fields, element)?;
                if value.len() != length {
                    return None;
                }
                octets.extend_from_slice(value);
            }
            Format::Lv(shortest, longest) => {
                let value = octets_of(&message.fields, element)?;
                push_with_length(&mut octets, value, shortest - 1, longest - 1)?;
            }
            Format::Tv(upper) => push_half(&mut octets, &message.fields, element, upper)?,
            Format::Tlv(identifier, shortest, longest) => {
                if let Some(value) = octets_of(&message.fields, element) {
                    octets.push(identifier);
                    push_with_length(&mut octets, value, shortest - 2, longest - 2)?;
                }
            }
        }
    }
    (octets.len() <= LONGEST_MESSAGE).then_some(octets)
}

/// The value octets with their length octet before them.
fn push_with_length(
    octets: &mut Vec<u8>,
    value: &[u8],
    shortest: usize,
    longest: usize,
) -> Option<()> {
    if value.len() < shortest || value.len() > longest {
        return None;
    }
    octets.push(u8::try_from(value.len()).ok()?);
    octets.extend_from_slice(value);
    Some(())
}

/// An optional half octet behind its half octet identifier, or nothing if it is absent.
fn push_half(octets: &mut Vec<u8>, fields: &Fields, element: Element, upper: u8) -> Option<()> {
    let present = match element {
        Element::CallState => fields.call_state,
        Element::StateAttributes => fields.state_attributes,
        _ => unreachable!("no other element is TV"),
    };
    if let Some(value) = present {
        if value > greatest_half(element) {
            return None;
        }
        octets.push(upper << 4 | value);
    }
    Some(())
}

/// A mandatory half octet within its own bits; spare bits and spare halves are written 0.
fn half_of(fields: &Fields, element: Element) -> Option<u8> {
    let value = match element {
        Element::SpareHalfOctet => 0,
        Element::OriginatorIndication => fields.originator_indication,
        Element::CipheringKeySequenceNumber => fields.key_number,
        Element::StateAttributes => fields.state_attributes?,
        _ => unreachable!("not a mandatory half octet"),
    };
    (value <= greatest_half(element)).then_some(value)
}

/// The value of an element of whole octets; None is an absent identity.
fn octets_of(fields: &Fields, element: Element) -> Option<&[u8]> {
    match element {
        Element::CallReference => Some(&fields.reference),
        Element::MobileStationClassmark2 => Some(&fields.classmark),
        Element::MobileIdentity => fields.identity.as_deref(),
        Element::Cause => Some(&fields.cause),
        _ => unreachable!("a half octet"),
    }
}
