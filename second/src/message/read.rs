//! Reading a message without a context (document 01, "Answer numbers", and
//! "Received messages", rules 2 and 3), driven by the tables of clause 8.

use super::optional::elements;
use super::table::{self, greatest_half, Element, Format, Presence, Row};
use super::{Fields, Kind, Message, LONGEST_MESSAGE};
use crate::protocol::Protocol;

/// The faults behind answer 13, by their numbers, and the length behind answer 6.
#[derive(Clone, Copy, PartialEq, Eq, Debug)]
pub enum Unreadable {
    TooLong,
    UnderTwoOctets,
    Discriminator,
    Type,
    MandatoryPart,
}

pub fn read(protocol: Protocol, octets: &[u8]) -> Result<Message, Unreadable> {
    if octets.len() > LONGEST_MESSAGE {
        return Err(Unreadable::TooLong);
    }
    if octets.len() < 2 {
        return Err(Unreadable::UnderTwoOctets);
    }
    if octets[0] & 0x0F != protocol.discriminator() {
        return Err(Unreadable::Discriminator);
    }
    let kind = Kind::from_type_octet(octets[1]).ok_or(Unreadable::Type)?;
    let fields = read_fields(protocol, kind, &octets[2..]).ok_or(Unreadable::MandatoryPart)?;
    Ok(Message {
        flag: octets[0] >> 7,
        transaction_value: octets[0] >> 4 & 7,
        kind,
        fields,
    })
}

/// The elements behind the message type; None as rule 3 says.
pub fn read_fields(protocol: Protocol, kind: Kind, octets: &[u8]) -> Option<Fields> {
    let mut fields = Fields::default();
    let rows = table::of(protocol, kind);
    let rest = read_mandatory(rows, octets, &mut fields)?;
    if elements(rest).any(|element| element.comprehension_required()) {
        return None;
    }
    read_optional(rows, rest, &mut fields);
    Some(fields)
}

/// Takes the mandatory elements in the order of the table and gives what stands behind them.
fn read_mandatory<'a>(rows: &[Row], octets: &'a [u8], fields: &mut Fields) -> Option<&'a [u8]> {
    let mut rest = octets;
    // The upper half of an octet whose lower half the element before has taken.
    let mut upper_half: Option<u8> = None;
    for &(element, presence, format) in rows {
        if presence == Presence::O {
            continue;
        }
        match format {
            Format::HalfV => {
                let half = match upper_half.take() {
                    Some(half) => half,
                    None => {
                        let octet = take(&mut rest, 1)?[0];
                        upper_half = Some(octet >> 4);
                        octet & 0x0F
                    }
                };
                store_half(fields, element, half);
            }
            Format::V(length) => store(fields, element, take(&mut rest, length)?),
            Format::Lv(shortest, longest) => {
                let length = usize::from(take(&mut rest, 1)?[0]);
                // The table counts the length octet as well.
                if !(shortest..=longest).contains(&(length + 1)) {
                    return None;
                }
                store(fields, element, take(&mut rest, length)?);
            }
            Format::Tv(_) | Format::Tlv(..) => unreachable!("no mandatory element has these"),
        }
    }
    Some(rest)
}

/// The first appearance of each optional element that the table names decides.
fn read_optional(rows: &[Row], rest: &[u8], fields: &mut Fields) {
    for &(element, presence, format) in rows {
        if presence == Presence::M {
            continue;
        }
        match format {
            Format::Tv(upper) => {
                if let Some(found) = elements(rest).find(|one| one.identifier >> 4 == upper) {
                    store_half(fields, element, found.identifier & 0x0F);
                }
            }
            Format::Tlv(identifier, shortest, longest) => {
                let found = elements(rest).find(|one| one.identifier == identifier);
                if let Some(value) = found.and_then(|one| one.value) {
                    // The table counts identifier and length octet as well.
                    if (shortest..=longest).contains(&(value.len() + 2)) {
                        store(fields, element, value);
                    }
                }
            }
            _ => unreachable!("no optional element has these"),
        }
    }
}

fn take<'a>(rest: &mut &'a [u8], length: usize) -> Option<&'a [u8]> {
    let taken = rest.get(..length)?;
    *rest = &rest[length..];
    Some(taken)
}

/// Spare bits are read as anything, so they are dropped here.
fn store_half(fields: &mut Fields, element: Element, half: u8) {
    let value = half & greatest_half(element);
    match element {
        Element::OriginatorIndication => fields.originator_indication = value,
        Element::CipheringKeySequenceNumber => fields.key_number = value,
        Element::StateAttributes => fields.state_attributes = Some(value),
        Element::CallState => fields.call_state = Some(value),
        Element::SpareHalfOctet => (),
        _ => unreachable!("not a half octet"),
    }
}

fn store(fields: &mut Fields, element: Element, octets: &[u8]) {
    match element {
        Element::CallReference => fields.reference.copy_from_slice(octets),
        Element::MobileStationClassmark2 => fields.classmark = octets.to_vec(),
        Element::MobileIdentity => fields.identity = Some(octets.to_vec()),
        Element::Cause => fields.cause = octets.to_vec(),
        _ => unreachable!("a half octet"),
    }
}
