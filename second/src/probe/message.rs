//! The commands `read`, `write` and those of group calls, and the form that
//! messages have in them.

use super::tokens::*;
use crate::answer::{MESSAGE_LONG, MESSAGE_UNREADABLE, TAKEN};
use crate::message::read::{self, Unreadable};
use crate::message::{write, Fields, Kind, Message};
use crate::protocol::Protocol;

/// `read OCTETS`
pub fn read(protocol: Protocol, fields: &[&[u8]]) -> Option<String> {
    let [received] = fields else {
        return None;
    };
    let fault = match read::read(protocol, &octets(received)?) {
        Ok(message) => return Some(format!("{TAKEN} {}", form(&message))),
        Err(Unreadable::TooLong) => return Some(MESSAGE_LONG.to_string()),
        Err(Unreadable::UnderTwoOctets) => 1,
        Err(Unreadable::Discriminator) => 2,
        Err(Unreadable::Type) => 3,
        Err(Unreadable::MandatoryPart) => 4,
    };
    Some(format!("{MESSAGE_UNREADABLE} {fault}"))
}

/// `write BUFLEN FLAG TV KIND FIELDS..`
pub fn write(protocol: Protocol, fields: &[&[u8]]) -> Option<String> {
    let [buffer_length, flag, value, kind, rest @ ..] = fields else {
        return None;
    };
    let kind = Kind::from_name(kind)?;
    let message = Message {
        flag: small(flag, 1)?,
        transaction_value: small(value, 255)?,
        kind,
        fields: fields_of(kind, rest)?,
    };
    let buffer_length = number(buffer_length, u32::MAX)?;
    Some(match write::write(protocol, buffer_length, &message) {
        Err(answer) => answer.to_string(),
        Ok(written) => format!("{TAKEN} {}", hexadecimal(&written)),
    })
}

/// `FLAG TV KIND FIELDS..`
pub fn form(message: &Message) -> String {
    let fields = &message.fields;
    let rest = match message.kind {
        Kind::Connect => format!(
            "{} {}",
            hexadecimal(&fields.reference),
            fields.originator_indication
        ),
        Kind::GetStatus => hexadecimal(fields.identity.as_deref().unwrap_or(&[])),
        Kind::ImmediateSetup => format!(
            "{} {} {} {}",
            fields.key_number,
            hexadecimal(&fields.classmark),
            hexadecimal(fields.identity.as_deref().unwrap_or(&[])),
            hexadecimal(&fields.reference)
        ),
        Kind::SetParameter => optional_decimal(fields.state_attributes),
        Kind::Setup | Kind::TerminationRequest => hexadecimal(&fields.reference),
        Kind::Status => format!(
            "{} {} {}",
            hexadecimal(&fields.cause),
            optional_decimal(fields.call_state),
            optional_decimal(fields.state_attributes)
        ),
        Kind::Termination | Kind::TerminationReject => hexadecimal(&fields.cause),
    };
    format!(
        "{} {} {} {rest}",
        message.flag,
        message.transaction_value,
        message.kind.name()
    )
}

/// The fields behind KIND, or None where the line is malformed.
fn fields_of(kind: Kind, tokens: &[&[u8]]) -> Option<Fields> {
    let mut fields = Fields::default();
    match (kind, tokens) {
        (Kind::Connect, [reference, originator]) => {
            fields.reference = exactly(reference)?;
            fields.originator_indication = small(originator, 255)?;
        }
        // `-` is the absent identity: an optional one is never empty.
        (Kind::GetStatus, [identity]) => {
            fields.identity = Some(octets(identity)?).filter(|one| !one.is_empty());
        }
        (Kind::ImmediateSetup, [key_number, classmark, identity, reference]) => {
            fields.key_number = small(key_number, 255)?;
            fields.classmark = octets(classmark)?;
            fields.identity = Some(octets(identity)?);
            fields.reference = exactly(reference)?;
        }
        (Kind::SetParameter, [attributes]) => {
            fields.state_attributes = Some(small(attributes, 255)?);
        }
        (Kind::Setup | Kind::TerminationRequest, [reference]) => {
            fields.reference = exactly(reference)?;
        }
        (Kind::Status, [cause, call_state, attributes]) => {
            fields.cause = octets(cause)?;
            fields.call_state = optional_small(call_state)?;
            fields.state_attributes = optional_small(attributes)?;
        }
        (Kind::Termination | Kind::TerminationReject, [cause]) => fields.cause = octets(cause)?,
        _ => return None,
    }
    Some(fields)
}
