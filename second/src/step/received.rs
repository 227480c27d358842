//! Received messages, rules 1 to 6 of document 01 in their order, with the
//! sentences on GET STATUS and SET PARAMETER (clause 7 and 6.5.1 of either standard).
//! Wherever a message is ignored, the reason stands beside the rule.

use super::{flushed, reply, table, take, Outcome};
use crate::answer::*;
use crate::context::{Context, GREATEST_TRANSACTION_VALUE};
use crate::event::{Event, UNACKNOWLEDGED};
use crate::message::cause::*;
use crate::message::read::read_fields;
use crate::message::{Fields, Kind, Message};
use crate::own::Own;
use crate::protocol::Protocol;
use crate::reason::Reason;
use crate::state::Parameters;
use crate::tables::Table;
use table::Trigger;

/// What becomes of a message before the step.
enum Reading {
    Ignored(Reason),
    Reported(u8),
    Step(Message),
}

pub fn step(table: Table, context: &Context, own: &Own, event: &Event) -> Outcome {
    match examine(table, context, own, event) {
        Reading::Ignored(reason) => Outcome::ignored(context, reason),
        Reading::Reported(cause) => report(table, context, cause, &event.octets),
        // Rule 6.
        Reading::Step(message) => match message.kind {
            Kind::SetParameter => set_parameter(table, context, own, &message, &event.octets),
            Kind::GetStatus if context.parameters.comm => answer_status(table, context, &message),
            kind => match table::find(table, context, Trigger::Message(kind)) {
                Some(row) => {
                    let told = told_its_value(context, message.transaction_value);
                    take(table, row, &told, own, event, Some(&message))
                }
                // GET STATUS of a broadcast call; rule 2 saw a row of every other.
                None => Outcome::ignored(context, Reason::CommFalse),
            },
        },
    }
}

/// The context that a message finds: where the call awaits its value, the
/// message has told it.
fn told_its_value(context: &Context, value: u8) -> Context {
    let mut told = context.clone();
    if context.pending.value {
        told.transaction_value = value;
        told.pending.value = false;
    }
    told
}

/// Rules 1 to 5.
fn examine(table: Table, context: &Context, own: &Own, event: &Event) -> Reading {
    let octets = &event.octets;
    if let Some(reason) = no_concern_of_ours(table.protocol(), context, octets) {
        return Reading::Ignored(reason);
    }
    let kind = match Kind::from_type_octet(octets[1]) {
        None => return Reading::Reported(MESSAGE_TYPE_NON_EXISTENT),
        Some(kind) => kind,
    };
    if !compatible(table, context, kind) {
        return Reading::Reported(NOT_COMPATIBLE_WITH_STATE);
    }
    let fields = match read_fields(table.protocol(), kind, &octets[2..]) {
        None => return Reading::Reported(INVALID_MANDATORY_INFORMATION),
        Some(fields) => fields,
    };
    if event.mode == UNACKNOWLEDGED && names_another(&fields, own) {
        return Reading::Ignored(Reason::OtherIdentity);
    }
    // A group call may be another's: then CONNECT says so, and is taken.
    let must_be_ours = kind == Kind::Connect && table.protocol() == Protocol::Broadcast;
    if must_be_ours && fields.originator_indication == 0 {
        return Reading::Reported(SEMANTICALLY_INCORRECT_MESSAGE);
    }
    Reading::Step(Message {
        flag: octets[0] >> 7,
        transaction_value: value_of(octets),
        kind,
        fields,
    })
}

/// Bits 5 to 7 of octet 1.
fn value_of(octets: &[u8]) -> u8 {
    octets[0] >> 4 & 7
}

/// Rule 1: U0 (which alone has no flag), under two octets, another
/// discriminator, another value than ours or another flag than the call's. Any
/// value that a call can have is ours where the call awaits one.
fn no_concern_of_ours(protocol: Protocol, context: &Context, octets: &[u8]) -> Option<Reason> {
    let Some(flag) = context.received_flag(protocol) else {
        return Some(Reason::NoCall);
    };
    if octets.len() < 2 {
        return Some(Reason::TooShort);
    }
    if octets[0] & 0x0F != protocol.discriminator() {
        return Some(Reason::OtherProtocol);
    }
    let value = value_of(octets);
    let value_is_ours = match context.pending.value {
        true => u32::from(value) <= GREATEST_TRANSACTION_VALUE,
        false => value == context.transaction_value,
    };
    if !value_is_ours || octets[0] >> 7 != flag {
        return Some(Reason::TransactionMismatch);
    }
    None
}

/// Rule 2: a sentence (GET STATUS, SET PARAMETER in any state but U0) or a row
/// in this state, and not a type that the MS sends.
fn compatible(table: Table, context: &Context, kind: Kind) -> bool {
    if kind.sent_by_ms() {
        return false;
    }
    matches!(kind, Kind::GetStatus | Kind::SetParameter)
        || table::find(table, context, Trigger::Message(kind)).is_some()
}

/// Rule 4: identities are compared octet for octet, length included. GET STATUS
/// alone reaches this with an identity; an absent one names nobody else.
fn names_another(fields: &Fields, own: &Own) -> bool {
    match &fields.identity {
        None => false,
        Some(identity) => identity.as_slice() != own.identity,
    }
}

/// "Reported": answer 2 and a STATUS if COMM was true, else answer 1. The STATUS
/// carries the value received, though the call goes on awaiting one.
fn report(table: Table, context: &Context, cause: u8, octets: &[u8]) -> Outcome {
    if !context.parameters.comm {
        return Outcome::ignored(context, Reason::CommFalse);
    }
    let told = told_its_value(context, value_of(octets));
    Outcome {
        reply: reply::error_status(table.protocol(), cause, octets, &told),
        ..Outcome::quiet(context, REPORTED)
    }
}

/// GET STATUS with COMM true.
fn answer_status(table: Table, context: &Context, message: &Message) -> Outcome {
    let told = told_its_value(context, message.transaction_value);
    Outcome {
        reply: reply::asked_status(table.protocol(), &told),
        ..Outcome::quiet(&told, TAKEN)
    }
}

/// 6.5.1.2 names "message incompatible with protocol state" for inconsistent
/// values. They exist only where COMM is false in a fit context, so the report
/// is always answer 1; the wording of document 01 is kept all the same.
fn set_parameter(
    table: Table,
    context: &Context,
    own: &Own,
    message: &Message,
    octets: &[u8],
) -> Outcome {
    let attributes = message.fields.state_attributes.expect("its table has them");
    let parameters = Parameters::from_attributes(attributes);
    if !parameters.consistent_with(context.state) {
        return report(table, context, NOT_COMPATIBLE_WITH_STATE, octets);
    }
    let mut after = told_its_value(context, message.transaction_value);
    after.parameters = parameters;
    flushed(table, Outcome::quiet(&after, TAKEN), own)
}
