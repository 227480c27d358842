//! The messages that a step sends: the call's own three and STATUS (document
//! 01, "Received messages", last paragraph).

use crate::context::Context;
use crate::message::write::compose;
use crate::message::{cause, Fields, Kind, Message, LONGEST_MESSAGE};
use crate::own::Own;
use crate::protocol::Protocol;

/// The longest cause element, its length octet included.
const LONGEST_CAUSE_ELEMENT: usize = 248;
/// The octets of a STATUS besides its cause element: two before it, call state
/// and state attributes behind it.
const STATUS_BESIDES_CAUSE: usize = 4;

/// IMMEDIATE SETUP, SETUP or TERMINATION REQUEST, from the context that the
/// step leaves, so that the call's stored value and reference go out.
pub fn call_message(protocol: Protocol, kind: Kind, after: &Context, own: &Own) -> Vec<u8> {
    let fields = Fields {
        reference: after.reference,
        key_number: own.key_number,
        classmark: own.classmark.to_vec(),
        identity: Some(own.identity.to_vec()),
        ..Fields::default()
    };
    send(protocol, kind, after, fields)
}

/// The answer to GET STATUS, at once or later.
pub fn asked_status(protocol: Protocol, context: &Context) -> Vec<u8> {
    let cause = vec![cause::octet(cause::RESPONSE_TO_GET_STATUS)];
    status(protocol, cause, context)
}

/// A STATUS with this cause value, showing the context as it is.
fn status(protocol: Protocol, cause: Vec<u8>, context: &Context) -> Vec<u8> {
    let fields = Fields {
        cause,
        call_state: Some(context.state.call_state()),
        state_attributes: Some(context.parameters.attributes()),
        ..Fields::default()
    };
    send(protocol, Kind::Status, context, fields)
}

/// A STATUS that copies the whole received message behind its cause, or omits
/// the copy entirely where it does not fit.
pub fn error_status(protocol: Protocol, number: u8, received: &[u8], context: &Context) -> Vec<u8> {
    let mut value = vec![cause::octet(number)];
    // Length octet, cause octet, copy.
    let element = 2 + received.len();
    if element <= LONGEST_CAUSE_ELEMENT && element + STATUS_BESIDES_CAUSE <= LONGEST_MESSAGE {
        value.extend_from_slice(received);
    }
    status(protocol, value, context)
}

/// We send the opposite of the flag that we expect.
fn send(protocol: Protocol, kind: Kind, context: &Context, fields: Fields) -> Vec<u8> {
    let received_flag = context.received_flag(protocol).expect("U0 sends nothing");
    let message = Message {
        flag: 1 - received_flag,
        transaction_value: context.transaction_value,
        kind,
        fields,
    };
    compose(protocol, &message).expect("a step's own message is in range")
}
