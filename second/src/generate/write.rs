//! `write` by chance, every field at and around its limits.

use super::random::Random;
use crate::message::kind::TYPE_CODES;
use crate::message::{Fields, Kind, Message};
use crate::protocol::Protocol;

/// The length of a lent buffer, mostly a fit one.
pub fn buffer_length(random: &mut Random) -> u32 {
    match random.below(14) {
        0 => random.pick(&[254, 254, 253, 0]),
        1 => random.pick(&[256, 300, 4_294_967_295]),
        _ => 255,
    }
}

pub fn command(random: &mut Random, protocol: Protocol) -> String {
    let buffer_length = buffer_length(random);
    let kind = random.pick(&TYPE_CODES).1;
    let mut fields = fields(random);
    // In STATUS alone the state attributes may be absent.
    if kind == Kind::Status && random.one_in(3) {
        fields.state_attributes = None;
    }
    if (protocol, kind) == (Protocol::Group, Kind::TerminationReject) && !random.one_in(4) {
        let length = random.pick(&[3, 4, 4, 4, 5]);
        fields.cause = random.octets(length);
    }
    let message = Message {
        flag: random.octet() & 1,
        transaction_value: random.pick(&[0, 1, 2, 3, 4, 5, 6, 6, 0, 1, 6, 7, 8, 255]),
        kind,
        fields,
    };
    crate::commands::write(protocol, buffer_length, &message)
}

fn fields(random: &mut Random) -> Fields {
    let classmark = random.pick(&[3, 3, 3, 3, 3, 3, 3, 2, 4, 0]);
    let identity = random.pick(&[1, 2, 5, 7, 8, 8, 1, 0, 9, 10]);
    let cause = random.pick(&[1, 1, 1, 2, 2, 3, 8, 246, 247, 247, 0, 248, 249]);
    Fields {
        reference: random.reference(),
        originator_indication: random.pick(&[0, 1, 0, 1, 1, 2, 15, 16, 255]),
        key_number: random.pick(&[0, 1, 2, 3, 4, 5, 6, 7, 7, 8, 15, 255]),
        classmark: random.octets(classmark),
        identity: Some(random.octets(identity)),
        state_attributes: Some(half(random)),
        call_state: Some(half(random)).filter(|_| !random.one_in(3)),
        cause: random.octets(cause),
    }
}

/// Mostly a half octet, sometimes beyond one.
fn half(random: &mut Random) -> u8 {
    match random.below(12) {
        0 => 16,
        1 => 255,
        2 => 15,
        _ => random.octet() & 0x0F,
    }
}
