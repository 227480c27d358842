//! Messages by chance: of all nine kinds, then spoilt in the ways that
//! document 01 has a word on.

use super::elements;
use super::random::Random;
use crate::message::kind::TYPE_CODES;
use crate::message::write::compose;
use crate::message::{Fields, Kind, Message};
use crate::protocol::Protocol;
use crate::state::State;

/// What the first octet of a message says.
#[derive(Clone, Copy, PartialEq, Eq, Debug)]
pub struct Transaction {
    pub protocol: Protocol,
    pub flag: u8,
    pub value: u8,
}

/// A good message of this kind for this transaction.
pub fn good(random: &mut Random, kind: Kind, transaction: Transaction, own: &[u8]) -> Vec<u8> {
    let mut fields = fields(random, own);
    if (transaction.protocol, kind) == (Protocol::Group, Kind::TerminationReject) {
        fields.cause = random.octets(4);
    }
    let message = Message {
        flag: transaction.flag,
        transaction_value: 0,
        kind,
        fields,
    };
    let mut octets = compose(transaction.protocol, &message).expect("its fields are in range");
    // Value 7 can be received, though never written.
    octets[0] |= (transaction.value & 7) << 4;
    octets
}

fn fields(random: &mut Random, own: &[u8]) -> Fields {
    let cause_length = random.pick(&[1, 1, 1, 1, 2, 3, 9]);
    let identity = match (1..=8).contains(&own.len()) && random.one_in(2) {
        true => own.to_vec(),
        false => {
            let length = random.pick(&[1, 2, 5, 8]);
            random.octets(length)
        }
    };
    Fields {
        reference: random.reference(),
        originator_indication: u8::from(!random.one_in(4)),
        key_number: random.octet() & 7,
        classmark: random.octets(3),
        identity: Some(identity),
        state_attributes: Some(random.octet() & 0x0F),
        call_state: Some(random.octet() & 0x0F).filter(|_| !random.one_in(3)),
        cause: random.octets(cause_length),
    }
}

/// One of the nine kinds.
pub fn any_kind(random: &mut Random) -> Kind {
    random.pick(&TYPE_CODES).1
}

/// Mostly a kind that has a row or a sentence in this state.
pub fn likely_kind(random: &mut Random, state: State) -> Kind {
    if random.one_in(4) {
        return any_kind(random);
    }
    let of_the_state = match state {
        State::U0p | State::U1 => Kind::Connect,
        State::U5 => Kind::TerminationReject,
        _ => Kind::GetStatus,
    };
    random.pick(&[
        of_the_state,
        Kind::Termination,
        Kind::GetStatus,
        Kind::SetParameter,
    ])
}

/// A message of this kind, good or spoilt, for this transaction.
pub fn any(random: &mut Random, kind: Kind, transaction: Transaction, own: &[u8]) -> Vec<u8> {
    let mut octets = good(random, kind, transaction, own);
    if kind == Kind::GetStatus && random.one_in(2) {
        octets.truncate(2);
    }
    spare_bits(random, kind, &mut octets);
    if random.one_in(2) {
        octets.extend(elements::some(random, own));
    }
    spoil(random, &mut octets);
    octets
}

/// Spare bits and spare halves are read as anything, bit 7 of the type too.
fn spare_bits(random: &mut Random, kind: Kind, octets: &mut [u8]) {
    if random.one_in(4) {
        octets[1] |= 0x40;
    }
    if random.one_in(2) {
        return;
    }
    match kind {
        Kind::Connect => octets[6] |= random.octet() & 0xFE,
        Kind::SetParameter => octets[2] |= random.octet() & 0xF0,
        Kind::ImmediateSetup => octets[2] |= random.octet() & 0x8F,
        _ => (),
    }
}

fn spoil(random: &mut Random, octets: &mut Vec<u8>) {
    match random.below(16) {
        // Cut at any place.
        0..=2 => {
            let length = random.length(0, octets.len());
            octets.truncate(length);
        }
        // One octet behind the type changed: a length octet, often.
        3 | 4 if octets.len() > 2 => {
            let place = random.length(2, octets.len() - 1);
            octets[place] = random.pick(&[0, 1, 2, 4, 8, 9, 247, 248, 255]);
        }
        5 => octets[1] = random.octet(),
        6 => {
            let length = random.pick(&[244, 245, 246, 247, 250, 251, 252, 253]);
            fill(random, octets, length);
        }
        7 => {
            let place = random.place(octets.len());
            octets[place] = random.octet();
        }
        _ => (),
    }
}

/// Unknown elements until the message has this length.
pub fn fill(random: &mut Random, octets: &mut Vec<u8>, length: usize) {
    while octets.len() < length {
        let missing = length - octets.len();
        if missing < 2 || random.one_in(3) {
            octets.push(0x80 | random.octet());
        } else {
            let value = random.length(0, missing - 2);
            octets.push(random.pick(&[0x10, 0x20, 0x7F, 0x17]));
            octets.push(value as u8);
            octets.extend(random.octets(value));
        }
    }
}

/// A message to be read without a context.
pub fn to_read(random: &mut Random, protocol: Protocol) -> Vec<u8> {
    let transaction = Transaction {
        protocol,
        flag: random.octet() & 1,
        value: random.octet() & 7,
    };
    let kind = any_kind(random);
    let own = [0x29, 0xF1];
    match random.below(40) {
        0 => {
            let length = random.pick(&[0, 1, 2, 3, 20]);
            random.octets(length)
        }
        1 => {
            let mut octets = any(random, kind, transaction, &own);
            if let Some(first) = octets.first_mut() {
                *first = random.octet();
            }
            octets
        }
        2 => long_cause(random, transaction),
        _ => any(random, kind, transaction, &own),
    }
}

/// Causes about as long as their table and the message allow.
fn long_cause(random: &mut Random, transaction: Transaction) -> Vec<u8> {
    let Transaction {
        protocol,
        flag,
        value,
    } = transaction;
    let code = random.pick(&[0x34, 0x36, 0x38]);
    let length = random.pick(&[243, 244, 245, 246, 247, 248, 249]);
    let mut octets = vec![
        flag << 7 | value << 4 | protocol.discriminator(),
        code,
        length,
    ];
    octets.extend(random.octets(usize::from(length)));
    if random.one_in(3) {
        octets.push(0xA0 | random.octet() & 0x1F);
    }
    if random.one_in(6) {
        octets.pop();
    }
    octets
}
