//! Tables 8.1 to 8.9 of the standard, column by column: identifier, element,
//! presence, format and length in octets. The first three rows of each table,
//! protocol discriminator, transaction identifier and message type, are the
//! same in all nine and stand in octets 1 and 2; they are left out here. Of the
//! tables of 24.068 one alone is drawn otherwise, 8.8.

use super::Kind;
use crate::protocol::Protocol;

#[derive(Clone, Copy, PartialEq, Eq, Debug)]
pub enum Element {
    CallReference,
    OriginatorIndication,
    SpareHalfOctet,
    MobileIdentity,
    CipheringKeySequenceNumber,
    MobileStationClassmark2,
    StateAttributes,
    CallState,
    Cause,
}

use Element::*;

/// The column "Format" together with the column "Length", which counts the
/// whole element with its identifier and its length octet.
#[derive(Clone, Copy, PartialEq, Eq, Debug)]
pub enum Format {
    /// V, length 1/2.
    HalfV,
    /// V of so many octets.
    V(usize),
    /// LV, shortest and longest.
    Lv(usize, usize),
    /// TV of one octet: the identifier in the upper half, the value in the lower.
    Tv(u8),
    /// TLV: identifier, shortest and longest.
    Tlv(u8, usize, usize),
}

use Format::*;

/// The column "Presence".
#[derive(Clone, Copy, PartialEq, Eq, Debug)]
pub enum Presence {
    M,
    O,
}

use Presence::*;

pub type Row = (Element, Presence, Format);

/// Identifier of the optional mobile identity: document 01 takes 17 hexadecimal from GSM 04.08.
pub const IDENTITY_IDENTIFIER: u8 = 0x17;

/// Table 8.1.
const CONNECT: &[Row] = &[
    (CallReference, M, V(4)),
    (OriginatorIndication, M, HalfV),
    (SpareHalfOctet, M, HalfV),
];

/// Table 8.2.
const GET_STATUS: &[Row] = &[(MobileIdentity, O, Tlv(IDENTITY_IDENTIFIER, 3, 10))];

/// Table 8.3.
const IMMEDIATE_SETUP: &[Row] = &[
    (SpareHalfOctet, M, HalfV),
    (CipheringKeySequenceNumber, M, HalfV),
    (MobileStationClassmark2, M, Lv(4, 4)),
    (MobileIdentity, M, Lv(2, 9)),
    (CallReference, M, V(4)),
];

/// Table 8.4.
const SET_PARAMETER: &[Row] = &[(StateAttributes, M, HalfV), (SpareHalfOctet, M, HalfV)];

/// Table 8.5.
const SETUP: &[Row] = &[(CallReference, M, V(4))];

/// Table 8.6.
const STATUS: &[Row] = &[
    (Cause, M, Lv(2, 248)),
    (CallState, O, Tv(0xA)),
    (StateAttributes, O, Tv(0xB)),
];

/// Table 8.7.
const TERMINATION: &[Row] = &[(Cause, M, Lv(2, 248))];

/// Table 8.8.
const TERMINATION_REJECT: &[Row] = &[(Cause, M, Lv(2, 248))];

/// Table 8.8 of 24.068: four octets without a length octet.
const TERMINATION_REJECT_OF_GROUP: &[Row] = &[(Cause, M, V(4))];

/// Table 8.9.
const TERMINATION_REQUEST: &[Row] = &[(CallReference, M, V(4))];

pub fn of(protocol: Protocol, kind: Kind) -> &'static [Row] {
    match kind {
        Kind::Connect => CONNECT,
        Kind::GetStatus => GET_STATUS,
        Kind::ImmediateSetup => IMMEDIATE_SETUP,
        Kind::SetParameter => SET_PARAMETER,
        Kind::Setup => SETUP,
        Kind::Status => STATUS,
        Kind::Termination => TERMINATION,
        Kind::TerminationReject => match protocol {
            Protocol::Broadcast => TERMINATION_REJECT,
            Protocol::Group => TERMINATION_REJECT_OF_GROUP,
        },
        Kind::TerminationRequest => TERMINATION_REQUEST,
    }
}

/// The greatest value that fits a half octet element's own bits, the spare ones
/// left out: OI is 1 bit (9.4.4), the key number 3 bits (GSM 04.08, 10.5.1.2).
pub fn greatest_half(element: Element) -> u8 {
    match element {
        SpareHalfOctet => 0,
        OriginatorIndication => 0b0001,
        CipheringKeySequenceNumber => 0b0111,
        _ => 0b1111,
    }
}
