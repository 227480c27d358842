//! The nine messages: their kinds, their fields and the limits on a message
//! (the standard, clauses 8 and 9; document 01, "Answer numbers").

pub mod cause;
pub mod kind;
pub mod optional;
pub mod read;
pub mod table;
pub mod write;

pub use kind::Kind;

/// The longest message, read or written.
pub const LONGEST_MESSAGE: usize = 251;
/// The shortest reply buffer that may be lent.
pub const SHORTEST_BUFFER: u32 = 255;

/// One message of any kind. A kind uses the fields that its table in clause 8
/// names; the others keep their default.
#[derive(Clone, PartialEq, Eq, Debug)]
pub struct Message {
    /// Bit 8 of octet 1.
    pub flag: u8,
    /// Bits 5 to 7 of octet 1.
    pub transaction_value: u8,
    pub kind: Kind,
    pub fields: Fields,
}

/// The values of all elements that the nine tables name. Numbers are as wide as
/// a caller may hand them in, so that a writer can refuse what is too wide.
#[derive(Clone, PartialEq, Eq, Debug, Default)]
pub struct Fields {
    /// Carried as four octets and never taken apart.
    pub reference: [u8; 4],
    pub originator_indication: u8,
    pub key_number: u8,
    pub classmark: Vec<u8>,
    pub identity: Option<Vec<u8>>,
    pub state_attributes: Option<u8>,
    pub call_state: Option<u8>,
    pub cause: Vec<u8>,
}
