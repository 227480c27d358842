//! The cause numbers that a step writes (the standard, 9.4.3, table 9.4) and
//! the octet that carries one.

pub const RESPONSE_TO_GET_STATUS: u8 = 30;
pub const SEMANTICALLY_INCORRECT_MESSAGE: u8 = 95;
pub const INVALID_MANDATORY_INFORMATION: u8 = 96;
pub const MESSAGE_TYPE_NON_EXISTENT: u8 = 97;
/// Table 9.4 gives 98 and 100 the same words; 98 is the one that GSM 04.08 has so.
pub const NOT_COMPATIBLE_WITH_STATE: u8 = 98;

/// `<cause> ::= 1 cause_part`: bit 8 says that no further cause part follows.
pub fn octet(cause: u8) -> u8 {
    0b1000_0000 | cause
}
