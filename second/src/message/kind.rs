//! The nine kinds of message and their type codes (the standard, 9.3, table 9.1)
//! and which side sends them (the "Direction" lines of 8.1 to 8.9).

#[derive(Clone, Copy, PartialEq, Eq, Debug)]
pub enum Kind {
    ImmediateSetup,
    Setup,
    Connect,
    Termination,
    TerminationRequest,
    TerminationReject,
    Status,
    GetStatus,
    SetParameter,
}

use Kind::*;

/// Table 9.1, in its order, bit 7 written 0; then the name of the kind.
pub const TYPE_CODES: [(u8, Kind, &str); 9] = [
    (0b0011_0001, ImmediateSetup, "immediate_setup"),
    (0b0011_0010, Setup, "setup"),
    (0b0011_0011, Connect, "connect"),
    (0b0011_0100, Termination, "termination"),
    (0b0011_0101, TerminationRequest, "termination_request"),
    (0b0011_0110, TerminationReject, "termination_reject"),
    (0b0011_1000, Status, "status"),
    (0b0011_1001, GetStatus, "get_status"),
    (0b0011_1010, SetParameter, "set_parameter"),
];

/// Bit 7 is the send sequence number's: written 0, read as anything.
const WITHOUT_BIT_7: u8 = 0b1011_1111;

impl Kind {
    /// None is an unknown type. Bit 8 belongs to the code, so a type with bit 8 set is unknown.
    pub fn from_type_octet(octet: u8) -> Option<Kind> {
        TYPE_CODES
            .iter()
            .find(|row| row.0 == octet & WITHOUT_BIT_7)
            .map(|row| row.1)
    }

    pub fn type_octet(self) -> u8 {
        self.row().0
    }

    pub fn name(self) -> &'static str {
        self.row().2
    }

    pub fn from_name(name: &[u8]) -> Option<Kind> {
        TYPE_CODES
            .iter()
            .find(|row| row.2.as_bytes() == name)
            .map(|row| row.1)
    }

    /// Direction "MS to network": 8.3, 8.5, 8.6 and 8.9.
    pub fn sent_by_ms(self) -> bool {
        matches!(self, ImmediateSetup | Setup | Status | TerminationRequest)
    }

    fn row(self) -> &'static (u8, Kind, &'static str) {
        TYPE_CODES
            .iter()
            .find(|row| row.1 == self)
            .expect("every kind has its row")
    }
}
