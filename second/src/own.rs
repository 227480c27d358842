//! The identity settings of this MS: ciphering key number, classmark and own
//! mobile identity, and when they are in range (document 01, "Answer numbers").

pub struct Own<'a> {
    pub key_number: u8,
    /// Three octets by its type, so never out of range.
    pub classmark: [u8; 3],
    pub identity: &'a [u8],
}

impl Own<'_> {
    pub fn in_range(&self) -> bool {
        self.key_number <= 7 && (1..=8).contains(&self.identity.len())
    }
}
