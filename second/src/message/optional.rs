//! The optional elements behind a mandatory part, one after the other
//! (document 01, "Received messages": identifier with bit 8 set is one octet,
//! others carry a length octet, skipping stops at one that runs past the end).

pub struct OptionalElement<'a> {
    pub identifier: u8,
    /// The value octets. None where the element runs past the end, and counts
    /// as absent; a one-octet element has an empty value.
    pub value: Option<&'a [u8]>,
}

impl OptionalElement<'_> {
    /// Bits 8 to 5 all zero: "comprehension required". None of the nine tables
    /// has such an identifier, so the element is unknown in every message.
    pub fn comprehension_required(&self) -> bool {
        self.identifier & 0xF0 == 0
    }
}

pub struct OptionalElements<'a> {
    rest: &'a [u8],
}

pub fn elements(rest: &[u8]) -> OptionalElements<'_> {
    OptionalElements { rest }
}

impl<'a> Iterator for OptionalElements<'a> {
    type Item = OptionalElement<'a>;

    fn next(&mut self) -> Option<OptionalElement<'a>> {
        let (&identifier, behind) = self.rest.split_first()?;
        if identifier & 0x80 != 0 {
            self.rest = behind;
            let value = Some(&behind[..0]);
            return Some(OptionalElement { identifier, value });
        }
        let value = match behind.split_first() {
            Some((&length, octets)) => octets.get(..usize::from(length)),
            None => None,
        };
        // An element that runs past the end is the last one; its identifier is
        // still handed out, because rule 3 applies to it.
        self.rest = match value {
            Some(octets) => &behind[1 + octets.len()..],
            None => &[],
        };
        Some(OptionalElement { identifier, value })
    }
}
