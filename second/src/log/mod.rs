//! The log: its numbers, its entries, the judge and the recorder (document 01,
//! "The log"), and the mending of a damaged one (document 02, A9).

pub mod entry;
pub mod judge;
pub mod mend;
pub mod number;
pub mod record;

/// The most bytes that a log may have.
pub const LONGEST_LOG: usize = 65_536;
