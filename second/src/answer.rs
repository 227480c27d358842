//! The answer numbers of document 01, "Answer numbers".

pub const TAKEN: u8 = 0;
pub const IGNORED: u8 = 1;
pub const REPORTED: u8 = 2;
pub const NO_STEP: u8 = 3;
pub const OUTSIDE_RANGE: u8 = 4;
pub const BUFFER_SHORT: u8 = 5;
pub const MESSAGE_LONG: u8 = 6;
pub const CONTEXT_NOT_FIT: u8 = 7;
pub const LOG_UNREADABLE: u8 = 8;
pub const ENTRY_UNEXPLAINED: u8 = 9;
pub const LOG_LONG: u8 = 10;
pub const LOG_NO_ROOM: u8 = 11;
pub const SETTINGS_REFUSED: u8 = 12;
pub const MESSAGE_UNREADABLE: u8 = 13;
