//! The fixed sets of commands: both sides of every number in document 01, each
//! row of its tables and of document 02's, each table of clause 8 of the
//! standard, and its cases.

pub mod group_judge;
pub mod group_messages;
pub mod group_record;
pub mod group_step;
pub mod group_step_limits;
pub mod group_step_pending;
pub mod judge;
pub mod judge_invitations;
pub mod judge_limits;
pub mod judge_times;
pub mod judge_versions;
pub mod malformed;
pub mod mend;
pub mod messages;
pub mod read;
pub mod read_optional;
pub mod record;
pub mod settings;
pub mod step;
pub mod step_invitations;
pub mod step_limits;
pub mod step_reasons;
pub mod step_received;
pub mod step_returns;
pub mod write;

use crate::protocol::Protocol;
use std::collections::HashSet;
use std::io::{self, Write};

/// The fixed sets, each named after its command word; group logs have their own.
pub const SETS: [&str; 12] = [
    "read", "write", "step", "settings", "judge", "record", "gread", "gwrite", "gstep", "grecord",
    "mend", "judge16",
];

/// Prints one of the fixed sets.
pub fn run(set: &str, output: &mut dyn Write) -> io::Result<()> {
    for line in lines(set) {
        output.write_all(line.as_bytes())?;
        output.write_all(b"\n")?;
    }
    Ok(())
}

pub fn lines(set: &str) -> Vec<String> {
    let mut lines = Vec::new();
    match set {
        "read" => {
            read::all(&mut lines, Protocol::Broadcast);
            read_optional::all(&mut lines, Protocol::Broadcast);
        }
        "write" => write::all(&mut lines),
        "step" => {
            step::all(&mut lines);
            step_limits::all(&mut lines);
            step_received::all(&mut lines);
            step_reasons::all(&mut lines);
            step_returns::all(&mut lines);
            step_invitations::all(&mut lines);
        }
        "settings" => settings::all(&mut lines),
        "judge" => {
            judge::all(&mut lines);
            judge_limits::all(&mut lines);
            judge_times::all(&mut lines);
            judge_versions::all(&mut lines);
            judge_invitations::all(&mut lines);
        }
        "record" => record::all(&mut lines),
        "gread" => group_messages::to_read(&mut lines),
        "gwrite" => group_messages::to_write(&mut lines),
        "gstep" => {
            group_step::all(&mut lines);
            group_step_pending::all(&mut lines);
            group_step_limits::all(&mut lines);
        }
        "grecord" => group_record::all(&mut lines),
        "mend" => mend::all(&mut lines),
        _ => group_judge::all(&mut lines),
    }
    malformed::all(set, &mut lines);
    // Where two tables meet, a command comes up twice; once is enough.
    let mut seen = HashSet::new();
    lines.retain(|line| seen.insert(line.clone()));
    lines
}
