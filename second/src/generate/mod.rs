//! Commands made by chance from a seed: the same seed gives the same commands.
//! They lean towards the places where document 01 draws a line.

pub mod elements;
pub mod group_walks;
pub mod judge;
pub mod log;
pub mod malformed;
pub mod mend;
pub mod messages;
pub mod random;
pub mod record;
pub mod settings;
pub mod step;
pub mod versions;
pub mod walk;
pub mod write;

use crate::commands;
use crate::probe::WORDS;
use crate::protocol::Protocol;
use crate::tables::Table;
use random::Random;
use std::io::{self, Write};

/// One line in so many is malformed.
const MALFORMED_SHARE: u64 = 200;
/// One log or buffer in so many is about 65,536 bytes long.
const LONG_SHARE: u64 = 2_200;

/// Prints so many commands of these words, of all if there are none.
pub fn run(seed: u64, count: u64, words: &[&str], output: &mut dyn Write) -> io::Result<()> {
    let words = if words.is_empty() { &WORDS } else { words };
    let mut random = Random::from_seed(seed);
    for _ in 0..count {
        let line = command(&mut random, words);
        output.write_all(&line)?;
        output.write_all(b"\n")?;
    }
    Ok(())
}

fn command(random: &mut Random, words: &[&str]) -> Vec<u8> {
    let word = random.pick(words);
    let long = random.one_in(LONG_SHARE);
    let protocol = protocol_of(word);
    let table = Table::newest_of(protocol);
    let line = match word {
        "read" | "gread" => commands::read(protocol, &messages::to_read(random, protocol)),
        "write" | "gwrite" => write::command(random, protocol),
        "step" | "gstep" => step::command(random, table),
        "settings" => commands::settings(&settings::file(random)),
        "judge" => judge::command(random, long),
        "mend" => mend::command(random, long),
        _ => record::command(random, table, long),
    };
    if random.one_in(MALFORMED_SHARE) {
        return malformed::spoil(random, line);
    }
    line.into_bytes()
}

/// The protocol that a word is about; `settings`, `judge` and `mend` are about both.
fn protocol_of(word: &str) -> Protocol {
    match word.starts_with(Protocol::Group.prefix()) {
        true => Protocol::Group,
        false => Protocol::Broadcast,
    }
}
