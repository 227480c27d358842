//! The line protocol: a command a line in, an answer a line out. Anything that
//! is not a well formed command is answered `?`.

pub mod log;
pub mod message;
pub mod step;
pub mod tokens;

use crate::answer::SETTINGS_REFUSED;
use crate::protocol::Protocol::{Broadcast, Group};
use crate::settings;
use crate::tables::Table;
use std::io::{self, BufRead, Write};

/// The command words, in the order in which they came to be.
pub const WORDS: [&str; 11] = [
    "read", "write", "step", "settings", "judge", "record", "gread", "gwrite", "gstep", "grecord",
    "mend",
];

/// The answer to what is no command.
pub const MALFORMED: &str = "?";

/// Answers every line until the input ends. A last line without LF is still a line.
pub fn run(input: &mut dyn BufRead, output: &mut dyn Write) -> io::Result<()> {
    let mut line = Vec::new();
    loop {
        line.clear();
        if input.read_until(b'\n', &mut line)? == 0 {
            return output.flush();
        }
        if line.last() == Some(&b'\n') {
            line.pop();
        }
        output.write_all(answer(&line).as_bytes())?;
        output.write_all(b"\n")?;
    }
}

/// The answer to one line, without its LF.
pub fn answer(line: &[u8]) -> String {
    let tokens: Vec<&[u8]> = line.split(|&byte| byte == b' ').collect();
    // No reader below takes an empty token, so two spaces in a row, or one at
    // either end, come out as malformed.
    let (word, fields) = (tokens[0], &tokens[1..]);
    let answered = match word {
        b"read" => message::read(Broadcast, fields),
        b"write" => message::write(Broadcast, fields),
        b"step" => step::step(Table::NEWEST, fields),
        b"settings" => settings_file(fields),
        b"judge" => log::judge(fields),
        b"record" => log::record(Table::NEWEST, fields),
        b"gread" => message::read(Group, fields),
        b"gwrite" => message::write(Group, fields),
        b"gstep" => step::step(Table::Group, fields),
        b"grecord" => log::record(Table::Group, fields),
        b"mend" => log::mend(fields),
        _ => None,
    };
    answered.unwrap_or_else(|| MALFORMED.to_string())
}

/// `settings OCTETS`
fn settings_file(fields: &[&[u8]]) -> Option<String> {
    let [file] = fields else {
        return None;
    };
    Some(match settings::read(&tokens::octets(file)?) {
        Err(line) => format!("{SETTINGS_REFUSED} {line}"),
        Ok(read) => format!(
            "0 {} {} {} {} {}",
            read.key_number,
            tokens::hexadecimal(&read.classmark),
            tokens::hexadecimal(&read.identity),
            read.conn_req_ms,
            read.present_ms
        ),
    })
}
