//! The second program: document 01, what document 02 changes in it and the
//! standards (GSM 04.69, 7.2.0, and for group calls 24.068, 3.1.0) written down
//! once more, so that another program can be compared with it command by
//! command. This file has the subcommands alone.

mod answer;
mod call;
mod commands;
mod context;
mod event;
mod generate;
mod log;
mod message;
mod own;
mod probe;
mod protocol;
mod reason;
mod settings;
mod state;
mod step;
mod tables;
mod timer;
mod vectors;

#[cfg(test)]
mod tests;

use std::io::{self, BufReader, BufWriter, Write};
use std::process::ExitCode;

const USAGE: &str = "\
usage: second probe
           answers the commands on standard input, a line each
       second generate SEED COUNT [WORD..]
           prints COUNT commands, the same ones for the same SEED; with words, only those
       second versions SEED COUNT
           prints judge commands: COUNT runs by each table, under the number of each version
       second group_walks SEED COUNT
           prints COUNT runs of group calls, as steps and as logs
       second vectors SET
           prints one of the fixed sets of commands
       second --help
words: read write step settings judge record gread gwrite gstep grecord mend
sets: the words, and judge16 for the logs of group calls
";

fn main() -> ExitCode {
    let arguments: Vec<String> = std::env::args().skip(1).collect();
    let words: Vec<&str> = arguments.iter().map(String::as_str).collect();
    let mut output = BufWriter::with_capacity(1 << 16, io::stdout().lock());
    let done = match words.as_slice() {
        ["probe"] => {
            let mut input = BufReader::with_capacity(1 << 16, io::stdin().lock());
            probe::run(&mut input, &mut output)
        }
        ["generate", seed, count, chosen @ ..] => match (seed.parse(), count.parse()) {
            (Ok(seed), Ok(count)) if chosen.iter().all(|word| probe::WORDS.contains(word)) => {
                generate::run(seed, count, chosen, &mut output)
            }
            _ => return usage_error(),
        },
        ["versions", seed, count] => match (seed.parse(), count.parse()) {
            (Ok(seed), Ok(count)) => generate::versions::run(seed, count, &mut output),
            _ => return usage_error(),
        },
        ["group_walks", seed, count] => match (seed.parse(), count.parse()) {
            (Ok(seed), Ok(count)) => generate::group_walks::run(seed, count, &mut output),
            _ => return usage_error(),
        },
        ["vectors", set] if vectors::SETS.contains(set) => vectors::run(set, &mut output),
        ["--help"] => output.write_all(USAGE.as_bytes()),
        _ => return usage_error(),
    };
    // A reader that has gone away is no fault of the commands.
    match done.and_then(|()| output.flush()) {
        Ok(()) => ExitCode::SUCCESS,
        Err(_) => ExitCode::FAILURE,
    }
}

fn usage_error() -> ExitCode {
    eprint!("second: what is asked for is not one of these\n{USAGE}");
    ExitCode::from(2)
}
