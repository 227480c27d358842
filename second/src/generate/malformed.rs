//! Lines that are no commands: a good line spoilt so that it must be answered `?`.

use super::random::Random;
use crate::probe::{answer, MALFORMED};

/// Spoils a line until it is malformed; some ways leave some lines good.
pub fn spoil(random: &mut Random, line: String) -> Vec<u8> {
    loop {
        let spoilt = once(random, &line);
        if answer(&spoilt) == MALFORMED {
            return spoilt;
        }
    }
}

fn once(random: &mut Random, line: &str) -> Vec<u8> {
    let mut tokens: Vec<String> = line.split(' ').map(str::to_string).collect();
    let place = random.place(tokens.len());
    match random.below(13) {
        0 => return Vec::new(),
        1 => return format!("{line} ").into_bytes(),
        2 => return format!(" {line}").into_bytes(),
        3 => return format!("{line}\r").into_bytes(),
        4 => tokens.push("0".to_string()),
        5 => {
            tokens.pop();
        }
        6 => tokens[place] = String::new(),
        7 => tokens[place] = format!("0{}", tokens[place]),
        8 => tokens[place] = tokens[place].to_uppercase(),
        9 => tokens[place] = "-".to_string(),
        10 => tokens[place] = "4294967296".to_string(),
        11 => tokens[place].push('x'),
        _ => {
            tokens[0] = random
                .pick(&["reads", "READ", "step2", "?", "help"])
                .to_string()
        }
    }
    tokens.join(" ").into_bytes()
}
