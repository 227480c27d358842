//! The program's own tests. Expected octets are worked out by hand from the
//! papers. Some compare the program with itself and say nothing about the
//! papers: `generated`, `vectors`, and of `tables` and `group_matrix` the tests
//! that steps keep contexts fit and that the fixed set has every cell. `pairs`
//! holds the judge to the step, one pair of timers at a time.

mod cases;
mod generated;
mod group_calls;
mod group_logs;
mod group_matrix;
mod invitations;
mod limits;
mod lines;
mod mending;
mod messages;
mod optional;
mod pairs;
mod reasons;
mod received;
mod recorder;
mod returns;
mod settings;
mod steps;
mod tables;
mod vectors;

use std::collections::BTreeSet;

/// Asks one command and compares its answer. Dots part octets for the eye alone.
pub fn expect(command: &str, answer: &str) {
    let line = command.replace('.', "");
    let asked = crate::probe::answer(line.as_bytes());
    assert_eq!(asked, answer.replace('.', ""), "for {command}");
}

/// A step of an MS with key number 3, classmark 33 59 A2 and identity 29 F1
/// that ignores nothing: the reason is 0.
pub fn expect_step(context: &str, event: &str, answer: &str) {
    step_with_reason(context, event, answer, 0);
}

/// A message that the same MS ignores, for this reason.
pub fn expect_ignored(context: &str, mode: u8, octets: &str, reason: u8) {
    let event = format!("18 0 00000000 {mode} {octets}");
    step_with_reason(context, &event, &format!("1 {context} 0 -"), reason);
}

fn step_with_reason(context: &str, event: &str, answer: &str, reason: u8) {
    expect(
        &format!("step {context} 3 3359a2 29f1 255 {event}"),
        &format!("{answer} {reason}"),
    );
}

/// The cleared context with answer 0 and these actions, in the form of an answer.
pub fn cleared(actions: u8) -> String {
    format!("0 0 0 0 0 00000000 0 {actions} -")
}

/// Of each word all answer numbers that there are, as `reached` tells them: both
/// what is made by chance and the fixed sets come to each of them.
pub const ANSWERS: [(&str, &str); 11] = [
    ("read", "0 13 6 ?"),
    ("write", "0 4 5 ?"),
    ("step", "0 1 2 3 4 5 6 7 ?"),
    ("settings", "0 12 ?"),
    ("judge", "0 10 4 8 9 ?"),
    ("record", "0 10 11 4 ?"),
    ("gread", "0 13 6 ?"),
    ("gwrite", "0 4 5 ?"),
    ("gstep", "0 1 2 3 4 5 6 7 ?"),
    ("grecord", "0 10 11 4 ?"),
    ("mend", "0 10 4 5 ?"),
];

/// The answer numbers that these commands come to, each once, in order.
pub fn reached(lines: &[String]) -> String {
    let answers = lines
        .iter()
        .map(|line| crate::probe::answer(line.as_bytes()));
    let numbers: BTreeSet<String> = answers
        .map(|answer| answer.split(' ').next().unwrap().to_string())
        .collect();
    numbers.into_iter().collect::<Vec<String>>().join(" ")
}
