//! The fixed sets show every answer and every row, and are not too long.

use super::{reached, ANSWERS};
use crate::probe::answer;
use crate::state::{State, BROADCAST_STATES};
use crate::step::table::{Next, Trigger};
use crate::tables::Table;
use crate::vectors::{lines, SETS};
use std::collections::{BTreeSet, HashMap};

#[test]
fn every_answer_is_there() {
    for (word, answers) in ANSWERS {
        assert_eq!(reached(&lines(word)), answers, "{word}");
    }
    // Length, settings and malformed lines are the other set's.
    assert_eq!(reached(&lines("judge16")), "0 8 9");
}

#[test]
fn every_row_is_taken() {
    let asked: Vec<(String, String)> = lines("step")
        .into_iter()
        .map(|line| (answer(line.as_bytes()), line))
        .filter(|(answered, _)| answered.starts_with("0 "))
        .map(|(answered, line)| (line, answered))
        .collect();
    for row in Table::NEWEST.rows() {
        let states = BROADCAST_STATES
            .into_iter()
            .filter(|state| row.states.contains(state));
        for (state, next) in states.flat_map(|state| leads(state, row.next)) {
            let found = asked.iter().any(|(line, answered)| {
                let given: Vec<&str> = line.split(' ').collect();
                let got: Vec<&str> = answered.split(' ').collect();
                let event = match row.trigger {
                    Trigger::Event(number) => given[11] == number.to_string(),
                    Trigger::Message(kind) => {
                        given[11] == "18" && given[15][2..4] == format!("{:02x}", kind.type_octet())
                    }
                };
                event
                    && given[1] == state.number().to_string()
                    && got[1] == next.number().to_string()
                    && got[7] == row.actions.to_string()
            });
            assert!(found, "{state:?} {next:?} {row:?}");
        }
    }
}

/// The state, with each that a row can lead to from it.
fn leads(state: State, next: Next) -> Vec<(State, State)> {
    match next {
        Next::To(next) => vec![(state, next)],
        Next::Same => vec![(state, state)],
        Next::Back => {
            let asked_from = Table::NEWEST.asked_from().iter();
            asked_from.map(|next| (state, *next)).collect()
        }
    }
}

#[test]
fn every_pair_without_a_row_is_there() {
    let no_step: Vec<String> = lines("step")
        .into_iter()
        .filter(|line| answer(line.as_bytes()).starts_with("3 "))
        .collect();
    for state in BROADCAST_STATES {
        for event in (1..=17).chain([19]) {
            let has_row = Table::NEWEST
                .rows()
                .any(|row| row.states.contains(&state) && row.trigger == Trigger::Event(event));
            let found = no_step.iter().any(|line| {
                let given: Vec<&str> = line.split(' ').collect();
                given[1] == state.number().to_string() && given[11] == event.to_string()
            });
            assert!(has_row || found, "{state:?} {event}");
        }
    }
}

/// State, mode and reason of each message that is ignored; the mode is the last
/// but one of a command.
fn ignored(set: &str) -> BTreeSet<(u8, u8, u8)> {
    let number = |token: &str| token.parse().expect("a number");
    lines(set)
        .iter()
        .map(|line| (line, answer(line.as_bytes())))
        .filter(|(_, answered)| answered.starts_with("1 "))
        .map(|(line, answered)| {
            let given: Vec<&str> = line.split(' ').collect();
            let reason = answered.rsplit(' ').next().expect("its last token");
            let mode = given[given.len() - 2];
            (number(given[1]), number(mode), number(reason))
        })
        .collect()
}

#[test]
fn every_reason_is_there_where_it_can_be() {
    let mut possible = BTreeSet::new();
    for mode in [0, 1] {
        // Without a call nothing else is asked.
        possible.insert((0, mode, 1));
        for state in 1..=7 {
            possible.extend([2, 3, 4, 6].map(|reason| (state, mode, reason)));
        }
    }
    // Only an unacknowledged message can be for another.
    possible.extend((1..=7).map(|state| (state, 1, 5)));
    assert_eq!(ignored("step"), possible);
    // A group call too; of U2 each sub-state, and no U6.
    let mut possible = BTreeSet::from([(0, 0, 1)]);
    for state in [1, 2, 4, 5, 6, 8, 9, 10, 11, 12, 13] {
        possible.extend([2, 3, 4, 6].map(|reason| (state, 0, reason)));
        possible.insert((state, 1, 5));
    }
    assert!(ignored("gstep").is_superset(&possible));
}

#[test]
fn everything_pending_is_there_where_it_can_be() {
    // State, ORIG and COMM, and what is pending, of the fit contexts.
    let mut shown = BTreeSet::new();
    for line in lines("gstep") {
        let given: Vec<&str> = line.split(' ').collect();
        if !["?", "7"].contains(&answer(line.as_bytes()).split(' ').next().unwrap()) {
            let parameters: u8 = given[2].parse().unwrap();
            shown.insert((given[1].to_string(), parameters >> 2, given[8].to_string()));
        }
    }
    for state in ["2", "8", "9", "10", "11", "12", "13"] {
        // ORIG with COMM has nothing, ORIG alone two things, COMM alone two others.
        let without_comm = ["10", "13"].contains(&state);
        for (parameters, fit) in [(3, "0"), (2, "0246"), (1, "0145"), (0, "01234567")] {
            for pending in fit.chars() {
                let awaits_in_u1 = state == "2" && "1357".contains(pending);
                let inconsistent = without_comm && parameters & 1 == 1;
                let possible = !awaits_in_u1 && !inconsistent;
                let wanted = (state.to_string(), parameters, pending.to_string());
                assert_eq!(shown.contains(&wanted), possible, "{wanted:?}");
            }
        }
    }
}

/// Of the logs that stand behind all these versions with the same entries: by
/// which of them they are accepted, with what the first one answers.
fn accepted_under(versions: [u32; 2]) -> BTreeSet<(bool, bool, char)> {
    let answers: HashMap<String, String> = lines("judge")
        .into_iter()
        .map(|line| (line.clone(), answer(line.as_bytes())))
        .collect();
    let [one, other] = versions.map(|version| format!(" 29f1 {version:02x}"));
    let mut accepted = BTreeSet::new();
    for (line, first) in &answers {
        if let Some((head, entries)) = line.split_once(&one) {
            if let Some(second) = answers.get(&format!("{head}{other}{entries}")) {
                let number = first.chars().next().expect("an answer");
                accepted.insert((first.starts_with("0 "), second.starts_with("0 "), number));
            }
        }
    }
    accepted
}

#[test]
fn logs_under_two_numbers_are_there() {
    // Accepted by both, by one, by none; what version 1 or 2 refuses and version
    // 3 accepts is unreadable there, for its event 19, or unexplained.
    let all = [(true, true, '0'), (true, false, '0'), (false, false, '9')];
    for versions in [[1, 2], [1, 3], [2, 3]] {
        let accepted = accepted_under(versions);
        assert!(all.iter().all(|class| accepted.contains(class)));
    }
    assert!(accepted_under([1, 2]).contains(&(false, true, '9')));
    assert!(accepted_under([1, 3]).contains(&(false, true, '8')));
    assert!(accepted_under([1, 3]).contains(&(false, true, '9')));
    assert!(accepted_under([2, 3]).contains(&(false, true, '8')));
    // Version 3 has the rows of version 2, and one timer more: it explains
    // nothing that version 2 can read and does not explain.
    assert!(!accepted_under([2, 3]).contains(&(false, true, '9')));
}

/// A person can still look through a set. The longest, `judge`, has logs of three
/// versions, each with its own limits and claims.
#[test]
fn sizes() {
    let mut bytes = 0;
    for word in SETS {
        let lines = lines(word);
        assert!(
            (300..=6_500).contains(&lines.len()),
            "{word} {}",
            lines.len()
        );
        bytes += lines.iter().map(|line| line.len() + 1).sum::<usize>();
        assert!(lines.iter().all(|line| !line.contains('\n')));
    }
    assert!(bytes < 8_000_000);
}
