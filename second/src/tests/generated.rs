//! What is made by chance holds together: true runs are accepted under their own
//! version and reach every row, what was written is read back, what was recorded
//! is judged.

use super::{reached, ANSWERS};
use crate::generate::log::true_run;
use crate::generate::random::Random;
use crate::generate::{self, versions, walk::Walk};
use crate::log::judge::{judge, Judgement};
use crate::log::record::record;
use crate::own::Own;
use crate::probe::answer;
use crate::step::table::Row;
use crate::tables::{BROADCAST_TABLES, TABLES};
use crate::timer::Length;

fn commands(seed: u64, count: u64, word: &str) -> Vec<String> {
    let mut lines = Vec::new();
    generate::run(seed, count, &[word], &mut lines).unwrap();
    String::from_utf8(lines)
        .unwrap()
        .lines()
        .map(str::to_string)
        .collect()
}

fn judged(run: &Walk, log: &[u8]) -> Judgement {
    let own = Own {
        key_number: run.own.key_number,
        classmark: run.own.classmark,
        identity: &run.own.identity,
    };
    judge(&own, log)
}

#[test]
fn true_runs_are_accepted() {
    let mut random = Random::from_seed(1);
    for _ in 0..2_000 {
        let run = true_run(&mut random);
        match judged(&run, &run.log()) {
            Judgement::Accepted { count, windows } => {
                assert_eq!(count, run.entries.len() as u64);
                assert_eq!(windows.len(), run.table.settings().len());
                for (setting, window) in run.table.settings().iter().zip(windows) {
                    let length = Length::Set(*setting).milliseconds(&run.chosen);
                    assert!((window.least..=window.greatest).contains(&length));
                    let (least, greatest) = setting.bounds();
                    assert!(window.least >= least && window.greatest <= greatest);
                }
            }
            other => panic!("{other:?}"),
        }
    }
}

#[test]
fn true_runs_reach_every_row_and_answer() {
    for table in TABLES {
        let mut random = Random::from_seed(2);
        let mut rows: Vec<(&Row, u32)> = table.rows().map(|row| (row, 0)).collect();
        let mut answers = [0; 4];
        for run in (0..6_000).map(|_| true_run(&mut random)) {
            if run.table == table {
                count_rows(&run, &mut rows, &mut answers);
            }
        }
        assert!(rows.iter().all(|(_, count)| *count > 0), "{rows:?}");
        assert!(answers.iter().all(|&count| count > 100), "{answers:?}");
    }
}

/// How often each row was taken, and each answer given.
fn count_rows(run: &Walk, rows: &mut [(&Row, u32)], answers: &mut [u32; 4]) {
    let mut again = Walk::begin(run.table, run.own.clone(), run.chosen);
    for entry in &run.entries {
        answers[entry.answer as usize] += 1;
        for (row, count) in rows.iter_mut() {
            let taken = row.states.contains(&again.context.state)
                && entry.answer == 0
                && triggered(&row.trigger, entry)
                && entry.state == u32::from(row.next.from(&again.context).number())
                && entry.actions == u32::from(row.actions);
            *count += u32::from(taken);
        }
        again.enter(entry.event.clone(), u64::from(entry.delta));
    }
}

fn triggered(trigger: &crate::step::table::Trigger, entry: &crate::log::entry::Entry) -> bool {
    use crate::step::table::Trigger;
    match trigger {
        Trigger::Event(number) => *number == entry.event.number,
        Trigger::Message(kind) => {
            entry.event.number == 18 && entry.event.octets[1] & 0xBF == kind.type_octet()
        }
    }
}

#[test]
fn what_was_written_is_read_back() {
    written_is_read_back("write", "read");
    written_is_read_back("gwrite", "gread");
}

fn written_is_read_back(write: &str, read: &str) {
    let mut written = 0;
    for line in commands(3, 5_000, write) {
        let Some(octets) = answer(line.as_bytes())
            .strip_prefix("0 ")
            .map(str::to_string)
        else {
            continue;
        };
        written += 1;
        let message: Vec<&str> = line.splitn(3, ' ').collect();
        assert_eq!(
            answer(format!("{read} {octets}").as_bytes()),
            format!("0 {}", message[2])
        );
    }
    assert!(written > 1_000);
}

#[test]
fn what_was_recorded_is_judged() {
    let mut random = Random::from_seed(4);
    for _ in 0..500 {
        let run = true_run(&mut random);
        let mut buffer = vec![0xEE; 20_000];
        let mut used = 0;
        for entry in &run.entries {
            used = record(run.table, &mut buffer, used, entry).unwrap();
        }
        if run.entries.is_empty() {
            continue;
        }
        assert_eq!(buffer[..used], run.log());
        assert!(buffer[used..].iter().all(|&byte| byte == 0xEE));
        assert!(matches!(
            judged(&run, &buffer[..used]),
            Judgement::Accepted { .. }
        ));
    }
}

#[test]
fn the_same_seed_gives_the_same_commands() {
    for word in crate::probe::WORDS {
        assert_eq!(commands(5, 300, word), commands(5, 300, word));
        assert_ne!(commands(5, 300, word), commands(6, 300, word));
    }
}

#[test]
fn every_reason_is_reached_often() {
    for (word, place) in [("step", 9), ("gstep", 11)] {
        let mut reasons = [0; 7];
        for line in commands(8, 20_000, word) {
            let answered = answer(line.as_bytes());
            if let Some(reason) = answered.split(' ').nth(place) {
                reasons[reason.parse::<usize>().unwrap()] += 1;
            }
        }
        assert!(reasons.iter().all(|&count| count > 100), "{reasons:?}");
    }
}

/// Commands by chance with their answers, both in tokens; spoilt lines left out.
fn asked(seed: u64, word: &str) -> Vec<(Vec<String>, Vec<String>)> {
    let tokens = |line: &str| line.split(' ').map(str::to_string).collect::<Vec<String>>();
    commands(seed, 20_000, word)
        .iter()
        .map(|line| (tokens(line), tokens(&answer(line.as_bytes()))))
        .filter(|(_, answered)| answered[0] != "?")
        .collect()
}

#[test]
fn invitations_are_reached_often() {
    let steps = asked(10, "step");
    let count = |event: &str, answered: &str| {
        let with_it = |(line, got): &&(Vec<String>, Vec<String>)| {
            line[11] == event && got.join(" ").starts_with(answered)
        };
        steps.iter().filter(with_it).count()
    };
    // Notified, joined, run out, run out elsewhere, no event, not fit.
    assert!(count("10", "0 4 0 16 ") > 30);
    assert!(count("3", "0 5 0 2 ") > 30);
    assert!(count("19", "0 0 0 0 0 00000000 0 0 -") > 30);
    assert!(count("19", "3 ") > 30);
    assert!(count("20", "4 ") > 30);
    assert!(count("19", "7 ") > 10);
    // Version 3 accepted, with an invitation timer fixed by its expiry, and refused.
    let logs = asked(11, "judge");
    let judged = |fits: &dyn Fn(&str, &[String]) -> bool| {
        logs.iter()
            .filter(|(line, got)| fits(&line[4], got))
            .count()
    };
    assert!(judged(&|log, got| log.starts_with("03") && got.len() == 6) > 1_000);
    assert!(judged(&|_, got| got.len() == 6 && got[4] == got[5] && got[5] != "600000") > 200);
    assert!(judged(&|log, got| log.starts_with("03") && got[0] == "9") > 500);
    // Files with each limit of the fifth line, and without that line.
    let files = asked(12, "settings");
    let read = |ends: &str| {
        files
            .iter()
            .filter(|(_, got)| got.join(" ").ends_with(ends))
            .count()
    };
    assert!(read(" 1000") > 100 && read(" 600000") > 100);
    assert!(
        files
            .iter()
            .filter(|(_, got)| got.join(" ") == "12 5")
            .count()
            > 100
    );
}

#[test]
fn group_calls_are_reached_often() {
    let steps = asked(13, "gstep");
    let count = |fits: &dyn Fn(&[String], &[String]) -> bool| {
        steps.iter().filter(|(line, got)| fits(line, got)).count()
    };
    // Fit contexts of each state, everything pending in each sub-state but what
    // COMM forbids, and every place that is remembered.
    for state in [0, 1, 2, 4, 5, 6, 8, 9, 10, 11, 12, 13] {
        let state = state.to_string();
        assert!(count(&|line, got| line[1] == state && got[0] != "7") > 1_000);
    }
    for pending in 0..=7 {
        let pending = pending.to_string();
        assert!(count(&|line, got| line[8] == pending && got[0] != "7") > 300);
    }
    for from in ["2", "8", "9", "11", "12"] {
        assert!(count(&|line, got| line[6] == from && got[1] == from && got[0] == "0") > 10);
    }
    // Two messages in one reply; a value told; U5 by what was pending.
    assert!(count(&|_, got| got[0] == "0" && got[10].len() == 24) > 30);
    assert!(count(&|line, got| got[0] == "0" && line[13] == "18" && got[4] != line[4]) > 100);
    assert!(count(&|line, got| got[0] == "0" && line[1] != "6" && got[1] == "6") > 100);
    // Logs of version 16, true ones and others.
    let logs = asked(14, "judge");
    let judged = |answered: &str| {
        let group = |(line, got): &&(Vec<String>, Vec<String>)| {
            line[4].starts_with("10") && got[0] == answered
        };
        logs.iter().filter(group).count()
    };
    assert!(judged("0") > 1_000 && judged("9") > 500 && judged("8") > 200);
}

#[test]
fn every_answer_number_is_reached() {
    for (word, answers) in ANSWERS {
        assert_eq!(reached(&commands(7, 20_000, word)), answers, "{word}");
    }
}

#[test]
fn runs_by_each_table_are_judged_under_each_version() {
    let mut random = Random::from_seed(9);
    for table in BROADCAST_TABLES.into_iter().cycle().take(400) {
        let lines = versions::round(&mut random, table);
        // True and changed, each under 1, under 2 and under 3.
        assert_eq!(lines.len(), 6);
        let own = table.version() as usize - 1;
        assert!(answer(lines[own].as_bytes()).starts_with("0 "));
        let entries = |line: &str| line.rsplit_once(' ').expect("a log").1[2..].to_string();
        for same in [&lines[..3], &lines[3..]] {
            assert!(same.iter().all(|line| entries(line) == entries(&same[0])));
        }
    }
}
