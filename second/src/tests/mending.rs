//! Mending a damaged log (document 02, A9): copies worked out by hand, and the
//! words of the request held to every cut and every bit of true logs.

use super::expect;
use crate::generate::log::true_run_by;
use crate::generate::random::Random;
use crate::log::judge::{judge, Judgement};
use crate::log::mend::{borders, mend, Mended};
use crate::own::Own;
use crate::tables::TABLES;

/// Join in U0: no step.
const JOIN: &str = "00030300000000";
/// The same, claiming to be taken.
const WRONG: &str = "00030000000000";

fn mended(log: &str, answer: &str) {
    let length = (log.replace(['.', '-'], "").len() / 2).max(1);
    expect(&format!("mend 3 3359a2 29f1 {length} {log}"), answer);
}

#[test]
fn refusals_in_their_order() {
    let long = "03".repeat(65_537);
    expect(&format!("mend 8 000000 - 0 {long}"), "10");
    expect(&format!("mend 7 000000 29 65537 {long}"), "10");
    expect("mend 8 000000 29 0 -", "4");
    expect("mend 7 000000 - 0 03", "4");
    expect("mend 7 000000 290000000000000000 0 03", "4");
    expect("mend 7 000000 2900000000000000 0 03", "5");
    expect("mend 7 000000 29 1 0380", "5");
    expect("mend 7 000000 29 2 0380", "0 0 1 8 03");
    // A log without bytes wants room for the 01.
    expect("mend 7 000000 29 0 -", "5");
    expect("mend 7 000000 29 1 -", "0 0 0 8 01");
    // 65,536 bytes are looked at: the second 03 begins an entry of event 3, whose
    // answer is 3, and whose state 3 is not U0.
    let longest = "03".repeat(65_536);
    expect(&format!("mend 7 000000 29 65535 {longest}"), "5");
    expect(
        &format!("mend 7 000000 29 65536 {longest}"),
        "0 0 65535 9 03",
    );
    expect(
        &format!("mend 7 000000 29 4294967295 {longest}"),
        "0 0 65535 9 03",
    );
}

#[test]
fn entry_0_unreadable() {
    mended("-", "0 0 0 8 01");
    for log in ["00", "04", "0f", "11", "7f", "80", "ff"] {
        mended(log, "0 0 1 8 01");
    }
    mended("8100", "0 0 2 8 01");
    mended(&format!("04.{JOIN}"), "0 0 8 8 01");
}

#[test]
fn each_version_stays_what_it_is() {
    for version in ["01", "02", "03", "10"] {
        mended(version, &format!("0 0 0 0 {version}"));
        mended(&format!("{version}.8000"), &format!("0 0 2 8 {version}"));
        mended(&format!("{version}.{WRONG}"), &format!("0 0 7 9 {version}"));
        mended(
            &format!("{version}.{JOIN}"),
            &format!("0 1 0 0 {version}.{JOIN}"),
        );
        mended(
            &format!("{version}.{JOIN}.{WRONG}.{JOIN}"),
            &format!("0 1 14 9 {version}.{JOIN}"),
        );
        mended(
            &format!("{version}.{JOIN}.{JOIN}.0003"),
            &format!("0 2 2 8 {version}.{JOIN}.{JOIN}"),
        );
    }
}

#[test]
fn a_window_that_is_empty_ends_it() {
    // Notified; T_pres ends after 5,000 ms (88 27) and then after 5,001 (89 27).
    let notified = "00.0a.01.00002a10.00.04.00.01.00";
    let forgotten = |delta: &str| format!("{delta}.13.00.00.00.00.00");
    let good = format!("03.{notified}.{}.{notified}", forgotten("8827"));
    mended(
        &format!("{good}.{}", forgotten("8927")),
        &format!("0 3 8 9 {good}"),
    );
    mended(
        &format!("{good}.{}", forgotten("8827")),
        &format!("0 4 0 0 {good}.{}", forgotten("8827")),
    );
    // Version 2 does not know event 19: entry 2 can't be read.
    let older = format!("02.{notified}");
    mended(
        &format!("{older}.{}", forgotten("8827")),
        &format!("0 1 8 8 {older}"),
    );
}

/// The words of the request, taken one by one. No entry number of the judge is
/// used: every run of entries from the start is judged.
fn holds(own: &Own, log: &[u8]) -> Mended {
    let mended = mend(own, log, log.len().max(1)).expect("settings and room");
    let accepted = |run: &[u8]| matches!(judge(own, run), Judgement::Accepted { .. });
    let runs: Vec<&[u8]> = borders(log).into_iter().map(|end| &log[..end]).collect();
    let longest = runs.iter().enumerate().rfind(|(_, run)| accepted(run));
    match longest {
        None => assert_eq!(
            mended,
            Mended {
                kept: 0,
                dropped: log.len(),
                ending: 8,
                copy: vec![0x01]
            }
        ),
        Some((kept, run)) => {
            assert_eq!((mended.kept, &mended.copy[..]), (kept as u64, *run));
            assert_eq!(mended.dropped, log.len() - run.len());
        }
    }
    let answer = match judge(own, log) {
        Judgement::Accepted { .. } => 0,
        Judgement::Unreadable(_) => 8,
        Judgement::Unexplained(_) => 9,
        other => panic!("{other:?}"),
    };
    assert_eq!(mended.ending, answer);
    assert!(accepted(&mended.copy));
    assert_eq!(accepted(log), mended.dropped == 0 && mended.ending == 0);
    assert_eq!(accepted(log), mended.copy == log);
    let again = mend(own, &mended.copy, mended.copy.len()).expect("room");
    assert_eq!((again.kept, again.copy), (mended.kept, mended.copy.clone()));
    assert_eq!((again.dropped, again.ending), (0, 0));
    mended
}

#[test]
fn every_cut_and_every_bit() {
    let mut random = Random::from_seed(17);
    for table in TABLES {
        let mut endings = [0; 10];
        // Every run of entries of each is judged, so they are short.
        let runs = (0..40).map(|_| true_run_by(&mut random, table));
        for run in runs.filter(|run| run.log().len() < 120).take(8) {
            let own = Own {
                key_number: run.own.key_number,
                classmark: run.own.classmark,
                identity: &run.own.identity,
            };
            let log = run.log();
            for length in 0..=log.len() {
                endings[usize::from(holds(&own, &log[..length]).ending)] += 1;
            }
            for place in 0..8 * log.len() {
                let mut changed = log.clone();
                changed[place / 8] ^= 1 << (place % 8);
                endings[usize::from(holds(&own, &changed).ending)] += 1;
            }
        }
        assert!([0, 8, 9].iter().all(|&ending| endings[ending] > 20));
    }
}
