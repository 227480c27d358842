//! What the judge's windows mean (document 01, "The log"; document 02, A13): a
//! log is explained by one joining timer and one invitation timer for all of it,
//! and the windows are all the pairs that do. Here each pair is tried by itself.

use crate::context::Context;
use crate::generate::log::{bytes, chosen, time, true_run};
use crate::generate::random::Random;
use crate::generate::walk::Walk;
use crate::log::entry::Entry;
use crate::log::judge::{judge, Judgement, Window};
use crate::own::Own;
use crate::step::step;
use crate::tables::Table;
use crate::timer::{Chosen, Setting, TIMERS};

fn own(run: &Walk) -> Own<'_> {
    Own {
        key_number: run.own.key_number,
        classmark: run.own.classmark,
        identity: &run.own.identity,
    }
}

/// How many entries, from the first on, are explained under these two timers.
fn explained(run: &Walk, entries: &[Entry], chosen: &Chosen) -> usize {
    let mut context = Context::cleared();
    let (mut now, mut started) = (0, [0; TIMERS]);
    for (place, entry) in entries.iter().enumerate() {
        now += u64::from(entry.delta);
        for (row, started) in run.table.timers().iter().zip(started) {
            let end = started + row.length.milliseconds(chosen);
            let expires = entry.event.number == row.expiry;
            if context.timers.runs(row.timer) && (now > end || expires && now != end) {
                return place;
            }
        }
        let outcome = step(run.table, &context, &own(run), 255, &entry.event);
        let claimed = (entry.answer, entry.state, entry.parameters, entry.actions);
        let given = (
            u32::from(outcome.answer),
            u32::from(outcome.context.state.number()),
            u32::from(outcome.context.parameters.number()),
            u32::from(outcome.actions),
        );
        if claimed != given || entry.reply != outcome.reply {
            return place;
        }
        for (row, started) in run.table.timers().iter().zip(&mut started) {
            if outcome.context.timers.runs(row.timer) && !context.timers.runs(row.timer) {
                *started = now;
            }
        }
        context = outcome.context;
    }
    entries.len()
}

/// A true run; or one that goes on under other timers, or has one time changed.
fn run(random: &mut Random) -> Walk {
    let mut run = true_run(random);
    match random.below(3) {
        0 => {
            run.go_home(random);
            run.chosen = chosen(random);
            run.go(random, 10);
        }
        1 => time(random, &mut run.entries),
        _ => (),
    }
    run
}

/// Lengths about the window's ends, the setting's bounds and the run's own, each
/// with whether the window has it.
fn tried(setting: Setting, window: Option<&Window>, one: u64) -> Vec<(u64, bool)> {
    let (least, greatest) = setting.bounds();
    let mut lengths = vec![least, least + 1, greatest - 1, greatest, one];
    if let Some(window) = window {
        let middle = (window.least + window.greatest) / 2;
        lengths.extend([window.least - 1, window.least, window.least + 1, middle]);
        lengths.extend([window.greatest - 1, window.greatest, window.greatest + 1]);
    }
    lengths.retain(|length| (least..=greatest).contains(length));
    let has = |length| window.is_none_or(|it| (it.least..=it.greatest).contains(&length));
    lengths
        .iter()
        .map(|&length| (length, has(length)))
        .collect()
}

#[test]
fn a_pair_explains_a_log_if_it_lies_in_both_windows() {
    let mut random = Random::from_seed(13);
    let (mut narrow, mut refused) = (0, 0);
    for _ in 0..3_000 {
        let run = run(&mut random);
        // Beyond a day an entry is unreadable, and says nothing of timers.
        if run.entries.iter().any(|entry| entry.delta > 86_400_000) {
            continue;
        }
        let judged = |entries: &[Entry]| judge(&own(&run), &bytes(run.table, entries));
        let (windows, whole) = match judged(&run.entries) {
            Judgement::Accepted { windows, count } => (windows, count as usize),
            Judgement::Unexplained(entry) => {
                // Up to the entry before there are such pairs, and none explains this one.
                let before = entry as usize - 1;
                match judged(&run.entries[..before]) {
                    Judgement::Accepted { windows, .. } => {
                        refused += 1;
                        let with_it = explained_by_any(&run, before + 1, &windows);
                        assert!(!with_it, "{:?}", run.entries);
                        (windows, before)
                    }
                    other => panic!("{other:?}"),
                }
            }
            other => panic!("{other:?}"),
        };
        narrow += u32::from(run.table == Table::Third && windows[1].least > 1_000);
        for (joining, in_one) in tried(Setting::Joining, windows.first(), run.chosen.joining) {
            let other = tried(Setting::Invitation, windows.get(1), run.chosen.invitation);
            for (invitation, in_other) in other {
                let pair = Chosen {
                    joining,
                    invitation,
                };
                let all = explained(&run, &run.entries[..whole], &pair) == whole;
                assert_eq!(all, in_one && in_other, "{pair:?} {:?}", run.entries);
            }
        }
    }
    assert!(narrow > 100 && refused > 100, "{narrow} {refused}");
}

/// Whether one of the pairs about the windows explains so many entries.
fn explained_by_any(run: &Walk, count: usize, windows: &[Window]) -> bool {
    let joining = tried(Setting::Joining, windows.first(), run.chosen.joining);
    let invitation = tried(Setting::Invitation, windows.get(1), run.chosen.invitation);
    joining.iter().any(|&(joining, _)| {
        invitation.iter().any(|&(invitation, _)| {
            let pair = Chosen {
                joining,
                invitation,
            };
            explained(run, &run.entries[..count], &pair) == count
        })
    })
}
