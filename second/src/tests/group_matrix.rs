//! The step of a group call, all states by event, typed off the paper's matrix:
//! "3" is answer 3, "=" stays, the number is the actions; IS, SU, ST and TR are
//! IMMEDIATE SETUP, SETUP, STATUS and TERMINATION REQUEST in the reply. Where a
//! cell has several outcomes, the fit contexts of the state give all of them and
//! no other. And how many contexts are fit.

use crate::call::{Chooser, Pending, CHOOSERS};
use crate::context::Context;
use crate::event::Event;
use crate::message::Kind;
use crate::own::Own;
use crate::state::{Parameters, State, GROUP_STATES};
use crate::step::{step, Outcome};
use crate::tables::Table;
use crate::timer::RunningTimers;
use std::collections::BTreeSet;

pub const OWN: Own = Own {
    key_number: 3,
    classmark: [0x33, 0x59, 0xA2],
    identity: &[0x29, 0xF1],
};

/// The columns: each state's name and number.
const COLUMNS: [(&str, u8); 12] = [
    ("U0", 0),
    ("U0.p", 1),
    ("U1", 2),
    ("U2sl", 8),
    ("U2wr", 9),
    ("U2r", 10),
    ("U2ws", 11),
    ("U2sr", 12),
    ("U2nc", 13),
    ("U3", 4),
    ("U4", 5),
    ("U5", 6),
];

#[rustfmt::skip]
const MATRIX: &str = "
 1 | U0.p 2 | 3 | 3 | 3 | 3 | 3 | 3 | 3 | 3 | 3 | 3 | 3
 2 | U1 0 IS | 3 | 3 | 3 | 3 | 3 | 3 | 3 | 3 | 3 | 3 | 3
 3 | 3 | 3 | 3 | 3 | 3 | 3 | 3 | 3 | 3 | U4 4 | 3 | 3
 4 | 3 | 3 | 3 / = 0 / U5 0 TR | 3 / = 0 / U5 0 TR | 3 / = 0 / U5 0 TR | 3 / U2ws 64 | 3 / = 0 / U5 0 TR | 3 / = 0 / U5 0 TR | 3 / = 0 | 3 | 3 | 3
 5 | 3 | U0 16 | U0 16 | U0 16 | U0 16 | U0 16 | U0 16 | U0 16 | U0 16 | U0 16 | U0 16 | U0 16
 6 | 3 | U1 0 SU / U1 0 SU+ST | 3 | 3 | 3 | 3 | 3 | 3 | 3 | 3 | 3 | 3
 7 | 3 | U0 0 | 3 / U0 0 | 3 | 3 | 3 | 3 | 3 | 3 | 3 | 3 | 3
 8 | 3 | U0 8 | U0 8 | U0 9 | U0 9 | U0 9 | U0 9 | U0 9 | U0 9 | U0 9 | U0 9 | U0 9
 9 | 3 | U0 9 | U0 9 | U0 9 | U0 9 | U0 9 | U0 9 | U0 9 | U0 9 | U0 9 | U0 9 | U0 9
10 | U3 1 | 3 | 3 | 3 | 3 | 3 | 3 | 3 | 3 | 3 | 3 | 3
11 | 3 | 3 | 3 | U2r 0 | U2r 0 | = 0 | U2r 0 | U2r 0 | U2r 0 | 3 | U2r 1 | 3
12 | 3 | 3 | 3 | U2nc 0 | U2nc 0 | U2nc 0 | U2nc 0 | U2nc 0 | = 0 | 3 | 3 | 3
13 | 3 | 3 | 3 | 3 | 3 | 3 | 3 | 3 | 3 | 3 | 3 | 3
14 | 3 | U0 8 | 3 / U0 8 | 3 | 3 | 3 | 3 | 3 | 3 | 3 | 3 | 3
15 | 3 | 3 | 3 | 3 | 3 | 3 | 3 | 3 | 3 | 3 | 3 | U0 9
16 | 3 | 3 | 3 | 3 | 3 | 3 | 3 | 3 | 3 | 3 | U0 9 | 3
17 | 3 | 3 | 3 | 3 | 3 | 3 | 3 | 3 | U0 9 | 3 | 3 | 3
32 | 3 | 3 | 3 | U2wr 4 / U2wr 4 ST / U5 4 ST+TR / U5 4 TR | 3 | 3 | 3 | U2wr 4 / U2wr 4 ST / U5 4 ST+TR / U5 4 TR | 3 | 3 | 3 | 3
33 | 3 | 3 | 3 | 3 | U2ws 64 | U2ws 64 | 3 | 3 | 3 | 3 | 3 | 3
34 | 3 | 3 | 3 | U2sr 0 | U2sr 0 | U2sr 0 | U2sr 0 | = 0 | U2sr 0 | 3 | U2sr 1 | 3
35 | 3 | 3 | 3 | = 0 | U2sl 0 / U2sl 0 ST / U5 0 ST+TR / U5 0 TR | U2sl 0 / U2sl 0 ST / U5 0 ST+TR / U5 0 TR | U2sl 0 / U2sl 0 ST / U5 0 ST+TR / U5 0 TR | U2sl 0 / U2sl 0 ST / U5 0 ST+TR / U5 0 TR | U2sl 0 / U2sl 0 ST / U5 0 ST+TR / U5 0 TR | 3 | U2sl 1 / U2sl 1 ST | 3
36 | 3 | 3 | 3 / = 0 | 3 / = 0 | 3 / = 0 | 3 / = 0 | 3 / = 0 | 3 / = 0 | 3 / = 0 | 3 | 3 | 3
";

/// Every context of a state: parameters, timers, what is remembered, chooser and
/// what is pending, fit or not, with one value and one reference.
fn contexts(state: State) -> Vec<Context> {
    let mut all = Vec::new();
    let remembered: Vec<Option<State>> = GROUP_STATES.into_iter().map(Some).chain([None]).collect();
    for number in 0..16 * 16 * 8u32 {
        for remembered in &remembered {
            for chooser in CHOOSERS {
                all.push(Context {
                    state,
                    parameters: Parameters::from_number((number & 15) as u8),
                    timers: RunningTimers::from_number((number >> 4 & 15) as u8),
                    transaction_value: 5,
                    reference: [0x0A, 0x0B, 0x0C, 0x0D],
                    remembered: *remembered,
                    chooser,
                    pending: Pending::from_number((number >> 8) as u8),
                });
            }
        }
    }
    all
}

pub fn fit_contexts(state: State) -> Vec<Context> {
    if state == State::U0 {
        return vec![Context::cleared()];
    }
    let mut fit = contexts(state);
    fit.retain(|context| context.is_fit(Table::Group));
    fit
}

#[test]
fn the_matrix_cell_by_cell() {
    let rows: Vec<Vec<&str>> = MATRIX
        .trim()
        .lines()
        .map(|line| line.split('|').map(str::trim).collect())
        .collect();
    assert_eq!(rows.len(), 17 + 5);
    for (column, (name, number)) in COLUMNS.into_iter().enumerate() {
        let state = State::from_number(number).unwrap();
        let contexts = fit_contexts(state);
        for row in &rows {
            assert_eq!(row.len(), 1 + COLUMNS.len());
            let typed: BTreeSet<String> =
                row[column + 1].split(" / ").map(str::to_string).collect();
            let event = Event::call(row[0].parse().unwrap(), 3, [1, 2, 3, 4]);
            let given: BTreeSet<String> = contexts
                .iter()
                .map(|context| told(context, &step(Table::Group, context, &OWN, 255, &event)))
                .collect();
            assert_eq!(given, typed, "{name}, event {}", row[0]);
        }
    }
}

/// An outcome as the matrix writes it.
fn told(context: &Context, outcome: &Outcome) -> String {
    if outcome.answer == 3 {
        assert_eq!(outcome.context, *context);
        return "3".to_string();
    }
    let (from, next) = (context.state.number(), outcome.context.state.number());
    cell(from, next, outcome.actions, &outcome.reply)
}

/// A cell of the matrix for a step that is taken.
fn cell(from: u8, next: u8, actions: u8, reply: &[u8]) -> String {
    let name = match next == from {
        true => "=",
        false => COLUMNS.iter().find(|(_, n)| *n == next).unwrap().0,
    };
    match sent(reply).join("+").as_str() {
        "" => format!("{name} {actions}"),
        messages => format!("{name} {actions} {messages}"),
    }
}

/// The messages of a reply: each tells its length by its type.
fn sent(reply: &[u8]) -> Vec<&'static str> {
    let mut names = Vec::new();
    let mut rest = reply;
    while !rest.is_empty() {
        let (name, length) = match Kind::from_type_octet(rest[1]) {
            Some(Kind::ImmediateSetup) => ("IS", 12 + usize::from(rest[7])),
            Some(Kind::Setup) => ("SU", 6),
            Some(Kind::Status) => ("ST", 5 + usize::from(rest[2])),
            Some(Kind::TerminationRequest) => ("TR", 6),
            other => panic!("{other:?}"),
        };
        names.push(name);
        rest = &rest[length..];
    }
    names
}

#[test]
fn fit_contexts_are_counted() {
    // By hand, of the four sets of D-ATT and U-ATT each time. Beside ORIG and
    // COMM true nothing is pending; beside ORIG alone PT and PS may be, 4; beside
    // COMM alone PT and AW; beside neither all three.
    for (state, count) in [
        // COMM true 2, COMM false 2 * 2, T_MM-est always.
        (State::U0p, 4 * (2 + 4)),
        // 1 + 4 + 2 + 4, T_MM-est or not.
        (State::U1, 4 * 11 * 2),
        // 1 + 4 + 4 + 8, either side.
        (State::U2sl, 4 * 17 * 2),
        (State::U2wr, 4 * 17 * 2),
        (State::U2ws, 4 * 17 * 2),
        (State::U2sr, 4 * 17 * 2),
        // COMM false: 4 + 8, either side.
        (State::U2r, 4 * 12 * 2),
        (State::U2nc, 4 * 12 * 2),
        // PS or not.
        (State::U3, 4 * 2),
        (State::U4, 4 * 2),
        // As U0.p; U1 remembered with us, four others with either side.
        (State::U5, 4 * (2 + 4) * (1 + 4 * 2)),
    ] {
        assert_eq!(fit_contexts(state).len(), count, "{state:?}");
    }
}

#[test]
fn states_of_the_other_protocol_are_not_fit() {
    for state in [State::U2, State::U6] {
        assert!(fit_contexts(state).is_empty());
    }
    for state in crate::state::SUB_STATES {
        let fit = |context: &Context| {
            let tables = crate::tables::BROADCAST_TABLES;
            tables.into_iter().any(|table| context.is_fit(table))
        };
        assert!(!contexts(state).iter().any(fit));
    }
    // What a group call holds besides is not fit in a broadcast call.
    let mut context = Context::cleared();
    context.state = State::U3;
    context.timers = RunningTimers::from_number(16);
    assert!(context.is_fit(Table::NEWEST));
    context.chooser = Chooser::Cell;
    assert!(!context.is_fit(Table::NEWEST));
    context.chooser = Chooser::Neither;
    context.pending.status = true;
    assert!(!context.is_fit(Table::NEWEST));
}

#[test]
fn start_rows_and_call_states() {
    // ORIG kept true, and kept false; COMM kept only by U2sr.
    for (number, kept_true, kept_false, code) in [
        (0, 0, 0, 0),
        (1, 8, 8, 6),
        (2, 12, 12, 1),
        (4, 0, 0, 3),
        (5, 0, 0, 4),
        (6, 15, 15, 5),
        (8, 15, 7, 2),
        (9, 14, 6, 7),
        (10, 10, 2, 8),
        (11, 11, 3, 9),
        (12, 15, 3, 10),
        (13, 11, 3, 11),
    ] {
        let state = State::from_number(number).unwrap();
        let entered = |before| Parameters::from_number(before).on_entering(state).number();
        assert_eq!((entered(15), entered(0)), (kept_true, kept_false));
        assert_eq!(state.call_state(), code);
    }
}

#[test]
fn every_step_keeps_the_context_fit() {
    let mut received = Vec::new();
    for first in [0x00u8, 0x50, 0x30, 0x80, 0xD0, 0xB0, 0x70] {
        for kind in 0x30..=0x3B {
            for rest in 0..=15u8 {
                received.push(Event::received(rest.into(), vec![first, kind, rest]));
                received.push(Event::received(1, vec![first, kind, 1, rest, 0, 0, rest]));
            }
        }
    }
    received.retain(|event| event.mode <= 1);
    let events = (1..=36).map(|number| Event::call(number, 6, [1, 2, 3, 4]));
    let all: Vec<Event> = events
        .filter(|event| event.number != 18)
        .chain(received)
        .collect();
    for context in GROUP_STATES.into_iter().flat_map(fit_contexts) {
        for event in &all {
            let outcome = step(Table::Group, &context, &OWN, 255, event);
            assert!(
                outcome.context.is_fit(Table::Group),
                "{context:?} {event:?}"
            );
            assert!(outcome.answer <= 4 && outcome.reply.len() <= 14);
            assert!(outcome.answer == 0 || outcome.context == context);
            assert_eq!(outcome.reason.is_some(), outcome.answer == 1);
        }
    }
}

#[test]
fn the_fixed_set_has_every_outcome_of_every_cell() {
    let mut shown = BTreeSet::new();
    for line in crate::vectors::lines("gstep") {
        let given: Vec<&str> = line.split(' ').collect();
        let answered = crate::probe::answer(line.as_bytes());
        let got: Vec<&str> = answered.split(' ').collect();
        let number = |token: &str| token.parse::<u8>().unwrap();
        let outcome = match got[0] {
            "0" => {
                let reply = crate::probe::tokens::octets(got[10].as_bytes()).unwrap();
                cell(number(given[1]), number(got[1]), number(got[9]), &reply)
            }
            "3" => "3".to_string(),
            _ => continue,
        };
        shown.insert((given[1].to_string(), given[13].to_string(), outcome));
    }
    for row in MATRIX.trim().lines() {
        let cells: Vec<&str> = row.split('|').map(str::trim).collect();
        for ((name, number), typed) in COLUMNS.iter().zip(&cells[1..]) {
            for outcome in typed.split(" / ") {
                let wanted = (
                    number.to_string(),
                    cells[0].to_string(),
                    outcome.to_string(),
                );
                assert!(
                    shown.contains(&wanted),
                    "{name}, event {}: {outcome}",
                    cells[0]
                );
            }
        }
    }
}
