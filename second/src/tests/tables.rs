//! Properties of the broadcast tables: start rows, fitness by each step table, and that
//! steps keep contexts fit.

use crate::context::Context;
use crate::event::{all_but_messages, carries, Event};
use crate::own::Own;
use crate::state::{Parameters, State, BROADCAST_STATES};
use crate::step::step;
use crate::tables::{Table, BROADCAST_TABLES};
use crate::timer::RunningTimers;

const OWN: Own = Own {
    key_number: 3,
    classmark: [0x33, 0x59, 0xA2],
    identity: &[0x29, 0xF1],
};

/// Every context of state, parameters, timers and what is remembered, value 0,
/// 5 or 7.
fn contexts() -> Vec<Context> {
    let mut all = Vec::new();
    for state in BROADCAST_STATES {
        for number in 0..512 {
            for transaction_value in [0, 5, 7] {
                let plain = Context {
                    state,
                    parameters: Parameters::from_number((number >> 5) as u8),
                    timers: RunningTimers::from_number((number & 31) as u8),
                    transaction_value,
                    ..Context::cleared()
                };
                all.extend(BROADCAST_STATES.map(|state| Context {
                    remembered: Some(state),
                    ..plain.clone()
                }));
                all.push(plain);
            }
        }
    }
    all
}

#[test]
fn fit_contexts_are_counted() {
    // By hand, of 16 rows and 32 sets of timers: U0 1 * 1 (value 0 alone);
    // U0.p 16 * 1; U1 16 * 2; U2 16 * 1; U3 4 * 1, without a timer in the first
    // two tables and with T_pres in the third; U4 4 * 1; U6 4 * 2. In U5 the
    // first table has 16 * 2 with nothing remembered, the others 16 * 1 with
    // one of two states remembered.
    let expected = [1, 16, 32, 16, 4, 4, 32, 8];
    let contexts = contexts();
    for table in BROADCAST_TABLES {
        for state in BROADCAST_STATES {
            let fit = contexts
                .iter()
                .filter(|context| context.state == state && context.is_fit(table))
                .count();
            let values = if state == State::U0 { 1 } else { 2 };
            assert_eq!(fit, values * expected[usize::from(state.number())]);
        }
    }
}

#[test]
fn the_third_table_parts_from_the_second_in_u3_alone() {
    for context in contexts() {
        let [_, second, third] = BROADCAST_TABLES.map(|table| context.is_fit(table));
        if context.state != State::U3 {
            assert_eq!(second, third);
            // In no table T_pres runs elsewhere.
            assert!(!third || context.timers.number() < 16);
            continue;
        }
        // Without ORIG and COMM the parameters are a number under 4.
        let others_fit = context.transaction_value <= 6
            && context.parameters.number() < 4
            && context.remembered.is_none();
        let timers = context.timers.number();
        assert_eq!(second, others_fit && timers == 0);
        assert_eq!(third, others_fit && timers == 16);
    }
}

#[test]
fn the_first_two_tables_part_in_u5_alone() {
    for context in contexts() {
        let [first, second, _] = BROADCAST_TABLES.map(|table| context.is_fit(table));
        if context.state != State::U5 {
            assert_eq!(first, second);
            assert!(!first || context.remembered.is_none());
            continue;
        }
        // Only the number 4, T_term alone, is a fit set that is not empty.
        let value_fits = context.transaction_value <= 6;
        let timers = context.timers.number();
        let remembered = context.remembered;
        assert_eq!(
            first,
            value_fits && [0, 4].contains(&timers) && remembered.is_none()
        );
        assert_eq!(
            second,
            value_fits && timers == 4 && [Some(State::U1), Some(State::U2)].contains(&remembered)
        );
    }
}

#[test]
fn u0_is_cleared_or_not_fit() {
    for table in BROADCAST_TABLES {
        let mut context = Context::cleared();
        assert!(context.is_fit(table));
        context.reference = [0, 0, 0, 1];
        assert!(!context.is_fit(table));
    }
}

#[test]
fn versions() {
    assert_eq!(Table::of_version(1), Some(Table::First));
    assert_eq!(Table::of_version(2), Some(Table::Second));
    assert_eq!(Table::of_version(3), Some(Table::Third));
    assert_eq!(Table::of_version(16), Some(Table::Group));
    for version in [0, 4, 5, 15, 17, 129, 131, 144, 4_294_967_295] {
        assert_eq!(Table::of_version(version), None);
    }
    assert_eq!(Table::NEWEST, Table::Third);
}

#[test]
fn event_19_belongs_to_the_third_table() {
    for table in BROADCAST_TABLES {
        let has_it = table == Table::Third;
        assert_eq!(carries(table, 19).is_some(), has_it);
        assert_eq!(all_but_messages(table).contains(&19), has_it);
        assert!(all_but_messages(table).starts_with(&[1, 2, 3]));
        assert_eq!(all_but_messages(table).len(), 17 + usize::from(has_it));
        for number in [0, 20, 4_294_967_295] {
            assert_eq!(carries(table, number), None);
        }
    }
}

#[test]
fn every_step_keeps_the_context_fit() {
    let mut received = Vec::new();
    for first in [0x01u8, 0x51, 0x81, 0xD1] {
        for kind in 0x30..=0x3B {
            for rest in 0..=15u8 {
                received.push(vec![first, kind, rest]);
                received.push(vec![first, kind, 1, rest, 0, 0, rest]);
            }
        }
    }
    for table in BROADCAST_TABLES {
        for context in contexts().iter().filter(|context| context.is_fit(table)) {
            for number in all_but_messages(table) {
                let event = Event::call(number, 6, [1, 2, 3, 4]);
                let outcome = step(table, context, &OWN, 255, &event);
                assert!(outcome.context.is_fit(table) && [0, 3].contains(&outcome.answer));
                assert!(outcome.actions <= 63);
                assert_eq!(outcome.reason, None);
            }
            for octets in &received {
                let event = Event::received(1, octets.clone());
                stays_fit_when_it_hears(table, context, &event);
            }
        }
    }
}

fn stays_fit_when_it_hears(table: Table, context: &Context, event: &Event) {
    let outcome = step(table, context, &OWN, 255, event);
    assert!(outcome.context.is_fit(table) && outcome.answer <= 2);
    assert!(outcome.answer == 0 || outcome.context == *context);
    assert_eq!(outcome.reason.is_some(), outcome.answer == 1);
    assert_eq!(
        outcome.answer == 2,
        outcome.answer != 0 && !outcome.reply.is_empty()
    );
}

#[test]
fn start_rows_are_consistent() {
    // 6.1.2.1.2 to 6.1.2.1.9, as 8 ORIG + 4 COMM + 2 D-ATT + U-ATT.
    let rows = [0, 8, 12, 15, 0, 0, 15, 2];
    for (state, row) in BROADCAST_STATES.iter().zip(rows) {
        assert_eq!(state.start_row().number(), row);
        assert!(state.start_row().consistent_with(*state));
    }
}

#[test]
fn call_states_of_table_9_3() {
    let codes = [0, 6, 1, 2, 3, 4, 5, 7];
    for (state, code) in BROADCAST_STATES.iter().zip(codes) {
        assert_eq!(state.call_state(), code);
    }
}
