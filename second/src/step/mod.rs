//! The step by a table: one event from one context (document 01, "Answer
//! numbers" for the order of the tests, "Events and steps" for the rest).

pub mod received;
pub mod reply;
pub mod table;

use crate::answer::*;
use crate::context::{Context, GREATEST_TRANSACTION_VALUE};
use crate::event::{carries, Carries, Event, TERMINATE, UNACKNOWLEDGED};
use crate::message::{Kind, Message, LONGEST_MESSAGE, SHORTEST_BUFFER};
use crate::own::Own;
use crate::reason::{Reason, NO_REASON};
use crate::state::State;
use crate::tables::Table;
use table::{Effect, Row, Trigger};

/// What a step leaves: the answer, why a message was ignored, the context
/// afterwards, the actions added up and the reply, empty where there is none.
#[derive(Clone, PartialEq, Eq, Debug)]
pub struct Outcome {
    pub answer: u8,
    /// With answer 1, and with no other.
    pub reason: Option<Reason>,
    pub context: Context,
    pub actions: u8,
    pub reply: Vec<u8>,
}

impl Outcome {
    /// An answer with this context, without actions and without a reply.
    pub fn quiet(context: &Context, answer: u8) -> Outcome {
        Outcome {
            answer,
            reason: None,
            context: context.clone(),
            actions: 0,
            reply: Vec::new(),
        }
    }

    /// Answer 1, which never comes without its reason.
    pub fn ignored(context: &Context, reason: Reason) -> Outcome {
        Outcome {
            reason: Some(reason),
            ..Outcome::quiet(context, IGNORED)
        }
    }

    pub fn reason_number(&self) -> u8 {
        self.reason.map_or(NO_REASON, Reason::number)
    }
}

/// The tests in the order 7, 5, 6, 4, then the step proper.
pub fn step(
    table: Table,
    context: &Context,
    own: &Own,
    buffer_length: u32,
    event: &Event,
) -> Outcome {
    if !context.is_fit(table) {
        return Outcome::quiet(context, CONTEXT_NOT_FIT);
    }
    if buffer_length < SHORTEST_BUFFER {
        return Outcome::quiet(context, BUFFER_SHORT);
    }
    let carried = carries(table, event.number);
    if carried == Some(Carries::Message) && event.octets.len() > LONGEST_MESSAGE {
        return Outcome::quiet(context, MESSAGE_LONG);
    }
    let event_in_range = match carried {
        None => false,
        Some(Carries::Nothing) => true,
        Some(Carries::Call) => event.transaction_value <= GREATEST_TRANSACTION_VALUE,
        Some(Carries::Message) => event.mode <= UNACKNOWLEDGED,
    };
    if !event_in_range || !own.in_range() {
        return Outcome::quiet(context, OUTSIDE_RANGE);
    }
    if carried == Some(Carries::Message) {
        return received::step(table, context, own, event);
    }
    match table::find(table, context, Trigger::Event(event.number)) {
        Some(row) => take(table, row, context, own, event, None),
        None => Outcome::quiet(context, NO_STEP),
    }
}

/// Takes a row of the step table, and sends what was pending if now it can be.
pub fn take(
    table: Table,
    row: &Row,
    context: &Context,
    own: &Own,
    event: &Event,
    message: Option<&Message>,
) -> Outcome {
    let after = context_after(row, context, event, message);
    let reply = match sent(row) {
        Some(kind) => reply::call_message(table.protocol(), kind, &after, own),
        None => Vec::new(),
    };
    let outcome = Outcome {
        answer: TAKEN,
        reason: None,
        context: after,
        actions: row.actions,
        reply,
    };
    flushed(table, outcome, own)
}

/// What was pending goes out behind the row's own message as soon as COMM is
/// true: first STATUS, which so shows the state before U5, then TERMINATION
/// REQUEST, if the MS still takes itself for the originator.
pub fn flushed(table: Table, mut outcome: Outcome, own: &Own) -> Outcome {
    let context = &mut outcome.context;
    if !context.parameters.comm {
        return outcome;
    }
    if context.pending.status {
        context.pending.status = false;
        let status = reply::asked_status(table.protocol(), context);
        outcome.reply.extend(status);
    }
    if context.pending.termination && context.parameters.orig {
        context.pending.termination = false;
        let row = table::find(table, context, Trigger::Event(TERMINATE))
            .expect("it pends where it can be asked for");
        let asked = take(table, row, context, own, &Event::plain(TERMINATE), None);
        outcome.context = asked.context;
        outcome.reply.extend(asked.reply);
    }
    outcome
}

fn context_after(
    row: &Row,
    context: &Context,
    event: &Event,
    message: Option<&Message>,
) -> Context {
    let next = row.next.from(context);
    // Entering U0 clears, whatever else the row does.
    if next == State::U0 {
        return Context::cleared();
    }
    let mut after = context.clone();
    for effect in row.effects {
        match *effect {
            Effect::StoreCall => {
                // In range by the test for answer 4, so it fits.
                after.transaction_value = event.transaction_value as u8;
                after.reference = event.reference;
            }
            Effect::StoreItsReference => {
                after.reference = message.expect("a message's row").fields.reference;
            }
            Effect::OrigAsTold => {
                let told = message
                    .expect("a message's row")
                    .fields
                    .originator_indication;
                after.parameters.orig = told == 1;
            }
            Effect::ChosenBy(chooser) => after.chooser = chooser,
            Effect::Send(_) => (),
            Effect::Set(timer) => after.timers.turn(timer, true),
            Effect::Stop(timer) => after.timers.turn(timer, false),
            Effect::Remember => after.remembered = Some(context.state),
            Effect::Forget => after.remembered = None,
            Effect::PendTermination => after.pending.termination = true,
            Effect::DeleteTermination => after.pending.termination = false,
            Effect::PendStatus => after.pending.status = true,
        }
    }
    // A step that stays in its state keeps the parameters.
    if next != context.state {
        enter(&mut after, next);
    }
    after
}

/// Entering a state sets its row. Who waits for the uplink and does not take
/// itself for the originator learns the value from the next message.
fn enter(context: &mut Context, state: State) {
    context.state = state;
    context.parameters = context.parameters.on_entering(state);
    if state == State::U2ws && !context.parameters.orig {
        context.pending.value = true;
    }
}

/// The message that a row sends, if it sends one.
fn sent(row: &Row) -> Option<Kind> {
    row.effects.iter().find_map(|effect| match effect {
        Effect::Send(kind) => Some(*kind),
        _ => None,
    })
}
