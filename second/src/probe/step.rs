//! The commands `step` and `gstep` and the form that contexts have in them.

use super::tokens::*;
use crate::answer::CONTEXT_NOT_FIT;
use crate::call::{Chooser, Pending};
use crate::context::{Context, NOTHING_REMEMBERED};
use crate::event::Event;
use crate::protocol::Protocol;
use crate::reason::NO_REASON;
use crate::state::{Parameters, State};
use crate::step::{step as take_step, Outcome};
use crate::tables::Table;
use crate::timer::RunningTimers;

/// How many tokens are a context, and the greatest number of its timers: a group
/// call has no T_pres, and has a chooser and what is pending.
fn shape(protocol: Protocol) -> (usize, u8) {
    match protocol {
        Protocol::Broadcast => (6, 31),
        Protocol::Group => (8, 15),
    }
}

/// `step CONTEXT.. CKSN CLASSMARK IDENTITY BUFLEN EVENT ETV EREF MODE OCTETS`
pub fn step(table: Table, fields: &[&[u8]]) -> Option<String> {
    let (tokens, _) = shape(table.protocol());
    let (given, rest) = fields.split_at_checked(tokens)?;
    let [key_number, classmark, identity, buffer_length, event @ ..] = rest else {
        return None;
    };
    let context = context_of(table.protocol(), given)?;
    let identity = octets(identity)?;
    let own = own_of(key_number, classmark, &identity)?;
    let buffer_length = number(buffer_length, u32::MAX)?;
    let event = event_of(event, u32::MAX, 255)?;
    Some(match context {
        Some(context) => {
            let outcome = take_step(table, &context, &own, buffer_length, &event);
            form(table.protocol(), &outcome)
        }
        None => no_context(given),
    })
}

/// `STATE PARAMS TIMERS TV REF FROM`, for a group call also `CHOOSER PENDING`.
/// Numbers that are well formed can still be no state, none that is remembered,
/// or no chooser: then the inner None, which is not fit whatever stands beside them.
fn context_of(protocol: Protocol, tokens: &[&[u8]]) -> Option<Option<Context>> {
    let [state, parameters, timers, value, reference, from, more @ ..] = tokens else {
        return None;
    };
    let (_, greatest_timers) = shape(protocol);
    let state = State::from_number(small(state, 255)?);
    let parameters = Parameters::from_number(small(parameters, 15)?);
    let timers = RunningTimers::from_number(small(timers, greatest_timers)?);
    let transaction_value = small(value, 255)?;
    let reference = exactly(reference)?;
    let remembered = match small(from, 255)? {
        NOTHING_REMEMBERED => Some(None),
        number => State::from_number(number).map(Some),
    };
    let (chooser, pending) = match more {
        [chooser, pending] => (
            Chooser::from_number(small(chooser, 255)?),
            Pending::from_number(small(pending, 7)?),
        ),
        _ => (Some(Chooser::Neither), Pending::default()),
    };
    let (Some(state), Some(remembered), Some(chooser)) = (state, remembered, chooser) else {
        return Some(None);
    };
    Some(Some(Context {
        state,
        parameters,
        timers,
        transaction_value,
        reference,
        remembered,
        chooser,
        pending,
    }))
}

/// `EVENT ETV EREF MODE OCTETS`, the numbers up to what the command names for them.
pub fn event_of(tokens: &[&[u8]], greatest_event: u32, greatest_other: u32) -> Option<Event> {
    let [event, value, reference, mode, received] = tokens else {
        return None;
    };
    Some(Event {
        number: number(event, greatest_event)?,
        transaction_value: number(value, greatest_other)?,
        reference: exactly(reference)?,
        mode: number(mode, greatest_other)?,
        octets: octets(received)?,
    })
}

/// `ANSWER CONTEXT.. ACTIONS REPLY REASON`
fn form(protocol: Protocol, outcome: &Outcome) -> String {
    format!(
        "{} {} {} {} {}",
        outcome.answer,
        context_form(protocol, &outcome.context),
        outcome.actions,
        hexadecimal(&outcome.reply),
        outcome.reason_number()
    )
}

/// The same for what is no context, with the tokens as they were given: they
/// were read, and there is only one way to write a number or an octet.
fn no_context(given: &[&[u8]]) -> String {
    let tokens = String::from_utf8_lossy(&given.join(&b' ')).into_owned();
    format!("{CONTEXT_NOT_FIT} {tokens} 0 - {NO_REASON}")
}

/// `STATE PARAMS TIMERS TV REF FROM`, for a group call also `CHOOSER PENDING`.
pub fn context_form(protocol: Protocol, context: &Context) -> String {
    let shared = format!(
        "{} {} {} {} {} {}",
        context.state.number(),
        context.parameters.number(),
        context.timers.number(),
        context.transaction_value,
        hexadecimal(&context.reference),
        context.remembered_number()
    );
    match protocol {
        Protocol::Broadcast => shared,
        Protocol::Group => format!(
            "{shared} {} {}",
            context.chooser.number(),
            context.pending.number()
        ),
    }
}
