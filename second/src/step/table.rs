//! The step table of document 01, row by row in its order; where A2, A13 or A5
//! of document 02 changes a row, the old and the new one stand next to each other,
//! each with the tables that have it, and what group calls alone have stands
//! between them. Where a row of the paper gives two outcomes
//! ("0 for 7; 8 for 14"; "32 if ..., else 0"), it stands here as two rows, the
//! narrower one first: the first row that matches is the one taken.

use crate::call::Chooser;
use crate::context::Context;
use crate::event::*;
use crate::message::Kind;
use crate::state::{State, SUB_STATES};
use crate::tables::Table;
use crate::timer::Timer;
use Chooser::{Cell, Us};
use Condition::*;
use Effect::*;
use Next::*;
use State::*;
use Table::*;
use Timer::*;
use Trigger::{Event as On, Message as Received};

/// Actions, which add up.
pub const INFORM: u8 = 1;
pub const REQUEST_MM_CONNECTION: u8 = 2;
pub const REQUEST_GROUP_RECEIVE_MODE: u8 = 4;
pub const ABORT: u8 = 8;
pub const RELEASE_IT: u8 = 16;
pub const MM_EXISTS_IMPLICITLY: u8 = 32;
pub const REQUEST_GROUP_TRANSMIT_MODE: u8 = 64;
const NONE: u8 = 0;

#[derive(Clone, Copy, PartialEq, Eq, Debug)]
pub enum Trigger {
    Event(u32),
    Message(Kind),
}

#[derive(Clone, Copy, PartialEq, Eq, Debug)]
pub enum Condition {
    Always,
    With(Timer),
    OrigTrue,
    OrigAndCommTrue,
    TerminationPends,
}

/// Where a row leads.
#[derive(Clone, Copy, PartialEq, Eq, Debug)]
pub enum Next {
    To(State),
    /// Stays, where a row is about several states.
    Same,
    /// To the state that is remembered.
    Back,
}

impl Next {
    /// The state that follows; the context is fit and has this row.
    pub fn from(self, context: &Context) -> State {
        match self {
            To(state) => state,
            Same => context.state,
            Back => context
                .remembered
                .expect("a table that leads back remembers"),
        }
    }
}

#[derive(Clone, Copy, PartialEq, Eq, Debug)]
pub enum Effect {
    /// Events 1, 2 and 10: their transaction value and reference.
    StoreCall,
    /// CONNECT: its reference alone; the transaction value stays.
    StoreItsReference,
    /// CONNECT of a group call: ORIG is what its originator indication says.
    OrigAsTold,
    /// Events 1, 2 and 10 of a group call.
    ChosenBy(Chooser),
    Send(Kind),
    /// Setting a timer that runs changes nothing: "unless running".
    Set(Timer),
    Stop(Timer),
    /// The state that the row was taken in.
    Remember,
    Forget,
    PendTermination,
    DeleteTermination,
    PendStatus,
}

#[derive(Clone, PartialEq, Eq, Debug)]
pub struct Row {
    /// The tables that have this row.
    pub tables: &'static [Table],
    pub states: &'static [State],
    pub condition: Condition,
    pub trigger: Trigger,
    pub next: Next,
    pub actions: u8,
    pub effects: &'static [Effect],
}

/// Rows that no table has otherwise.
const EVERY: &[Table] = &[First, Second, Third, Group];
const BROADCAST: &[Table] = &[First, Second, Third];
const GROUP: &[Table] = &[Group];
/// Broadcast tables in which a rejected termination leads back.
const RETURNING: &[Table] = &[Second, Third];
/// Tables in which an invitation lasts for ever.
const UNTIMED: &[Table] = &[First, Second, Group];
/// A state that a table does not know never comes up under it.
const ALL_BUT_U0: &[State] = &[
    U0p, U1, U2, U3, U4, U5, U6, U2sl, U2wr, U2r, U2ws, U2sr, U2nc,
];
const U2_TO_U6: &[State] = &[U2, U3, U4, U5, U6, U2sl, U2wr, U2r, U2ws, U2sr, U2nc];
/// U1 and the sub-states of U2.
const U1_AND_U2: &[State] = &[U1, U2sl, U2wr, U2r, U2ws, U2sr, U2nc];

const fn row(
    tables: &'static [Table],
    states: &'static [State],
    condition: Condition,
    trigger: Trigger,
    next: Next,
    actions: u8,
    effects: &'static [Effect],
) -> Row {
    Row {
        tables,
        states,
        condition,
        trigger,
        next,
        actions,
        effects,
    }
}

#[rustfmt::skip]
const ROWS: [Row; 45] = [
    row(BROADCAST,  &[U0],         Always,           On(SET_UP_REQUEST),                  To(U0p),  REQUEST_MM_CONNECTION,       &[StoreCall, Set(MmEst)]),
    row(GROUP,      &[U0],         Always,           On(SET_UP_REQUEST),                  To(U0p),  REQUEST_MM_CONNECTION,       &[StoreCall, ChosenBy(Us), Set(MmEst)]),
    row(BROADCAST,  &[U0],         Always,           On(IMMEDIATE_SET_UP_REQUEST),        To(U1),   NONE,                        &[StoreCall, Send(Kind::ImmediateSetup), Set(MmEst)]),
    row(GROUP,      &[U0],         Always,           On(IMMEDIATE_SET_UP_REQUEST),        To(U1),   NONE,                        &[StoreCall, ChosenBy(Us), Send(Kind::ImmediateSetup), Set(MmEst)]),
    row(EVERY,      &[U0p],        Always,           On(MM_CONNECTION_ESTABLISHED),       To(U1),   NONE,                        &[Send(Kind::Setup), Stop(MmEst)]),
    row(EVERY,      &[U0p, U1],    With(MmEst),      On(MM_ESTABLISHMENT_FAILED),         To(U0),   NONE,                        &[]),
    row(EVERY,      &[U0p, U1],    With(MmEst),      On(EXPIRY_MM_EST),                   To(U0),   ABORT,                       &[]),
    row(EVERY,      &[U0p, U1],    Always,           On(RADIO_LINK_FAILURE),              To(U0),   ABORT,                       &[]),
    row(BROADCAST,  &[U1],         With(MmEst),      Received(Kind::Connect),             To(U2),   MM_EXISTS_IMPLICITLY,        &[StoreItsReference, Stop(MmEst)]),
    row(GROUP,      &[U1],         With(MmEst),      Received(Kind::Connect),             To(U2sl), MM_EXISTS_IMPLICITLY,        &[StoreItsReference, OrigAsTold, Stop(MmEst)]),
    row(BROADCAST,  &[U0p, U1],    Always,           Received(Kind::Connect),             To(U2),   NONE,                        &[StoreItsReference, Stop(MmEst)]),
    row(GROUP,      &[U0p, U1],    Always,           Received(Kind::Connect),             To(U2sl), NONE,                        &[StoreItsReference, OrigAsTold, Stop(MmEst)]),
    row(&[First, Second], &[U0],   Always,           On(BROADCAST_NOTIFIED),              To(U3),   INFORM,                      &[StoreCall]),
    row(&[Third],   &[U0],         Always,           On(BROADCAST_NOTIFIED),              To(U3),   INFORM,                      &[StoreCall, Set(Pres)]),
    row(GROUP,      &[U0],         Always,           On(BROADCAST_NOTIFIED),              To(U3),   INFORM,                      &[StoreCall, ChosenBy(Cell)]),
    row(UNTIMED,    &[U3],         Always,           On(JOIN),                            To(U4),   REQUEST_GROUP_RECEIVE_MODE,  &[Set(ConnReq)]),
    row(&[Third],   &[U3],         Always,           On(JOIN),                            To(U4),   REQUEST_GROUP_RECEIVE_MODE,  &[Stop(Pres), Set(ConnReq)]),
    row(&[Third],   &[U3],         With(Pres),       On(EXPIRY_PRES),                     To(U0),   NONE,                        &[]),
    row(BROADCAST,  &[U4],         Always,           On(GROUP_RECEIVE_MODE_ENTERED),      To(U6),   INFORM,                      &[Stop(ConnReq)]),
    row(GROUP,      &[U4],         Always,           On(GROUP_RECEIVE_MODE_ENTERED),      To(U2r),  INFORM,                      &[Stop(ConnReq)]),
    row(GROUP,      &[U4],         Always,           On(GROUP_TRANSMIT_MODE_ENTERED),     To(U2sr), INFORM,                      &[Stop(ConnReq)]),
    row(GROUP,      &[U4],         Always,           On(DEDICATED_MODE_ENTERED),          To(U2sl), INFORM,                      &[Stop(ConnReq)]),
    row(EVERY,      &[U4],         Always,           On(EXPIRY_CONN_REQ),                 To(U0),   INFORM + ABORT,              &[]),
    row(GROUP,      &[U2sl, U2sr], Always,           On(RECEIVE_MODE_REQUEST),            To(U2wr), REQUEST_GROUP_RECEIVE_MODE,  &[]),
    row(GROUP,      &[U2r, U2wr],  Always,           On(TALK_REQUEST),                    To(U2ws), REQUEST_GROUP_TRANSMIT_MODE, &[]),
    row(GROUP,      &SUB_STATES,   Always,           On(GROUP_RECEIVE_MODE_ENTERED),      To(U2r),  NONE,                        &[Stop(NoChannel)]),
    row(GROUP,      &SUB_STATES,   Always,           On(NO_CHANNEL),                      To(U2nc), NONE,                        &[Set(NoChannel)]),
    row(GROUP,      &SUB_STATES,   Always,           On(GROUP_TRANSMIT_MODE_ENTERED),     To(U2sr), NONE,                        &[Stop(NoChannel)]),
    row(GROUP,      &SUB_STATES,   Always,           On(DEDICATED_MODE_ENTERED),          To(U2sl), NONE,                        &[Stop(NoChannel)]),
    row(BROADCAST,  &[U6],         Always,           On(NO_CHANNEL),                      To(U6),   INFORM,                      &[Set(NoChannel)]),
    row(BROADCAST,  &[U6],         Always,           On(CHANNEL_AVAILABLE),               To(U6),   INFORM,                      &[Stop(NoChannel)]),
    row(EVERY,      &[U6, U2nc],   With(NoChannel),  On(EXPIRY_NO_CHANNEL),               To(U0),   INFORM + ABORT,              &[]),
    row(&[First],   &[U1, U2],     OrigTrue,         On(TERMINATE),                       To(U5),   NONE,                        &[Send(Kind::TerminationRequest), Stop(MmEst), Set(Term)]),
    row(RETURNING,  &[U1, U2],     OrigTrue,         On(TERMINATE),                       To(U5),   NONE,                        &[Send(Kind::TerminationRequest), Stop(MmEst), Set(Term), Remember]),
    row(GROUP,      U1_AND_U2,     OrigAndCommTrue,  On(TERMINATE),                       To(U5),   NONE,                        &[Send(Kind::TerminationRequest), Stop(MmEst), Set(Term), Remember]),
    row(GROUP,      &[U2r],        OrigTrue,         On(TERMINATE),                       To(U2ws), REQUEST_GROUP_TRANSMIT_MODE, &[PendTermination]),
    row(GROUP,      U1_AND_U2,     OrigTrue,         On(TERMINATE),                       Same,     NONE,                        &[PendTermination]),
    row(GROUP,      U1_AND_U2,     TerminationPends, On(DELETE_PENDING_TERMINATION),      Same,     NONE,                        &[DeleteTermination]),
    row(&[First],   &[U5],         Always,           Received(Kind::TerminationReject),   To(U5),   INFORM,                      &[Stop(Term)]),
    row(&[Second, Third, Group], &[U5], Always,      Received(Kind::TerminationReject),   Back,     INFORM,                      &[Stop(Term), Forget]),
    row(EVERY,      &[U5],         With(Term),       On(EXPIRY_TERM),                     To(U0),   INFORM + ABORT,              &[]),
    row(EVERY,      ALL_BUT_U0,    Always,           Received(Kind::Termination),         To(U0),   INFORM + RELEASE_IT,         &[]),
    row(EVERY,      ALL_BUT_U0,    Always,           On(RELEASE),                         To(U0),   RELEASE_IT,                  &[]),
    row(EVERY,      ALL_BUT_U0,    Always,           On(ABORT_OR_RELEASE_DETECTED),       To(U0),   INFORM + ABORT,              &[]),
    row(EVERY,      U2_TO_U6,      Always,           On(RADIO_LINK_FAILURE),              To(U0),   INFORM + ABORT,              &[]),
];

/// GET STATUS with COMM false, which a group call answers later; a broadcast
/// call ignores it. With COMM true it is answered at once, by no row.
#[rustfmt::skip]
const PENDING_STATUS: [Row; 2] = [
    row(GROUP,      &[U2r],        Always,           Received(Kind::GetStatus),           To(U2ws), REQUEST_GROUP_TRANSMIT_MODE, &[PendStatus]),
    row(GROUP,      ALL_BUT_U0,    Always,           Received(Kind::GetStatus),           Same,     NONE,                        &[PendStatus]),
];

impl Table {
    pub fn rows(self) -> impl Iterator<Item = &'static Row> {
        let rows = ROWS.iter().chain(&PENDING_STATUS);
        rows.filter(move |row| row.tables.contains(&self))
    }
}

pub fn find(table: Table, context: &Context, trigger: Trigger) -> Option<&'static Row> {
    table.rows().find(|row| {
        row.trigger == trigger && row.states.contains(&context.state) && holds(row, context)
    })
}

fn holds(row: &Row, context: &Context) -> bool {
    match row.condition {
        Always => true,
        With(timer) => context.timers.runs(timer),
        OrigTrue => context.parameters.orig,
        OrigAndCommTrue => context.parameters.orig && context.parameters.comm,
        TerminationPends => context.pending.termination,
    }
}
