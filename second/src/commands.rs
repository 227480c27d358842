//! Commands of the line protocol put together as lines, for the generator and
//! for the fixed sets.

use crate::context::Context;
use crate::event::Event;
use crate::log::entry::Entry;
use crate::message::Message;
use crate::probe::message::form;
use crate::probe::tokens::hexadecimal;
use crate::protocol::Protocol;
use std::fmt;

pub fn read(protocol: Protocol, octets: &[u8]) -> String {
    format!("{}read {}", protocol.prefix(), hexadecimal(octets))
}

pub fn write(protocol: Protocol, buffer_length: u32, message: &Message) -> String {
    format!(
        "{}write {buffer_length} {}",
        protocol.prefix(),
        form(message)
    )
}

pub fn settings(file: &[u8]) -> String {
    format!("settings {}", hexadecimal(file))
}

/// Identity settings as a command hands them in, out of range or not.
#[derive(Clone, PartialEq, Eq, Debug)]
pub struct Identity {
    pub key_number: u8,
    pub classmark: [u8; 3],
    pub identity: Vec<u8>,
}

impl fmt::Display for Identity {
    fn fmt(&self, line: &mut fmt::Formatter) -> fmt::Result {
        let classmark = hexadecimal(&self.classmark);
        let identity = hexadecimal(&self.identity);
        write!(line, "{} {classmark} {identity}", self.key_number)
    }
}

pub fn judge(own: &Identity, log: &[u8]) -> String {
    format!("judge {own} {}", hexadecimal(log))
}

pub fn mend(own: &Identity, buffer_length: u32, log: &[u8]) -> String {
    format!("mend {own} {buffer_length} {}", hexadecimal(log))
}

/// A step as a command hands it in; the state may be none, and so may the one
/// remembered and the chooser.
#[derive(Clone, PartialEq, Eq, Debug)]
pub struct Step {
    pub protocol: Protocol,
    pub state: u8,
    pub parameters: u8,
    pub timers: u8,
    pub transaction_value: u8,
    pub reference: [u8; 4],
    pub remembered: u8,
    /// Of a group call alone, and so is what is pending.
    pub chooser: u8,
    pub pending: u8,
    pub own: Identity,
    pub buffer_length: u32,
    pub event: Event,
}

impl Step {
    pub fn from(protocol: Protocol, context: &Context, own: &Identity, event: &Event) -> Step {
        Step {
            protocol,
            state: context.state.number(),
            parameters: context.parameters.number(),
            timers: context.timers.number(),
            transaction_value: context.transaction_value,
            reference: context.reference,
            remembered: context.remembered_number(),
            chooser: context.chooser.number(),
            pending: context.pending.number(),
            own: own.clone(),
            buffer_length: 255,
            event: event.clone(),
        }
    }
}

impl fmt::Display for Step {
    fn fmt(&self, line: &mut fmt::Formatter) -> fmt::Result {
        write!(
            line,
            "{}step {} {} {} {} {} {}",
            self.protocol.prefix(),
            self.state,
            self.parameters,
            self.timers,
            self.transaction_value,
            hexadecimal(&self.reference),
            self.remembered
        )?;
        if self.protocol == Protocol::Group {
            write!(line, " {} {}", self.chooser, self.pending)?;
        }
        let event = event(&self.event);
        write!(line, " {} {} {event}", self.own, self.buffer_length)
    }
}

/// `EVENT ETV EREF MODE OCTETS`
fn event(event: &Event) -> String {
    format!(
        "{} {} {} {} {}",
        event.number,
        event.transaction_value,
        hexadecimal(&event.reference),
        event.mode,
        hexadecimal(&event.octets)
    )
}

pub fn record(protocol: Protocol, buffer: &[u8], used: u32, entry: &Entry) -> String {
    format!(
        "{}record {} {used} {} {} {} {} {} {} {}",
        protocol.prefix(),
        hexadecimal(buffer),
        entry.delta,
        event(&entry.event),
        entry.answer,
        entry.state,
        entry.parameters,
        entry.actions,
        hexadecimal(&entry.reply)
    )
}
