//! The commands `judge`, `record`, `grecord` and `mend`.

use super::step::event_of;
use super::tokens::*;
use crate::answer::*;
use crate::log::entry::Entry;
use crate::log::judge::{judge as judge_log, Judgement};
use crate::log::mend::mend as mend_log;
use crate::log::record::record as record_entry;
use crate::tables::Table;

/// `judge CKSN CLASSMARK IDENTITY LOG`
pub fn judge(fields: &[&[u8]]) -> Option<String> {
    let [key_number, classmark, identity, log] = fields else {
        return None;
    };
    let identity = octets(identity)?;
    let own = own_of(key_number, classmark, &identity)?;
    Some(match judge_log(&own, &octets(log)?) {
        Judgement::TooLong => LOG_LONG.to_string(),
        Judgement::OutsideRange => OUTSIDE_RANGE.to_string(),
        Judgement::Unreadable(entry) => format!("{LOG_UNREADABLE} {entry}"),
        Judgement::Unexplained(entry) => format!("{ENTRY_UNEXPLAINED} {entry}"),
        Judgement::Accepted { count, windows } => {
            let mut accepted = format!("{TAKEN} {count}");
            for window in windows {
                accepted.push_str(&format!(" {} {}", window.least, window.greatest));
            }
            accepted
        }
    })
}

/// `record BUF USED DELTA EVENT ETV EREF MODE OCTETS ANSWER STATE PARAMS ACTIONS REPLY`
pub fn record(table: Table, fields: &[&[u8]]) -> Option<String> {
    let [buffer, used, delta, event, value, reference, mode, received, claims @ ..] = fields else {
        return None;
    };
    let [answer, state, parameters, actions, reply] = claims else {
        return None;
    };
    let mut buffer = octets(buffer)?;
    let used = number(used, u32::MAX)?;
    let entry = Entry {
        delta: number(delta, u32::MAX)?,
        event: event_of(
            &[event, value, reference, mode, received],
            u32::MAX,
            u32::MAX,
        )?,
        answer: number(answer, u32::MAX)?,
        state: number(state, u32::MAX)?,
        parameters: number(parameters, u32::MAX)?,
        actions: number(actions, u32::MAX)?,
        reply: octets(reply)?,
    };
    let recorded = record_entry(table, &mut buffer, used as usize, &entry);
    Some(match recorded {
        Err(answer) => answer.to_string(),
        Ok(used) => format!("{TAKEN} {used} {}", hexadecimal(&buffer)),
    })
}

/// `mend CKSN CLASSMARK IDENTITY COPYLEN LOG`
pub fn mend(fields: &[&[u8]]) -> Option<String> {
    let [key_number, classmark, identity, buffer_length, log] = fields else {
        return None;
    };
    let identity = octets(identity)?;
    let own = own_of(key_number, classmark, &identity)?;
    let buffer_length = number(buffer_length, u32::MAX)?;
    Some(
        match mend_log(&own, &octets(log)?, buffer_length as usize) {
            Err(answer) => answer.to_string(),
            Ok(mended) => format!(
                "{TAKEN} {} {} {} {}",
                mended.kept,
                mended.dropped,
                mended.ending,
                hexadecimal(&mended.copy)
            ),
        },
    )
}
