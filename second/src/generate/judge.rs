//! `judge` by chance, on true and on damaged logs.

use super::log::{bytes, damaged, true_run};
use super::random::Random;
use super::step::own;
use crate::commands::{self, Identity};
use crate::tables::TABLES;

/// The entry "join in U0" of document 01's whole log.
const JOIN_IN_U0: [u8; 7] = [0, 3, 3, 0, 0, 0, 0];

pub fn command(random: &mut Random, long: bool) -> String {
    let (identity, log) = identity_and_log(random, long);
    commands::judge(&identity, &log)
}

pub fn identity_and_log(random: &mut Random, long: bool) -> (Identity, Vec<u8>) {
    let run = true_run(random);
    if long {
        return (run.own, long_log(random));
    }
    let (walk, log) = match random.below(5) {
        0 | 1 => {
            let log = run.log();
            (run, log)
        }
        _ => damaged(random, run),
    };
    // Settings out of range, or others than the ones that the log was made with.
    let identity = match random.one_in(25) {
        true => own(random, 2),
        false => walk.own,
    };
    (identity, log)
}

/// A log of 65,535, 65,536 or 65,537 bytes: 9,362 entries of seven bytes behind
/// the version, none, one or two of them with a delta that takes two bytes.
fn long_log(random: &mut Random) -> Vec<u8> {
    let mut log = bytes(random.pick(&TABLES), &[]);
    let longer = random.pick(&[0, 1, 1, 2, 2]);
    for place in 0..9_362 {
        if place < longer {
            log.push(0x80);
            log.push(1);
            log.extend(&JOIN_IN_U0[1..]);
        } else {
            log.extend(JOIN_IN_U0);
        }
    }
    log
}
