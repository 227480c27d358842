//! `mend` by chance: the logs of `judge`, with copy buffers about as long as they.

use super::judge::identity_and_log;
use super::random::Random;
use crate::commands;

pub fn command(random: &mut Random, long: bool) -> String {
    let (identity, mut log) = identity_and_log(random, long);
    if random.one_in(60) {
        log.clear();
    }
    let buffer_length = match random.below(8) {
        0 => log.len().saturating_sub(1),
        1..=4 => log.len(),
        5 => log.len() + 1,
        6 => random.pick(&[0, 1, 65_535, 65_536, 65_537, 4_294_967_295]),
        _ => log.len() + random.length(0, 300),
    };
    commands::mend(&identity, buffer_length as u32, &log)
}
