//! Replies at every edge of their field rules, and damaged ones: both sides must say alike which reply they are.

use crate::forge;
use crate::numbers::{NUMBERED, PAST_EVERY_BODY, REPLY_BODIES};
use crate::pair::Pair;
use crate::random::Random;

/// Lends every kind with bodies of every length, and every first byte of a reply's body.
pub fn edges(pair: &Pair) -> Result<(), String> {
    pair.reply_kind(&[])?;
    for filling in [0, 1, 255] {
        for kind in 0..=255 {
            for length in 0..=PAST_EVERY_BODY {
                pair.reply_kind(&reply(kind, &vec![filling; length]))?;
            }
        }
        for (kind, length) in REPLY_BODIES {
            for first in 0..=255 {
                let mut body = vec![filling; length];
                body[0] = first;
                pair.reply_kind(&reply(kind, &body))?;
            }
        }
    }
    Ok(())
}

/// Lends so many replies of random values, about half of them changed, cut or lengthened.
pub fn damaged(pair: &Pair, random: &mut Random, count: usize) -> Result<(), String> {
    for _ in 0..count {
        let (kind, length) = random.pick(&REPLY_BODIES);
        let mut body: Vec<u8> = (0..length).map(|_| random.word() as u8).collect();
        if random.once_in(2) {
            body[0] = random.below(NUMBERED) as u8;
        }
        let mut bytes = reply(kind, &body);
        if random.once_in(2) {
            forge::damage(random, &mut bytes);
        }
        pair.reply_kind(&bytes)?;
    }
    Ok(())
}

fn reply(kind: u8, body: &[u8]) -> Vec<u8> {
    [&[kind], body].concat()
}
