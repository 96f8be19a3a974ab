//! A whole run by its plan: houses, damaged books, and the report.

use crate::damage;
use crate::engine::Engine;
use crate::house::House;
use crate::numbers::NUMBERED;
use crate::pair::{Difference, Pair};
use crate::random::Random;
use crate::replies;

/// So many replies are made up for every house, and damaged.
const REPLIES: usize = 200;

/// How long a run is. The default is the one that every change has to pass.
#[derive(Clone, Debug)]
pub struct Plan {
    pub seed: u64,
    /// At least so many messages are answered in houses, and by books damaged in some words.
    pub messages: usize,
    /// So many houses have every single word of one book damaged.
    pub sweeps: usize,
}

/// What a run without a difference came to.
#[derive(Debug)]
pub struct Report {
    pub messages: usize,
    pub houses: usize,
    /// How often each kind of reply was given; refusals are counted in `refused` alone.
    pub replied: [usize; NUMBERED],
    /// How often each refusal was given, by its number.
    pub refused: [usize; NUMBERED],
    /// How often each kind of reply had too little room.
    pub left_out: [usize; NUMBERED],
    /// How often each kind of request was answered in less room than its longest reply takes.
    pub tight: [usize; NUMBERED],
}

impl Default for Plan {
    fn default() -> Plan {
        Plan { seed: 1, messages: 200_000, sweeps: 2 }
    }
}

impl Plan {
    /// The default, with the seed and the number of messages that the environment asks for:
    /// `CONSENT_SEED` (in decimal, or in hexadecimal after 0x) and `CONSENT_MESSAGES`.
    pub fn from_environment() -> Plan {
        let mut plan = Plan::default();
        if let Some(seed) = number_in("CONSENT_SEED") {
            plan.seed = seed;
        }
        if let Some(messages) = number_in("CONSENT_MESSAGES") {
            plan.messages = messages as usize;
        }
        plan
    }
}

/// Drives the engine under test and the second opinion side by side; the first difference ends the run.
pub fn run(plan: &Plan, tested: &dyn Engine, opinion: &dyn Engine) -> Result<Report, Difference> {
    let mut pair = Pair::new(tested, opinion);
    replies::edges(&pair).map_err(|what| Difference { seed: plan.seed, after: 0, what })?;
    let mut houses = 0;
    while pair.messages < plan.messages || houses < plan.sweeps {
        // A house has its own seed, the first of them the plan's: a difference is brought back by its house alone.
        let seed = plan.seed.wrapping_add(houses as u64);
        let sweep = houses < plan.sweeps;
        let before = pair.messages;
        one_house(&mut pair, &mut Random::new(seed), sweep).map_err(|what| Difference {
            seed,
            after: pair.messages - before,
            what,
        })?;
        houses += 1;
    }
    let Pair { messages, replied, refused, left_out, tight, .. } = pair;
    Ok(Report { messages, houses, replied, refused, left_out, tight })
}

fn one_house(pair: &mut Pair, random: &mut Random, sweep: bool) -> Result<(), String> {
    let mut house = House::open(pair, random)?;
    for _ in 0..random.pick(&[100, 300, 300, 2000]) {
        house.step(pair, random)?;
        if random.once_in(100) {
            let sound = &house.books[random.below(house.books.len())];
            damage::some_words(pair, random, sound, 4)?;
        }
    }
    let sound = house.fullest();
    damage::lengths(pair, random, sound)?;
    if sweep {
        damage::every_word(pair, random, sound)?;
    }
    replies::damaged(pair, random, REPLIES)
}

fn number_in(variable: &str) -> Option<u64> {
    let text = std::env::var(variable).ok()?;
    let number = match text.strip_prefix("0x") {
        Some(digits) => u64::from_str_radix(digits, 16),
        None => text.parse(),
    };
    Some(number.unwrap_or_else(|_| panic!("{variable} is no number: {text}")))
}
