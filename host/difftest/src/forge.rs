//! Requests that a person, a front end or another screen might make, near the edges of a given book.

use crate::bytes::{self, Record, Tap};
use crate::numbers::{
    ACCEPT, DECLINE, KNOWN_ROOM, LOG_ROOM, MOST_SCREENS, MOST_SHOWING, NUMBERED, PARTS, PROMPTS,
};
use crate::random::Random;
use crate::view::{Stamp, View};

const LAST_PROMPT: u8 = PROMPTS as u8 - 1;

/// How many different taps a house sees: few make repeats and contests, many fill books.
#[derive(Clone, Copy, PartialEq, Eq)]
pub enum Variety {
    Few,
    Many,
}

/// A tap, nearly always with every field in range.
pub fn tap(random: &mut Random, variety: Variety) -> Tap {
    let mut tap = Tap {
        front_end: random.pick(&[0, 1, 1, 2, 255]),
        serial: random.below(6) as u32,
        prompt: random.pick(&[0, 7, 7, 7, LAST_PROMPT]),
        showing: random.pick(&[1, 1, 1, 2, 2, 3, MOST_SHOWING]),
        answer: random.pick(&[ACCEPT, ACCEPT, DECLINE]),
    };
    if variety == Variety::Many {
        tap.serial = random.word() as u32;
        tap.prompt = random.below(PROMPTS) as u8;
    }
    if random.once_in(60) {
        spoil_tap(random, &mut tap);
    }
    tap
}

/// A label: known, ahead of what is known, or of another house.
pub fn label(random: &mut Random, view: View) -> Stamp {
    let (screen, screens) = (view.screen(), view.screens());
    let mut label = match random.below(4) {
        0 => [0; PARTS],
        1 => view.known(),
        2 => view.value(),
        _ => lowered(random, view.known()),
    };
    let part = random.below(screens);
    match random.below(12) {
        0 | 1 if part != screen => label[part] = view.known()[part] + 1 + random.below(3) as u32,
        2 => label[part] = label[part].saturating_sub(1),
        3 => label[screen] = view.known()[screen] + random.below(2) as u32,
        4 if random.once_in(4) => label[part] = random.pick(&[9, u32::MAX, 1 << 31]),
        5 if random.once_in(4) => label[random.below(PARTS)] = 1,
        _ => {}
    }
    label
}

/// A question, nearly always well formed.
pub fn question(random: &mut Random, view: View) -> Vec<u8> {
    let prompt =
        if random.once_in(50) { no_prompt(random) } else { random.pick(&[0, 7, 7, LAST_PROMPT, 20]) };
    bytes::question(prompt, &label(random, view))
}

/// Gossip to this book that no screen of the house sent: mostly well formed, often at the edge of a refusal.
pub fn gossip(random: &mut Random, view: View, variety: Variety) -> Vec<u8> {
    let (screen, screens) = (view.screen(), view.screens());
    let others = (screen + 1 + random.below(screens - 1)) % screens;
    let sender = if random.once_in(40) { screen } else { others };
    let m = stamp(random, view, sender);
    let mut records = records(random, view, &m, variety);
    spoil_records(random, &mut records);
    let house = if random.once_in(40) { random.below(MOST_SCREENS + 2) } else { screens };
    bytes::gossip(sender as u8, house as u8, &m, &records)
}

/// Gossip from another screen that brings so many new records, all of them ready.
pub fn filling(random: &mut Random, view: View, count: usize) -> Vec<u8> {
    let sender = (view.screen() + 1) % view.screens();
    let mut m = view.known();
    let first = m[sender] + 1;
    m[sender] += count as u32;
    let numbers = first..=m[sender];
    let records: Vec<Record> = numbers
        .map(|number| Record {
            origin: sender as u8,
            number,
            label: [0; PARTS],
            tap: tap_in_range(random, Variety::Many),
        })
        .collect();
    bytes::gossip(sender as u8, view.screens() as u8, &m, &records)
}

/// Gossip from that screen that brings nothing but that it knows all that this book knows.
pub fn acknowledgement(view: View, sender: usize) -> Vec<u8> {
    bytes::gossip(sender as u8, view.screens() as u8, &view.known(), &[])
}

/// Changes, cuts or lengthens the bytes.
pub fn damage(random: &mut Random, message: &mut Vec<u8>) {
    let at = random.below(message.len().max(1));
    match random.below(6) {
        0 => message.truncate(at),
        1 => message.push(random.word() as u8),
        2 if !message.is_empty() => message[0] = random.below(NUMBERED) as u8,
        3 if !message.is_empty() => message[at] ^= 1 << random.below(8),
        4 if !message.is_empty() => message[at] = random.pick(&[0, 1, 255]),
        _ => message.extend_from_within(..at),
    }
}

/// A stamp for gossip from that sender, around its row and around what is known.
fn stamp(random: &mut Random, view: View, sender: usize) -> Stamp {
    let (row, known) = (view.row(sender), view.known());
    let mut m = std::array::from_fn(|k| match random.below(8) {
        0 => row[k],
        1 if random.once_in(8) => row[k].saturating_sub(1),
        2 | 3 if k != view.screen() => known[k] + random.below(3) as u32,
        _ => known[k],
    });
    let part = random.below(view.screens());
    match random.below(10) {
        0 if random.once_in(2) => m[part] = known[part] + 1,
        1 if random.once_in(6) => wrap(&mut m, part),
        2..=5 if part != view.screen() => m[part] = known[part] + edge(random, view),
        _ => {}
    }
    clear_past(random, &mut m, view.screens());
    m
}

/// So many new records that they just fit, or just do not.
fn edge(random: &mut Random, view: View) -> u32 {
    let room = LOG_ROOM - view.logged();
    let left = KNOWN_ROOM - view.known_sum();
    let edge = random.pick(&[room.saturating_sub(1), room, room + 1, left, left + 1, 3, 40]);
    edge as u32
}

/// Parts whose sum is small again when it is kept in 32 bits.
fn wrap(m: &mut Stamp, part: usize) {
    m[part] |= 1 << 31;
    m[(part + 1) % 2] |= 1 << 31;
}

fn clear_past(random: &mut Random, m: &mut Stamp, screens: usize) {
    if !random.once_in(60) {
        m[screens..].fill(0);
    }
}

/// The records that the stamp promises beyond what is known, and a few that are known already.
fn records(random: &mut Random, view: View, m: &Stamp, variety: Variety) -> Vec<Record> {
    let mut records = Vec::new();
    for (origin, &last) in m.iter().enumerate().take(view.screens()) {
        let again = if random.once_in(4) { random.below(4) as u32 } else { 0 };
        let first = (view.known()[origin] + 1).saturating_sub(again).max(1);
        for number in first..=last {
            if records.len() == LOG_ROOM {
                return records;
            }
            records.push(record(random, view, (origin, number), variety));
        }
    }
    records
}

fn record(random: &mut Random, view: View, (origin, number): (usize, u32), variety: Variety) -> Record {
    let mut label = if random.once_in(3) { label(random, view) } else { [0; PARTS] };
    if !random.once_in(500) {
        label[origin] = label[origin].min(number - 1);
        label[view.screens()..].fill(0);
    }
    Record { origin: origin as u8, number, label, tap: tap_in_range(random, variety) }
}

/// Most messages stay as they are: a rule broken in one record hides all that comes after it.
fn spoil_records(random: &mut Random, records: &mut Vec<Record>) {
    if records.is_empty() || !random.once_in(8) {
        return;
    }
    let at = random.below(records.len());
    match random.below(7) {
        0 | 1 => drop(records.remove(at)),
        2 => records.swap(at, 0),
        3 if records.len() < LOG_ROOM => records.insert(at, records[at]),
        4 => records[at].number = random.pick(&[0, u32::MAX, 1 << 31]),
        5 => records[at].origin = random.below(MOST_SCREENS + 2) as u8,
        _ => spoil_tap(random, &mut records[at].tap),
    }
}

fn tap_in_range(random: &mut Random, variety: Variety) -> Tap {
    let mut tap = tap(random, variety);
    tap.prompt = tap.prompt.min(63);
    tap.showing = tap.showing.max(1);
    tap.answer = tap.answer.clamp(1, 2);
    tap
}

fn spoil_tap(random: &mut Random, tap: &mut Tap) {
    match random.below(3) {
        0 => tap.prompt = no_prompt(random),
        1 => tap.showing = 0,
        _ => tap.answer = random.pick(&[0, 3, 4, 5, 255]),
    }
}

/// A number past the last prompt.
fn no_prompt(random: &mut Random) -> u8 {
    LAST_PROMPT + 1 + random.below(usize::from(u8::MAX - LAST_PROMPT)) as u8
}

/// A stamp at or below the given one.
fn lowered(random: &mut Random, stamp: Stamp) -> Stamp {
    stamp.map(|part| random.below(part as usize + 1) as u32)
}
