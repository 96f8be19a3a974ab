//! Books damaged in one word, or of wrong length: each must be judged alike, and a book that is still sound must be
//! answered alike.

use crate::bytes;
use crate::forge::{self, Variety};
use crate::numbers::{at, MOST_SCREENS, PARTS, PROMPT_WORDS, RECORD_WORDS};
use crate::pair::{Books, Pair, UNSOUND};
use crate::random::Random;
use crate::rooms;
use crate::view::View;

/// In how many ways a word is damaged.
const WAYS: usize = 5;

/// Damages every word of a sound book, one at a time, in every way.
pub fn every_word(pair: &mut Pair, random: &mut Random, sound: &Books) -> Result<(), String> {
    for at in 0..sound.right.len() {
        one_word(pair, random, sound, at)?;
    }
    Ok(())
}

/// Damages some words of a sound book, most of them where something is kept.
pub fn some_words(pair: &mut Pair, random: &mut Random, sound: &Books, count: usize) -> Result<(), String> {
    let used: Vec<usize> = (0..sound.right.len()).filter(|&at| sound.right[at] != 0).collect();
    for _ in 0..count {
        let anywhere = random.below(sound.right.len());
        let at = if random.once_in(4) { anywhere } else { random.pick(&used) };
        one_word(pair, random, sound, at)?;
    }
    Ok(())
}

/// Lends books that are too short and too long.
pub fn lengths(pair: &mut Pair, random: &mut Random, sound: &Books) -> Result<(), String> {
    let words = sound.right.len();
    for length in [0, 1, at::TABLE, words / 2, words - 1, words + 1, 2 * words] {
        let mut lent = sound.right.clone();
        lent.resize(length, 0);
        let mut books = Books::new(lent);
        ask(pair, random, &mut books, View(&sound.right))?;
        pair.open(&mut books, 0, 2)?;
        pair.open(&mut books, MOST_SCREENS as u64 + 1, MOST_SCREENS as u64 + 1)?;
    }
    Ok(())
}

fn one_word(pair: &mut Pair, random: &mut Random, sound: &Books, at: usize) -> Result<(), String> {
    let right = sound.right[at];
    for way in 0..WAYS {
        let damaged = damaged(random, way, sound, at);
        if damaged == right {
            continue;
        }
        let mut books = sound.clone();
        books.left[at] = damaged;
        books.right[at] = damaged;
        ask(pair, random, &mut books, View(&sound.right))
            .map_err(|what| format!("word {at} changed from {right} to {damaged}: {what}"))?;
    }
    Ok(())
}

fn damaged(random: &mut Random, way: usize, sound: &Books, at: usize) -> u64 {
    let word = sound.right[at];
    match way {
        0 => word.wrapping_add(1),
        1 => word.wrapping_sub(1),
        2 => word ^ 1 << random.below(64),
        3 => random.pick(&[0, u64::MAX, 1 << 32, word | 1 << 32]),
        _ => sound.right[(at + random.pick(&[1, PROMPT_WORDS, PARTS, RECORD_WORDS])) % sound.right.len()],
    }
}

/// Asks what was near the edges of the book before the damage. A book that is still sound stays so.
fn ask(pair: &mut Pair, random: &mut Random, books: &mut Books, view: View) -> Result<(), String> {
    let message = match random.below(8) {
        0 => bytes::SEND.to_vec(),
        1 => forge::gossip(random, view, Variety::Few),
        2 => bytes::tap(&forge::tap(random, Variety::Few), &forge::label(random, view)),
        _ => forge::question(random, view),
    };
    if random.once_in(4) {
        pair.permission(books, &message)?;
    }
    let reply = rooms::answer(pair, random, books, &message)?;
    // Nothing is said in too little room, of whatever book.
    if reply.is_empty() || reply == UNSOUND {
        return Ok(());
    }
    if rooms::answer_in_enough(pair, books, &bytes::SEND)? == UNSOUND {
        return Err(format!("{} left an unsound book", bytes::hex(&message)));
    }
    Ok(())
}
