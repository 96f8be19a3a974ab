//! How much room is lent for a reply: what is always enough, or about as much as the very reply takes.

use crate::bytes::hex;
use crate::pair::{Books, Pair};
use crate::random::Random;

/// Once in so many messages the room is drawn around the very reply.
const DRAWN: usize = 4;

/// Answers a message in room enough or, now and then, in a room around the very reply.
pub fn answer(
    pair: &mut Pair,
    random: &mut Random,
    books: &mut Books,
    message: &[u8],
) -> Result<Vec<u8>, String> {
    if random.once_in(DRAWN) {
        return answer_in_drawn(pair, random, books, message);
    }
    answer_in_enough(pair, books, message)
}

/// Answers a message in the room that is always enough, and says so if it was not.
pub fn answer_in_enough(pair: &mut Pair, books: &mut Books, message: &[u8]) -> Result<Vec<u8>, String> {
    let most = pair.reply_room(message)?;
    let reply = pair.answer(books, message, most)?;
    if reply.is_empty() {
        return Err(format!("{} has no reply in room {most}, which is always enough", hex(message)));
    }
    Ok(reply)
}

/// Learns the very reply on a copy of the books, and draws the room around it: if the reply fits it is said and the
/// books become what the copy did, else nothing is said and nothing changes.
fn answer_in_drawn(
    pair: &mut Pair,
    random: &mut Random,
    books: &mut Books,
    message: &[u8],
) -> Result<Vec<u8>, String> {
    let (before, mut after) = (books.clone(), books.clone());
    let very = answer_in_enough(pair, &mut after, message)?;
    let room = draw(random, very.len(), pair.reply_room(message)?);
    let reply = pair.answer(books, message, room)?;
    pair.note_room(message, &very, room);
    let (due, left) = if room < very.len() { (Vec::new(), before) } else { (very, after) };
    if reply != due || *books != left {
        return Err(format!(
            "{} with room {room}: {} or what it leaves is not due",
            hex(message),
            hex(&reply)
        ));
    }
    Ok(reply)
}

/// A room around the length of the very reply, or around the length of the longest one.
fn draw(random: &mut Random, very: usize, most: usize) -> usize {
    random.pick(&[0, 1, 2, very - 1, very, very + 1, most - 1, most])
}
