//! The six functions over lent words and bytes that the proved library exports too.

use super::wire::{kind, reply_bytes, LONGEST_GOSSIP};
use super::{Book, Refusal, Reply, Request, TapAnswer, WORDS};

/// The length of a lent book, in words.
pub fn book_words() -> usize {
    WORDS
}

/// Writes the fresh book of that screen; 0, or the refusal's number.
pub fn open(words: &mut [u64], screen: u64, screens: u64) -> u64 {
    if words.len() != WORDS {
        return Refusal::Unsound.number().into();
    }
    match Book::open(screen, screens) {
        Ok(book) => {
            book.store(words);
            0
        }
        Err(refusal) => refusal.number().into(),
    }
}

/// Answers one whole tap, question, gossip or send; the reply's length, or 0, with nothing changed, when the very reply
/// does not fit.
pub fn answer(words: &mut [u64], message: &[u8], reply: &mut [u8]) -> usize {
    answer_fitting(words, message, reply).unwrap_or(0)
}

/// Yes or no for a question; anything else is a no.
pub fn permission(words: &[u64], message: &[u8]) -> bool {
    match judged(words, message) {
        Ok((book, Request::Question { prompt, label })) => book.permission(prompt, label),
        _ => false,
    }
}

/// The greatest length of the reply to a request, by its byte of kind.
pub fn reply_room(message: &[u8]) -> usize {
    match message.first() {
        Some(&kind::GOSSIP) => reply_bytes(kind::GOSSIP_TAKEN),
        Some(&kind::TAP) => reply_bytes(kind::TAKEN),
        Some(&kind::QUESTION) => reply_bytes(kind::VERDICT),
        Some(&kind::SEND) => LONGEST_GOSSIP,
        _ => reply_bytes(kind::REFUSAL),
    }
}

/// Which reply the bytes are, by its kind; 0 when they are none that obeys its field rules.
pub fn reply_kind(bytes: &[u8]) -> u8 {
    Reply::parse(bytes).map_or(0, |reply| reply.kind())
}

/// The book and the request, if the one is sound and the other well formed: 11 comes before 1.
fn judged<'a>(words: &[u64], message: &'a [u8]) -> Result<(Book, Request<'a>), Refusal> {
    let book = Book::from_words(words).ok_or(Refusal::Unsound)?;
    let request = Request::parse(message, book.screens()).ok_or(Refusal::Malformed)?;
    Ok((book, request))
}

/// Works the request out on a copy of the book: the one error is [`Refusal::ShortOutput`].
fn answer_fitting(words: &mut [u64], message: &[u8], reply: &mut [u8]) -> Result<usize, Refusal> {
    let (mut book, request) = match judged(words, message) {
        Ok(judged) => judged,
        Err(refusal) => return Reply::Refused(refusal).write(reply),
    };
    let answer = match request {
        Request::Send => return book.send(reply),
        Request::Question { prompt, label } => book.question(prompt, label).map(Reply::Question),
        Request::Tap { tap, label } => book.tap(tap, label).map(Reply::Tap),
        Request::Gossip(gossip) => {
            book.gossip(&gossip).map(|(new, applied)| Reply::GossipTaken { new, applied })
        }
    };
    conclude(&answer.unwrap_or_else(Reply::Refused), &book, words, reply)
}

/// Says the answer if it fits, and only then keeps the book that it leaves.
fn conclude(answer: &Reply, book: &Book, words: &mut [u64], reply: &mut [u8]) -> Result<usize, Refusal> {
    let length = answer.write(reply)?;
    if changes(answer) {
        book.store(words);
    }
    Ok(length)
}

/// Whether an answer means that the book is another than before.
fn changes(answer: &Reply) -> bool {
    matches!(answer, Reply::Tap(TapAnswer::Taken(_)) | Reply::GossipTaken { .. })
}
