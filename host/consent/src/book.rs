//! A book that owns its words, and the typed calls on it.

use crate::contents::Contents;
use crate::ffi;
use crate::message::{is_gossip, Reply, Request};
use crate::numbers::{BOOK_WORDS, SHORT_REPLY};
use crate::values::{Question, Refusal, Stamp, Standing, Tap};

/// The book of one screen, which owns its memory.
///
/// Each call judges the whole book first: a book that was damaged in memory is refused with [`Refusal::Unsound`], and
/// stays as it is. A question and a send change nothing, but the library takes the book as one that it may write to,
/// so they too ask for `&mut`; [`Book::permission`] does not.
#[derive(Clone, Debug, PartialEq, Eq)]
pub struct Book {
    words: Box<[u64]>,
}

/// What a tap answers when it is not refused.
#[derive(Clone, Copy, Debug, PartialEq, Eq)]
pub enum TapAnswer {
    /// It is a new record, with this stamp.
    Taken(Stamp),
    /// The same tap is already here: the value stamp if it is counted, else the stamp of its first record.
    Already(Stamp),
}

/// What a question answers when it is not refused.
#[derive(Clone, Copy, Debug, PartialEq, Eq)]
pub enum QuestionAnswer {
    /// Where the prompt stands, and the value stamp.
    Verdict(Standing, Stamp),
    /// Not all that the label names is applied here; bit k is set when screen k's taps are lacking.
    Wait(u8),
}

/// What gossip answers when it is not refused.
#[derive(Clone, Copy, Debug, PartialEq, Eq)]
pub struct GossipTaken {
    /// How many records were new.
    pub new: u16,
    /// How many records became applied.
    pub applied: u16,
}

impl Book {
    /// The fresh book of that screen, from 0, in a house of so many.
    pub fn open(screen: u8, screens: u8) -> Result<Book, Refusal> {
        let mut words = vec![0; BOOK_WORDS].into_boxed_slice();
        match ffi::open(&mut words, screen.into(), screens.into()) {
            0 => Ok(Book { words }),
            number => {
                Err(Refusal::from_number(number as u8).expect("the library's refusals are in the table"))
            }
        }
    }

    /// A book of words that were kept somewhere. Any words will do: each call judges them.
    pub fn from_words(words: impl Into<Box<[u64]>>) -> Book {
        Book { words: words.into() }
    }

    /// The words of the book.
    pub fn words(&self) -> &[u64] {
        &self.words
    }

    /// What stands in the words, to look at; none where a number is out of its range.
    pub fn contents(&self) -> Option<Contents> {
        Contents::of(&self.words)
    }

    /// Takes a tap.
    pub fn tap(&mut self, tap: &Tap, label: Stamp) -> Result<TapAnswer, Refusal> {
        match self.answer(&Request::Tap(*tap, label)) {
            Reply::Taken(stamp) => Ok(TapAnswer::Taken(stamp)),
            Reply::Already(stamp) => Ok(TapAnswer::Already(stamp)),
            other => Err(refusal(other)),
        }
    }

    /// Asks how a prompt stands.
    pub fn question(&mut self, question: &Question) -> Result<QuestionAnswer, Refusal> {
        match self.answer(&Request::Question(*question)) {
            Reply::Verdict(standing, value) => Ok(QuestionAnswer::Verdict(standing, value)),
            Reply::Wait(lacking) => Ok(QuestionAnswer::Wait(lacking)),
            other => Err(refusal(other)),
        }
    }

    /// Whether the car may do what the prompt asks for: yes exactly when the question is answered and all accepted.
    pub fn permission(&self, question: &Question) -> bool {
        ffi::permission(&self.words, &Request::Question(*question).encode())
    }

    /// The gossip for the other screens: what this one knows, and its log.
    pub fn send(&mut self) -> Result<Vec<u8>, Refusal> {
        match self.answer(&Request::Send) {
            Reply::Gossip(message) => Ok(message),
            other => Err(refusal(other)),
        }
    }

    /// Takes another screen's gossip, as it was sent.
    pub fn gossip(&mut self, message: &[u8]) -> Result<GossipTaken, Refusal> {
        match self.answer(&Request::Gossip(message)) {
            Reply::GossipTaken { new, applied } => Ok(GossipTaken { new, applied }),
            other => Err(refusal(other)),
        }
    }

    /// Answers any request.
    pub fn answer(&mut self, request: &Request) -> Reply {
        match request {
            Request::Send => self.answer_send(),
            Request::Gossip(message) => self.answer_gossip(message),
            Request::Tap(..) | Request::Question(_) => self.answer_short(&request.encode()),
        }
    }

    fn answer_gossip(&mut self, message: &[u8]) -> Reply {
        // A tap's bytes must not be taken as a tap here: where gossip is expected they are as unreadable as no bytes.
        let gossip = if is_gossip(message) { message } else { &[] };
        self.answer_short(gossip)
    }

    fn answer_short(&mut self, message: &[u8]) -> Reply {
        let mut reply = [0; SHORT_REPLY];
        let length = ffi::answer(&mut self.words, message, &mut reply);
        understood(&reply[..length])
    }

    fn answer_send(&mut self) -> Reply {
        let message = Request::Send.encode();
        let mut reply = vec![0; ffi::reply_room(&message)];
        let length = ffi::answer(&mut self.words, &message, &mut reply);
        understood(&reply[..length])
    }
}

fn understood(reply: &[u8]) -> Reply {
    Reply::decode(reply).expect("the library writes replies only")
}

/// The refusal in a reply to which the library's promise leaves no other meaning.
fn refusal(reply: Reply) -> Refusal {
    match reply {
        Reply::Refused(refusal) => refusal,
        other => panic!("the library gave a reply of another request: {other:?}"),
    }
}
