//! Two engines asked the same, and their answers, books and outputs compared.

use std::fmt;

use crate::bytes::hex;
use crate::engine::Engine;
use crate::numbers::{kind, refused, NUMBERED};

/// What stands in a reply's buffer before an answer: both sides must leave the same bytes past the reply.
const UNTOUCHED: u8 = 0xa5;

/// The refusal of a book that is unsound or of wrong length.
pub const UNSOUND: [u8; 2] = [kind::REFUSAL, refused::UNSOUND];

/// Two engines, the left one under test and the right one the second opinion, and what they were asked so far.
pub struct Pair<'a> {
    left: &'a dyn Engine,
    right: &'a dyn Engine,
    pub messages: usize,
    /// How often each reply was given, by its byte of kind; refusals by their number in `refused`.
    pub replied: [usize; NUMBERED],
    pub refused: [usize; NUMBERED],
    /// How often a reply of each kind had too little room, by its byte of kind.
    pub left_out: [usize; NUMBERED],
    /// How often a request of each kind was answered in less room than its longest reply takes.
    pub tight: [usize; NUMBERED],
}

/// One screen's book on both sides.
#[derive(Clone, PartialEq, Eq)]
pub struct Books {
    pub left: Vec<u64>,
    pub right: Vec<u64>,
}

/// The first thing that the two engines did differently.
#[derive(Debug)]
pub struct Difference {
    /// The seed of the part of the run that shows it.
    pub seed: u64,
    /// The messages answered before.
    pub after: usize,
    /// What was asked and what differs.
    pub what: String,
}

impl fmt::Display for Difference {
    fn fmt(&self, f: &mut fmt::Formatter) -> fmt::Result {
        let Difference { seed, after, what } = self;
        write!(f, "seed {seed:#x}, after {after} messages: {what}")
    }
}

impl Books {
    /// Both sides start from the same words.
    pub fn new(words: Vec<u64>) -> Books {
        Books { left: words.clone(), right: words }
    }

    /// Says where the two differ, if they do.
    fn compare(&self) -> Result<(), String> {
        if self.left == self.right {
            return Ok(());
        }
        let mut pairs = self.left.iter().zip(&self.right).enumerate();
        let differing = pairs.find(|(_, (left, right))| left != right);
        Err(format!("a word of the book, and what it is on each side: {differing:?}"))
    }
}

impl<'a> Pair<'a> {
    pub fn new(left: &'a dyn Engine, right: &'a dyn Engine) -> Pair<'a> {
        let none = [0; NUMBERED];
        Pair { left, right, messages: 0, replied: none, refused: none, left_out: none, tight: none }
    }

    /// Opens a book on both sides over the words that are there.
    pub fn open(&mut self, books: &mut Books, screen: u64, screens: u64) -> Result<u64, String> {
        let left = self.left.open(&mut books.left, screen, screens);
        let right = self.right.open(&mut books.right, screen, screens);
        let compared = same(left, right).and_then(|()| books.compare());
        compared.map_err(|what| format!("open {screen} of {screens}: {what}"))?;
        Ok(left)
    }

    /// Answers a message on both sides with that much room, and gives the reply.
    pub fn answer(&mut self, books: &mut Books, message: &[u8], room: usize) -> Result<Vec<u8>, String> {
        let (mut left, mut right) = (vec![UNTOUCHED; room], vec![UNTOUCHED; room]);
        let length = self.left.answer(&mut books.left, message, &mut left);
        let other = self.right.answer(&mut books.right, message, &mut right);
        let compared = same(length, other)
            .and_then(|()| same_bytes(&left, &right))
            .and_then(|()| untouched(left.get(length..)))
            .and_then(|()| books.compare());
        compared.map_err(|what| format!("{} with room {room}: {what}", hex(message)))?;
        left.truncate(length);
        self.read(&left)?;
        self.note(&left);
        Ok(left)
    }

    /// Asks both sides for permission.
    pub fn permission(&mut self, books: &Books, message: &[u8]) -> Result<bool, String> {
        let left = self.left.permission(&books.left, message);
        let right = self.right.permission(&books.right, message);
        same(left, right).map_err(|what| format!("permission for {}: {what}", hex(message)))?;
        Ok(left)
    }

    /// The room that both sides say a reply needs at most.
    pub fn reply_room(&self, message: &[u8]) -> Result<usize, String> {
        let left = self.left.reply_room(message);
        same(left, self.right.reply_room(message))
            .map_err(|what| format!("room for the reply to {}: {what}", hex(message)))?;
        Ok(left)
    }

    /// Which reply both sides say that some bytes are; 0 for none.
    pub fn reply_kind(&self, reply: &[u8]) -> Result<u8, String> {
        let left = self.left.reply_kind(reply);
        same(left, self.right.reply_kind(reply))
            .map_err(|what| format!("the kind of reply of {}: {what}", hex(reply)))?;
        Ok(left)
    }

    /// The length of a book, on which both sides agree.
    pub fn book_words(&self) -> Result<usize, String> {
        let left = self.left.book_words();
        same(left, self.right.book_words()).map_err(|what| format!("length of a book: {what}"))?;
        Ok(left)
    }

    /// A reply that was given is read as one of its kind. Gossip is none of these.
    fn read(&self, reply: &[u8]) -> Result<(), String> {
        let kind = reply.first().copied().filter(|&kind| kind != kind::GOSSIP).unwrap_or(0);
        let read = self.reply_kind(reply)?;
        same(read, kind).map_err(|what| format!("reply {} is read as another: {what}", hex(reply)))
    }

    /// Counts a request that was asked in that room, and whose very reply is known.
    pub fn note_room(&mut self, message: &[u8], very: &[u8], room: usize) {
        if room < very.len() {
            self.left_out[row(very[0])] += 1;
        } else if room < self.left.reply_room(message) {
            self.tight[row(message[0])] += 1;
        }
    }

    fn note(&mut self, reply: &[u8]) {
        self.messages += 1;
        match *reply {
            [kind::REFUSAL, number] => self.refused[row(number)] += 1,
            [kind, ..] => self.replied[row(kind)] += 1,
            [] => self.refused[row(refused::SHORT_OUTPUT)] += 1,
        }
    }
}

/// Where a kind or a refusal is counted.
fn row(number: u8) -> usize {
    usize::from(number) % NUMBERED
}

/// What is past the reply stays.
fn untouched(past: Option<&[u8]>) -> Result<(), String> {
    match past {
        Some(past) if past.iter().all(|&byte| byte == UNTOUCHED) => Ok(()),
        Some(past) => Err(format!("past the reply {} is written", hex(past))),
        None => Err("the reply is longer than its room".into()),
    }
}

fn same<T: PartialEq + fmt::Debug>(left: T, right: T) -> Result<(), String> {
    if left == right {
        return Ok(());
    }
    Err(format!("{left:?} and {right:?}"))
}

fn same_bytes(left: &[u8], right: &[u8]) -> Result<(), String> {
    if left == right {
        return Ok(());
    }
    Err(format!("reply {} and {}", hex(left), hex(right)))
}
