//! The consent book of a family car: what people tapped on each screen, kept without losing either half of a double
//! tap, passed on by gossip, and answered only when enough is known.
//!
//! This crate is a thin, safe face of a library that is proved against its specification: every refusal, every answer
//! and every word of the book are settled there. A [`Book`] owns its memory; requests and answers are typed.
//!
//! ```
//! use consent::{Answer, Book, Question, Stamp, Tap, TapAnswer};
//!
//! // A car of two screens.
//! let mut front = Book::open(0, 2)?;
//! let mut rear = Book::open(1, 2)?;
//!
//! // A trembling finger accepts and declines with one serial: two taps, and both are kept.
//! let accept = Tap { front_end: 5, serial: 1, prompt: 7, showing: 1, answer: Answer::Accept };
//! let decline = Tap { answer: Answer::Decline, ..accept };
//! front.tap(&accept, Stamp::ZERO)?;
//! let TapAnswer::Taken(label) = front.tap(&decline, Stamp::ZERO)? else {
//!     panic!("a new tap is taken");
//! };
//!
//! // The rear screen has not heard of it, and does not guess.
//! let question = Question { prompt: 7, label };
//! assert!(!rear.permission(&question));
//!
//! // After gossip it knows, and the consent is contested: the camera stays off.
//! let news = front.send()?;
//! let taken = rear.gossip(&news)?;
//! assert_eq!((taken.new, taken.applied), (2, 2));
//! assert!(!rear.permission(&question));
//! # Ok::<(), consent::Refusal>(())
//! ```
//!
//! # Labels
//!
//! Taken and Already carry a [`Stamp`]. A front end keeps the merge of the stamps it was given and hands it in as the
//! label of its next request: a question at a label is answered only by a book that has applied all that it names.
//!
//! # Memory
//!
//! A book is [`BOOK_WORDS`](numbers::BOOK_WORDS) words, never more. A host that keeps the memory itself uses [`lent`].

#![deny(unsafe_code)]
#![warn(missing_docs)]

mod book;
mod contents;
mod ffi;
mod message;
pub mod numbers;
mod values;

pub use book::{Book, GossipTaken, QuestionAnswer, TapAnswer};
pub use contents::Contents;
pub use message::{Gossip, Reply, Request};
pub use values::{Answer, Question, Record, Refusal, Stamp, Standing, Tap, Verdict};

/// The library's six functions over memory that the caller lends.
///
/// None of them asks anything of its arguments: any words, any bytes and any lengths are judged and answered. An
/// [`answer`](lent::answer) of length 0 is one whose reply has no room; it changes nothing.
pub mod lent {
    pub use crate::ffi::{answer, book_words, open, permission, reply_kind, reply_room};
}
