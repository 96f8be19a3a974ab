//! The consent book in ordinary Rust, written from document 01 alone.
//!
//! It is the yardstick for the proved library: a second opinion on what every message answers and
//! what every book becomes, and a measure of what such a book costs when nobody proves anything.
//! It shares no code with the proved crates or their wrapper.
//!
//! Two ways in: [`Book`] with typed requests and answers, and [`entry`], the six functions over
//! lent words and bytes that the proved library exports too.
//!
//! Each rule of the document is a small function of its own: the slips of `difftest` are such functions with another
//! body.
//!
//! ```
//! use plain::{Book, Stamp, Tap, TapAnswer};
//!
//! let mut book = Book::open(0, 3).unwrap();
//! let tap = Tap::new(5, 1, 7, 1, Tap::ACCEPT).unwrap();
//! let taken = book.tap(tap, Stamp::ZERO).unwrap();
//! assert_eq!(taken, TapAnswer::Taken(Stamp::first(&[1, 0, 0])));
//! assert!(book.permission(7, Stamp::ZERO));
//! ```

mod book;
pub mod entry;
mod layout;
mod limits;
mod message;
mod record;
mod refusal;
mod stamp;
mod tap;
pub mod wire;

pub use book::{Book, Prompt, QuestionAnswer, TapAnswer, Verdict};
pub use layout::WORDS;
pub use limits::{KNOWN_ROOM, LEAST_SCREENS, LEAST_SHOWING, LOG_ROOM, MOST_SCREENS, PARTS, PROMPTS};
pub use message::{Gossip, Reply, Request};
pub use record::Record;
pub use refusal::Refusal;
pub use stamp::{Bits, Stamp};
pub use tap::Tap;
