//! What is compared: an implementation of the book, as six functions.

/// One implementation of the consent book over lent words and bytes.
pub trait Engine {
    /// The length of a lent book, in words.
    fn book_words(&self) -> usize;
    /// Writes a fresh book; 0, or the refusal's number.
    fn open(&self, book: &mut [u64], screen: u64, screens: u64) -> u64;
    /// Answers one message; the reply's length, or 0, with nothing changed, when it does not fit.
    fn answer(&self, book: &mut [u64], message: &[u8], reply: &mut [u8]) -> usize;
    /// Yes or no for a question.
    fn permission(&self, book: &[u64], message: &[u8]) -> bool;
    /// The greatest length of the reply to a request.
    fn reply_room(&self, message: &[u8]) -> usize;
    /// Which reply the bytes are; 0 for none.
    fn reply_kind(&self, reply: &[u8]) -> u8;
}

/// An engine of six plain functions.
pub struct Functions {
    pub book_words: fn() -> usize,
    pub open: fn(&mut [u64], u64, u64) -> u64,
    pub answer: fn(&mut [u64], &[u8], &mut [u8]) -> usize,
    pub permission: fn(&[u64], &[u8]) -> bool,
    pub reply_room: fn(&[u8]) -> usize,
    pub reply_kind: fn(&[u8]) -> u8,
}

impl Functions {
    /// The ordinary Rust version.
    pub const PLAIN: Functions = Functions {
        book_words: plain::entry::book_words,
        open: plain::entry::open,
        answer: plain::entry::answer,
        permission: plain::entry::permission,
        reply_room: plain::entry::reply_room,
        reply_kind: plain::entry::reply_kind,
    };
}

impl Engine for Functions {
    fn book_words(&self) -> usize {
        (self.book_words)()
    }

    fn open(&self, book: &mut [u64], screen: u64, screens: u64) -> u64 {
        (self.open)(book, screen, screens)
    }

    fn answer(&self, book: &mut [u64], message: &[u8], reply: &mut [u8]) -> usize {
        (self.answer)(book, message, reply)
    }

    fn permission(&self, book: &[u64], message: &[u8]) -> bool {
        (self.permission)(book, message)
    }

    fn reply_room(&self, message: &[u8]) -> usize {
        (self.reply_room)(message)
    }

    fn reply_kind(&self, reply: &[u8]) -> u8 {
        (self.reply_kind)(reply)
    }
}
