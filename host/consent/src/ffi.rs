//! The library's functions as `include/consent.h` declares them, each under a safe function. A slice passes as a
//! pointer and a length, and the library touches nothing outside.

#![allow(unsafe_code)]

mod library {
    extern "C" {
        pub fn consent_book_words() -> usize;
        pub fn consent_open(book: *mut u64, words: usize, screen: u64, screens: u64) -> u64;
        pub fn consent_answer(
            book: *mut u64,
            words: usize,
            message: *const u8,
            length: usize,
            reply: *mut u8,
            room: usize,
        ) -> usize;
        pub fn consent_permission(book: *const u64, words: usize, message: *const u8, length: usize) -> bool;
        pub fn consent_reply_room(message: *const u8, length: usize) -> usize;
        pub fn consent_reply_kind(reply: *const u8, length: usize) -> u8;
    }
}

/// The length of a lent book, in words.
pub fn book_words() -> usize {
    // SAFETY: it takes nothing.
    unsafe { library::consent_book_words() }
}

/// Writes the fresh book of that screen in a house of so many; 0, or the refusal's number, which changes nothing.
pub fn open(book: &mut [u64], screen: u64, screens: u64) -> u64 {
    // SAFETY: pointer and length are the slice's own.
    unsafe { library::consent_open(book.as_mut_ptr(), book.len(), screen, screens) }
}

/// Answers one whole tap, question, gossip or send at the front of `reply` and gives the reply's length.
///
/// 0 exactly when the very reply is longer than `reply`: then nothing changes, and a tap or gossip that would be taken
/// is not. [`reply_room`] is always enough.
pub fn answer(book: &mut [u64], message: &[u8], reply: &mut [u8]) -> usize {
    let (message_at, reply_at) = (message.as_ptr(), reply.as_mut_ptr());
    // SAFETY: pointers and lengths are the slices' own, and the slices do not overlap.
    unsafe {
        library::consent_answer(
            book.as_mut_ptr(),
            book.len(),
            message_at,
            message.len(),
            reply_at,
            reply.len(),
        )
    }
}

/// Yes or no for a question; anything else is a no.
pub fn permission(book: &[u64], message: &[u8]) -> bool {
    // SAFETY: pointers and lengths are the slices' own.
    unsafe { library::consent_permission(book.as_ptr(), book.len(), message.as_ptr(), message.len()) }
}

/// The greatest length of the reply to a request, by its byte of kind: with that much room [`answer`] never gives 0.
pub fn reply_room(message: &[u8]) -> usize {
    // SAFETY: pointer and length are the slice's own.
    unsafe { library::consent_reply_room(message.as_ptr(), message.len()) }
}

/// Which reply the bytes are, by its kind; 0 when they are none that keeps its field rules.
pub fn reply_kind(reply: &[u8]) -> u8 {
    // SAFETY: pointer and length are the slice's own.
    unsafe { library::consent_reply_kind(reply.as_ptr(), reply.len()) }
}
