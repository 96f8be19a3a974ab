//! One work done once by one side, to be run under a counter of executed instructions.

use std::hint::black_box;

use crate::work::{Work, LONGEST_REPLY};
use crate::Answer;

/// The work from its books on. What is not to count goes through a twin of the function that is counted.
pub fn once(work: &Work, answer: Answer) {
    let mut books = work.books.clone();
    let mut reply = vec![0; LONGEST_REPLY];
    for step in &work.steps {
        let call = if step.counts { counted } else { uncounted };
        for message in &step.messages {
            call(answer, &mut books[step.book], message, &mut reply);
            assert_eq!(reply[0], step.reply, "{}: another kind of reply", work.name);
        }
    }
}

/// `run.sh` has the counter count from this function's entry to its return.
#[inline(never)]
fn counted(answer: Answer, book: &mut [u64], message: &[u8], reply: &mut [u8]) -> usize {
    black_box(answer(book, black_box(message), reply))
}

#[inline(never)]
fn uncounted(answer: Answer, book: &mut [u64], message: &[u8], reply: &mut [u8]) -> usize {
    black_box(answer(book, black_box(message), reply))
}
