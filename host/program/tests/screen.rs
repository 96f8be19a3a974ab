//! The built program, fed through a pipe.

use program::{vectors, Screen};

/// Of input that is longer, single bytes would take long: a pipe's write is slow in an emulator.
const SHORT: usize = 2_000;

/// The lengths of the messages of the whole case.
const STAMP_BYTES: usize = 32;
const OPEN_BYTES: usize = 1 + 2;
const TAP_BYTES: usize = 1 + 9 + STAMP_BYTES;
const TAKEN_BYTES: usize = 1 + STAMP_BYTES;

#[test]
fn every_vector_whatever_the_pieces() {
    for vector in vectors() {
        let pieces: &[usize] = if vector.input.len() < SHORT { &[1] } else { &[1, 36, 4096, 47, 5] };
        let written = Screen::start().run(&vector.input, pieces);
        assert!(written == vector.output, "{}: other bytes than expected", vector.name);
    }
}

#[test]
fn each_reply_before_the_next_message() {
    let whole_case = &vectors()[0];
    assert_eq!(whole_case.name, "whole-case");
    let (open, messages) = whole_case.input.split_at(OPEN_BYTES);
    let (tap, send) = messages.split_at(TAP_BYTES);
    let (taken, gossip) = whole_case.output.split_at(TAKEN_BYTES);

    let mut screen = Screen::start();
    screen.drip(open);
    screen.drip(tap);
    assert_eq!(screen.wait_for(taken.len()), taken);
    screen.drip(send);
    assert_eq!(screen.wait_for(gossip.len()), gossip);
    assert_eq!(screen.end(), []);
}
