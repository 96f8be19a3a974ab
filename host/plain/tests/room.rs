//! The room for a reply, for every kind at its edge: one byte less than the reply, and exactly the reply.

use plain::wire::{kind, reply_bytes, HEAD_BYTES, LONGEST_GOSSIP, RECORD_BYTES};
use plain::{entry, Book, Stamp, Tap, KNOWN_ROOM, LOG_ROOM, MOST_SCREENS, PROMPTS};

const UNTOUCHED: u8 = 0xee;
const SEND: [u8; 1] = [kind::SEND];
const REFUSAL: usize = reply_bytes(kind::REFUSAL);

fn stamp(a: u32, b: u32, c: u32) -> Stamp {
    Stamp::first(&[a, b, c])
}

fn tap(serial: u32) -> Tap {
    Tap::new(5, serial, 7, 1, Tap::ACCEPT).unwrap()
}

fn tap_bytes(serial: u8, label: Stamp) -> Vec<u8> {
    with_label(&[kind::TAP, 5, 0, 0, 0, serial, 7, 0, 1, 1], label)
}

fn question_bytes(prompt: u8, label: Stamp) -> Vec<u8> {
    with_label(&[kind::QUESTION, prompt], label)
}

/// Gossip without records.
fn gossip_bytes(sender: u8, screens: u8, m: Stamp) -> Vec<u8> {
    with_label(&[kind::GOSSIP, sender, screens, 0, 0], m)
}

fn with_label(front: &[u8], label: Stamp) -> Vec<u8> {
    let label = label.0.iter().flat_map(|part| part.to_be_bytes());
    front.iter().copied().chain(label).collect()
}

fn sent(book: &Book) -> Vec<u8> {
    let mut out = vec![0; book.send_bytes()];
    assert_eq!(book.send(&mut out), Ok(out.len()));
    out
}

/// Screen 0 of three with two taps.
fn two_taps() -> Book {
    let mut book = Book::open(0, 3).unwrap();
    book.tap(tap(1), Stamp::ZERO).unwrap();
    book.tap(tap(2), Stamp::ZERO).unwrap();
    book
}

/// Screen 1 of three, which was told of both.
fn told() -> Book {
    let mut book = Book::open(1, 3).unwrap();
    let reply = entered(&mut book, &sent(&two_taps()));
    assert_eq!(reply, [10, 0, 2, 0, 2]);
    book
}

/// The reply in the room that is always enough; the book becomes what it leaves.
fn entered(book: &mut Book, request: &[u8]) -> Vec<u8> {
    let (mut words, mut reply) = (book.words(), vec![UNTOUCHED; entry::reply_room(request)]);
    let length = entry::answer(&mut words, request, &mut reply);
    *book = Book::from_words(&words).expect("a step leaves a sound book");
    reply.truncate(length);
    reply
}

/// Screen 0 of two with a full log, and with as many records as a book may know.
fn full_log_and_full_book() -> (Book, Book) {
    let (mut zero, mut one) = (Book::open(0, 2).unwrap(), Book::open(1, 2).unwrap());
    let mut full_log = None;
    for serial in 1..=KNOWN_ROOM as u32 {
        zero.tap(tap(serial), Stamp::ZERO).unwrap();
        if zero.log().len() == LOG_ROOM {
            full_log.get_or_insert(zero.clone());
            entered(&mut one, &sent(&zero));
            entered(&mut zero, &sent(&one));
        }
    }
    (full_log.expect("taps fill a log"), zero)
}

/// With every room below `length` nothing is said and nothing changes; from there on the reply is said, and the words
/// are what it leaves. Gives both.
#[track_caller]
fn fits_from(length: usize, before: &[u64], request: &[u8]) -> (Vec<u8>, Vec<u64>) {
    for room in 0..length {
        let (mut words, mut output) = (before.to_vec(), vec![UNTOUCHED; room]);
        assert_eq!(entry::answer(&mut words, request, &mut output), 0, "room {room}");
        assert!(words == before && output == vec![UNTOUCHED; room], "room {room}");
    }
    let (mut words, mut reply) = (before.to_vec(), vec![UNTOUCHED; length]);
    assert_eq!(entry::answer(&mut words, request, &mut reply), length);
    let (mut again, mut output) = (before.to_vec(), vec![UNTOUCHED; length + 3]);
    assert_eq!(entry::answer(&mut again, request, &mut output), length);
    assert_eq!(output, [&reply[..], &[UNTOUCHED; 3]].concat());
    assert!(again == words);
    (reply, words)
}

/// The reply leaves the book as it is.
#[track_caller]
fn said_from(length: usize, book: &Book, request: &[u8]) -> Vec<u8> {
    let before = book.words();
    let (reply, after) = fits_from(length, &before, request);
    assert!(after == before);
    reply
}

#[track_caller]
fn refused(book: &Book, request: &[u8], number: u8) {
    assert_eq!(said_from(REFUSAL, book, request), [9, number]);
}

#[test]
fn a_new_tap_is_taken_in_its_room() {
    let before = two_taps();
    let (reply, after) = fits_from(reply_bytes(kind::TAKEN), &before.words(), &tap_bytes(3, Stamp::ZERO));
    assert_eq!(reply, with_label(&[5], stamp(3, 0, 0)));
    assert_eq!(Book::from_words(&after).unwrap().log().len(), 3);
}

#[test]
fn a_repeat_is_said_in_its_room() {
    let counted = said_from(reply_bytes(kind::ALREADY), &two_taps(), &tap_bytes(1, Stamp::ZERO));
    assert_eq!(counted, with_label(&[6], stamp(2, 0, 0)));
    let mut waiting = two_taps();
    waiting.tap(tap(3), stamp(0, 9, 0)).unwrap();
    let logged = said_from(reply_bytes(kind::ALREADY), &waiting, &tap_bytes(3, Stamp::ZERO));
    assert_eq!(logged, with_label(&[6], stamp(3, 9, 0)));
}

#[test]
fn a_verdict_and_a_wait_are_said_in_their_room() {
    let verdict = said_from(reply_bytes(kind::VERDICT), &two_taps(), &question_bytes(7, stamp(2, 0, 0)));
    assert_eq!(verdict, with_label(&[7, 1, 0, 1, 0, 0, 0, 2, 0, 0, 0, 0], stamp(2, 0, 0)));
    assert_eq!(
        said_from(reply_bytes(kind::WAIT), &two_taps(), &question_bytes(7, stamp(0, 1, 1))),
        [8, 0x06]
    );
}

#[test]
fn gossip_is_taken_in_its_room() {
    let fresh = Book::open(1, 3).unwrap();
    let (reply, after) = fits_from(reply_bytes(kind::GOSSIP_TAKEN), &fresh.words(), &sent(&two_taps()));
    assert_eq!(reply, [10, 0, 2, 0, 2]);
    assert_eq!(after, told().words());
    // Gossip that brings no record changes the sender's row.
    let (reply, after) =
        fits_from(reply_bytes(kind::GOSSIP_TAKEN), &told().words(), &gossip_bytes(2, 3, stamp(2, 0, 0)));
    assert_eq!(reply, [10, 0, 0, 0, 0]);
    assert_ne!(after, told().words());
}

#[test]
fn a_send_is_said_in_the_room_of_its_very_message() {
    let fresh = Book::open(0, 3).unwrap();
    assert_eq!(said_from(HEAD_BYTES, &fresh, &SEND), sent(&fresh));
    assert_eq!(said_from(HEAD_BYTES + 2 * RECORD_BYTES, &two_taps(), &SEND), sent(&two_taps()));
}

#[test]
fn a_refused_tap_is_said_in_its_room() {
    refused(&two_taps(), &tap_bytes(1, Stamp::ZERO)[1..], 1);
    refused(&two_taps(), &tap_bytes(1, Stamp::first(&[0, 0, 0, 1])), 1);
    refused(&two_taps(), &tap_bytes(1, stamp(3, 0, 0)), 3);
    let (full_log, full_book) = full_log_and_full_book();
    let unheard = with_label(&[kind::TAP, 6, 0, 0, 0, 1, 7, 0, 1, 1], Stamp::ZERO);
    refused(&full_log, &unheard, 9);
    refused(&full_book, &unheard, 7);
}

#[test]
fn a_refused_question_is_said_in_its_room() {
    refused(&two_taps(), &question_bytes(PROMPTS as u8, Stamp::ZERO), 1);
    refused(&two_taps(), &question_bytes(7, stamp(3, 0, 0)), 3);
}

#[test]
fn refused_gossip_is_said_in_its_room() {
    refused(&told(), &gossip_bytes(0, MOST_SCREENS as u8 + 1, stamp(2, 0, 0)), 1);
    refused(&told(), &gossip_bytes(1, 3, stamp(2, 0, 0)), 2);
    refused(&told(), &gossip_bytes(0, 3, stamp(2, 0, 0)), 4);
    refused(&told(), &gossip_bytes(0, 3, stamp(1, 0, 1)), 5);
    refused(&told(), &gossip_bytes(0, 3, stamp(2, 1, 0)), 6);
    refused(&told(), &gossip_bytes(0, 3, stamp(KNOWN_ROOM as u32 + 1, 0, 0)), 7);
    refused(&told(), &gossip_bytes(0, 3, stamp(3, 0, 0)), 8);
    let mut other = Book::open(1, 2).unwrap();
    other.tap(tap(1), Stamp::ZERO).unwrap();
    refused(&full_log_and_full_book().0, &sent(&other), 9);
}

#[test]
fn bytes_that_are_no_request_are_refused() {
    for bytes in [&[][..], &[0], &[2, 0], &[5], &[12, 0], &[255; 44]] {
        refused(&two_taps(), bytes, 1);
    }
}

#[test]
fn a_damaged_book_is_refused() {
    let mut damaged = two_taps().words();
    damaged[1] = MOST_SCREENS as u64 + 1;
    let gossip = sent(&told());
    let requests =
        [&tap_bytes(3, Stamp::ZERO)[..], &question_bytes(7, Stamp::ZERO), &gossip, &SEND, &[], &[0]];
    for request in requests {
        for words in [&damaged[..], &damaged[..5], &[]] {
            assert_eq!(fits_from(REFUSAL, words, request), (vec![9, 11], words.to_vec()));
        }
    }
}

#[test]
fn the_room_told_is_enough_for_the_longest() {
    let (full_log, _) = full_log_and_full_book();
    assert_eq!(entry::reply_room(&SEND), full_log.send_bytes());
    assert_eq!(entry::reply_room(&SEND), LONGEST_GOSSIP);
    assert_eq!(entry::reply_room(&tap_bytes(1, Stamp::ZERO)), reply_bytes(kind::TAKEN));
    assert_eq!(entry::reply_room(&question_bytes(7, Stamp::ZERO)), reply_bytes(kind::VERDICT));
    assert_eq!(entry::reply_room(&gossip_bytes(0, 3, Stamp::ZERO)), reply_bytes(kind::GOSSIP_TAKEN));
    for bytes in [&[][..], &[0], &[2], &[5], &[255]] {
        assert_eq!(entry::reply_room(bytes), REFUSAL);
    }
}
