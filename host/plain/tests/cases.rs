//! The practice cases of document 01, A to O, and its whole case.

use plain::wire::{kind, reply_bytes, HEAD_BYTES, RECORD_BYTES, STAMP_BYTES};
use plain::{
    entry, Bits, Book, Gossip, Prompt, QuestionAnswer, Refusal, Stamp, Tap, TapAnswer, Verdict, KNOWN_ROOM,
    LOG_ROOM, WORDS,
};

const NO_LABEL: Stamp = Stamp::ZERO;

fn stamp(a: u32, b: u32, c: u32) -> Stamp {
    Stamp::first(&[a, b, c])
}

fn tap(front_end: u8, serial: u32, showing: u16, answer: u8) -> Tap {
    Tap::new(front_end, serial, 7, showing, answer).unwrap()
}

fn tap_a() -> Tap {
    tap(5, 1, 1, Tap::ACCEPT)
}

fn tap_b() -> Tap {
    tap(5, 2, 1, Tap::DECLINE)
}

fn taken(a: u32, b: u32, c: u32) -> Result<TapAnswer, Refusal> {
    Ok(TapAnswer::Taken(stamp(a, b, c)))
}

fn wait(lacking: Bits) -> Result<QuestionAnswer, Refusal> {
    Ok(QuestionAnswer::Wait { lacking })
}

/// Verdict, showing, accepts and declines on prompt 7, at a label that the book must cover.
fn verdict(book: &Book, label: Stamp) -> (Verdict, u16, u32, u32) {
    match book.question(7, label) {
        Ok(QuestionAnswer::Verdict { verdict, prompt, .. }) => {
            let Prompt { showing, accepts, declines } = prompt;
            (verdict, showing, accepts, declines)
        }
        other => panic!("not answered: {other:?}"),
    }
}

fn sent(book: &Book) -> Vec<u8> {
    let mut out = vec![0; book.send_bytes()];
    assert_eq!(book.send(&mut out), Ok(out.len()));
    out
}

fn deliver(book: &mut Book, message: &[u8]) -> Result<(u16, u16), Refusal> {
    book.gossip(&Gossip::parse(message).expect("a readable message"))
}

/// A gossip head of three screens with these records' bytes after it.
fn message(sender: u8, m: Stamp, records: &[u8]) -> Vec<u8> {
    let count = (records.len() / RECORD_BYTES) as u8;
    let mut bytes = vec![kind::GOSSIP, sender, 3, 0, count];
    bytes.extend(m.0.iter().flat_map(|part| part.to_be_bytes()));
    bytes.extend(records);
    bytes
}

fn open(screen: u64, screens: u64) -> Book {
    Book::open(screen, screens).unwrap()
}

/// Screen 0 of three after A and B.
fn after_b() -> Book {
    let mut book = open(0, 3);
    book.tap(tap_a(), NO_LABEL).unwrap();
    book.tap(tap_b(), NO_LABEL).unwrap();
    book
}

/// Screen 2 of three after G and H.
fn after_h() -> Book {
    let mut book = open(2, 3);
    let ahead = tap(6, 1, 2, Tap::ACCEPT);
    assert_eq!(book.tap(ahead, stamp(1, 0, 0)), taken(1, 0, 1));
    assert_eq!(deliver(&mut book, &sent(&after_b())), Ok((2, 3)));
    book
}

#[test]
fn a_first_tap() {
    let mut book = open(0, 3);
    assert_eq!(book.tap(tap_a(), NO_LABEL), taken(1, 0, 0));
    assert_eq!(verdict(&book, stamp(1, 0, 0)), (Verdict::Accepted, 1, 1, 0));
    assert!(book.permission(7, stamp(1, 0, 0)));
}

#[test]
fn b_contested() {
    let mut book = open(0, 3);
    book.tap(tap_a(), NO_LABEL).unwrap();
    assert_eq!(book.tap(tap_b(), NO_LABEL), taken(2, 0, 0));
    assert_eq!(verdict(&book, NO_LABEL), (Verdict::Contested, 1, 1, 1));
    assert!(!book.permission(7, NO_LABEL));
}

#[test]
fn c_already() {
    let mut book = after_b();
    let before = book.clone();
    assert_eq!(book.tap(tap_a(), NO_LABEL), Ok(TapAnswer::Already(stamp(2, 0, 0))));
    assert_eq!(book, before);
}

#[test]
fn d_wait() {
    assert_eq!(open(1, 3).question(7, stamp(1, 0, 0)), wait(0x01));
}

#[test]
fn e_gossip_and_f_old() {
    let mut book = open(1, 3);
    let bytes = sent(&after_b());
    assert_eq!(deliver(&mut book, &bytes), Ok((2, 2)));
    assert_eq!(book.log().len(), 2);
    let before = book.clone();
    assert_eq!(deliver(&mut book, &bytes), Err(Refusal::Old));
    assert_eq!(book, before);
}

#[test]
fn g_waiting() {
    let mut book = open(2, 3);
    let ahead = tap(6, 1, 2, Tap::ACCEPT);
    assert_eq!(book.tap(ahead, stamp(1, 0, 0)), taken(1, 0, 1));
    assert_eq!(verdict(&book, NO_LABEL), (Verdict::Unasked, 0, 0, 0));
    assert_eq!(book.question(7, stamp(1, 0, 1)), wait(0x05));
    assert_eq!(book.tap(ahead, NO_LABEL), Ok(TapAnswer::Already(stamp(1, 0, 1))));
}

#[test]
fn h_applied_by_gossip() {
    let book = after_h();
    assert_eq!(*book.value(), stamp(2, 0, 1));
    assert_eq!(verdict(&book, stamp(2, 0, 1)), (Verdict::Accepted, 2, 1, 0));
}

#[test]
fn i_label_ahead() {
    let mut book = after_b();
    let new = tap(5, 3, 1, Tap::ACCEPT);
    assert_eq!(book.tap(new, stamp(3, 0, 0)), Err(Refusal::LabelAhead));
    assert_eq!(book.question(7, stamp(3, 0, 0)), Err(Refusal::LabelAhead));
    assert_eq!(book.tap(new, stamp(2, 0, 0)), taken(3, 0, 0));
}

#[test]
fn j_gap() {
    let whole = sent(&after_b());
    let second = &whole[HEAD_BYTES + RECORD_BYTES..];
    let bytes = message(0, stamp(2, 0, 0), second);
    assert_eq!(deliver(&mut open(1, 3), &bytes), Err(Refusal::Gap));
}

#[test]
fn k_claims_ours() {
    let bytes = message(0, stamp(0, 1, 0), &[]);
    assert_eq!(deliver(&mut open(1, 3), &bytes), Err(Refusal::ClaimsOurs));
}

#[test]
fn l_crossed() {
    let bytes = message(0, stamp(1, 1, 0), &[]);
    assert_eq!(deliver(&mut after_h(), &bytes), Err(Refusal::Crossed));
}

#[test]
fn m_dropped_at_once() {
    let (mut zero, mut one) = (open(0, 2), open(1, 2));
    zero.tap(tap_a(), NO_LABEL).unwrap();
    assert_eq!(deliver(&mut one, &sent(&zero)), Ok((1, 1)));
    assert!(one.log().is_empty());
    let back = sent(&one);
    assert_eq!(back.len(), HEAD_BYTES);
    assert_eq!(deliver(&mut zero, &back), Ok((0, 0)));
    assert!(zero.log().is_empty());
}

#[test]
fn n_waits_in_both_logs() {
    let (mut zero, mut one) = (open(0, 2), open(1, 2));
    assert_eq!(zero.tap(tap_a(), stamp(0, 9, 0)), taken(1, 9, 0));
    assert_eq!(deliver(&mut one, &sent(&zero)), Ok((1, 0)));
    assert_eq!(deliver(&mut zero, &sent(&one)), Ok((0, 0)));
    assert_eq!((zero.log().len(), one.log().len()), (1, 1));
    assert_eq!(verdict(&one, NO_LABEL).0, Verdict::Unasked);
}

#[test]
fn o_log_room() {
    let mut book = open(0, 2);
    for serial in 1..LOG_ROOM as u32 {
        book.tap(tap(0, serial, 1, Tap::ACCEPT), NO_LABEL).unwrap();
    }
    assert_eq!(book.log().len(), LOG_ROOM - 1);
    assert_eq!(book.tap(tap(1, 0, 1, Tap::ACCEPT), NO_LABEL), taken(LOG_ROOM as u32, 0, 0));
    assert_eq!(book.tap(tap(1, 1, 1, Tap::ACCEPT), NO_LABEL), Err(Refusal::NoRoom));
}

#[test]
fn o_known_room() {
    let (mut zero, mut one) = (open(0, 2), open(1, 2));
    for serial in 1..KNOWN_ROOM as u32 {
        zero.tap(tap(0, serial, 1, Tap::ACCEPT), NO_LABEL).unwrap();
        if zero.log().len() == LOG_ROOM {
            deliver(&mut one, &sent(&zero)).unwrap();
            deliver(&mut zero, &sent(&one)).unwrap();
        }
    }
    assert_eq!(zero.known().sum(), KNOWN_ROOM as u64 - 1);
    let last = tap(1, 0, 1, Tap::ACCEPT);
    assert_eq!(zero.tap(last, NO_LABEL), taken(KNOWN_ROOM as u32, 0, 0));
    assert_eq!(zero.tap(tap(1, 1, 1, Tap::ACCEPT), NO_LABEL), Err(Refusal::Spent));
    let already = Ok(TapAnswer::Already(stamp(KNOWN_ROOM as u32, 0, 0)));
    assert_eq!(zero.tap(last, NO_LABEL), already);
    assert_eq!(Book::from_words(&zero.words()), Some(zero));
}

/// Bytes that end in a stamp of which only the first part is not zero.
fn with_stamp(front: &[u8], part: u32) -> Vec<u8> {
    let stamp = Stamp::first(&[part]);
    let parts = stamp.0.iter().flat_map(|part| part.to_be_bytes());
    front.iter().copied().chain(parts).collect()
}

/// The bytes are document 01's own.
#[test]
fn whole_case() {
    let mut words = vec![u64::MAX; WORDS];
    assert_eq!(entry::open(&mut words, 0, 2), 0);

    let tap = with_stamp(&[3, 5, 0, 0, 0, 1, 7, 0, 1, 1], 0);
    let mut expected = with_stamp(&[5], 1);
    expected.extend(with_stamp(&[1, 0, 2, 0, 1], 1));
    expected.extend(with_stamp(&[2, 0, 0, 0, 0, 1], 0));
    expected.extend([5, 0, 0, 0, 1, 7, 0, 1, 1]);

    let untouched = [0xee; 83];
    let mut output = vec![0xee; expected.len() + untouched.len()];
    let first = entry::answer(&mut words, &tap, &mut output);
    let second = entry::answer(&mut words, &[12], &mut output[first..]);
    assert_eq!(first + second, expected.len());
    assert_eq!(output, [&expected[..], &untouched].concat());
}

#[test]
fn unsound_stands_before_unreadable() {
    let mut words = open(0, 2).words();
    let mut reply = [0; reply_bytes(kind::REFUSAL)];
    assert_eq!(entry::answer(&mut words, &[], &mut reply), reply.len());
    assert_eq!(reply, [9, 1]);
    words[1] = 9;
    assert_eq!(entry::answer(&mut words, &[], &mut reply), reply.len());
    assert_eq!(reply, [9, 11]);
    assert_eq!(entry::answer(&mut [0; 5], &[kind::SEND], &mut reply), reply.len());
    assert_eq!(reply, [9, 11]);
    assert_eq!(entry::open(&mut [0; 5], 9, 9), 11);
    assert_eq!(entry::open(&mut words, 9, 9), 2);
}

/// Of all bytes, those at which the reply is read.
fn read_at(reply: impl Fn(u8) -> Vec<u8>) -> Vec<u8> {
    (0..=255).filter(|&byte| entry::reply_kind(&reply(byte)) != 0).collect()
}

/// A reply of that kind, every byte of whose body is the same.
fn filled(kind: u8, filling: u8) -> Vec<u8> {
    let mut bytes = vec![filling; reply_bytes(kind)];
    bytes[0] = kind;
    bytes
}

#[test]
fn replies_at_their_edges() {
    assert_eq!(read_at(|number| vec![kind::REFUSAL, number]), [1, 2, 3, 4, 5, 6, 7, 8, 9, 11, 12]);
    let verdict = |number| {
        let mut bytes = filled(kind::VERDICT, 0);
        bytes[1] = number;
        bytes
    };
    assert_eq!(read_at(verdict), [0, 1, 2, 3]);
    assert_eq!(read_at(|lacking| vec![kind::WAIT, lacking]).len(), 256);
    // All parts of a stamp are free, and counts above what a log holds are read.
    for kind in [kind::TAKEN, kind::ALREADY, kind::GOSSIP_TAKEN] {
        let mut bytes = filled(kind, 255);
        assert_eq!(entry::reply_kind(&bytes), kind);
        assert_eq!(entry::reply_kind(&bytes[..bytes.len() - 1]), 0);
        bytes.push(255);
        assert_eq!(entry::reply_kind(&bytes), 0);
    }
    // Requests, and the gossip that answers a send, are no such replies.
    assert_eq!(entry::reply_kind(&[kind::SEND]), 0);
    assert_eq!(entry::reply_kind(&sent(&after_b())), 0);
    assert_eq!(entry::reply_kind(&[]), 0);
}

/// The lengths that document 01 and docs/LAYOUT.md have, worked out from the limits.
#[test]
fn the_lengths_are_the_pages() {
    let replies = [kind::TAKEN, kind::ALREADY, kind::VERDICT, kind::WAIT, kind::REFUSAL, kind::GOSSIP_TAKEN];
    assert_eq!(replies.map(|kind| reply_bytes(kind) - 1), [32, 32, 43, 1, 1, 4]);
    assert_eq!((HEAD_BYTES - 1, RECORD_BYTES - 1, STAMP_BYTES, WORDS), (36, 46, 32, 4108));
}
