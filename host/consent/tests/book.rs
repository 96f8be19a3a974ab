//! The wrapper over the proved library: the practice car of document 01, and how bytes and values correspond.

use consent::numbers::*;
use consent::{
    lent, Answer, Book, Gossip, GossipTaken, Question, QuestionAnswer, Refusal, Reply, Request, Stamp,
    Standing, Tap, TapAnswer, Verdict,
};

const TAP_A: Tap = Tap { front_end: 5, serial: 1, prompt: 7, showing: 1, answer: Answer::Accept };
const TAP_B: Tap = Tap { serial: 2, answer: Answer::Decline, ..TAP_A };

fn stamp(a: u32, b: u32, c: u32) -> Stamp {
    let mut stamp = Stamp::ZERO;
    stamp.0[..3].copy_from_slice(&[a, b, c]);
    stamp
}

fn at(label: Stamp) -> Question {
    Question { prompt: 7, label }
}

fn after_b() -> Book {
    let mut book = Book::open(0, 3).unwrap();
    assert_eq!(book.tap(&TAP_A, Stamp::ZERO), Ok(TapAnswer::Taken(stamp(1, 0, 0))));
    assert!(book.permission(&at(stamp(1, 0, 0))));
    assert_eq!(book.tap(&TAP_B, Stamp::ZERO), Ok(TapAnswer::Taken(stamp(2, 0, 0))));
    book
}

#[test]
fn a_house_is_judged() {
    assert_eq!(Book::open(0, LEAST_SCREENS as u8 - 1).unwrap_err(), Refusal::WrongHouse);
    assert_eq!(Book::open(3, 3).unwrap_err(), Refusal::WrongHouse);
    assert_eq!(Book::open(0, MOST_SCREENS as u8 + 1).unwrap_err(), Refusal::WrongHouse);
}

#[test]
fn taps_and_questions() {
    let mut book = after_b();
    let standing = Standing { verdict: Verdict::Contested, showing: 1, accepts: 1, declines: 1 };
    assert_eq!(book.question(&at(Stamp::ZERO)), Ok(QuestionAnswer::Verdict(standing, stamp(2, 0, 0))));
    assert!(!book.permission(&at(Stamp::ZERO)));
    assert_eq!(book.tap(&TAP_A, Stamp::ZERO), Ok(TapAnswer::Already(stamp(2, 0, 0))));
    assert_eq!(book.question(&at(stamp(3, 0, 0))), Err(Refusal::LabelAhead));
    assert_eq!(book.question(&at(stamp(0, 4, 1))), Ok(QuestionAnswer::Wait(0x06)));
    assert_eq!(book.tap(&Tap { prompt: PROMPTS as u8, ..TAP_A }, Stamp::ZERO), Err(Refusal::Malformed));
}

#[test]
fn gossip() {
    let (mut zero, mut one) = (after_b(), Book::open(1, 3).unwrap());
    let message = zero.send().unwrap();
    assert_eq!(one.gossip(&message), Ok(GossipTaken { new: 2, applied: 2 }));
    assert_eq!(one.gossip(&message), Err(Refusal::Old));
    assert_eq!(zero.gossip(&message), Err(Refusal::WrongHouse));
    assert_eq!(one.gossip(&message[..50]), Err(Refusal::Malformed));
    assert_eq!(one.gossip(&[KIND_SEND]), Err(Refusal::Malformed));
    assert_eq!(one.gossip(&[]), Err(Refusal::Malformed));
    let tap = Request::Tap(TAP_A, Stamp::ZERO).encode();
    assert_eq!(one.gossip(&tap), Err(Refusal::Malformed));

    let gossip = Gossip::decode(&message).unwrap();
    assert_eq!((gossip.sender, gossip.screens, gossip.stamp), (0, 3, stamp(2, 0, 0)));
    assert_eq!(gossip.records, one.contents().unwrap().log);
    assert_eq!(gossip.encode(), Some(message));
}

#[test]
fn contents_are_shown() {
    let contents = after_b().contents().unwrap();
    assert_eq!((contents.screen, contents.screens, contents.table.len()), (0, 3, 3));
    assert_eq!((contents.known(), contents.value), (stamp(2, 0, 0), stamp(2, 0, 0)));
    assert_eq!(contents.counted, [TAP_A, TAP_B]);
    assert_eq!(contents.log[1].stamp(), Some(stamp(2, 0, 0)));
    assert!(contents.log.iter().all(|record| contents.is_applied(record)));
    assert_eq!(contents.prompts[7].verdict, Verdict::Contested);
}

#[test]
fn a_damaged_book_is_refused() {
    let mut words = after_b().words().to_vec();
    words[AT_VALUE] += 1;
    let mut book = Book::from_words(words.clone());
    assert_eq!(book.tap(&TAP_A, Stamp::ZERO), Err(Refusal::Unsound));
    assert_eq!(book.send(), Err(Refusal::Unsound));
    assert_eq!(book.gossip(&[]), Err(Refusal::Unsound));
    assert!(!book.permission(&at(Stamp::ZERO)));
    assert_eq!(book.words(), words);

    let mut short = Book::from_words(vec![0; 7]);
    assert_eq!(short.question(&at(Stamp::ZERO)), Err(Refusal::Unsound));
    assert_eq!(short.contents(), None);
}

/// The reply in just so much room; one byte less says nothing and changes nothing.
#[track_caller]
fn just_in(room: usize, book: &Book, request: Request) -> Reply {
    let (message, before) = (request.encode(), book.words());
    let (mut words, mut reply) = (before.to_vec(), vec![0xee; room]);
    assert_eq!(lent::answer(&mut words, &message, &mut reply[1..]), 0);
    assert!(words == before && reply == vec![0xee; room]);
    assert_eq!(lent::answer(&mut words, &message, &mut reply), room);
    Reply::decode(&reply).expect("a reply")
}

#[test]
fn room_is_judged_by_the_very_reply() {
    let (zero, one) = (after_b(), Book::open(1, 3).unwrap());
    let news = after_b().send().unwrap();
    let tap_c = Tap { serial: 3, ..TAP_A };
    let standing = Standing { verdict: Verdict::Contested, showing: 1, accepts: 1, declines: 1 };
    assert_eq!(just_in(TAKEN_BYTES, &zero, Request::Tap(tap_c, Stamp::ZERO)), Reply::Taken(stamp(3, 0, 0)));
    assert_eq!(
        just_in(ALREADY_BYTES, &zero, Request::Tap(TAP_A, Stamp::ZERO)),
        Reply::Already(stamp(2, 0, 0))
    );
    assert_eq!(
        just_in(VERDICT_BYTES, &zero, Request::Question(at(Stamp::ZERO))),
        Reply::Verdict(standing, stamp(2, 0, 0))
    );
    assert_eq!(just_in(WAIT_BYTES, &zero, Request::Question(at(stamp(0, 1, 0)))), Reply::Wait(0x02));
    assert_eq!(
        just_in(GOSSIP_TAKEN_BYTES, &one, Request::Gossip(&news)),
        Reply::GossipTaken { new: 2, applied: 2 }
    );
    assert_eq!(just_in(HEAD_BYTES, &one, Request::Send), Reply::Gossip(one.clone().send().unwrap()));
    assert_eq!(just_in(HEAD_BYTES + 2 * RECORD_BYTES, &zero, Request::Send), Reply::Gossip(news));
}

#[test]
fn the_room_of_a_refusal_holds_each() {
    let book = after_b();
    let news = after_b().send().unwrap();
    let damaged = Book::from_words(vec![0; book.words().len()]);
    let ahead = Request::Tap(TAP_A, stamp(3, 0, 0));
    assert_eq!(just_in(REFUSAL_BYTES, &book, ahead), Reply::Refused(Refusal::LabelAhead));
    assert_eq!(
        just_in(REFUSAL_BYTES, &book, Request::Question(at(stamp(3, 0, 0)))),
        Reply::Refused(Refusal::LabelAhead)
    );
    assert_eq!(just_in(REFUSAL_BYTES, &book, Request::Gossip(&news)), Reply::Refused(Refusal::WrongHouse));
    assert_eq!(
        just_in(REFUSAL_BYTES, &book, Request::Gossip(&news[..HEAD_BYTES - 1])),
        Reply::Refused(Refusal::Malformed)
    );
    for request in [ahead, Request::Question(at(Stamp::ZERO)), Request::Gossip(&news), Request::Send] {
        assert_eq!(just_in(REFUSAL_BYTES, &damaged, request), Reply::Refused(Refusal::Unsound));
    }
}

#[test]
fn every_request_has_one_writing() {
    let gossip = after_b().send().unwrap();
    let requests = [
        Request::Tap(TAP_B, stamp(1, 2, 3)),
        Request::Question(at(stamp(4, 5, 6))),
        Request::Gossip(&gossip),
        Request::Send,
    ];
    for request in requests {
        assert_eq!(Request::decode(&request.encode()), Some(request));
    }
    assert_eq!(Request::decode(&[KIND_SEND, 0]), None);
    assert_eq!(Request::decode(&[]), None);
}

#[test]
fn every_reply_has_one_writing() {
    let standing = Standing { verdict: Verdict::Declined, showing: 9, accepts: 0, declines: 70_000 };
    let mut replies = vec![
        Reply::Gossip(after_b().send().unwrap()),
        Reply::Taken(stamp(1, 2, 3)),
        Reply::Already(stamp(4, 5, 6)),
        Reply::Verdict(standing, stamp(7, 8, 9)),
        Reply::Wait(0x81),
        Reply::GossipTaken { new: 258, applied: 3 },
    ];
    replies.extend((0..=255).filter_map(Refusal::from_number).map(Reply::Refused));
    assert_eq!(replies.len(), 6 + 11);
    for reply in replies {
        assert_eq!(Reply::decode(&reply.encode()), Some(reply));
    }
    assert_eq!(Reply::decode(&[KIND_REFUSAL, REFUSED_NO_ROOM + 1]), None);
}

#[test]
fn replies_are_judged_as_the_library_judges_them() {
    let lengths = |kind| (0..=SHORT_REPLY + 5).map(move |length| (kind, length));
    for (kind, length) in (KIND_RECORD..=20).flat_map(lengths) {
        for filling in [0, 1, 3, 4, 9, 10, 11, 12, 13, 255] {
            let mut bytes = vec![filling; length];
            bytes.insert(0, kind);
            let judged = if Reply::decode(&bytes).is_some() { kind } else { 0 };
            assert_eq!(lent::reply_kind(&bytes), judged, "{bytes:?}");
        }
    }
    assert_eq!(lent::reply_kind(&[]), 0);
    assert_eq!(lent::reply_kind(&after_b().send().unwrap()), 0);
}
