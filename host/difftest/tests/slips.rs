//! Each deliberate slip in `slips/` is one that a good engineer might make. The default run finds every one of them.

use difftest::{run, Functions, Plan};

/// A slip's name, what it is in words, and its engine.
macro_rules! slip {
    ($name:ident, $what:expr) => {
        (
            stringify!($name),
            $what,
            Functions {
                book_words: $name::entry::book_words,
                open: $name::entry::open,
                answer: $name::entry::answer,
                permission: $name::entry::permission,
                reply_room: $name::entry::reply_room,
                reply_kind: $name::entry::reply_kind,
            },
        )
    };
}

include!(concat!(env!("OUT_DIR"), "/slips.rs"));

/// So many slips were tried when this was written.
const LEAST_SLIPS: usize = 36;

/// The slips about room for a reply.
const OF_ROOM: [&str; 5] = [
    "room_for_longest",
    "tap_without_room_taken",
    "gossip_without_room_taken",
    "short_output_said",
    "short_send_writes",
];

/// A slip is another body for the function that is its rule: if that is gone, the slip is not tried, and this says so.
#[test]
fn every_slip_applies() {
    assert!(STALE.is_empty(), "these slips break a rule that is not to be found: {STALE:#?}");
    assert!(SLIPS.len() >= LEAST_SLIPS, "only {} slips", SLIPS.len());
}

#[test]
fn every_slip_is_found() {
    let mut missed = Vec::new();
    for (name, what, slipped) in SLIPS {
        match run(&Plan::default(), slipped, &Functions::PLAIN) {
            Err(found) => {
                println!("{name}: {what}\n    seed {:#x}, after {} messages", found.seed, found.after)
            }
            Ok(_) => missed.push(*name),
        }
    }
    assert!(missed.is_empty(), "not found: {missed:?}");
}

/// What is due in a room follows from the very reply, so that both sides cannot slip alike.
#[test]
fn slips_of_room_are_found_on_both_sides_at_once() {
    for wanted in OF_ROOM {
        let (_, what, slipped) = SLIPS.iter().find(|(name, ..)| *name == wanted).expect(wanted);
        let found = run(&Plan::default(), slipped, slipped).expect_err(what);
        println!("{wanted}: seed {:#x}, after {} messages", found.seed, found.after);
    }
}
