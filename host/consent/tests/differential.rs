//! The proved library and the ordinary Rust version, side by side.

use difftest::{run, Functions, Plan};

const PROVED: Functions = Functions {
    book_words: consent::lent::book_words,
    open: consent::lent::open,
    answer: consent::lent::answer,
    permission: consent::lent::permission,
    reply_room: consent::lent::reply_room,
    reply_kind: consent::lent::reply_kind,
};

/// `CONSENT_SEED` and `CONSENT_MESSAGES` make it another run, or a longer one.
#[test]
fn the_two_agree() {
    let plan = Plan::from_environment();
    match run(&plan, &PROVED, &Functions::PLAIN) {
        Ok(report) => println!("{report:?}"),
        Err(found) => panic!("the proved library (left) and the ordinary version (right) differ: {found}"),
    }
}
