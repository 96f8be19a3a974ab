//! The default run of the ordinary Rust version against itself: it finds nothing, and it is worth running.

use difftest::{run, Functions, Plan};

const REFUSALS: [usize; 11] = [1, 2, 3, 4, 5, 6, 7, 8, 9, 11, 12];
const REPLIES: [usize; 6] = [1, 5, 6, 7, 8, 10];
const REFUSAL: usize = 9;
const REQUESTS: [usize; 4] = [1, 3, 4, 12];

#[test]
fn meets_every_reply_every_refusal_and_every_edge_of_room() {
    let report =
        run(&Plan::default(), &Functions::PLAIN, &Functions::PLAIN).unwrap_or_else(|found| panic!("{found}"));
    println!("{report:?}");
    assert!(report.messages >= 200_000);
    for number in REFUSALS {
        assert!(report.refused[number] >= 100, "refusal {number} is rare: {report:?}");
    }
    for kind in REPLIES {
        assert!(report.replied[kind] >= 1000, "kind {kind} is rare: {report:?}");
    }
    for kind in REPLIES.into_iter().chain([REFUSAL]) {
        assert!(report.left_out[kind] >= 100, "kind {kind} rarely lacks room: {report:?}");
    }
    for kind in REQUESTS {
        assert!(report.tight[kind] >= 1000, "kind {kind} rarely has just the room it needs: {report:?}");
    }
}
