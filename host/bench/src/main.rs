//! Prints what the proved library and the ordinary Rust version take for the same messages, in one run; or lets one
//! side do one work, for a counter of instructions (`run.sh`).

mod count;
mod work;

use std::hint::black_box;
use std::process::ExitCode;
use std::time::{Duration, Instant};

use work::Work;

/// Each side does each work so often.
const ROUNDS: usize = 21;

const NOTES: &str = "\
The two sides take turns. Books and messages are made before the clock starts, the books anew for each
round, so they are in the cache as far as they fit; the one buffer for replies is not cleared between
answers. A message of one byte has the book judged alone: it is refused once the book is found sound.
A full book knows and has counted all that it may, and its log is full.";

const USAGE: &str = "\
usage: bench                     the tables of times
       bench works               the names of the works, one to a line
       bench count SIDE NUMBER   the work of that number, from 1, done once by `proved` or `plain`";

/// One side of the comparison: answers a message on lent words.
type Answer = fn(&mut [u64], &[u8], &mut [u8]) -> usize;

/// The sides by name.
const SIDES: [(&str, Answer); 2] = [("proved", consent::lent::answer), ("plain", plain::entry::answer)];

fn main() -> ExitCode {
    let arguments: Vec<String> = std::env::args().skip(1).collect();
    match arguments.iter().map(String::as_str).collect::<Vec<_>>()[..] {
        [] => times(),
        ["works"] => work::works().iter().for_each(|work| println!("{}", work.name)),
        ["count", side, number] => match (side_of(side), work_of(number)) {
            (Some(answer), Some(work)) => count::once(&work, answer),
            _ => return misused(),
        },
        _ => return misused(),
    }
    ExitCode::SUCCESS
}

fn misused() -> ExitCode {
    eprintln!("{USAGE}");
    ExitCode::FAILURE
}

fn side_of(name: &str) -> Option<Answer> {
    SIDES.into_iter().find_map(|(side, answer)| (side == name).then_some(answer))
}

fn work_of(number: &str) -> Option<Work> {
    let before = number.parse::<usize>().ok()?.checked_sub(1)?;
    work::works().into_iter().nth(before)
}

fn times() {
    if cfg!(debug_assertions) {
        eprintln!("This is no release build; run it with `cargo run --release -p bench`.");
    }
    table("", &work::works());
    table("Judging the book alone", &work::judgings());
    println!("Each work is cut into short steps; a step's time is its quickest of {ROUNDS} rounds.");
    println!("{NOTES}");
    if cfg!(not(target_arch = "x86_64")) {
        println!("Not x86-64: the proved side ran in an emulator, so its times and the ratios say nothing.");
    }
}

fn table(title: &str, works: &[Work]) {
    println!("{title:44} {:>12} {:>12} {:>8}", "proved", "plain", "ratio");
    for work in works {
        let [proved, plain] = quickest(work, SIDES.map(|(_, answer)| answer));
        let ratio = proved.as_secs_f64() / plain.as_secs_f64();
        println!("{:44} {:>12} {:>12} {:>8.2}", work.name, shown(proved), shown(plain), ratio);
    }
    println!();
}

/// The sum of each step's quickest time: a busy machine disturbs some step in every round, but hardly one in all.
fn quickest(work: &Work, sides: [Answer; 2]) -> [Duration; 2] {
    let mut quickest = sides.map(|answer| once(work, answer));
    for _ in 1..ROUNDS {
        for (answer, least) in sides.iter().zip(&mut quickest) {
            for (least, time) in least.iter_mut().zip(once(work, *answer)) {
                *least = time.min(*least);
            }
        }
    }
    quickest.map(|times| times.iter().sum())
}

/// Answers every message of the work once; the times of the steps that count.
fn once(work: &Work, answer: Answer) -> Vec<Duration> {
    let mut books = work.books.clone();
    let mut reply = vec![0; work::LONGEST_REPLY];
    let mut times = Vec::new();
    for step in &work.steps {
        let start = Instant::now();
        for message in &step.messages {
            let length = answer(&mut books[step.book], black_box(message), &mut reply);
            black_box(&reply[..length]);
            assert_eq!(reply[0], step.reply, "{}: another kind of reply", work.name);
        }
        if step.counts {
            times.push(start.elapsed());
        }
    }
    times
}

fn shown(time: Duration) -> String {
    format!("{:.3} ms", time.as_secs_f64() * 1000.0)
}
