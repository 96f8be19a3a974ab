//! The work that is timed, and whose instructions are counted.

use consent::numbers::{KIND_GOSSIP_TAKEN, KIND_REFUSAL, KIND_TAKEN, KIND_VERDICT, LONGEST_GOSSIP, PROMPTS};
use consent::{Answer, Gossip, Question, Record, Request, Stamp, Tap};

/// The longest reply: a send with a full log.
pub const LONGEST_REPLY: usize = LONGEST_GOSSIP;

/// So many taps or questions make a step that is timed.
const STEP: u32 = 5;

/// So many records are in each gossip that is timed.
const BROUGHT: u32 = 200;

const LOG_ROOM: u32 = consent::numbers::LOG_ROOM as u32;
const KNOWN_ROOM: u32 = consent::numbers::KNOWN_ROOM as u32;

/// Messages to one book that get the same kind of reply; only those that count are timed.
pub struct Step {
    pub book: usize,
    pub messages: Vec<Vec<u8>>,
    pub reply: u8,
    pub counts: bool,
}

/// Books as they are before the work, and its steps.
pub struct Work {
    pub name: &'static str,
    pub books: Vec<Vec<u64>>,
    pub steps: Vec<Step>,
}

pub fn works() -> Vec<Work> {
    vec![
        taps(),
        questions(),
        gossips(),
        gossips_five_to_a_book(),
        full("soundness of a full book, 1,000 times", tap),
    ]
}

/// What of the works is the judging of the book; and full books that differ in the order of their taps alone.
pub fn judgings() -> Vec<Work> {
    vec![
        judging("of the 1,000 taps", taps()),
        judging("of the 1,000 questions", questions()),
        judging("of the 100 gossips", gossips()),
        full("a full book, the log's taps the lowest", lowest),
        full("a full book, the log's taps the highest", highest),
    ]
}

/// Instead of each step that counts, as many messages that have the book judged count, sent before it.
fn judging(name: &'static str, work: Work) -> Work {
    let mut steps = Vec::new();
    for step in work.steps {
        if step.counts {
            let messages = step.messages.iter().map(|message| cut(message)).collect();
            steps.push(Step { book: step.book, messages, reply: KIND_REFUSAL, counts: true });
        }
        steps.push(Step { counts: false, ..step });
    }
    Work { name, books: work.books, steps }
}

/// A log would be full before the end, so after every 250 taps the other screen says, untimed, that it has them.
fn taps() -> Work {
    let mut steps = Vec::new();
    for from in (0..1000).step_by(STEP as usize) {
        let messages =
            (from..from + STEP).map(|serial| Request::Tap(tap(serial), Stamp::ZERO).encode()).collect();
        steps.push(Step { book: 0, messages, reply: KIND_TAKEN, counts: true });
        let known = from + STEP;
        if known.is_multiple_of(250) {
            let told = gossip(2, first(0, known), Vec::new());
            steps.push(Step { book: 0, messages: vec![told], reply: KIND_GOSSIP_TAKEN, counts: false });
        }
    }
    Work { name: "1,000 taps, from a fresh book", books: vec![fresh(2)], steps }
}

fn questions() -> Work {
    let book = after(&taps());
    Work {
        name: "1,000 questions, 1,000 counted, log empty",
        books: vec![book],
        steps: thousand(question, KIND_VERDICT),
    }
}

/// Each message has a fresh book of its own; the third screen has not heard, so all stay in the log.
fn gossips() -> Work {
    gossips_to("100 gossips of 200 records, to fresh books", 3, 1)
}

/// A book takes five such messages before it is spent; both screens know them, so none stays in the log.
fn gossips_five_to_a_book() -> Work {
    gossips_to("100 gossips of 200 records, five to a book", 2, 5)
}

/// A hundred gossips to books of a house of so many screens, so many to each book.
fn gossips_to(name: &'static str, screens: u8, to_a_book: u32) -> Work {
    let books = 100 / to_a_book as usize;
    let messages: Vec<Vec<u8>> = (1..=to_a_book)
        .map(|nth| {
            gossip(screens, first(1, nth * BROUGHT), records((nth - 1) * BROUGHT + 1, nth * BROUGHT, tap))
        })
        .collect();
    let step = |book, message: &Vec<u8>| Step {
        book,
        messages: vec![message.clone()],
        reply: KIND_GOSSIP_TAKEN,
        counts: true,
    };
    let steps = (0..books).flat_map(|book| messages.iter().map(move |message| step(book, message))).collect();
    Work { name, steps, books: vec![fresh(screens.into()); books] }
}

fn full(name: &'static str, tap: fn(u32) -> Tap) -> Work {
    let book = after(&filling(tap));
    Work { name, books: vec![book], steps: thousand(|prompt| cut(&question(prompt)), KIND_REFUSAL) }
}

fn thousand(message: fn(u8) -> Vec<u8>, reply: u8) -> Vec<Step> {
    let steps = (0..1000).step_by(STEP as usize).map(|_| {
        let messages = (0..STEP).map(|prompt| message(prompt as u8)).collect();
        Step { book: 0, messages, reply, counts: true }
    });
    steps.collect()
}

/// The byte of kind alone: it is refused, but only once the book is found sound.
fn cut(message: &[u8]) -> Vec<u8> {
    message[..1].to_vec()
}

/// Fills a book of three screens to the brim: the last taps are in the log, since screen 2 lacks them.
fn filling(tap: fn(u32) -> Tap) -> Work {
    let mut messages = Vec::new();
    for known in (LOG_ROOM..=KNOWN_ROOM).step_by(LOG_ROOM as usize) {
        messages.push(gossip(3, first(1, known), records(known - LOG_ROOM + 1, known, tap)));
        if known < KNOWN_ROOM {
            let mut told = gossip(3, first(1, known), Vec::new());
            // The same stamp from screen 2.
            told[1] = 2;
            messages.push(told);
        }
    }
    let step = Step { book: 0, messages, reply: KIND_GOSSIP_TAKEN, counts: false };
    Work { name: "filling", books: vec![fresh(3)], steps: vec![step] }
}

/// The first book after a work.
fn after(work: &Work) -> Vec<u64> {
    let mut book = work.books[0].clone();
    let mut reply = vec![0; LONGEST_REPLY];
    for message in work.steps.iter().flat_map(|step| &step.messages) {
        plain::entry::answer(&mut book, message, &mut reply);
    }
    book
}

fn fresh(screens: u64) -> Vec<u64> {
    let mut book = vec![0; plain::entry::book_words()];
    assert_eq!(plain::entry::open(&mut book, 0, screens), 0);
    book
}

fn tap(serial: u32) -> Tap {
    // Spread over front ends and prompts, so that new taps land all over the counted ones.
    let answer = if serial.is_multiple_of(3) { Answer::Decline } else { Answer::Accept };
    Tap {
        front_end: (serial * 37) as u8,
        serial,
        prompt: (serial % PROMPTS as u32) as u8,
        showing: 1 + (serial % 5) as u16,
        answer,
    }
}

/// The taps of a full book's log are the lowest of its counted taps.
fn lowest(number: u32) -> Tap {
    Tap { front_end: u8::from(number <= KNOWN_ROOM - LOG_ROOM), ..tap(number) }
}

/// The taps of a full book's log are the highest of its counted taps.
fn highest(number: u32) -> Tap {
    Tap { front_end: u8::from(number > KNOWN_ROOM - LOG_ROOM), ..tap(number) }
}

fn question(prompt: u8) -> Vec<u8> {
    Request::Question(Question { prompt, label: Stamp::ZERO }).encode()
}

/// The stamp that names the first so many records of one screen.
fn first(screen: usize, count: u32) -> Stamp {
    let mut stamp = Stamp::ZERO;
    stamp.0[screen] = count;
    stamp
}

/// Records of screen 1 that wait for nothing.
fn records(from: u32, to: u32, tap: fn(u32) -> Tap) -> Vec<Record> {
    (from..=to).map(|number| Record { origin: 1, number, label: Stamp::ZERO, tap: tap(number) }).collect()
}

/// Gossip from screen 1.
fn gossip(screens: u8, stamp: Stamp, records: Vec<Record>) -> Vec<u8> {
    Gossip { sender: 1, screens, stamp, records }.encode().expect("no more records than gossip may bring")
}
