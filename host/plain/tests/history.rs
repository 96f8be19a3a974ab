//! Random runs of whole houses: after every step the book is what document 01's definitions make of the history of all
//! taps taken.

use plain::{
    Book, Gossip, Prompt, QuestionAnswer, Record, Stamp, Tap, TapAnswer, LEAST_SCREENS, MOST_SCREENS, PARTS,
    PROMPTS,
};

const RUNS: u64 = 60;
const STEPS: usize = 250;

struct Random(u64);

impl Random {
    fn below(&mut self, bound: u64) -> u64 {
        self.0 ^= self.0 << 13;
        self.0 ^= self.0 >> 7;
        self.0 ^= self.0 << 17;
        (self.0 >> 16) % bound
    }
}

struct House {
    books: Vec<Book>,
    mail: Vec<Vec<u8>>,
    history: Vec<Record>,
}

impl House {
    fn open(screens: u64) -> House {
        let books = (0..screens).map(|screen| Book::open(screen, screens).unwrap()).collect();
        House { books, mail: Vec::new(), history: Vec::new() }
    }

    /// A tap, a message sent, or a message sent before that arrives.
    fn step(&mut self, random: &mut Random) -> usize {
        let screen = random.below(self.books.len() as u64) as usize;
        match random.below(4) {
            0 => self.tap(random, screen),
            1 => self.send(screen),
            _ if self.mail.is_empty() => self.send(screen),
            _ => {
                let message = &self.mail[random.below(self.mail.len() as u64) as usize];
                // It may be refused: as old, for want of room, or as returned to its sender.
                let _ =
                    self.books[screen].gossip(&Gossip::parse(message).expect("a sent message is readable"));
            }
        }
        screen
    }

    fn tap(&mut self, random: &mut Random, screen: usize) {
        let tap = tap(random);
        let label = label(random, &self.books[screen]);
        let Ok(TapAnswer::Taken(stamp)) = self.books[screen].tap(tap, label) else {
            return;
        };
        let record = Record { origin: screen, number: stamp.0[screen], label, tap };
        assert_eq!(stamp, record.stamp());
        self.history.push(record);
    }

    fn send(&mut self, screen: usize) {
        let mut message = vec![0; self.books[screen].send_bytes()];
        self.books[screen].send(&mut message).unwrap();
        self.mail.push(message);
    }

    fn check(&self, screen: usize) {
        let book = &self.books[screen];
        let known: Vec<&Record> =
            self.history.iter().filter(|record| is_known(record, book.known())).collect();
        let is_applied = |record: &Record| covers(book.known(), &record.label);
        let applied: Vec<&Record> = known.iter().copied().filter(|record| is_applied(record)).collect();
        assert_eq!(book.counted(), distinct_taps(&applied));
        assert_eq!(*book.value(), merged_stamps(&applied));
        check_log(book, &known, &is_applied);
        check_counts(book);
        assert_eq!(Book::from_words(&book.words()).as_ref(), Some(book));
    }
}

fn tap(random: &mut Random) -> Tap {
    let (front_end, serial) = (random.below(2) as u8, random.below(5) as u32);
    let (showing, answer) = (1 + random.below(2) as u16, 1 + random.below(2) as u8);
    Tap::new(front_end, serial, PROMPTS as u8 - 1 - random.below(3) as u8, showing, answer).unwrap()
}

/// Around what the screen knows, and now and then ahead of it.
fn label(random: &mut Random, book: &Book) -> Stamp {
    let mut label = Stamp::ZERO;
    for (screen, part) in label.0.iter_mut().enumerate().take(book.screens()) {
        let known = u64::from(book.known().0[screen]);
        let ahead = if screen == book.screen() { 0 } else { random.below(8) / 6 };
        *part = (random.below(known + 1) + ahead) as u32;
    }
    label
}

fn is_known(record: &Record, known: &Stamp) -> bool {
    record.number <= known.0[record.origin]
}

fn covers(stamp: &Stamp, label: &Stamp) -> bool {
    (0..PARTS).all(|part| label.0[part] <= stamp.0[part])
}

fn distinct_taps(records: &[&Record]) -> Vec<Tap> {
    let mut taps: Vec<Tap> = records.iter().map(|record| record.tap).collect();
    taps.sort();
    taps.dedup();
    taps
}

fn merged_stamps(records: &[&Record]) -> Stamp {
    let largest = |part: usize| records.iter().map(|record| record.stamp().0[part]).max().unwrap_or(0);
    Stamp(std::array::from_fn(largest))
}

/// The log holds exactly the known records that are not both applied and known everywhere.
fn check_log(book: &Book, known: &[&Record], is_applied: &dyn Fn(&Record) -> bool) {
    let everywhere = |record: &Record| book.table().iter().all(|row| is_known(record, row));
    let stays = |record: &&&Record| !(is_applied(record) && everywhere(record));
    let mut log: Vec<Record> = known.iter().filter(stays).map(|record| **record).collect();
    log.sort_by_key(|record| (record.origin, record.number));
    assert_eq!(book.log(), log);
}

/// Each prompt has the highest showing among its counted taps, and that showing's accepts and declines.
fn check_counts(book: &Book) {
    for number in 0..PROMPTS as u8 {
        let taps = || book.counted().iter().filter(|tap| tap.prompt() == number);
        let showing = taps().map(|tap| tap.showing()).max().unwrap_or(0);
        let count =
            |answer| taps().filter(|tap| tap.showing() == showing && tap.answer() == answer).count() as u32;
        let afresh = Prompt { showing, accepts: count(Tap::ACCEPT), declines: count(Tap::DECLINE) };
        let Ok(QuestionAnswer::Verdict { prompt, .. }) = book.question(number, Stamp::ZERO) else {
            panic!("a question that asks for nothing is answered");
        };
        assert_eq!(prompt, afresh);
    }
}

#[test]
fn books_are_what_the_history_makes_them() {
    let houses: Vec<u64> = (LEAST_SCREENS..=MOST_SCREENS).map(|screens| screens as u64).collect();
    for seed in 1..=RUNS {
        println!("seed {seed}");
        let mut random = Random(seed << 32 | 0x9e37_79b9);
        let mut house = House::open(houses[seed as usize % houses.len()]);
        for _ in 0..STEPS {
            let screen = house.step(&mut random);
            house.check(screen);
        }
        assert!(house.history.len() > 10);
    }
}
