//! A random house: taps, questions and gossip at all of its screens.

use crate::bytes;
use crate::forge::{self, Variety};
use crate::numbers::{kind, ACCEPT, DECLINE, KNOWN_ROOM, LEAST_SCREENS, LOG_ROOM, MOST_SCREENS};
use crate::pair::{Books, Pair, UNSOUND};
use crate::random::Random;
use crate::rooms;
use crate::view::View;

/// How many sent messages are on their way at most; a new one then pushes an old one out, which is lost.
const MAIL_ROOM: usize = 24;

/// One car: a book for each screen on both sides, the gossip on its way, and the last taps that people made.
pub struct House {
    pub books: Vec<Books>,
    mail: Vec<Vec<u8>>,
    taps: Vec<bytes::Tap>,
    variety: Variety,
    /// Once in how many steps a screen gets gossip that no screen sent; 0 for never.
    forged: usize,
}

impl House {
    /// A fresh house, opened over whatever words were there. Small ones are twice as likely.
    pub fn open(pair: &mut Pair, random: &mut Random) -> Result<House, String> {
        let small = [LEAST_SCREENS, LEAST_SCREENS, LEAST_SCREENS + 1];
        let sizes: Vec<usize> = small.into_iter().chain(LEAST_SCREENS + 1..=MOST_SCREENS).collect();
        let screens = random.pick(&sizes) as u64;
        let words = pair.book_words()?;
        let mut books = Vec::new();
        for screen in 0..screens {
            let filling = random.word();
            let mut book = Books::new(vec![filling; words]);
            pair.open(&mut book, screen, random.pick(&[0, 1, MOST_SCREENS as u64 + 1, screen]))?;
            pair.open(&mut book, screen, screens)?;
            books.push(book);
        }
        let mut house = House {
            books,
            mail: Vec::new(),
            taps: Vec::new(),
            variety: random.pick(&[Variety::Few, Variety::Few, Variety::Many]),
            forged: random.pick(&[0, 0, 3, 12]),
        };
        if random.once_in(6) {
            house.fill(pair, random)?;
        }
        Ok(house)
    }

    /// Brings one screen to the brim of what a book may know, or a little below it: with a full log where a third
    /// screen keeps the last records from being dropped.
    fn fill(&mut self, pair: &mut Pair, random: &mut Random) -> Result<(), String> {
        let screen = random.below(self.books.len());
        let goal = KNOWN_ROOM - random.pick(&[0, 0, 1, 2, 300]);
        loop {
            let view = View(&self.books[screen].right);
            let filling = forge::filling(random, view, LOG_ROOM.min(goal - view.known_sum()));
            rooms::answer_in_enough(pair, &mut self.books[screen], &filling)?;
            if View(&self.books[screen].right).known_sum() >= goal {
                return Ok(());
            }
            for sender in 0..self.books.len() {
                let acknowledged = forge::acknowledgement(View(&self.books[screen].right), sender);
                rooms::answer_in_enough(pair, &mut self.books[screen], &acknowledged)?;
            }
        }
    }

    /// One thing happens on one screen.
    pub fn step(&mut self, pair: &mut Pair, random: &mut Random) -> Result<(), String> {
        let screen = random.below(self.books.len());
        let mut message = self.request(random, screen);
        if random.once_in(25) {
            forge::damage(random, &mut message);
        }
        let books = &mut self.books[screen];
        if message.first() == Some(&kind::QUESTION) || random.once_in(10) {
            pair.permission(books, &message)?;
        }
        let reply = rooms::answer(pair, random, books, &message)?;
        if reply == UNSOUND {
            return Err(format!("the book of screen {screen} became unsound"));
        }
        if reply.first() == Some(&kind::GOSSIP) {
            self.post(random, reply);
        }
        Ok(())
    }

    /// The book in which the most words are used.
    pub fn fullest(&self) -> &Books {
        let used = |books: &&Books| books.right.iter().filter(|&&word| word != 0).count();
        self.books.iter().max_by_key(used).expect("a house has screens")
    }

    fn request(&mut self, random: &mut Random, screen: usize) -> Vec<u8> {
        let view = View(&self.books[screen].right);
        if self.forged > 0 && random.once_in(self.forged) {
            return forge::gossip(random, view, self.variety);
        }
        match random.below(10) {
            0..=3 => {
                let label = forge::label(random, view);
                bytes::tap(&self.tap(random), &label)
            }
            4 | 5 => forge::question(random, view),
            6 | 7 => bytes::SEND.to_vec(),
            _ => self.delivery(random),
        }
    }

    /// A new tap, the last one again, the second half of a double tap, or an old one retried.
    fn tap(&mut self, random: &mut Random) -> bytes::Tap {
        let tap = match (random.below(8), self.taps.last()) {
            (0, Some(&last)) => last,
            (1, Some(&last)) => bytes::Tap { answer: last.answer ^ ACCEPT ^ DECLINE, ..last },
            (2, Some(_)) => self.taps[random.below(self.taps.len())],
            _ => forge::tap(random, self.variety),
        };
        self.taps.push(tap);
        tap
    }

    /// A message sent some time ago, which mostly stays on its way and so may come again.
    fn delivery(&mut self, random: &mut Random) -> Vec<u8> {
        if self.mail.is_empty() {
            return bytes::SEND.to_vec();
        }
        let recent = self.mail.len().min(4);
        let at = if random.once_in(3) {
            random.below(self.mail.len())
        } else {
            self.mail.len() - 1 - random.below(recent)
        };
        self.mail[at].clone()
    }

    fn post(&mut self, random: &mut Random, message: Vec<u8>) {
        if self.mail.len() == MAIL_ROOM {
            self.mail.remove(random.below(MAIL_ROOM));
        }
        self.mail.push(message);
    }
}
