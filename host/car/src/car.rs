//! The car: a book for each screen, and what each command answers.

use consent::{Book, Question, QuestionAnswer, Refusal, Standing, Tap, TapAnswer};

use crate::command::TapRequest;
use crate::show;

/// The books of all screens of one car.
pub struct Car {
    books: Vec<Book>,
    next_serial: u32,
}

impl Car {
    pub fn open(screens: u8) -> Result<Car, Refusal> {
        // The library judges the number of screens, also where there would be no book to open.
        Book::open(0, screens)?;
        let books = (0..screens).map(|screen| Book::open(screen, screens)).collect::<Result<_, _>>()?;
        Ok(Car { books, next_serial: 1 })
    }

    pub fn tap(&mut self, screen: usize, request: TapRequest) -> String {
        let screens = self.books.len();
        let serial = request.serial.unwrap_or(self.next_serial);
        let Some(book) = self.books.get_mut(screen) else {
            return no_screen(screen);
        };
        let TapRequest { prompt, answer, front_end, showing, label, .. } = request;
        match book.tap(&Tap { front_end, serial, prompt, showing, answer }, label) {
            Ok(TapAnswer::Taken(stamp)) => {
                self.next_serial = self.next_serial.max(serial.saturating_add(1));
                format!("Screen {screen} takes it: stamp {}.\n", show::stamp(&stamp, screens))
            }
            Ok(TapAnswer::Already(stamp)) => {
                format!("Screen {screen} has it already: stamp {}.\n", show::stamp(&stamp, screens))
            }
            Err(refusal) => refused(screen, refusal),
        }
    }

    pub fn ask(&mut self, screen: usize, question: Question) -> String {
        let Some(book) = self.books.get_mut(screen) else {
            return no_screen(screen);
        };
        let permission = if book.permission(&question) { "yes" } else { "no" };
        let said = match book.question(&question) {
            Ok(QuestionAnswer::Verdict(standing, _)) => verdict(screen, question.prompt, &standing),
            Ok(QuestionAnswer::Wait(lacking)) => {
                format!("Screen {screen} waits for taps of {}.\n", show::screens(lacking))
            }
            Err(refusal) => refused(screen, refusal),
        };
        format!("{said}Permission: {permission}.\n")
    }

    pub fn gossip(&mut self, from: usize, to: usize) -> String {
        if let Some(missing) = [from, to].into_iter().find(|&screen| screen >= self.books.len()) {
            return no_screen(missing);
        }
        let message = match self.books[from].send() {
            Ok(message) => message,
            Err(refusal) => return refused(from, refusal),
        };
        match self.books[to].gossip(&message) {
            Ok(taken) => {
                format!("Screen {to} hears {}, and applies {}.\n", show::new_taps(taken.new), taken.applied)
            }
            Err(refusal) => refused(to, refusal),
        }
    }

    pub fn show(&self, screen: Option<usize>) -> String {
        match screen {
            None => self.books.iter().map(show::book).collect::<Vec<_>>().join("\n"),
            Some(screen) => self.books.get(screen).map_or_else(|| no_screen(screen), show::book),
        }
    }
}

fn verdict(screen: usize, prompt: u8, standing: &Standing) -> String {
    let Standing { showing, accepts, declines, .. } = standing;
    let verdict = show::verdict(standing.verdict);
    let counts = format!("showing {showing}, accepts {accepts}, declines {declines}");
    format!("Screen {screen}: prompt {prompt} is {verdict}; {counts}.\n")
}

fn refused(screen: usize, refusal: Refusal) -> String {
    format!("Screen {screen} refuses: {refusal}.\n")
}

fn no_screen(screen: usize) -> String {
    format!("There is no screen {screen}.\n")
}
