//! The book as a value, and its steps.

use super::{
    Bits, Gossip, Record, Refusal, Stamp, Tap, KNOWN_ROOM, LEAST_SCREENS, LOG_ROOM, MOST_SCREENS, PROMPTS,
};

/// What a prompt's counted taps come to: its highest showing, and that showing's answers.
#[derive(Clone, Copy, Debug, Default, PartialEq, Eq)]
pub struct Prompt {
    pub showing: u16,
    pub accepts: u32,
    pub declines: u32,
}

/// The verdict on a prompt; the number is the one on the wire.
#[derive(Clone, Copy, Debug, PartialEq, Eq)]
#[repr(u8)]
pub enum Verdict {
    Unasked = 0,
    Accepted = 1,
    Declined = 2,
    Contested = 3,
}

impl Verdict {
    /// The verdict of that number.
    pub fn from_number(number: u8) -> Option<Verdict> {
        [Verdict::Unasked, Verdict::Accepted, Verdict::Declined, Verdict::Contested]
            .get(usize::from(number))
            .copied()
    }
}

/// What a tap answers when it is not refused.
#[derive(Clone, Copy, Debug, PartialEq, Eq)]
pub enum TapAnswer {
    Taken(Stamp),
    Already(Stamp),
}

/// What a question answers when it is not refused.
#[derive(Clone, Copy, Debug, PartialEq, Eq)]
pub enum QuestionAnswer {
    Verdict { verdict: Verdict, prompt: Prompt, value: Stamp },
    Wait { lacking: Bits },
}

/// The book of one screen. Every value of this type is sound: it comes from [`Book::open`],
/// from a check of lent words, or from a step.
#[derive(Clone, Debug, PartialEq, Eq)]
pub struct Book {
    pub(super) screen: usize,
    pub(super) screens: usize,
    /// A row for each screen; our own is the known stamp.
    pub(super) table: [Stamp; MOST_SCREENS],
    pub(super) value: Stamp,
    /// By origin, then number.
    pub(super) log: Vec<Record>,
    /// In rising order, each once.
    pub(super) counted: Vec<Tap>,
    pub(super) prompts: [Prompt; PROMPTS],
}

/// Gossip that is neither old nor crossed, as it comes to a book.
struct Arrival<'a> {
    gossip: &'a Gossip<'a>,
    /// What would be known with it.
    merged: Stamp,
    /// Its records that are not known yet, in order.
    fresh: Vec<Record>,
}

impl Prompt {
    /// The verdict of these counts.
    pub fn verdict(&self) -> Verdict {
        match (self.accepts, self.declines) {
            (0, 0) => Verdict::Unasked,
            (_, 0) => Verdict::Accepted,
            (0, _) => Verdict::Declined,
            _ => Verdict::Contested,
        }
    }

    /// Takes in one more counted tap of this prompt.
    pub(super) fn count(&mut self, tap: Tap) {
        if tap.showing() > self.showing {
            *self = Prompt { showing: tap.showing(), accepts: 0, declines: 0 };
        }
        if tap.showing() == self.showing {
            self.accepts += u32::from(tap.answer() == Tap::ACCEPT);
            self.declines += u32::from(tap.answer() == Tap::DECLINE);
        }
    }
}

impl Book {
    /// The fresh book of that screen in a house of so many.
    pub fn open(screen: u64, screens: u64) -> Result<Book, Refusal> {
        let house = LEAST_SCREENS as u64..=MOST_SCREENS as u64;
        if !house.contains(&screens) || screen >= screens {
            return Err(Refusal::House);
        }
        Ok(Book {
            screen: screen as usize,
            screens: screens as usize,
            table: [Stamp::ZERO; MOST_SCREENS],
            value: Stamp::ZERO,
            log: Vec::new(),
            counted: Vec::new(),
            prompts: [Prompt::default(); PROMPTS],
        })
    }

    pub fn screen(&self) -> usize {
        self.screen
    }

    pub fn screens(&self) -> usize {
        self.screens
    }

    /// How many records of each screen are known here.
    pub fn known(&self) -> &Stamp {
        &self.table[self.screen]
    }

    /// What each screen of the house is known to know.
    pub fn table(&self) -> &[Stamp] {
        &self.table[..self.screens]
    }

    /// The merge of the stamps of all applied records.
    pub fn value(&self) -> &Stamp {
        &self.value
    }

    pub fn log(&self) -> &[Record] {
        &self.log
    }

    pub fn counted(&self) -> &[Tap] {
        &self.counted
    }

    /// Takes a tap, unless it is refused or already here.
    pub fn tap(&mut self, tap: Tap, label: Stamp) -> Result<TapAnswer, Refusal> {
        self.judge_label(&label)?;
        if let Some(stamp) = self.stamp_of(tap) {
            return Ok(TapAnswer::Already(stamp));
        }
        self.judge_room_for_tap()?;
        Ok(TapAnswer::Taken(self.take(tap, label)))
    }

    /// Answers a question when nothing that its label names is lacking.
    pub fn question(&self, prompt: u8, label: Stamp) -> Result<QuestionAnswer, Refusal> {
        let Some(&prompt) = self.prompts.get(usize::from(prompt)) else {
            return Err(Refusal::Malformed);
        };
        self.judge_label(&label)?;
        Ok(match self.lacking(&label) {
            0 => QuestionAnswer::Verdict { verdict: prompt.verdict(), prompt, value: self.value },
            lacking => QuestionAnswer::Wait { lacking },
        })
    }

    /// Yes exactly when the question is answered and its verdict permits it.
    pub fn permission(&self, prompt: u8, label: Stamp) -> bool {
        match self.question(prompt, label) {
            Ok(QuestionAnswer::Verdict { verdict, .. }) => permits(verdict),
            _ => false,
        }
    }

    /// Takes another screen's gossip; answers how many records were new and how many became applied.
    pub fn gossip(&mut self, gossip: &Gossip) -> Result<(u16, u16), Refusal> {
        self.judge_house(gossip)?;
        self.judge_stamp(gossip)?;
        let arrival = self.arrival(gossip);
        self.judge_arrival(&arrival)?;
        Ok(self.hear(arrival))
    }

    /// Refusals of a label: 1 by the house's N, 3 by our own part.
    fn judge_label(&self, label: &Stamp) -> Result<(), Refusal> {
        if !label.fits(self.screens) {
            return Err(Refusal::Malformed);
        }
        if label.0[self.screen] > self.known().0[self.screen] {
            return Err(Refusal::LabelAhead);
        }
        Ok(())
    }

    /// The stamp that Already carries: the value stamp for a counted tap, else that of its first log record.
    fn stamp_of(&self, tap: Tap) -> Option<Stamp> {
        if self.counted.binary_search(&tap).is_ok() {
            return Some(self.value);
        }
        self.log.iter().find(|record| record.tap == tap).map(Record::stamp)
    }

    /// Refusals of a new tap: 7, then 9.
    fn judge_room_for_tap(&self) -> Result<(), Refusal> {
        if self.known().sum() >= KNOWN_ROOM as u64 {
            return Err(Refusal::Spent);
        }
        if self.log.len() >= LOG_ROOM {
            return Err(Refusal::NoRoom);
        }
        Ok(())
    }

    /// Makes a record of a tap and takes it in; its stamp.
    fn take(&mut self, tap: Tap, label: Stamp) -> Stamp {
        let before = *self.known();
        let number = before.0[self.screen] + 1;
        let record = Record { origin: self.screen, number, label, tap };
        self.table[self.screen].0[self.screen] = number;
        let place = self.log.partition_point(|other| other.place() < record.place());
        self.log.insert(place, record);
        self.settle(&before);
        record.stamp()
    }

    /// What a label names and the value stamp lacks.
    fn lacking(&self, label: &Stamp) -> Bits {
        self.value.exceeded_by(label)
    }

    /// Refusal 2: another house, or our own gossip come back.
    fn judge_house(&self, gossip: &Gossip) -> Result<(), Refusal> {
        if gossip.screens() != self.screens || gossip.sender() == self.screen {
            return Err(Refusal::House);
        }
        Ok(())
    }

    /// Refusals of a gossip's stamp before its records are looked at: 4, 5, 6.
    fn judge_stamp(&self, gossip: &Gossip) -> Result<(), Refusal> {
        let (row, m) = (&self.table[gossip.sender()], gossip.stamp());
        if self.is_old(row, m) {
            return Err(Refusal::Old);
        }
        if !m.covers(row) {
            return Err(Refusal::Crossed);
        }
        if m.0[self.screen] > self.known().0[self.screen] {
            return Err(Refusal::ClaimsOurs);
        }
        Ok(())
    }

    /// Whether the sender's row already has what gossip with stamp `m` tells.
    fn is_old(&self, row: &Stamp, m: &Stamp) -> bool {
        row.covers(m)
    }

    fn arrival<'a>(&self, gossip: &'a Gossip<'a>) -> Arrival<'a> {
        let fresh = gossip.records().filter(|record| self.is_new(record)).collect();
        Arrival { gossip, merged: self.known().merge(gossip.stamp()), fresh }
    }

    /// Whether a record is not known yet: its origin's part alone decides.
    fn is_new(&self, record: &Record) -> bool {
        !record.is_known(self.known())
    }

    /// Refusals of what gossip brings: 7, 8, 9.
    fn judge_arrival(&self, arrival: &Arrival) -> Result<(), Refusal> {
        if is_spent(&arrival.merged) {
            return Err(Refusal::Spent);
        }
        if self.has_gap(arrival) {
            return Err(Refusal::Gap);
        }
        if self.lacks_room(arrival) {
            return Err(Refusal::NoRoom);
        }
        Ok(())
    }

    /// Whether a record that the gossip's stamp promises is missing. The message's records rise strictly and none is
    /// above its stamp: if as many are new as are missing here, none is missing there.
    fn has_gap(&self, arrival: &Arrival) -> bool {
        arrival.fresh.len() as u64 != arrival.merged.sum() - self.known().sum()
    }

    /// Whether the log as it is has no room for the new records.
    fn lacks_room(&self, arrival: &Arrival) -> bool {
        self.log.len() + arrival.fresh.len() > LOG_ROOM
    }

    /// Takes the gossip in; how many records were new, and how many became applied.
    fn hear(&mut self, arrival: Arrival) -> (u16, u16) {
        let (before, new) = (*self.known(), arrival.fresh.len() as u16);
        self.raise_rows(&arrival);
        self.log.extend(arrival.fresh);
        // Two rising runs: the stable sort merges them.
        self.log.sort_by_key(Record::place);
        (new, self.settle(&before))
    }

    /// What is known rises to the merged stamp, and the sender's row to the gossip's.
    fn raise_rows(&mut self, arrival: &Arrival) {
        self.table[self.screen] = arrival.merged;
        self.table[arrival.gossip.sender()] = *arrival.gossip.stamp();
    }

    /// Puts the book in order after the known stamp rose from `before`: applies what became ready, drops
    /// what may go. Answers how many records became applied.
    fn settle(&mut self, before: &Stamp) -> u16 {
        let everywhere = self.known_everywhere();
        let mut log = std::mem::take(&mut self.log);
        let mut applied = 0;
        log.retain(|record| {
            let ready = self.is_ready(record);
            if ready && !record.is_applied(before) {
                applied += 1;
                self.apply(record);
            }
            stays(ready, record.is_known(&everywhere))
        });
        self.log = log;
        applied
    }

    /// Whether a record is applied now: by the known stamp alone, so that one pass over the log settles a step.
    fn is_ready(&self, record: &Record) -> bool {
        record.is_applied(self.known())
    }

    /// Adds a newly applied record to the value stamp and, once, to the counted taps.
    fn apply(&mut self, record: &Record) {
        self.raise_value(record);
        if let Err(place) = self.counted.binary_search(&record.tap) {
            self.counted.insert(place, record.tap);
            self.prompts[usize::from(record.tap.prompt())].count(record.tap);
        }
    }

    /// The value stamp takes in the stamp of an applied record.
    fn raise_value(&mut self, record: &Record) {
        self.value = self.value.merge(&record.stamp());
    }

    /// How many records of each screen every row has.
    pub(super) fn known_everywhere(&self) -> Stamp {
        let rows = &self.table[..self.screens];
        rows.iter().fold(*self.known(), |least, row| least.least(row))
    }
}

/// Whether a verdict lets the car do what was asked.
fn permits(verdict: Verdict) -> bool {
    verdict == Verdict::Accepted
}

/// Whether more records would be known than a book may know.
fn is_spent(merged: &Stamp) -> bool {
    merged.sum() > KNOWN_ROOM as u64
}

/// Whether a record stays in the log: it goes once it is both applied and known everywhere.
fn stays(applied: bool, everywhere: bool) -> bool {
    !(applied && everywhere)
}
