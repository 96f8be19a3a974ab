//! The book as lent words, and the test of lent words.
//!
//! In order: a head of four numbers (screen i, screens N, how many log records, how many counted taps); the table, a
//! row of parts for each screen; the value stamp; the log's places, each origin, number, label and the tap's word; the
//! counted taps; the prompts, each showing, accepts and declines.

use super::{
    Book, Prompt, Record, Stamp, Tap, KNOWN_ROOM, LEAST_SCREENS, LOG_ROOM, MOST_SCREENS, PARTS, PROMPTS,
};

const TABLE: usize = 4;
const VALUE: usize = TABLE + MOST_SCREENS * PARTS;
const LOG: usize = VALUE + PARTS;
const COUNTED: usize = LOG + LOG_ROOM * RECORD_WORDS;
const PROMPT: usize = COUNTED + KNOWN_ROOM;
const PROMPT_WORDS: usize = 3;

/// Within a place of the log.
const ORIGIN: usize = 0;
const NUMBER: usize = 1;
const LABEL: usize = 2;
const TAP: usize = LABEL + PARTS;
const RECORD_WORDS: usize = TAP + 1;

/// The length of a lent book.
pub const WORDS: usize = PROMPT + PROMPTS * PROMPT_WORDS;

impl Book {
    /// The book of these words, if they are sound: the clauses of 'A lent book is sound exactly when', in its order.
    pub fn from_words(words: &[u64]) -> Option<Book> {
        let book = read(words)?;
        let sound = book.rows_are_known()
            && book.log_is_in_order()
            && book.log_is_complete()
            && book.counted_is_in_order()
            && book.applied_is_counted()
            && book.counted_is_bounded()
            && book.counts_follow();
        sound.then_some(book)
    }

    /// The one layout of this book.
    pub fn words(&self) -> Vec<u64> {
        let mut words = vec![0; WORDS];
        self.store(&mut words);
        words
    }

    /// Writes the one layout of this book over `words`.
    ///
    /// # Panics
    ///
    /// When `words` is not [`WORDS`] long.
    pub fn store(&self, words: &mut [u64]) {
        assert_eq!(words.len(), WORDS, "a lent book has one length");
        let head = [self.screen, self.screens, self.log.len(), self.counted.len()];
        words[..TABLE].copy_from_slice(&head.map(|number| number as u64));
        for (row, place) in self.table.iter().zip(words[TABLE..].chunks_exact_mut(PARTS)) {
            store_stamp(row, place);
        }
        store_stamp(&self.value, &mut words[VALUE..LOG]);
        self.store_log(&mut words[LOG..COUNTED]);
        self.store_counted(&mut words[COUNTED..PROMPT]);
        self.store_prompts(&mut words[PROMPT..]);
    }

    fn store_log(&self, words: &mut [u64]) {
        let (used, free) = words.split_at_mut(self.log.len() * RECORD_WORDS);
        for (record, place) in self.log.iter().zip(used.chunks_exact_mut(RECORD_WORDS)) {
            place[ORIGIN] = record.origin as u64;
            place[NUMBER] = u64::from(record.number);
            store_stamp(&record.label, &mut place[LABEL..TAP]);
            place[TAP] = record.tap.word();
        }
        free.fill(0);
    }

    fn store_counted(&self, words: &mut [u64]) {
        let (used, free) = words.split_at_mut(self.counted.len());
        for (tap, place) in self.counted.iter().zip(used) {
            *place = tap.word();
        }
        free.fill(0);
    }

    fn store_prompts(&self, words: &mut [u64]) {
        for (prompt, place) in self.prompts.iter().zip(words.chunks_exact_mut(PROMPT_WORDS)) {
            let counts = [u64::from(prompt.showing), prompt.accepts.into(), prompt.declines.into()];
            place.copy_from_slice(&counts);
        }
    }

    /// No row exceeds the known stamp, nor does the value stamp; rows and parts past N are zero, and the known
    /// records are within the limit.
    fn rows_are_known(&self) -> bool {
        let known = self.known();
        self.table().iter().all(|row| known.covers(row))
            && self.rows_past_are_zero()
            && known.fits(self.screens)
            && known.covers(&self.value)
            && known.sum() <= KNOWN_ROOM as u64
    }

    fn rows_past_are_zero(&self) -> bool {
        self.table[self.screens..].iter().all(|row| *row == Stamp::ZERO)
    }

    /// Log records rise strictly, are known and obey the wire's field rules.
    fn log_is_in_order(&self) -> bool {
        let rising = self.log.windows(2).all(|pair| pair[0].place() < pair[1].place());
        rising && self.log.iter().all(|record| record.obeys_rules(self.screens, self.known()))
    }

    /// Every known record is in the log or known everywhere.
    ///
    /// The log rises strictly and holds only known records, so it has all that are not known everywhere exactly
    /// when it has as many of them as there are.
    fn log_is_complete(&self) -> bool {
        let everywhere = self.known_everywhere();
        let held = self.log.iter().filter(|record| !record.is_known(&everywhere)).count();
        held as u64 == self.known().sum() - everywhere.sum()
    }

    fn counted_is_in_order(&self) -> bool {
        self.counted.windows(2).all(|pair| pair[0] < pair[1])
    }

    /// Each applied log record is counted, covered by the value stamp, and not known everywhere.
    fn applied_is_counted(&self) -> bool {
        let everywhere = self.known_everywhere();
        let mut applied = self.log.iter().filter(|record| record.is_applied(self.known()));
        applied.all(|record| {
            !record.is_known(&everywhere)
                && self.value_covers(record)
                && self.counted.binary_search(&record.tap).is_ok()
        })
    }

    /// Whether the value stamp covers the stamp of a log record.
    fn value_covers(&self, record: &Record) -> bool {
        record.has_stamp_below(&self.value)
    }

    /// Counted taps number at most the known records less the waiting ones; so, then, do each prompt's counts.
    fn counted_is_bounded(&self) -> bool {
        let waiting = self.log.iter().filter(|record| !record.is_applied(self.known())).count();
        (self.counted.len() + waiting) as u64 <= self.known().sum()
    }

    fn counts_follow(&self) -> bool {
        let mut afresh = [Prompt::default(); PROMPTS];
        for &tap in &self.counted {
            afresh[usize::from(tap.prompt())].count(tap);
        }
        afresh == self.prompts
    }
}

/// The content of lent words: right length, every number in the range of its type, unused places zero.
fn read(words: &[u64]) -> Option<Book> {
    if words.len() != WORDS {
        return None;
    }
    let [screen, screens, logged, counted] = words[..TABLE] else {
        return None;
    };
    let house = LEAST_SCREENS as u64..=MOST_SCREENS as u64;
    if !house.contains(&screens) || screen >= screens {
        return None;
    }
    Some(Book {
        screen: screen as usize,
        screens: screens as usize,
        table: read_table(&words[TABLE..VALUE])?,
        value: read_stamp(&words[VALUE..LOG])?,
        log: read_log(&words[LOG..COUNTED], logged)?,
        counted: read_counted(&words[COUNTED..PROMPT], counted)?,
        prompts: read_prompts(&words[PROMPT..])?,
    })
}

fn read_table(words: &[u64]) -> Option<[Stamp; MOST_SCREENS]> {
    let mut table = [Stamp::ZERO; MOST_SCREENS];
    for (row, place) in table.iter_mut().zip(words.chunks_exact(PARTS)) {
        *row = read_stamp(place)?;
    }
    Some(table)
}

fn read_log(words: &[u64], count: u64) -> Option<Vec<Record>> {
    let count = usize::try_from(count).ok().filter(|&count| count <= LOG_ROOM)?;
    let (used, free) = words.split_at(count * RECORD_WORDS);
    if !all_zero(free) {
        return None;
    }
    // One place more than is used: a tap adds one.
    let mut log = Vec::with_capacity(count + 1);
    for place in used.chunks_exact(RECORD_WORDS) {
        log.push(read_record(place)?);
    }
    Some(log)
}

fn read_record(words: &[u64]) -> Option<Record> {
    Some(Record {
        origin: usize::try_from(words[ORIGIN]).ok()?,
        number: u32::try_from(words[NUMBER]).ok()?,
        label: read_stamp(&words[LABEL..TAP])?,
        tap: Tap::from_word(words[TAP])?,
    })
}

fn read_counted(words: &[u64], count: u64) -> Option<Vec<Tap>> {
    let count = usize::try_from(count).ok().filter(|&count| count <= KNOWN_ROOM)?;
    let (used, free) = words.split_at(count);
    if !all_zero(free) {
        return None;
    }
    let mut counted = Vec::with_capacity(count + 1);
    for &word in used {
        counted.push(Tap::from_word(word)?);
    }
    Some(counted)
}

fn read_prompts(words: &[u64]) -> Option<[Prompt; PROMPTS]> {
    let mut prompts = [Prompt::default(); PROMPTS];
    for (prompt, place) in prompts.iter_mut().zip(words.chunks_exact(PROMPT_WORDS)) {
        prompt.showing = place[0].try_into().ok()?;
        prompt.accepts = place[1].try_into().ok()?;
        prompt.declines = place[2].try_into().ok()?;
    }
    Some(prompts)
}

fn read_stamp(words: &[u64]) -> Option<Stamp> {
    let wide = words.iter().fold(0, |all, &word| all | word);
    let fits = wide <= u64::from(u32::MAX);
    fits.then(|| Stamp(std::array::from_fn(|k| words[k] as u32)))
}

fn store_stamp(stamp: &Stamp, words: &mut [u64]) {
    for (part, word) in stamp.0.iter().zip(words) {
        *word = u64::from(*part);
    }
}

/// One pass without an early way out: it compiles to wide instructions.
fn all_zero(words: &[u64]) -> bool {
    words.iter().fold(0, |all, &word| all | word) == 0
}
