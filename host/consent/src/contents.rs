//! What stands in a book's words, by the layout of docs/LAYOUT.md.

use crate::numbers::*;
use crate::values::{Answer, Record, Stamp, Standing, Tap, Verdict};

/// What stands in a book, to look at. It is read by the documented layout and not judged.
#[derive(Clone, Debug, PartialEq, Eq)]
pub struct Contents {
    /// Whose book it is.
    pub screen: u8,
    /// How many screens the house has.
    pub screens: u8,
    /// What each screen is known to know; this screen's row is what it knows itself.
    pub table: Vec<Stamp>,
    /// The merge of the stamps of all applied records.
    pub value: Stamp,
    /// The records that some screen may lack or that wait, by origin, then number.
    pub log: Vec<Record>,
    /// The distinct taps of applied records, in order of their fields.
    pub counted: Vec<Tap>,
    /// Where each prompt stands.
    pub prompts: Vec<Standing>,
}

impl Contents {
    /// What stands in these words; none where the length is wrong or a number is out of its range.
    pub fn of(words: &[u64]) -> Option<Contents> {
        if words.len() != BOOK_WORDS {
            return None;
        }
        let screens =
            u8::try_from(words[AT_SCREENS]).ok().filter(|&screens| usize::from(screens) <= MOST_SCREENS)?;
        let rows = words[AT_TABLE..AT_VALUE].chunks_exact(STAMP_PARTS).take(screens.into());
        let records =
            words[AT_LOG..AT_COUNTED].chunks_exact(RECORD_WORDS).take(words[AT_LOGGED].try_into().ok()?);
        let counted = words[AT_COUNTED..AT_PROMPTS].iter().take(words[AT_COUNTED_TAPS].try_into().ok()?);
        Some(Contents {
            screen: u8::try_from(words[AT_SCREEN]).ok().filter(|&screen| screen < screens)?,
            screens,
            table: rows.map(stamp).collect::<Option<_>>()?,
            value: stamp(&words[AT_VALUE..AT_LOG])?,
            log: records.map(record).collect::<Option<_>>()?,
            counted: counted.map(|&word| tap(word)).collect::<Option<_>>()?,
            prompts: words[AT_PROMPTS..].chunks_exact(PROMPT_WORDS).map(standing).collect::<Option<_>>()?,
        })
    }

    /// How many records of each screen are known.
    pub fn known(&self) -> Stamp {
        self.table[usize::from(self.screen)]
    }

    /// Whether a record of the log is applied, and does not wait.
    pub fn is_applied(&self, record: &Record) -> bool {
        self.known().covers(&record.label)
    }
}

fn stamp(words: &[u64]) -> Option<Stamp> {
    let mut stamp = Stamp::ZERO;
    for (part, &word) in stamp.0.iter_mut().zip(words) {
        *part = word.try_into().ok()?;
    }
    Some(stamp)
}

fn record(words: &[u64]) -> Option<Record> {
    let [origin, number, label @ .., word] = words else {
        return None;
    };
    Some(Record {
        origin: (*origin).try_into().ok()?,
        number: (*number).try_into().ok()?,
        label: stamp(label)?,
        tap: tap(*word)?,
    })
}

/// Prompt and answer are narrower than any type: each ends where the next field starts.
fn tap(word: u64) -> Option<Tap> {
    let lowest = |count: u32| (1 << count) - 1;
    Some(Tap {
        front_end: (word >> BIT_OF_FRONT_END) as u8,
        serial: (word >> BIT_OF_SERIAL) as u32,
        prompt: (word >> BIT_OF_PROMPT) as u8 & lowest(BIT_OF_SERIAL - BIT_OF_PROMPT),
        showing: (word >> BIT_OF_SHOWING) as u16,
        answer: Answer::from_number(word as u8 & lowest(BIT_OF_SHOWING - BIT_OF_ANSWER))?,
    })
}

fn standing(words: &[u64]) -> Option<Standing> {
    let (accepts, declines) = (words[1].try_into().ok()?, words[2].try_into().ok()?);
    let showing = words[0].try_into().ok()?;
    Some(Standing { verdict: Verdict::of(accepts, declines), showing, accepts, declines })
}
