//! Messages: requests, replies and gossip as values, and each as bytes (docs/WIRE.md).

use crate::numbers::{
    HEAD_BYTES, KIND_ALREADY, KIND_GOSSIP, KIND_GOSSIP_TAKEN, KIND_QUESTION, KIND_RECORD, KIND_REFUSAL,
    KIND_SEND, KIND_TAKEN, KIND_TAP, KIND_VERDICT, KIND_WAIT, LOG_ROOM, PROMPTS, RECORD_BYTES, SHORT_REPLY,
};
use crate::values::{Answer, Question, Record, Refusal, Stamp, Standing, Tap, Verdict};

/// What a screen can be asked.
#[derive(Clone, Copy, Debug, PartialEq, Eq)]
pub enum Request<'a> {
    /// A person tapped; the label names what the front end had seen.
    Tap(Tap, Stamp),
    /// How does a prompt stand?
    Question(Question),
    /// Another screen's gossip, as it was sent.
    Gossip(&'a [u8]),
    /// Write gossip for the other screens.
    Send,
}

/// What a screen replies.
#[derive(Clone, Debug, PartialEq, Eq)]
pub enum Reply {
    /// The gossip that was asked for, to be carried to other screens as it is.
    Gossip(Vec<u8>),
    /// The tap is a new record, with this stamp.
    Taken(Stamp),
    /// The same tap is already here.
    Already(Stamp),
    /// Where the prompt stands, and the value stamp.
    Verdict(Standing, Stamp),
    /// Not all that the label names is applied here; bit k is set when screen k's taps are lacking.
    Wait(u8),
    /// The request was refused.
    Refused(Refusal),
    /// The gossip was taken.
    GossipTaken {
        /// How many records were new.
        new: u16,
        /// How many records became applied.
        applied: u16,
    },
}

/// A gossip message, taken apart. The library judges gossip itself; this is for those who want to look at it.
#[derive(Clone, Debug, PartialEq, Eq)]
pub struct Gossip {
    /// The screen that sent it.
    pub sender: u8,
    /// The number of screens in its house.
    pub screens: u8,
    /// What the sender knew.
    pub stamp: Stamp,
    /// The sender's log, by origin, then number.
    pub records: Vec<Record>,
}

impl<'a> Request<'a> {
    /// The request as bytes.
    pub fn encode(&self) -> Vec<u8> {
        let mut bytes = Vec::with_capacity(SHORT_REPLY);
        match self {
            Request::Tap(tap, label) => {
                bytes.push(KIND_TAP);
                put_tap(&mut bytes, tap);
                put_stamp(&mut bytes, label);
            }
            Request::Question(question) => {
                bytes.extend([KIND_QUESTION, question.prompt]);
                put_stamp(&mut bytes, &question.label);
            }
            Request::Gossip(message) => bytes.extend(*message),
            Request::Send => bytes.push(KIND_SEND),
        }
        bytes
    }

    /// The request of these bytes, with all label parts free. Gossip is known by its kind and left to the library.
    pub fn decode(bytes: &'a [u8]) -> Option<Request<'a>> {
        let mut reader = Reader(bytes);
        let request = match reader.u8()? {
            KIND_TAP => Request::Tap(reader.tap()?, reader.stamp()?),
            KIND_QUESTION => Request::Question(Question { prompt: reader.prompt()?, label: reader.stamp()? }),
            KIND_GOSSIP => return Some(Request::Gossip(bytes)),
            KIND_SEND => Request::Send,
            _ => return None,
        };
        reader.ended(request)
    }
}

impl Reply {
    /// The reply as bytes.
    pub fn encode(&self) -> Vec<u8> {
        let mut bytes = Vec::with_capacity(SHORT_REPLY);
        match self {
            Reply::Gossip(message) => bytes.extend(message),
            Reply::Taken(stamp) => put_stamped(&mut bytes, KIND_TAKEN, stamp),
            Reply::Already(stamp) => put_stamped(&mut bytes, KIND_ALREADY, stamp),
            Reply::Verdict(standing, value) => {
                bytes.extend([KIND_VERDICT, standing.verdict.number()]);
                bytes.extend(standing.showing.to_be_bytes());
                bytes.extend(standing.accepts.to_be_bytes());
                bytes.extend(standing.declines.to_be_bytes());
                put_stamp(&mut bytes, value);
            }
            Reply::Wait(lacking) => bytes.extend([KIND_WAIT, *lacking]),
            Reply::Refused(refusal) => bytes.extend([KIND_REFUSAL, refusal.number()]),
            Reply::GossipTaken { new, applied } => {
                bytes.push(KIND_GOSSIP_TAKEN);
                bytes.extend(new.to_be_bytes());
                bytes.extend(applied.to_be_bytes());
            }
        }
        bytes
    }

    /// The reply of these bytes.
    pub fn decode(bytes: &[u8]) -> Option<Reply> {
        let mut reader = Reader(bytes);
        let reply = match reader.u8()? {
            KIND_GOSSIP => return Some(Reply::Gossip(bytes.to_vec())),
            KIND_TAKEN => Reply::Taken(reader.stamp()?),
            KIND_ALREADY => Reply::Already(reader.stamp()?),
            KIND_VERDICT => Reply::Verdict(reader.standing()?, reader.stamp()?),
            KIND_WAIT => Reply::Wait(reader.u8()?),
            KIND_REFUSAL => Reply::Refused(Refusal::from_number(reader.u8()?)?),
            KIND_GOSSIP_TAKEN => Reply::GossipTaken { new: reader.u16()?, applied: reader.u16()? },
            _ => return None,
        };
        reader.ended(reply)
    }
}

impl Gossip {
    /// The message as bytes; none if it has more records than a message may.
    pub fn encode(&self) -> Option<Vec<u8>> {
        if self.records.len() > LOG_ROOM {
            return None;
        }
        let mut bytes = Vec::with_capacity(HEAD_BYTES + RECORD_BYTES * self.records.len());
        bytes.extend([KIND_GOSSIP, self.sender, self.screens]);
        bytes.extend((self.records.len() as u16).to_be_bytes());
        put_stamp(&mut bytes, &self.stamp);
        for record in &self.records {
            bytes.extend([KIND_RECORD, record.origin]);
            bytes.extend(record.number.to_be_bytes());
            put_stamp(&mut bytes, &record.label);
            put_tap(&mut bytes, &record.tap);
        }
        Some(bytes)
    }

    /// The message of these bytes: whole, with taps in range. The other field rules are the library's to judge.
    pub fn decode(bytes: &[u8]) -> Option<Gossip> {
        let mut reader = Reader(bytes);
        if reader.u8()? != KIND_GOSSIP {
            return None;
        }
        let (sender, screens, count) = (reader.u8()?, reader.u8()?, reader.u16()?);
        let stamp = reader.stamp()?;
        if reader.0.len() != RECORD_BYTES * usize::from(count) {
            return None;
        }
        let records = (0..count).map(|_| reader.record()).collect::<Option<Vec<Record>>>()?;
        Some(Gossip { sender, screens, stamp, records })
    }
}

/// Whether the bytes have gossip's kind.
pub(crate) fn is_gossip(bytes: &[u8]) -> bool {
    bytes.first() == Some(&KIND_GOSSIP)
}

fn put_tap(bytes: &mut Vec<u8>, tap: &Tap) {
    bytes.push(tap.front_end);
    bytes.extend(tap.serial.to_be_bytes());
    bytes.push(tap.prompt);
    bytes.extend(tap.showing.to_be_bytes());
    bytes.push(tap.answer.number());
}

fn put_stamp(bytes: &mut Vec<u8>, stamp: &Stamp) {
    bytes.extend(stamp.0.iter().flat_map(|part| part.to_be_bytes()));
}

fn put_stamped(bytes: &mut Vec<u8>, kind: u8, stamp: &Stamp) {
    bytes.push(kind);
    put_stamp(bytes, stamp);
}

/// What is left to read of a message.
struct Reader<'a>(&'a [u8]);

impl Reader<'_> {
    fn take<const N: usize>(&mut self) -> Option<[u8; N]> {
        let (front, rest) = self.0.split_first_chunk::<N>()?;
        self.0 = rest;
        Some(*front)
    }

    fn u8(&mut self) -> Option<u8> {
        self.take::<1>().map(|[byte]| byte)
    }

    fn u16(&mut self) -> Option<u16> {
        self.take().map(u16::from_be_bytes)
    }

    fn u32(&mut self) -> Option<u32> {
        self.take().map(u32::from_be_bytes)
    }

    fn stamp(&mut self) -> Option<Stamp> {
        let mut stamp = Stamp::ZERO;
        for part in &mut stamp.0 {
            *part = self.u32()?;
        }
        Some(stamp)
    }

    fn prompt(&mut self) -> Option<u8> {
        self.u8().filter(|&prompt| usize::from(prompt) < PROMPTS)
    }

    fn tap(&mut self) -> Option<Tap> {
        let tap = Tap {
            front_end: self.u8()?,
            serial: self.u32()?,
            prompt: self.u8()?,
            showing: self.u16()?,
            answer: Answer::from_number(self.u8()?)?,
        };
        tap.is_in_range().then_some(tap)
    }

    fn record(&mut self) -> Option<Record> {
        if self.u8()? != KIND_RECORD {
            return None;
        }
        Some(Record { origin: self.u8()?, number: self.u32()?, label: self.stamp()?, tap: self.tap()? })
    }

    fn standing(&mut self) -> Option<Standing> {
        Some(Standing {
            verdict: Verdict::from_number(self.u8()?)?,
            showing: self.u16()?,
            accepts: self.u32()?,
            declines: self.u32()?,
        })
    }

    /// The value read, if nothing is left over.
    fn ended<T>(&self, value: T) -> Option<T> {
        self.0.is_empty().then_some(value)
    }
}
