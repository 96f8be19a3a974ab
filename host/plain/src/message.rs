//! Messages read and written, with their field rules.

use super::wire::{
    head, kind, news, record, reply_body, reply_bytes, request_body, standing, tap, BITS_BYTES, HEAD_BYTES,
    KIND_BYTES, PART_BYTES, RECORD_BYTES,
};
use super::{
    Bits, Book, Prompt, QuestionAnswer, Record, Refusal, Stamp, Tap, TapAnswer, Verdict, LEAST_SCREENS,
    LOG_ROOM, MOST_SCREENS, PROMPTS,
};

/// A request that a screen takes.
#[derive(Clone, Copy, Debug)]
pub enum Request<'a> {
    Gossip(Gossip<'a>),
    Tap { tap: Tap, label: Stamp },
    Question { prompt: u8, label: Stamp },
    Send,
}

/// A gossip message that obeys all field rules, read from its bytes.
#[derive(Clone, Copy, Debug)]
pub struct Gossip<'a> {
    sender: usize,
    screens: usize,
    stamp: Stamp,
    records: &'a [u8],
}

/// A reply other than a gossip message.
#[derive(Clone, Copy, Debug, PartialEq, Eq)]
pub enum Reply {
    Tap(TapAnswer),
    Question(QuestionAnswer),
    GossipTaken { new: u16, applied: u16 },
    Refused(Refusal),
}

impl<'a> Request<'a> {
    /// The request that these bytes are, whole and obeying the field rules of a house of `screens`.
    pub fn parse(bytes: &'a [u8], screens: usize) -> Option<Request<'a>> {
        let (&kind, body) = bytes.split_first()?;
        if kind == kind::GOSSIP {
            return Gossip::parse(bytes).map(Request::Gossip);
        }
        if body.len() != request_body(kind)? {
            return None;
        }
        let request = match kind {
            kind::TAP => {
                let (tap, label) = body.split_at(tap::END);
                Request::Tap { tap: read_tap(tap)?, label: read_stamp(label) }
            }
            kind::QUESTION => Request::Question { prompt: body[0], label: read_stamp(&body[1..]) },
            _ => Request::Send,
        };
        request.obeys_rules(screens).then_some(request)
    }

    fn obeys_rules(&self, screens: usize) -> bool {
        match self {
            Request::Tap { label, .. } => label.fits(screens),
            Request::Question { prompt, label } => usize::from(*prompt) < PROMPTS && label.fits(screens),
            Request::Gossip(_) | Request::Send => true,
        }
    }
}

impl<'a> Gossip<'a> {
    /// The gossip message that these bytes are, by the field rules of the N in its own head.
    pub fn parse(bytes: &'a [u8]) -> Option<Gossip<'a>> {
        if bytes.len() < HEAD_BYTES || bytes[0] != kind::GOSSIP {
            return None;
        }
        let (head, records) = bytes.split_at(HEAD_BYTES);
        let gossip = Gossip {
            sender: usize::from(head[head::SENDER]),
            screens: usize::from(head[head::SCREENS]),
            stamp: read_stamp(&head[head::STAMP..]),
            records,
        };
        let count = usize::from(read_u16(&head[head::COUNT..]));
        let whole = count <= LOG_ROOM && records.len() == count * RECORD_BYTES;
        (whole && gossip.obeys_rules()).then_some(gossip)
    }

    fn obeys_rules(&self) -> bool {
        let house = (LEAST_SCREENS..=MOST_SCREENS).contains(&self.screens);
        house && self.sender < self.screens && self.stamp.fits(self.screens) && self.records_obey_rules()
    }

    fn records_obey_rules(&self) -> bool {
        let mut last = None;
        self.records.chunks_exact(RECORD_BYTES).all(|bytes| {
            let Some(record) = read_record(bytes) else {
                return false;
            };
            let rises = last < Some(record.place());
            last = Some(record.place());
            rises && record.obeys_rules(self.screens, &self.stamp)
        })
    }

    pub fn sender(&self) -> usize {
        self.sender
    }

    pub fn screens(&self) -> usize {
        self.screens
    }

    pub fn stamp(&self) -> &Stamp {
        &self.stamp
    }

    /// The records, by origin, then number.
    pub fn records(&self) -> impl Iterator<Item = Record> + Clone + 'a {
        self.records.chunks_exact(RECORD_BYTES).filter_map(read_record)
    }
}

impl Book {
    /// The length of the message that [`Book::send`] writes.
    pub fn send_bytes(&self) -> usize {
        HEAD_BYTES + RECORD_BYTES * self.log().len()
    }

    /// Writes the known stamp and the whole log as one gossip message; answers its length.
    pub fn send(&self, out: &mut [u8]) -> Result<usize, Refusal> {
        let message = out.get_mut(..self.send_bytes()).ok_or(Refusal::ShortOutput)?;
        self.write_gossip(message);
        Ok(message.len())
    }

    fn write_gossip(&self, message: &mut [u8]) {
        let (head, records) = message.split_at_mut(HEAD_BYTES);
        head[0] = kind::GOSSIP;
        head[head::SENDER] = self.screen() as u8;
        head[head::SCREENS] = self.screens() as u8;
        put(head, head::COUNT, (self.log().len() as u16).to_be_bytes());
        write_stamp(self.known(), &mut head[head::STAMP..]);
        for (record, bytes) in self.log().iter().zip(records.chunks_exact_mut(RECORD_BYTES)) {
            write_record(record, bytes);
        }
    }
}

impl Reply {
    /// The reply that these bytes are, whole and obeying the field rules: all parts of its stamp are free.
    pub fn parse(bytes: &[u8]) -> Option<Reply> {
        let (&kind, body) = bytes.split_first()?;
        if !has_body_of(kind, body) {
            return None;
        }
        Some(match kind {
            kind::TAKEN => Reply::Tap(TapAnswer::Taken(read_stamp(body))),
            kind::ALREADY => Reply::Tap(TapAnswer::Already(read_stamp(body))),
            kind::VERDICT => Reply::Question(read_verdict(body)?),
            kind::WAIT => Reply::Question(QuestionAnswer::Wait { lacking: read_bits(body) }),
            kind::REFUSAL => Reply::Refused(Refusal::from_number(body[0])?),
            _ => Reply::GossipTaken {
                new: read_u16(&body[news::NEW..]),
                applied: read_u16(&body[news::APPLIED..]),
            },
        })
    }

    /// Its byte of kind.
    pub fn kind(&self) -> u8 {
        match self {
            Reply::Tap(TapAnswer::Taken(_)) => kind::TAKEN,
            Reply::Tap(TapAnswer::Already(_)) => kind::ALREADY,
            Reply::Question(QuestionAnswer::Verdict { .. }) => kind::VERDICT,
            Reply::Question(QuestionAnswer::Wait { .. }) => kind::WAIT,
            Reply::Refused(_) => kind::REFUSAL,
            Reply::GossipTaken { .. } => kind::GOSSIP_TAKEN,
        }
    }

    /// Its length as a message.
    pub fn length(&self) -> usize {
        reply_bytes(self.kind())
    }

    /// Writes the reply at the front of `out`; answers its length.
    pub fn write(&self, out: &mut [u8]) -> Result<usize, Refusal> {
        let out = out.get_mut(..self.length()).ok_or(Refusal::ShortOutput)?;
        let (kind, body) = out.split_at_mut(KIND_BYTES);
        kind[0] = self.kind();
        match self {
            Reply::Tap(TapAnswer::Taken(stamp) | TapAnswer::Already(stamp)) => write_stamp(stamp, body),
            Reply::Question(QuestionAnswer::Verdict { verdict, prompt, value }) => {
                write_verdict(*verdict, prompt, value, body)
            }
            Reply::Question(QuestionAnswer::Wait { lacking }) => write_bits(*lacking, body),
            Reply::Refused(refusal) => body[0] = refusal.number(),
            Reply::GossipTaken { new, applied } => {
                put(body, news::NEW, new.to_be_bytes());
                put(body, news::APPLIED, applied.to_be_bytes());
            }
        }
        Ok(self.length())
    }
}

/// Whether a reply of that kind has a body of that length.
fn has_body_of(kind: u8, body: &[u8]) -> bool {
    reply_body(kind) == Some(body.len())
}

fn read_u16(bytes: &[u8]) -> u16 {
    u16::from_be_bytes([bytes[0], bytes[1]])
}

fn read_u32(bytes: &[u8]) -> u32 {
    u32::from_be_bytes([bytes[0], bytes[1], bytes[2], bytes[3]])
}

fn read_stamp(bytes: &[u8]) -> Stamp {
    Stamp(std::array::from_fn(|k| read_u32(&bytes[PART_BYTES * k..])))
}

fn read_bits(bytes: &[u8]) -> Bits {
    Bits::from_be_bytes(std::array::from_fn::<u8, BITS_BYTES, _>(|at| bytes[at]))
}

fn read_verdict(body: &[u8]) -> Option<QuestionAnswer> {
    let prompt = Prompt {
        showing: read_u16(&body[standing::SHOWING..]),
        accepts: read_u32(&body[standing::ACCEPTS..]),
        declines: read_u32(&body[standing::DECLINES..]),
    };
    let verdict = Verdict::from_number(body[standing::VERDICT])?;
    Some(QuestionAnswer::Verdict { verdict, prompt, value: read_stamp(&body[standing::END..]) })
}

fn read_tap(bytes: &[u8]) -> Option<Tap> {
    Tap::new(
        bytes[tap::FRONT_END],
        read_u32(&bytes[tap::SERIAL..]),
        bytes[tap::PROMPT],
        read_u16(&bytes[tap::SHOWING..]),
        bytes[tap::ANSWER],
    )
}

/// The record of these bytes, if its kind and its tap are right; the other rules need the head.
fn read_record(bytes: &[u8]) -> Option<Record> {
    if bytes[0] != kind::RECORD {
        return None;
    }
    Some(Record {
        origin: usize::from(bytes[record::ORIGIN]),
        number: read_u32(&bytes[record::NUMBER..]),
        label: read_stamp(&bytes[record::LABEL..]),
        tap: read_tap(&bytes[record::TAP..])?,
    })
}

/// Writes the bytes from that place on.
fn put<const N: usize>(out: &mut [u8], at: usize, bytes: [u8; N]) {
    out[at..at + N].copy_from_slice(&bytes);
}

fn write_stamp(stamp: &Stamp, out: &mut [u8]) {
    for (part, bytes) in stamp.0.iter().zip(out.chunks_exact_mut(PART_BYTES)) {
        bytes.copy_from_slice(&part.to_be_bytes());
    }
}

fn write_bits(bits: Bits, out: &mut [u8]) {
    put(out, 0, bits.to_be_bytes());
}

fn write_verdict(verdict: Verdict, prompt: &Prompt, value: &Stamp, out: &mut [u8]) {
    out[standing::VERDICT] = verdict as u8;
    put(out, standing::SHOWING, prompt.showing.to_be_bytes());
    put(out, standing::ACCEPTS, prompt.accepts.to_be_bytes());
    put(out, standing::DECLINES, prompt.declines.to_be_bytes());
    write_stamp(value, &mut out[standing::END..]);
}

fn write_record(record: &Record, out: &mut [u8]) {
    out[0] = kind::RECORD;
    out[record::ORIGIN] = record.origin as u8;
    put(out, record::NUMBER, record.number.to_be_bytes());
    write_stamp(&record.label, &mut out[record::LABEL..record::TAP]);
    write_tap(record.tap, &mut out[record::TAP..]);
}

fn write_tap(tap: Tap, out: &mut [u8]) {
    out[tap::FRONT_END] = tap.front_end();
    put(out, tap::SERIAL, tap.serial().to_be_bytes());
    out[tap::PROMPT] = tap.prompt();
    put(out, tap::SHOWING, tap.showing().to_be_bytes());
    out[tap::ANSWER] = tap.answer();
}
