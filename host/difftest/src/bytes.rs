//! Messages as bytes, from values that may break every field rule.

use crate::numbers::kind;
use crate::view::Stamp;

pub const SEND: [u8; 1] = [kind::SEND];

/// A tap's fields, in range or not.
#[derive(Clone, Copy)]
pub struct Tap {
    pub front_end: u8,
    pub serial: u32,
    pub prompt: u8,
    pub showing: u16,
    pub answer: u8,
}

/// A record's fields, in range or not.
#[derive(Clone, Copy)]
pub struct Record {
    pub origin: u8,
    pub number: u32,
    pub label: Stamp,
    pub tap: Tap,
}

pub fn tap(tap: &Tap, label: &Stamp) -> Vec<u8> {
    let mut bytes = vec![kind::TAP];
    put_tap(&mut bytes, tap);
    put_stamp(&mut bytes, label);
    bytes
}

pub fn question(prompt: u8, label: &Stamp) -> Vec<u8> {
    let mut bytes = vec![kind::QUESTION, prompt];
    put_stamp(&mut bytes, label);
    bytes
}

pub fn gossip(sender: u8, screens: u8, m: &Stamp, records: &[Record]) -> Vec<u8> {
    let mut bytes = vec![kind::GOSSIP, sender, screens];
    bytes.extend((records.len() as u16).to_be_bytes());
    put_stamp(&mut bytes, m);
    for record in records {
        bytes.extend([kind::RECORD, record.origin]);
        bytes.extend(record.number.to_be_bytes());
        put_stamp(&mut bytes, &record.label);
        put_tap(&mut bytes, &record.tap);
    }
    bytes
}

/// The bytes as they are written down in a report.
pub fn hex(bytes: &[u8]) -> String {
    bytes.iter().map(|byte| format!("{byte:02x}")).collect()
}

fn put_tap(bytes: &mut Vec<u8>, tap: &Tap) {
    bytes.push(tap.front_end);
    bytes.extend(tap.serial.to_be_bytes());
    bytes.push(tap.prompt);
    bytes.extend(tap.showing.to_be_bytes());
    bytes.push(tap.answer);
}

fn put_stamp(bytes: &mut Vec<u8>, stamp: &Stamp) {
    bytes.extend(stamp.iter().flat_map(|part| part.to_be_bytes()));
}
