//! The records of a Sunday script.

use crate::clock::Reading;
use crate::link::Event;
use crate::settings::{Role, Settings};
use std::fmt;

/// Bytes that user data and messages take up in their records.
pub const DATA_FIELD: usize = 100;
pub const MESSAGE_FIELD: usize = 128;

#[derive(Clone, Copy, PartialEq, Eq, Debug)]
pub struct Make {
    pub role: Role,
    pub reading: Reading,
    pub settings: Settings,
}

#[derive(Clone, Copy, PartialEq, Eq, Debug)]
pub enum Record<'a> {
    Make(Make),
    Event(Reading, Event<'a>),
}

/// Why the script ends early.
#[derive(Clone, Copy, PartialEq, Eq, Debug)]
pub enum BadRecord {
    Kind(u8),
    Role(u8),
    Length { kind: u8, length: u8 },
    Cut,
}

impl fmt::Display for BadRecord {
    fn fmt(&self, f: &mut fmt::Formatter<'_>) -> fmt::Result {
        match self {
            BadRecord::Kind(kind) => write!(f, "no record kind {kind}"),
            BadRecord::Role(role) => write!(f, "no role {role}"),
            BadRecord::Length { kind, length } => {
                write!(f, "length {length} is over the field of kind {kind}")
            }
            BadRecord::Cut => write!(f, "the record is cut"),
        }
    }
}

impl std::error::Error for BadRecord {}

/// What stands at the front of some bytes.
#[derive(Clone, Copy, PartialEq, Eq, Debug)]
pub enum Front<'a> {
    /// A record and the bytes it took.
    Whole(Record<'a>, usize),
    /// A record may stand here when more bytes come.
    Partial,
    Bad(BadRecord),
}

/// The length of a record with its kind byte.
pub fn record_length(kind: u8) -> Option<usize> {
    match kind {
        1 => Some(33),
        2..=5 => Some(5),
        6 => Some(6 + DATA_FIELD),
        7 => Some(6 + MESSAGE_FIELD),
        _ => None,
    }
}

/// Takes big-endian fields from the front of a record known to be whole.
struct Fields<'a>(&'a [u8]);

impl<'a> Fields<'a> {
    fn bytes(&mut self, count: usize) -> &'a [u8] {
        let (front, rest) = self.0.split_at(count);
        self.0 = rest;
        front
    }

    fn number(&mut self, count: usize) -> u32 {
        self.bytes(count).iter().fold(0, |sum, byte| sum << 8 | u32::from(*byte))
    }

    fn byte(&mut self) -> u8 {
        self.bytes(1)[0]
    }

    fn reading(&mut self) -> Reading {
        Reading(self.number(4))
    }
}

pub fn front(bytes: &[u8]) -> Front<'_> {
    let Some(&kind) = bytes.first() else {
        return Front::Partial;
    };
    let Some(length) = record_length(kind) else {
        return Front::Bad(BadRecord::Kind(kind));
    };
    if bytes.len() < length {
        return Front::Partial;
    }
    let mut fields = Fields(&bytes[1..length]);
    let record = match kind {
        1 => make_record(&mut fields).map(Record::Make),
        _ => event_record(kind, &mut fields),
    };
    match record {
        Ok(record) => Front::Whole(record, length),
        Err(bad) => Front::Bad(bad),
    }
}

fn make_record(fields: &mut Fields<'_>) -> Result<Make, BadRecord> {
    let role = match fields.byte() {
        0 => Role::Initiator,
        1 => Role::Called,
        other => return Err(BadRecord::Role(other)),
    };
    Ok(Make {
        role,
        reading: fields.reading(),
        settings: Settings {
            age: fields.number(4),
            spread: fields.number(4),
            jump: fields.number(2) as u16,
            errors: fields.byte(),
            silence: fields.number(4),
            life_sign: fields.number(4),
            start_wait: fields.number(4),
            retry: fields.number(4),
        },
    })
}

fn event_record<'a>(kind: u8, fields: &mut Fields<'a>) -> Result<Record<'a>, BadRecord> {
    let reading = fields.reading();
    let event = match kind {
        2 => Event::Tick,
        3 => Event::Connect,
        4 => Event::Confirm,
        5 => Event::Disconnect,
        6 => Event::Data(counted(kind, fields)?),
        _ => Event::Message(counted(kind, fields)?),
    };
    Ok(Record::Event(reading, event))
}

/// The bytes that a length byte counts; the filler after them is ignored.
fn counted<'a>(kind: u8, fields: &mut Fields<'a>) -> Result<&'a [u8], BadRecord> {
    let length = fields.byte();
    fields.0.get(..usize::from(length)).ok_or(BadRecord::Length { kind, length })
}

impl Record<'_> {
    /// Appends the record; `filler` gives the bytes nobody reads.
    ///
    /// # Panics
    /// When data or message are longer than their field: such a record can't
    /// be written.
    pub fn encode(&self, bytes: &mut Vec<u8>, mut filler: impl FnMut() -> u8) {
        match self {
            Record::Make(make) => encode_make(make, bytes),
            Record::Event(reading, event) => {
                let (kind, body) = match event {
                    Event::Tick => (2, None),
                    Event::Connect => (3, None),
                    Event::Confirm => (4, None),
                    Event::Disconnect => (5, None),
                    Event::Data(data) => (6, Some((*data, DATA_FIELD))),
                    Event::Message(message) => (7, Some((*message, MESSAGE_FIELD))),
                };
                bytes.push(kind);
                bytes.extend(reading.0.to_be_bytes());
                if let Some((body, field)) = body {
                    assert!(body.len() <= field, "{} bytes don't fit the record", body.len());
                    bytes.push(body.len() as u8);
                    bytes.extend(body);
                    bytes.extend((body.len()..field).map(|_| filler()));
                }
            }
        }
    }
}

fn encode_make(make: &Make, bytes: &mut Vec<u8>) {
    let settings = &make.settings;
    bytes.push(1);
    bytes.push(match make.role {
        Role::Initiator => 0,
        Role::Called => 1,
    });
    bytes.extend(make.reading.0.to_be_bytes());
    bytes.extend(settings.age.to_be_bytes());
    bytes.extend(settings.spread.to_be_bytes());
    bytes.extend(settings.jump.to_be_bytes());
    bytes.push(settings.errors);
    bytes.extend(settings.silence.to_be_bytes());
    bytes.extend(settings.life_sign.to_be_bytes());
    bytes.extend(settings.start_wait.to_be_bytes());
    bytes.extend(settings.retry.to_be_bytes());
}

/// Walks the records of a script held whole; ends after the first bad one.
pub struct Records<'a> {
    rest: &'a [u8],
}

impl<'a> Records<'a> {
    pub fn of(script: &'a [u8]) -> Records<'a> {
        Records { rest: script }
    }
}

impl<'a> Iterator for Records<'a> {
    type Item = Result<Record<'a>, BadRecord>;

    fn next(&mut self) -> Option<Self::Item> {
        if self.rest.is_empty() {
            return None;
        }
        let found = match front(self.rest) {
            Front::Whole(record, length) => {
                self.rest = &self.rest[length..];
                return Some(Ok(record));
            }
            Front::Partial => BadRecord::Cut,
            Front::Bad(bad) => bad,
        };
        self.rest = &[];
        Some(Err(found))
    }
}
