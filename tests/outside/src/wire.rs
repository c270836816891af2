//! Messages as they stand on the line.

use crate::clock::{Bounds, Offset, Reading};
use std::fmt;

/// Bytes before the body: kind, number and three stamps.
pub const HEADER: usize = 15;
/// The most train data one message takes.
pub const TRAIN_MOST: usize = 100;
/// The longest message an end writes; the output lent must hold it.
pub const LONGEST: usize = HEADER + 1 + TRAIN_MOST;

const LIFE_SIGN: u8 = 2;
const TRAIN_DATA: u8 = 3;

/// Train data of a length the line takes.
#[derive(Clone, PartialEq, Eq, Debug)]
pub struct Train(Vec<u8>);

impl Train {
    pub fn new(bytes: &[u8]) -> Result<Train, Malformed> {
        match bytes.len() {
            1..=TRAIN_MOST => Ok(Train(bytes.to_vec())),
            length => Err(Malformed::TrainLength(length)),
        }
    }

    pub fn bytes(&self) -> &[u8] {
        &self.0
    }

    pub fn into_bytes(self) -> Vec<u8> {
        self.0
    }
}

/// What a message says besides its header.
#[derive(Clone, PartialEq, Eq, Debug)]
pub enum Body {
    /// Kind 1, from the initiator.
    Start1,
    /// Kind 2, from the called end.
    Start2,
    /// Kind 3, from the initiator.
    Start3,
    /// Kind 4, from the called end, with what it measured.
    Start4(Bounds),
    /// Kind 5, from the initiator.
    Start5,
    /// Kind 6 with the single byte 2.
    LifeSign,
    /// Kind 6 with the byte 3 and the data.
    Train(Train),
}

impl Body {
    pub fn kind(&self) -> u8 {
        match self {
            Body::Start1 => 1,
            Body::Start2 => 2,
            Body::Start3 => 3,
            Body::Start4(_) => 4,
            Body::Start5 => 5,
            Body::LifeSign | Body::Train(_) => 6,
        }
    }
}

/// The three stamps every message carries.
#[derive(Clone, Copy, PartialEq, Eq, Debug, Default)]
pub struct Stamps {
    /// The sender's reading.
    pub sent: Reading,
    /// The sender's reading in the last message accepted from the peer.
    pub echo: Reading,
    /// Own reading when that one was accepted.
    pub taken: Reading,
}

#[derive(Clone, PartialEq, Eq, Debug)]
pub struct Message {
    pub number: u16,
    pub stamps: Stamps,
    pub body: Body,
}

/// Why some bytes are no message.
#[derive(Clone, Copy, PartialEq, Eq, Debug)]
pub enum Malformed {
    Empty,
    UnknownKind(u8),
    Length { kind: u8, length: usize },
    UnknownPayload(u8),
    LifeSignLength(usize),
    TrainLength(usize),
}

impl fmt::Display for Malformed {
    fn fmt(&self, f: &mut fmt::Formatter<'_>) -> fmt::Result {
        match self {
            Malformed::Empty => write!(f, "no bytes"),
            Malformed::UnknownKind(kind) => write!(f, "no kind {kind}"),
            Malformed::Length { kind, length } => write!(f, "kind {kind} of {length} bytes"),
            Malformed::UnknownPayload(first) => write!(f, "payload begins with {first}"),
            Malformed::LifeSignLength(length) => write!(f, "life sign of {length} bytes"),
            Malformed::TrainLength(length) => write!(f, "train data of {length} bytes"),
        }
    }
}

impl std::error::Error for Malformed {}

/// The big-endian 32-bit word at `at`; the caller has checked the length.
fn word(bytes: &[u8], at: usize) -> u32 {
    u32::from_be_bytes([bytes[at], bytes[at + 1], bytes[at + 2], bytes[at + 3]])
}

impl Message {
    pub fn encode(&self) -> Vec<u8> {
        let mut bytes = Vec::with_capacity(LONGEST);
        bytes.push(self.body.kind());
        bytes.extend(self.number.to_be_bytes());
        for stamp in [self.stamps.sent, self.stamps.echo, self.stamps.taken] {
            bytes.extend(stamp.0.to_be_bytes());
        }
        match &self.body {
            Body::Start4(bounds) => {
                bytes.extend(bounds.min.0.to_be_bytes());
                bytes.extend(bounds.max.0.to_be_bytes());
            }
            Body::LifeSign => bytes.push(LIFE_SIGN),
            Body::Train(train) => {
                bytes.push(TRAIN_DATA);
                bytes.extend(train.bytes());
            }
            Body::Start1 | Body::Start2 | Body::Start3 | Body::Start5 => {}
        }
        bytes
    }

    pub fn decode(bytes: &[u8]) -> Result<Message, Malformed> {
        let kind = *bytes.first().ok_or(Malformed::Empty)?;
        if !(1..=6).contains(&kind) {
            return Err(Malformed::UnknownKind(kind));
        }
        let Some(rest) = bytes.get(HEADER..) else {
            return Err(Malformed::Length { kind, length: bytes.len() });
        };
        Ok(Message {
            number: u16::from_be_bytes([bytes[1], bytes[2]]),
            stamps: Stamps {
                sent: Reading(word(bytes, 3)),
                echo: Reading(word(bytes, 7)),
                taken: Reading(word(bytes, 11)),
            },
            body: decode_body(kind, rest)?,
        })
    }
}

fn decode_body(kind: u8, rest: &[u8]) -> Result<Body, Malformed> {
    match (kind, rest.len()) {
        (1, 0) => Ok(Body::Start1),
        (2, 0) => Ok(Body::Start2),
        (3, 0) => Ok(Body::Start3),
        (4, 8) => {
            Ok(Body::Start4(Bounds { min: Offset(word(rest, 0)), max: Offset(word(rest, 4)) }))
        }
        (5, 0) => Ok(Body::Start5),
        (6, 1..) => decode_payload(rest),
        (_, more) => Err(Malformed::Length { kind, length: HEADER + more }),
    }
}

fn decode_payload(payload: &[u8]) -> Result<Body, Malformed> {
    match payload {
        [LIFE_SIGN] => Ok(Body::LifeSign),
        [LIFE_SIGN, ..] => Err(Malformed::LifeSignLength(payload.len())),
        [TRAIN_DATA, data @ ..] => Ok(Body::Train(Train::new(data)?)),
        [first, ..] => Err(Malformed::UnknownPayload(*first)),
        [] => Err(Malformed::Empty),
    }
}
