//! Messages that no honest peer may have sent: right but for one thing, on
//! one side of a limit or the other, or damaged.

use crate::clock::{Bounds, Offset, Reading, HALF};
use crate::dice::Dice;
use crate::link::{State, View};
use crate::record::MESSAGE_FIELD;
use crate::shapes::SHAPES;
use crate::wire::{Body, Message, Stamps, Train, HEADER, LONGEST};

fn train(dice: &mut Dice) -> Body {
    let length = dice.pick(&[1, 1, 2, 9, 99, 100]);
    // The lengths above are all taken; a life sign stands in otherwise.
    Train::new(&dice.bytes(length)).map_or(Body::LifeSign, Body::Train)
}

fn stamped_body(dice: &mut Dice) -> Body {
    if dice.chance(1, 3) {
        Body::LifeSign
    } else {
        train(dice)
    }
}

fn stamps(dice: &mut Dice, sent: Reading) -> Stamps {
    Stamps { sent, echo: Reading(dice.word()), taken: Reading(dice.word()) }
}

fn any_stamps(dice: &mut Dice) -> Stamps {
    let sent = Reading(dice.word());
    stamps(dice, sent)
}

/// A sender's reading that gives this age now.
fn sent_for_age(view: &View, now: Reading, age: u32) -> Reading {
    Reading(now.0.wrapping_sub(view.bounds.min.0).wrapping_sub(age))
}

/// Kind 6 with a chosen jump and age.
pub fn stamped(dice: &mut Dice, view: &View, now: Reading, jump: u16, age: u32) -> Vec<u8> {
    let stamps = stamps(dice, sent_for_age(view, now, age));
    let number = view.last.wrapping_add(jump);
    Message { number, stamps, body: stamped_body(dice) }.encode()
}

/// A jump on one side or the other of each line.
pub fn edge_jump(dice: &mut Dice, limit: u16) -> u16 {
    let any = dice.word() as u16;
    let choices = [
        1,
        1,
        1,
        2,
        limit,
        limit,
        limit + 1,
        limit + 1,
        32_766,
        32_767,
        32_768,
        32_769,
        65_535,
        0,
        0,
        any,
    ];
    dice.pick(&choices)
}

/// An age on one side or the other of each line.
pub fn edge_age(dice: &mut Dice, limit: u32) -> u32 {
    let any = dice.word();
    let within = dice.below(limit + 1);
    let choices = [
        0,
        within,
        within,
        limit - 1,
        limit,
        limit,
        limit + 1,
        limit + 1,
        HALF - 1,
        HALF,
        u32::MAX,
        any,
    ];
    dice.pick(&choices)
}

/// The message that the state waits for, right in everything.
pub fn right(dice: &mut Dice, view: &View, now: Reading) -> Vec<u8> {
    let spread = dice.below(view.settings.spread + 1);
    match view.state {
        State::Up => stamped(dice, view, now, 1, 0),
        _ => awaited(dice, view, now, Flaw { spread, ..Flaw::default() }),
    }
}

/// What may be wrong with an awaited start message.
#[derive(Clone, Copy, Default)]
pub struct Flaw {
    pub number: u16,
    pub echo: u32,
    pub minimum: u32,
    pub spread: u32,
}

/// The message that the state waits for, with a flaw in it.
pub fn awaited(dice: &mut Dice, view: &View, now: Reading, flaw: Flaw) -> Vec<u8> {
    let number = view.last.wrapping_add(1).wrapping_add(flaw.number);
    let (stamps, body) = match view.state {
        State::Greeted => (any_stamps(dice), Body::Start1),
        State::Opening => (measured(dice, view, now, flaw), Body::Start2),
        State::Answering => (measured(dice, view, now, flaw), Body::Start3),
        State::Settling => {
            let min = view.bounds.max.seen_by_peer().0.wrapping_add(flaw.minimum);
            let bounds = Bounds { min: Offset(min), max: Offset(dice.word()) };
            (any_stamps(dice), Body::Start4(bounds))
        }
        State::Closing => (any_stamps(dice), Body::Start5),
        State::Idle | State::Calling | State::Up => (any_stamps(dice), stamped_body(dice)),
    };
    Message { number, stamps, body }.encode()
}

/// Stamps from which the end measures the spread of the flaw.
fn measured(dice: &mut Dice, view: &View, now: Reading, flaw: Flaw) -> Stamps {
    let taken = Reading(dice.word());
    let max = view.asked_echo.less(taken).0.wrapping_add(flaw.spread);
    Stamps { sent: Reading(now.0.wrapping_sub(max)), echo: view.asked_echo.plus(flaw.echo), taken }
}

fn edge_flaw(dice: &mut Dice, limit: u32) -> Flaw {
    let off_by_one = [0, 0, 0, 1, u32::MAX];
    let within = dice.below(limit + 1);
    let spreads = [0, within, within, limit, limit, limit + 1, limit + 1, HALF, u32::MAX];
    Flaw {
        number: dice.pick(&[0, 0, 0, 0, 1, u16::MAX, 32_767]),
        echo: dice.pick(&off_by_one),
        minimum: dice.pick(&off_by_one),
        spread: dice.pick(&spreads),
    }
}

/// A message on some side of some limit, for whatever state the end is in.
pub fn edge(dice: &mut Dice, view: &View, now: Reading) -> Vec<u8> {
    if view.state == State::Up {
        let jump = edge_jump(dice, view.settings.jump);
        let age = edge_age(dice, view.settings.age);
        return stamped(dice, view, now, jump, age);
    }
    let flaw = edge_flaw(dice, view.settings.spread);
    awaited(dice, view, now, flaw)
}

/// A well-formed message of any kind, with the number that is awaited.
pub fn stray(dice: &mut Dice, view: &View) -> Vec<u8> {
    let bounds = Bounds { min: Offset(dice.word()), max: Offset(dice.word()) };
    let body = match dice.below(6) {
        0 => Body::Start1,
        1 => Body::Start2,
        2 => Body::Start3,
        3 => Body::Start4(bounds),
        4 => Body::Start5,
        _ => stamped_body(dice),
    };
    Message { number: view.last.wrapping_add(1), stamps: any_stamps(dice), body }.encode()
}

/// One of the shapes, otherwise right as far as its header goes.
pub fn shaped(dice: &mut Dice, view: &View, now: Reading) -> Vec<u8> {
    let shape = dice.pick(&SHAPES);
    let mut bytes = right(dice, view, now);
    bytes.truncate(HEADER);
    while bytes.len() < shape.length {
        bytes.push(dice.byte());
    }
    bytes.truncate(shape.length);
    bytes[0] = shape.kind;
    if let Some(first) = shape.payload {
        bytes[HEADER] = first;
    }
    bytes
}

/// Bytes of any length that the record holds.
pub fn noise(dice: &mut Dice) -> Vec<u8> {
    // What is longer than any message comes no other way, so it comes often.
    let longer = dice.chance(1, 3);
    let least = if longer { LONGEST } else { 0 };
    let length = dice.from_to(least as u32, MESSAGE_FIELD as u32) as usize;
    let mut bytes = dice.bytes(length);
    if let Some(kind) = bytes.first_mut() {
        *kind %= 8;
    }
    bytes
}

/// What the radio may make of a message.
pub fn damage(dice: &mut Dice, mut bytes: Vec<u8>) -> Vec<u8> {
    if bytes.is_empty() {
        return bytes;
    }
    let at = dice.index(bytes.len());
    match dice.below(5) {
        0 => bytes[at] ^= 1 << dice.below(8),
        1 => bytes[at] = dice.byte(),
        2 => bytes.truncate(at),
        3 => bytes.insert(at, dice.byte()),
        _ => bytes.push(dice.byte()),
    }
    bytes.truncate(MESSAGE_FIELD);
    bytes
}
