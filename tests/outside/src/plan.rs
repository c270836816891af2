//! Whole scripts: many scenes one after another, each begun by a make.

use crate::clock::{Reading, HALF};
use crate::dice::Dice;
use crate::life::{Life, TEMPERS};
use crate::link::{End, Event};
use crate::record::{record_length, Make, Record};
use crate::settings::{Role, Settings};
use crate::tape::Tape;

const SCENES: u32 = 12;

/// The script of a seed.
pub fn script(seed: u64) -> Vec<u8> {
    let mut dice = Dice::new(seed);
    let mut tape = Tape::new(dice.fork());
    let empty = dice.chance(1, 25);
    if !empty {
        prelude(&mut dice, &mut tape);
        for _ in 0..dice.from_to(1, SCENES) {
            scene(&mut dice, &mut tape);
        }
    }
    if dice.chance(1, 2) {
        let ending = bad_ending(&mut dice);
        return tape.end_with(&ending);
    }
    tape.into_bytes()
}

/// Events and refused makes before there is an end.
fn prelude(dice: &mut Dice, tape: &mut Tape) {
    for _ in 0..dice.below(8) {
        if dice.chance(1, 5) {
            let make = refused_make(dice);
            tape.put(&Record::Make(make));
            continue;
        }
        let length = dice.index(101);
        let bytes = dice.bytes(length);
        let events = [
            Event::Tick,
            Event::Connect,
            Event::Confirm,
            Event::Disconnect,
            Event::Data(&bytes),
            Event::Message(&bytes),
        ];
        let event = dice.pick(&events);
        tape.put(&Record::Event(Reading(dice.word()), event));
    }
}

fn scene(dice: &mut Dice, tape: &mut Tape) {
    let settings = if dice.chance(2, 3) { tame(dice) } else { at_bounds(dice) };
    let role = dice.pick(&[Role::Initiator, Role::Called]);
    let make = Make { role, reading: reading(dice), settings };
    tape.put(&Record::Make(make));
    let Some(peer) = peer_for(dice, &make) else {
        return;
    };
    let temper = dice.pick(&TEMPERS);
    let steps = dice.pick(&[20, 100, 300, 600]);
    let refused = refused_make(dice);
    if let Some(mut life) = Life::new(dice.fork(), tape, peer, temper, refused) {
        life.run(steps);
    }
}

/// A peer that puts up with much, so that it is the subject that is tried.
fn peer_for(dice: &mut Dice, make: &Make) -> Option<End> {
    let role = match make.role {
        Role::Initiator => Role::Called,
        Role::Called => Role::Initiator,
    };
    let lenient =
        Settings { age: 100_000, spread: 100_000, jump: 1_000, errors: 2, ..make.settings };
    let silence = make.settings.silence;
    let often = Settings { silence: 1_000_000, life_sign: (silence / 4).max(1), ..lenient };
    let settings = if dice.chance(3, 4) { often } else { make.settings };
    End::make(role, settings, reading(dice)).ok()
}

/// A first reading: near the wrap, near the half, or anywhere.
fn reading(dice: &mut Dice) -> Reading {
    let near = dice.below(500);
    Reading(match dice.below(6) {
        0 => near,
        1 | 2 => 0u32.wrapping_sub(near),
        3 => HALF.wrapping_add(250).wrapping_sub(near),
        _ => dice.word(),
    })
}

/// Settings of a size at which a short life shows them all.
pub fn tame(dice: &mut Dice) -> Settings {
    let silence = dice.from_to(40, 1_000);
    let start_wait = dice.from_to(20, 500);
    Settings {
        age: dice.from_to(5, 200),
        spread: dice.from_to(0, 60),
        jump: dice.from_to(1, 8) as u16,
        errors: dice.from_to(1, 2) as u8,
        silence,
        life_sign: dice.from_to(1, silence - 1),
        start_wait,
        retry: dice.from_to(start_wait, start_wait + 500),
    }
}

/// Valid settings, each at one of its bounds or next to it.
pub fn at_bounds(dice: &mut Dice) -> Settings {
    let mut within = |low: u32, high: u32| {
        let inner = low.saturating_add(1).min(high);
        dice.pick(&[low, inner, high, high, low, high.saturating_sub(1).max(low)])
    };
    let silence = within(2, 1_000_000);
    let start_wait = within(1, 1_000_000);
    Settings {
        age: within(1, 100_000),
        spread: within(0, 100_000),
        jump: within(1, 1_000) as u16,
        errors: within(1, 2) as u8,
        silence,
        life_sign: within(1, silence - 1),
        start_wait,
        retry: within(start_wait, 1_000_000),
    }
}

/// A make with one setting just beyond a bound, or far beyond.
fn refused_make(dice: &mut Dice) -> Make {
    let mut settings = if dice.chance(1, 2) { tame(dice) } else { at_bounds(dice) };
    let far = dice.chance(1, 8);
    let beyond = |dice: &mut Dice, low: u32, high: u32| match low.checked_sub(1) {
        Some(below) if dice.chance(1, 2) => below,
        _ if far => u32::MAX,
        _ => high + 1,
    };
    match dice.below(8) {
        0 => settings.age = beyond(dice, 1, 100_000),
        1 => settings.spread = beyond(dice, 0, 100_000),
        2 => settings.jump = beyond(dice, 1, 1_000).min(u16::MAX.into()) as u16,
        3 => settings.errors = beyond(dice, 1, 2).min(u8::MAX.into()) as u8,
        4 => settings.silence = beyond(dice, 2, 1_000_000),
        5 => settings.life_sign = beyond(dice, 1, settings.silence - 1),
        6 => settings.start_wait = beyond(dice, 1, 1_000_000),
        _ => settings.retry = beyond(dice, settings.start_wait, 1_000_000),
    }
    let role = dice.pick(&[Role::Initiator, Role::Called]);
    Make { role, reading: reading(dice), settings }
}

/// Bytes that are no record, for the end of a script.
fn bad_ending(dice: &mut Dice) -> Vec<u8> {
    let kind = dice.from_to(1, 7) as u8;
    let mut bytes = vec![kind];
    let length = record_length(kind).unwrap_or(1);
    bytes.extend(dice.bytes(length - 1));
    match dice.below(5) {
        0 => bytes[0] = dice.pick(&[0, 8, 9, 255]),
        1 => bad_role(dice, &mut bytes),
        2 => bad_length(dice, 6, 101, &mut bytes),
        3 => bad_length(dice, 7, 129, &mut bytes),
        _ => cut(dice, &mut bytes),
    }
    bytes
}

fn bad_role(dice: &mut Dice, bytes: &mut Vec<u8>) {
    *bytes = vec![1, dice.pick(&[2, 3, 255])];
    // Half of these have settings in range: the role alone must end the script.
    let make = Make { role: Role::Called, reading: reading(dice), settings: tame(dice) };
    let mut whole = Vec::new();
    Record::Make(make).encode(&mut whole, || 0);
    bytes.extend(&whole[2..]);
    if dice.chance(1, 2) {
        let at = dice.from_to(6, 32) as usize;
        bytes[at] = 0xff;
    }
}

fn bad_length(dice: &mut Dice, kind: u8, over: u8, bytes: &mut Vec<u8>) {
    let length = record_length(kind).unwrap_or(1);
    *bytes = dice.bytes(length);
    bytes[0] = kind;
    bytes[5] = dice.pick(&[over, over + 1, 255]);
    // More may follow, so that a reader who trusts the length byte goes wrong.
    let more = dice.index(200);
    bytes.extend(dice.bytes(more));
}

/// Leaves off the end of a record that would otherwise do.
fn cut(dice: &mut Dice, bytes: &mut Vec<u8>) {
    if bytes[0] == 1 {
        bytes[1] %= 2;
    }
    if bytes[0] >= 6 {
        bytes[5] %= 101;
    }
    let left = match dice.below(3) {
        0 => bytes.len() - 1,
        1 => 1,
        _ => dice.from_to(1, bytes.len() as u32 - 1) as usize,
    };
    bytes.truncate(left);
}
