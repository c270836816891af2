//! The receiving job that is timed: an end comes Up, and then one message with
//! train data comes again and again, with the next number each time.

use crate::clock::Reading;
use crate::link::{End, Event, Output, ROOM};
use crate::settings::{Role, Settings};

/// Three messages of the start, one with train data, and the reading of all events.
pub const INPUT: usize = 3 * START + DATA + 4;
const START: usize = 15;
const DATA: usize = 36;
/// A connect indication, the start, and five million messages.
const TURNS: usize = 5_000_004;

fn settings() -> Settings {
    Settings {
        age: 50,
        spread: 20,
        jump: 4,
        errors: 2,
        silence: 300,
        life_sign: 100,
        start_wait: 500,
        retry: 1000,
    }
}

/// Where the bytes of a turn stand in the input.
fn place(turn: usize) -> (usize, usize) {
    match turn {
        0 | 1 => (0, START),
        2 => (START, 2 * START),
        3 => (2 * START, 3 * START),
        _ => (3 * START, 3 * START + DATA),
    }
}

/// How many of the messages were delivered.
pub fn receive(input: &mut [u8; INPUT]) -> Result<u32, String> {
    let stamp = [input[INPUT - 4], input[INPUT - 3], input[INPUT - 2], input[INPUT - 1]];
    let at = Reading(u32::from_be_bytes(stamp));
    let mut end = End::make(Role::Called, settings(), at).map_err(|_| "settings out of range")?;
    let mut delivered = 0;
    for turn in 0..TURNS {
        let (start, stop) = place(turn);
        let number = turn.saturating_sub(1) as u16;
        input[start + 1..start + 3].copy_from_slice(&number.to_be_bytes());
        let event = match turn {
            0 => Event::Connect,
            _ => Event::Message(&input[start..stop]),
        };
        let reply = end.step(event, at, ROOM);
        delivered += u32::from(matches!(reply.outputs.first(), Some(Output::Data(_))));
    }
    Ok(delivered)
}
