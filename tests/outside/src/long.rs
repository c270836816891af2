//! One life so long that the numbers of both directions wrap.

use crate::clock::Reading;
use crate::dice::Dice;
use crate::forge;
use crate::link::{End, Event, Output, ROOM};
use crate::record::{Make, Record};
use crate::settings::{Role, Settings};
use crate::tape::Tape;

/// Messages delivered to the subject; more than the numbers there are.
pub const DELIVERED: u32 = 70_500;

const SETTINGS: Settings = Settings {
    age: 50,
    spread: 20,
    jump: 4,
    errors: 2,
    silence: 300,
    life_sign: 100,
    start_wait: 500,
    retry: 1_000,
};

struct LongLife {
    tape: Tape,
    peer: End,
    dice: Dice,
    clock: Reading,
    /// The message that wraps to number 0 is lost: a gap lies over the wrap.
    lose_wrap: bool,
}

/// The script of the long life; the subject has the role given.
pub fn script(seed: u64, role: Role) -> Option<Vec<u8>> {
    let mut dice = Dice::new(seed);
    let tape = Tape::new(dice.fork());
    let other = match role {
        Role::Initiator => Role::Called,
        Role::Called => Role::Initiator,
    };
    // The clock wraps on the way, too.
    let clock = Reading(0u32.wrapping_sub(DELIVERED / 2));
    let peer = End::make(other, SETTINGS, clock).ok()?;
    let mut life = LongLife { tape, peer, dice, clock, lose_wrap: role == Role::Initiator };
    life.tape.put(&Record::Make(Make { role, reading: clock, settings: SETTINGS }));
    life.come_up(role);
    for round in 0..DELIVERED {
        life.round(round);
    }
    let view = life.tape.view()?;
    let lost = forge::stamped(&mut life.dice, &view, life.clock, SETTINGS.jump + 1, 0);
    life.subject(Event::Message(&lost));
    Some(life.tape.into_bytes())
}

impl LongLife {
    fn subject(&mut self, event: Event<'_>) -> Option<Vec<u8>> {
        sent(self.tape.put(&Record::Event(self.clock, event)).outputs)
    }

    fn peer(&mut self, event: Event<'_>) -> Option<Vec<u8>> {
        sent(self.peer.step(event, self.clock, ROOM).outputs)
    }

    fn come_up(&mut self, role: Role) {
        match role {
            Role::Initiator => {
                self.subject(Event::Tick);
                self.peer(Event::Connect);
                let first = self.subject(Event::Confirm);
                self.pass(first, false);
            }
            Role::Called => {
                self.peer(Event::Tick);
                self.subject(Event::Connect);
                let first = self.peer(Event::Confirm);
                self.pass(first, true);
            }
        }
    }

    /// Hands a start message over, then what answers it, until nothing does.
    fn pass(&mut self, mut message: Option<Vec<u8>>, mut to_subject: bool) {
        while let Some(bytes) = message {
            let event = Event::Message(&bytes);
            message = if to_subject { self.subject(event) } else { self.peer(event) };
            to_subject = !to_subject;
        }
    }

    /// One message each way, and now and then something odd.
    fn round(&mut self, round: u32) {
        self.clock = self.clock.plus(1);
        let length = self.dice.from_to(1, 6) as usize;
        let data = self.dice.bytes(length);
        self.peer(Event::Tick);
        if let Some(bytes) = self.peer(Event::Data(&data)) {
            let wraps = bytes[1..3] == [0, 0];
            let lose = round % 997 == 5 || (wraps && self.lose_wrap);
            if !lose {
                self.subject(Event::Message(&bytes));
            }
            if round % 499 == 7 {
                self.subject(Event::Message(&bytes)); // again: old
            }
        }
        self.subject(Event::Tick);
        if let Some(bytes) = self.subject(Event::Data(&data)) {
            self.peer(Event::Message(&bytes));
        }
    }
}

fn sent(outputs: Vec<Output>) -> Option<Vec<u8>> {
    outputs.into_iter().find_map(|output| match output {
        Output::Send(bytes) => Some(bytes),
        _ => None,
    })
}
