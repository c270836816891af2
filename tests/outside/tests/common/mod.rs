//! An end that a test can lead where it wants it.

#![allow(dead_code)] // each test file uses its own part of this

use outside::clock::{Bounds, Reading};
use outside::link::{End, Event, Output, Reply, State, ROOM};
use outside::settings::{Role, Settings};
use outside::wire::{Body, Message, Stamps, Train};

pub const SETTINGS: Settings = Settings {
    age: 50,
    spread: 20,
    jump: 4,
    errors: 2,
    silence: 300,
    life_sign: 100,
    start_wait: 500,
    retry: 1_000,
};

/// An end and the time its tester has come to.
pub struct Bench {
    pub end: End,
    pub now: u32,
}

impl Bench {
    pub fn new(role: Role, settings: Settings, now: u32) -> Bench {
        let end = End::make(role, settings, Reading(now)).expect("settings in range");
        Bench { end, now }
    }

    /// An initiator Up at `now`, its clock `offset` ahead of the peer's, with
    /// number 1 last accepted.
    pub fn initiator_up(settings: Settings, now: u32, offset: u32) -> Bench {
        let mut bench = Bench::new(Role::Initiator, settings, now);
        bench.say(Event::Tick);
        bench.say(Event::Confirm);
        let there = now.wrapping_sub(offset);
        bench.hear(message(0, there, now, there, Body::Start2));
        let max = bench.end.view().bounds.max;
        let theirs = Bounds { min: max.seen_by_peer(), max: max.seen_by_peer() };
        let reply = bench.hear(message(1, there, now, there, Body::Start4(theirs)));
        assert_eq!(reply.outputs.last(), Some(&Output::Up));
        bench
    }

    /// A called end Up at `now`, its clock as the peer's, with number 2 last
    /// accepted.
    pub fn called_up(settings: Settings, now: u32) -> Bench {
        let mut bench = Bench::new(Role::Called, settings, now);
        bench.say(Event::Connect);
        bench.hear(message(0, now, 0, 0, Body::Start1));
        bench.hear(message(1, now, now, now, Body::Start3));
        let reply = bench.hear(message(2, now, now, now, Body::Start5));
        assert_eq!(reply.outputs, [Output::Up]);
        bench
    }

    pub fn say(&mut self, event: Event<'_>) -> Reply {
        self.end.step(event, Reading(self.now), ROOM)
    }

    pub fn at(&mut self, now: u32, event: Event<'_>) -> Reply {
        self.now = now;
        self.say(event)
    }

    pub fn hear(&mut self, message: Message) -> Reply {
        self.say(Event::Message(&message.encode()))
    }

    /// Train data sent at `sent` by the peer's clock.
    pub fn hear_data(&mut self, number: u16, sent: u32) -> Reply {
        self.hear(message(number, sent, 0, 0, train(&[7])))
    }

    pub fn state(&self) -> State {
        self.end.view().state
    }
}

pub fn message(number: u16, sent: u32, echo: u32, taken: u32, body: Body) -> Message {
    let stamps = Stamps { sent: Reading(sent), echo: Reading(echo), taken: Reading(taken) };
    Message { number, stamps, body }
}

pub fn train(bytes: &[u8]) -> Body {
    Body::Train(Train::new(bytes).expect("1 to 100 bytes"))
}

pub fn sent(reply: &Reply) -> Option<Message> {
    reply.outputs.iter().find_map(|output| match output {
        Output::Send(bytes) => Some(Message::decode(bytes).expect("what an end sends reads back")),
        _ => None,
    })
}

pub fn reply(answer: u8, outputs: &[Output]) -> Reply {
    Reply { answer, outputs: outputs.to_vec() }
}
