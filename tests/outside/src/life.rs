//! A random life of one end, beside a peer that keeps the rules, over a
//! channel that doesn't.

use crate::clock::{Reading, HALF};
use crate::dice::Dice;
use crate::forge;
use crate::link::{End, Event, Output, State, View, QUEUE, ROOM};
use crate::record::{Make, Record};
use crate::settings::Role;
use crate::tape::Tape;
use crate::wire::{Body, Message};

/// How rough a life is, in parts of a thousand.
#[derive(Clone, Copy, Debug)]
pub struct Temper {
    pub loss: u32,
    pub repeat: u32,
    pub reorder: u32,
    pub odd: u32,
}

pub const TEMPERS: [Temper; 4] = [
    Temper { loss: 0, repeat: 0, reorder: 0, odd: 10 },
    Temper { loss: 10, repeat: 20, reorder: 20, odd: 60 },
    Temper { loss: 50, repeat: 100, reorder: 100, odd: 150 },
    Temper { loss: 20, repeat: 50, reorder: 50, odd: 500 },
];

/// The two ends: the one the script talks to, and the one it hears of.
#[derive(Clone, Copy, PartialEq, Eq, Debug)]
enum Who {
    Subject,
    Peer,
}

/// What the layer below tells an end.
#[derive(Clone, Copy, Debug)]
enum Signal {
    Connect,
    Confirm,
    Disconnect,
}

impl Signal {
    fn event(self) -> Event<'static> {
        match self {
            Signal::Connect => Event::Connect,
            Signal::Confirm => Event::Confirm,
            Signal::Disconnect => Event::Disconnect,
        }
    }
}

#[derive(Clone, Copy, Debug)]
enum Act {
    Signal,
    HandToSubject,
    HandToPeer,
    TickSubject,
    TickPeer,
    DataToSubject,
    DataToPeer,
    AwaitRetry,
    Odd,
}

#[derive(Clone, Copy, Debug)]
enum Odd {
    AnyEvent,
    TimeEdge,
    MessageEdge,
    Leap,
    Back,
    EdgeMessage,
    RightMessage,
    Stray,
    Shaped,
    Noise,
    Damaged,
    Fill,
    Drain,
    RefusedMake,
    Failures,
    Strides,
    Disconnect,
}

const ODDITIES: [(u32, Odd); 17] = [
    (8, Odd::AnyEvent),
    (8, Odd::TimeEdge),
    (8, Odd::MessageEdge),
    (1, Odd::Leap),
    (3, Odd::Back),
    (8, Odd::EdgeMessage),
    (8, Odd::RightMessage),
    (4, Odd::Stray),
    (6, Odd::Shaped),
    (3, Odd::Noise),
    (4, Odd::Damaged),
    (4, Odd::Fill),
    (3, Odd::Drain),
    (1, Odd::RefusedMake),
    (3, Odd::Failures),
    (2, Odd::Strides),
    (1, Odd::Disconnect),
];

pub struct Life<'a> {
    dice: Dice,
    tape: &'a mut Tape,
    peer: End,
    /// The subject's clock.
    clock: Reading,
    /// The peer's clock less the subject's.
    shift: u32,
    pace: u32,
    temper: Temper,
    to_subject: Vec<Vec<u8>>,
    to_peer: Vec<Vec<u8>>,
    signals: Vec<(Who, Signal)>,
    /// A make that is refused, for the middle of a life.
    refused: Make,
}

impl<'a> Life<'a> {
    /// Begins a life on the end that `tape` has just made.
    pub fn new(
        dice: Dice,
        tape: &'a mut Tape,
        peer: End,
        temper: Temper,
        refused: Make,
    ) -> Option<Life<'a>> {
        let view = tape.view()?;
        let settings = &view.settings;
        let pace = (settings.spread / 6)
            .min(settings.age / 6)
            .min(settings.silence / 20)
            .min(settings.start_wait / 20);
        Some(Life {
            dice,
            tape,
            shift: peer.view().reading.since(view.reading),
            peer,
            clock: view.reading,
            pace,
            temper,
            to_subject: Vec::new(),
            to_peer: Vec::new(),
            signals: Vec::new(),
            refused,
        })
    }

    pub fn run(&mut self, steps: usize) {
        for _ in 0..steps {
            self.pass_time();
            let Some(view) = self.tape.view() else {
                return;
            };
            let act = self.choose(&view);
            self.act(act, &view);
        }
    }

    fn pass_time(&mut self) {
        let ticks = match self.dice.below(20) {
            0..=11 => 0,
            12..=17 => self.dice.below(self.pace + 1),
            18 => self.dice.below(4 * self.pace + 1),
            _ => 1,
        };
        self.clock = self.clock.plus(ticks);
    }

    fn choose(&mut self, view: &View) -> Act {
        let weight = |wanted: bool, weight| if wanted { weight } else { 0 };
        let peer = self.peer.view();
        let stuck =
            |end: &View| end.role == Role::Initiator && end.state == State::Idle && !end.may_ask;
        if self.dice.chance(self.temper.odd, 1000) {
            return Act::Odd;
        }
        let choices = [
            (weight(!self.signals.is_empty(), 20), Act::Signal),
            (weight(!self.to_subject.is_empty(), 20), Act::HandToSubject),
            (weight(!self.to_peer.is_empty(), 20), Act::HandToPeer),
            (6, Act::TickSubject),
            (6, Act::TickPeer),
            (weight(view.state == State::Up, 6), Act::DataToSubject),
            (weight(peer.state == State::Up, 6), Act::DataToPeer),
            (weight(stuck(view) || stuck(&peer), 20), Act::AwaitRetry),
        ];
        self.dice.weighted(&choices).unwrap_or(Act::TickSubject)
    }

    fn act(&mut self, act: Act, view: &View) {
        match act {
            Act::Signal => self.signal(),
            Act::HandToSubject => self.hand_to_subject(),
            Act::HandToPeer => self.hand_to_peer(),
            Act::TickSubject => self.tell_subject(Event::Tick),
            Act::TickPeer => self.tell_peer(Event::Tick),
            Act::DataToSubject => self.data_to_subject(),
            Act::DataToPeer => {
                let length = self.dice.from_to(1, 100) as usize;
                let data = self.dice.bytes(length);
                self.tell_peer(Event::Data(&data));
            }
            Act::AwaitRetry => self.await_retry(view),
            Act::Odd => self.odd(view),
        }
    }

    fn signal(&mut self) {
        let at = self.dice.index(self.signals.len());
        let (who, signal) = self.signals.swap_remove(at);
        match who {
            Who::Subject => self.tell_subject(signal.event()),
            Who::Peer => self.tell_peer(signal.event()),
        }
    }

    fn data_to_subject(&mut self) {
        let length = match self.dice.below(12) {
            0 => 0,
            1..=3 => 1,
            4 => 99,
            5..=6 => 100,
            _ => self.dice.from_to(2, 98) as usize,
        };
        let data = self.dice.bytes(length);
        self.tell_subject(Event::Data(&data));
    }

    /// Sleeps until the initiator, whichever it is, may ask again.
    fn await_retry(&mut self, view: &View) {
        let initiator = if view.role == Role::Initiator { *view } else { self.peer.view() };
        let here = if view.role == Role::Initiator { self.clock } else { self.peers_clock() };
        let waited = here.since(initiator.asked);
        if waited < initiator.settings.retry {
            let short = self.dice.below(2);
            self.advance(initiator.settings.retry - waited - short.min(1));
            self.tell_subject(Event::Tick);
            self.advance(short);
        }
        self.tell_subject(Event::Tick);
        self.tell_peer(Event::Tick);
    }

    fn odd(&mut self, view: &View) {
        match self.dice.weighted(&ODDITIES).unwrap_or(Odd::AnyEvent) {
            Odd::AnyEvent => self.any_event(view),
            Odd::TimeEdge => self.time_edge(view),
            Odd::MessageEdge => self.message_edge(view),
            Odd::Leap => self.leap(view),
            Odd::Back => self.back(view),
            Odd::EdgeMessage => self.forged(view, forge::edge),
            Odd::RightMessage => self.forged(view, forge::right),
            Odd::Stray => self.forged(view, |dice, view, _| forge::stray(dice, view)),
            Odd::Shaped => self.forged(view, forge::shaped),
            Odd::Noise => self.forged(view, |dice, _, _| forge::noise(dice)),
            Odd::Damaged => self.damaged(view),
            Odd::Fill => self.fill(),
            Odd::Drain => (0..=view.queued).for_each(|_| self.tell_subject(Event::Tick)),
            Odd::RefusedMake => {
                self.tape.put(&Record::Make(self.refused));
            }
            Odd::Failures => self.failures(view),
            Odd::Strides => self.strides(view),
            Odd::Disconnect => self.tell_subject(Event::Disconnect),
        }
    }

    fn forged(&mut self, view: &View, make: fn(&mut Dice, &View, Reading) -> Vec<u8>) {
        let bytes = make(&mut self.dice, view, self.clock);
        self.tell_subject(Event::Message(&bytes));
    }

    /// Any of the events, whatever the state.
    fn any_event(&mut self, view: &View) {
        self.any_event_at(view, self.clock);
    }

    fn any_event_at(&mut self, view: &View, reading: Reading) {
        let length = self.dice.pick(&[0, 1, 50, 100]);
        let data = self.dice.bytes(length);
        let message = match self.dice.below(4) {
            0 => forge::noise(&mut self.dice),
            1 => forge::edge(&mut self.dice, view, reading),
            _ => forge::right(&mut self.dice, view, reading),
        };
        let events = [
            Event::Tick,
            Event::Tick,
            Event::Connect,
            Event::Confirm,
            Event::Disconnect,
            Event::Data(&data),
            Event::Data(&data),
            Event::Message(&message),
            Event::Message(&message),
        ];
        let event = self.dice.pick(&events);
        self.tell_subject_at(event, reading);
    }

    /// Something happens just before or just when a patience ends.
    fn time_edge(&mut self, view: &View) {
        let settings = &view.settings;
        let one_less = self.dice.below(2);
        let (from, ticks) = match view.state {
            State::Idle => (view.asked, settings.retry),
            State::Up if self.dice.chance(1, 2) => (view.sent, settings.life_sign),
            State::Up => (view.heard, settings.silence),
            _ => (view.since, settings.start_wait),
        };
        let target = from.plus(ticks - one_less);
        if target.since(self.clock) < HALF {
            self.advance(target.since(self.clock));
            if self.dice.chance(1, 2) {
                return self.tell_subject(Event::Tick);
            }
        }
        self.any_event(view);
    }

    /// A message in flight comes exactly at, or one tick over, its limit.
    fn message_edge(&mut self, view: &View) {
        if self.to_subject.is_empty() {
            return self.forged(view, forge::edge);
        }
        let at = self.dice.index(self.to_subject.len());
        let bytes = self.to_subject.remove(at);
        if let Some(limit) = last_good_reading(view, &bytes) {
            let target = limit.plus(self.dice.below(2));
            if target.since(self.clock) < HALF {
                self.advance(target.since(self.clock));
            }
        }
        self.tell_subject(Event::Message(&bytes));
    }

    /// The largest step that is taken, and the smallest that isn't.
    fn leap(&mut self, view: &View) {
        if self.dice.chance(2, 3) {
            let ticks = self.dice.pick(&[HALF, HALF, HALF + 1, u32::MAX]);
            return self.any_event_at(view, view.reading.plus(ticks));
        }
        let target = view.reading.plus(HALF - 1);
        self.advance(target.since(self.clock));
        self.any_event(view);
    }

    fn back(&mut self, view: &View) {
        let ticks = self.dice.pick(&[1, 1, 2, 50, 100_000, HALF - 1, HALF]);
        self.any_event_at(view, Reading(view.reading.0.wrapping_sub(ticks)));
    }

    fn damaged(&mut self, view: &View) {
        let whole = match self.to_subject.first() {
            Some(bytes) => bytes.clone(),
            None => forge::right(&mut self.dice, view, self.clock),
        };
        let bytes = forge::damage(&mut self.dice, whole);
        self.tell_subject(Event::Message(&bytes));
    }

    /// More user data than the queue holds, with no tick between.
    fn fill(&mut self) {
        for _ in 0..QUEUE + 3 {
            self.data_to_subject();
        }
    }

    /// Old and late messages up to the limit, at times with a good one between.
    fn failures(&mut self, view: &View) {
        for _ in 0..self.dice.from_to(1, 3) {
            let late = self.dice.chance(1, 2);
            let (jump, age) = if late { (1, view.settings.age + 1) } else { (0, 0) };
            let bytes = forge::stamped(&mut self.dice, view, self.clock, jump, age);
            self.tell_subject(Event::Message(&bytes));
            if self.dice.chance(1, 3) {
                self.forged(view, forge::right);
            }
        }
    }

    /// Goes through the numbers in the greatest strides taken, so that a wide
    /// jump limit brings the wrap near.
    fn strides(&mut self, view: &View) {
        let limit = view.settings.jump;
        let mut number = view.last;
        for _ in 0..if limit > 500 { 70 } else { 3 } {
            let jump = self.stride(number, limit);
            let here = View { last: number, ..*view };
            let bytes = forge::stamped(&mut self.dice, &here, self.clock, jump, 0);
            self.tell_subject(Event::Message(&bytes));
            number = number.wrapping_add(jump);
        }
    }

    /// Mostly the whole stride; near the wrap often up to it, then over it by 1.
    fn stride(&mut self, number: u16, limit: u16) -> u16 {
        let to_wrap = u16::MAX - number;
        match to_wrap {
            0 if self.dice.chance(1, 2) => 1,
            _ if (1..=limit).contains(&to_wrap) && self.dice.chance(2, 3) => to_wrap,
            _ => limit,
        }
    }

    fn hand_to_subject(&mut self) {
        let bytes = take(&mut self.dice, &mut self.to_subject, self.temper);
        self.tell_subject(Event::Message(&bytes));
    }

    fn hand_to_peer(&mut self) {
        let bytes = take(&mut self.dice, &mut self.to_peer, self.temper);
        self.tell_peer(Event::Message(&bytes));
    }

    fn peers_clock(&self) -> Reading {
        self.clock.plus(self.shift)
    }

    /// Lets ticks pass for both. After a leap the peer is told at once: two
    /// leaps together would look to it like a clock that went back.
    fn advance(&mut self, ticks: u32) {
        self.clock = self.clock.plus(ticks);
        if ticks > HALF / 4 {
            self.tell_peer(Event::Tick);
        }
    }

    fn tell_subject(&mut self, event: Event<'_>) {
        self.tell_subject_at(event, self.clock);
    }

    fn tell_subject_at(&mut self, event: Event<'_>, reading: Reading) {
        let reply = self.tape.put(&Record::Event(reading, event));
        self.route(Who::Peer, reply.outputs);
    }

    fn tell_peer(&mut self, event: Event<'_>) {
        let clock = self.peers_clock();
        let reply = self.peer.step(event, clock, ROOM);
        self.route(Who::Subject, reply.outputs);
    }

    /// Carries what one end put out towards the other.
    fn route(&mut self, to: Who, outputs: Vec<Output>) {
        for output in outputs {
            match output {
                Output::Send(bytes) => self.carry(to, bytes),
                Output::Ask => self.new_connection(to, Signal::Connect),
                Output::Accept => self.new_connection(to, Signal::Confirm),
                Output::Release if self.dice.chance(2, 3) => {
                    self.signals.push((to, Signal::Disconnect));
                }
                _ => {}
            }
        }
    }

    fn carry(&mut self, to: Who, bytes: Vec<u8>) {
        if self.dice.chance(self.temper.loss, 1000) {
            return;
        }
        match to {
            Who::Subject => self.to_subject.push(bytes),
            Who::Peer => self.to_peer.push(bytes),
        }
    }

    /// What was under way for the old connection is mostly gone with it.
    fn new_connection(&mut self, to: Who, signal: Signal) {
        if self.dice.chance(5, 6) {
            self.signals.clear();
            self.to_subject.clear();
            self.to_peer.clear();
        }
        self.signals.push((to, signal));
    }
}

/// Takes a message off a channel: mostly the first, at times another, and at
/// times it stays there to come again.
fn take(dice: &mut Dice, channel: &mut Vec<Vec<u8>>, temper: Temper) -> Vec<u8> {
    let other = dice.chance(temper.reorder, 1000);
    let at = if other { dice.index(channel.len()) } else { 0 };
    if dice.chance(temper.repeat, 1000) {
        return channel[at].clone();
    }
    channel.remove(at)
}

/// The last reading at which the end takes the message, where time decides.
fn last_good_reading(view: &View, bytes: &[u8]) -> Option<Reading> {
    let message = Message::decode(bytes).ok()?;
    let stamps = message.stamps;
    match (view.state, message.body) {
        (State::Up, Body::LifeSign | Body::Train(_)) => {
            Some(stamps.sent.plus(view.bounds.min.0).plus(view.settings.age))
        }
        (State::Opening, Body::Start2) | (State::Answering, Body::Start3) => {
            let min = view.asked_echo.less(stamps.taken);
            Some(stamps.sent.plus(min.0).plus(view.settings.spread))
        }
        _ => None,
    }
}
