//! What can be seen of two ends from outside, and held against the demand:
//! each data message at most once, in order, unaltered, never too old, and
//! never called late while it is young.

use crate::clock::{Bounds, Offset, Reading};
use crate::link::{Event, Output, Reply};
use crate::settings::Settings;
use crate::wire::{Body, Message};
use std::collections::{BTreeMap, VecDeque};

/// A message under way, with what only the channel knows of it.
#[derive(Clone, Debug)]
pub struct Parcel {
    pub to: usize,
    pub connection: u64,
    /// Its number counted without wrapping.
    pub index: i64,
    pub sent_at: u64,
    pub bytes: Vec<u8>,
    pub message: Message,
}

/// How often each check was made and each thing seen.
#[derive(Default, Debug)]
pub struct Tally {
    pub checks: BTreeMap<&'static str, u64>,
    pub seen: BTreeMap<String, u64>,
}

impl Tally {
    fn check(&mut self, what: &'static str, holds: bool) -> Result<(), String> {
        *self.checks.entry(what).or_default() += 1;
        if holds {
            Ok(())
        } else {
            Err(format!("check failed: {what}"))
        }
    }

    pub fn see(&mut self, what: impl Into<String>) {
        *self.seen.entry(what.into()).or_default() += 1;
    }

    pub fn count(&self, what: &str) -> u64 {
        self.seen.get(what).copied().unwrap_or(0)
    }
}

/// One end as the channel and the user see it.
#[derive(Clone, Debug)]
pub struct Watched {
    pub settings: Settings,
    /// Its clock less the true time.
    pub shift: u32,
    /// Its clock less the other end's.
    ahead: Offset,
    pub connection: Option<u64>,
    pub up: bool,
    /// Messages sent in this connection.
    pub sent: i64,
    /// Index of the last message accepted, -1 before any.
    pub accepted: i64,
    /// Index of the last data message delivered, -1 before any.
    delivered: i64,
    /// User data taken and not yet sent.
    waiting: VecDeque<Vec<u8>>,
    /// The reading in the first message of this connection.
    opened: Reading,
    /// What it measured, as far as the stamps show it.
    spread: u32,
    /// By how much it takes messages for older than they are.
    error: u32,
}

/// One exchange with an end.
pub struct Exchange<'a> {
    pub time: u64,
    pub event: Event<'a>,
    /// The message handed over, when that is the event.
    pub parcel: Option<&'a Parcel>,
    /// The call that a connect indication brings.
    pub call: u64,
    pub reply: &'a Reply,
}

impl Watched {
    pub fn new(settings: Settings, shift: u32, ahead: Offset) -> Watched {
        Watched {
            settings,
            shift,
            ahead,
            connection: None,
            up: false,
            sent: 0,
            accepted: -1,
            delivered: -1,
            waiting: VecDeque::new(),
            opened: Reading(0),
            spread: 0,
            error: 0,
        }
    }

    /// What the end's clock shows at the true time.
    pub fn clock(&self, time: u64) -> Reading {
        Reading((time as u32).wrapping_add(self.shift))
    }

    fn enter(&mut self, connection: u64) {
        *self = Watched {
            connection: Some(connection),
            ..Watched::new(self.settings, self.shift, self.ahead)
        };
    }

    fn leave(&mut self) {
        *self = Watched::new(self.settings, self.shift, self.ahead);
    }

    /// The channel may hand this over: sent in the connection the end is in,
    /// not too long ago, and its number within reach of the last accepted.
    pub fn may_get(&self, parcel: &Parcel, time: u64) -> bool {
        let ahead = parcel.index - self.accepted;
        self.connection == Some(parcel.connection)
            && time - parcel.sent_at < 1 << 31
            && (-32_768..=32_767).contains(&ahead)
    }

    /// The greatest true age at which the end still takes a message.
    pub fn last_good_age(&self) -> u32 {
        self.settings.age.saturating_sub(self.error)
    }

    /// Follows one exchange; gives the message it sent, if any.
    pub fn follow(
        &mut self,
        exchange: &Exchange<'_>,
        tally: &mut Tally,
    ) -> Result<Option<Message>, String> {
        let reply = exchange.reply;
        self.check_delivery(exchange, tally)?;
        if let (Event::Data(data), 0) = (exchange.event, reply.answer) {
            self.waiting.push_back(data.to_vec());
        }
        if let (Some(parcel), 0 | 13) = (exchange.parcel, reply.answer) {
            self.accepted = parcel.index;
        }
        let mut sent = None;
        for output in &reply.outputs {
            match output {
                Output::Ask | Output::Accept => self.enter(exchange.call),
                Output::Send(bytes) => sent = Some(self.check_sent(bytes, exchange, tally)?),
                Output::Up => self.up = true,
                Output::Release => self.leave(),
                Output::Down => self.up = false,
                Output::Data(_) | Output::Error => {}
            }
        }
        if let (Event::Disconnect, 0) = (exchange.event, reply.answer) {
            self.leave();
        }
        Ok(sent)
    }

    fn check_sent(
        &mut self,
        bytes: &[u8],
        exchange: &Exchange<'_>,
        tally: &mut Tally,
    ) -> Result<Message, String> {
        let decoded = Message::decode(bytes);
        tally.check("what is sent is well formed", decoded.is_ok())?;
        let message = decoded.map_err(|error| error.to_string())?;
        let number = self.sent as u16;
        tally.check("numbers count up from 0", message.number == number)?;
        self.sent += 1;
        let now = self.clock(exchange.time);
        tally.check("a message carries the reading it went at", message.stamps.sent == now)?;
        if number == 0 && self.sent == 1 {
            self.opened = now;
        }
        if let Body::Train(train) = &message.body {
            let oldest = self.waiting.pop_front();
            let same = oldest.as_deref() == Some(train.bytes());
            tally.check("a sent datum is the oldest the user handed in", same)?;
        }
        self.measure(&message, exchange, tally)?;
        Ok(message)
    }

    /// The bounds that the end went by, from the stamps that passed.
    fn measure(
        &mut self,
        message: &Message,
        exchange: &Exchange<'_>,
        tally: &mut Tally,
    ) -> Result<(), String> {
        let bounds = match (&message.body, exchange.parcel) {
            (Body::Start3, Some(parcel)) => {
                let stamps = parcel.message.stamps;
                let min = self.opened.less(stamps.taken);
                Bounds { min, max: message.stamps.sent.less(stamps.sent) }
            }
            (Body::Start4(bounds), _) => *bounds,
            _ => return Ok(()),
        };
        self.spread = bounds.spread();
        let within = self.spread <= self.settings.spread;
        tally.check("the spread measured at connection is within W", within)?;
        // So a computed age is never below the true one, and above it by no
        // more than the spread.
        self.error = self.ahead.0.wrapping_sub(bounds.min.0);
        tally.check("the true offset lies within the bounds", self.error <= self.spread)
    }

    fn check_delivery(&mut self, exchange: &Exchange<'_>, tally: &mut Tally) -> Result<(), String> {
        let reply = exchange.reply;
        let delivered = reply.outputs.iter().find_map(|output| match output {
            Output::Data(bytes) => Some(bytes),
            _ => None,
        });
        let Some(parcel) = exchange.parcel else {
            return tally.check("only a message brings data", delivered.is_none());
        };
        let age = exchange.time - parcel.sent_at;
        if let Some(bytes) = delivered {
            self.check_datum(bytes, parcel, age, tally)?;
        }
        let limit = u64::from(self.settings.age);
        let perhaps_older = age + u64::from(self.spread) > limit;
        if reply.answer == 11 {
            if age + u64::from(self.spread) == limit + 1 {
                tally.see("late at the least true age that may be, A - spread + 1");
            }
            tally.check("late only if truly older than A less the spread", perhaps_older)?;
        }
        self.check_taken(exchange, parcel, perhaps_older, delivered.is_some(), tally)
    }

    fn check_datum(
        &mut self,
        bytes: &[u8],
        parcel: &Parcel,
        age: u64,
        tally: &mut Tally,
    ) -> Result<(), String> {
        let same = matches!(&parcel.message.body, Body::Train(train) if train.bytes() == bytes);
        tally.check("what is delivered is what was sent, byte for byte", same)?;
        let here = self.connection == Some(parcel.connection);
        tally.check("what is delivered was sent in this connection", here)?;
        let next = parcel.index > self.delivered;
        tally.check("delivered at most once and in the order of sending", next)?;
        self.delivered = parcel.index;
        let young = age <= u64::from(self.settings.age);
        if age == u64::from(self.settings.age) {
            tally.see("delivered at the true age A");
        }
        tally.check("the true age at delivery is not over A", young)
    }

    /// A young message of an expected or slightly missed number is taken, and
    /// its data reach the user; life signs reach nobody.
    fn check_taken(
        &mut self,
        exchange: &Exchange<'_>,
        parcel: &Parcel,
        perhaps_older: bool,
        delivered: bool,
        tally: &mut Tally,
    ) -> Result<(), String> {
        let stamped = parcel.message.body.kind() == 6;
        let ahead = parcel.index - self.accepted;
        let within = (1..=i64::from(self.settings.jump)).contains(&ahead);
        if !self.up || !stamped || exchange.reply.answer == 12 {
            return tally.check("nothing but a stamped message while Up brings data", !delivered);
        }
        let is_train = matches!(parcel.message.body, Body::Train(_));
        if within && !perhaps_older {
            let expected = if ahead == 1 { 0 } else { 13 };
            let taken = exchange.reply.answer == expected && delivered == is_train;
            tally.check("what is young and of a number within N is taken", taken)?;
        }
        tally.check("a life sign reaches nobody", is_train || !delivered)
    }
}
