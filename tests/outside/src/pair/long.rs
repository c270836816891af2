//! The long scene: one connection in which the numbers wrap and the edges of
//! what the channel may hand over are met.

use super::{World, CALLED, INITIATOR, MOODS};
use crate::dice::Dice;
use crate::link::Event;
use crate::settings::Settings;
use crate::station::Station;
use crate::watch::{Parcel, Tally};
use std::collections::VecDeque;

/// Settings under which a connection lasts as long as it is wanted to.
const LASTING: Settings = Settings {
    age: 50,
    spread: 20,
    jump: 4,
    errors: 2,
    silence: 1_000_000,
    life_sign: 999_999,
    start_wait: 500,
    retry: 1_000,
};

/// Runs the long scene: one connection in which the numbers wrap and the
/// edges of what the channel may hand over are met.
pub fn long_scene(stations: &mut [Station; 2], tally: &mut Tally, seed: u64) -> Result<(), String> {
    let mut world = World::new(stations, tally, Dice::new(seed), [LASTING; 2]);
    world.mood = MOODS[0];
    let result = world.make().and_then(|()| world.long());
    result.map_err(|trouble| world.tell_trouble(seed, &trouble))
}

impl World<'_> {
    fn long(&mut self) -> Result<(), String> {
        self.come_up()?;
        let first = self.one_way(INITIATOR)?;
        self.grow_old(&first)?;
        self.pass_many(70_500)?;
        self.far_behind()?;
        self.far_ahead()
    }

    /// Brings both ends Up without a tick passing.
    fn come_up(&mut self) -> Result<(), String> {
        self.tell(INITIATOR, Event::Tick)?;
        self.signals.clear();
        let call = self.ends[INITIATOR].connection;
        self.tell_all(CALLED, Event::Connect, None, call)?;
        self.signals.clear();
        self.tell(INITIATOR, Event::Confirm)?;
        for _ in 0..5 {
            let waiting: Vec<(u64, Parcel)> = self.flying.drain(..).collect();
            for (_, parcel) in waiting {
                self.hand(&parcel)?;
            }
        }
        self.expect(self.ends.iter().all(|end| end.up), "both ends are Up on a perfect channel")
    }

    fn expect(&self, holds: bool, what: &str) -> Result<(), String> {
        if holds {
            Ok(())
        } else {
            Err(format!("expected that {what}"))
        }
    }

    /// One datum is sent at once; it is not handed over yet.
    fn send_one(&mut self, from: usize) -> Result<Parcel, String> {
        self.tell(from, Event::Tick)?;
        let length = self.dice.pick(&[1, 2, 5]);
        let data = self.dice.bytes(length);
        self.tell(from, Event::Data(&data))?;
        let sent = self.flying.pop().map(|(_, parcel)| parcel);
        self.flying.clear();
        sent.ok_or_else(|| "expected that user data go at once after a quiet tick".to_string())
    }

    /// One datum is sent and handed over.
    fn one_way(&mut self, from: usize) -> Result<Parcel, String> {
        let parcel = self.send_one(from)?;
        self.hand(&parcel)?;
        Ok(parcel)
    }

    /// Keeps the link alive until a message has the greatest age at which the
    /// channel may hand it over; it is old by its number and stays so.
    fn grow_old(&mut self, first: &Parcel) -> Result<(), String> {
        let last = first.sent_at + (1 << 31) - 1;
        while self.time < last {
            self.time = last.min(self.time + 900_000);
            self.one_way(INITIATOR)?;
            self.one_way(CALLED)?;
        }
        self.hand_old(first, "age 2^31 - 1 handed over")
    }

    fn hand_old(&mut self, parcel: &Parcel, what: &str) -> Result<(), String> {
        let reply = self.hand(parcel)?;
        self.expect(reply.is_some_and(|reply| reply.answer == 9), "an old number is answered 9")?;
        self.tally.see(what);
        // A delivery wipes the failure out.
        self.one_way(1 - parcel.to).map(|_| ())
    }

    /// So many messages each way, with old ones now and then.
    fn pass_many(&mut self, rounds: u32) -> Result<(), String> {
        let mut held: VecDeque<Parcel> = VecDeque::new();
        for round in 0..rounds {
            self.time += u64::from(round % 3 == 0);
            held.push_back(self.one_way(INITIATOR)?);
            self.one_way(CALLED)?;
            if held.len() > 30_000 {
                held.pop_front();
            }
            if round % 211 == 100 {
                let old = held[self.dice.index(held.len() - 1)].clone();
                self.hand_old(&old, "an older number handed over")?;
            }
        }
        self.tally.see("numbers wrapped in a connection");
        Ok(())
    }

    /// A number exactly 32,768 behind the last accepted.
    fn far_behind(&mut self) -> Result<(), String> {
        let old = self.one_way(INITIATOR)?;
        while self.ends[CALLED].accepted - old.index < 32_768 {
            self.one_way(INITIATOR)?;
        }
        self.hand_old(&old, "a number 32,768 behind handed over")
    }

    /// A number exactly 32,767 ahead of the last accepted.
    fn far_ahead(&mut self) -> Result<(), String> {
        let mut ahead = self.send_one(INITIATOR)?;
        while ahead.index - self.ends[CALLED].accepted < 32_767 {
            ahead = self.send_one(INITIATOR)?;
        }
        let reply = self.hand(&ahead)?;
        self.expect(reply.is_some_and(|reply| reply.answer == 10), "a lost number is answered 10")?;
        self.tally.see("a number 32,767 ahead handed over");
        Ok(())
    }
}
