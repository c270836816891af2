//! Two ends and all that lies between them: the channel and the two clocks.

use crate::clock::Reading;
use crate::dice::Dice;
use crate::link::{Event, Output, Reply};
use crate::record::{Make, Record};
use crate::settings::{Role, Settings};
use crate::station::Station;
use crate::watch::{Exchange, Parcel, Tally, Watched};
use crate::wire::Message;
use crate::words::record_in_words;
use std::collections::VecDeque;

mod long;
pub use long::long_scene;

const INITIATOR: usize = 0;
const CALLED: usize = 1;
const ROLES: [Role; 2] = [Role::Initiator, Role::Called];

/// Exchanges told of when something is wrong.
const JOURNAL: usize = 80;
/// Messages kept so that they may come again.
const KEPT: usize = 64;

#[derive(Clone, Copy, Debug)]
enum Signal {
    Connect(u64),
    Confirm,
    Disconnect,
}

/// What the channel does, in parts of a thousand, and how slow it is.
#[derive(Clone, Copy, Debug)]
struct Mood {
    loss: u32,
    repeat: u32,
    slow: u32,
    /// One direction holds everything back for a while.
    stall: u32,
    break_off: u32,
    stray: u32,
}

const MOODS: [Mood; 5] = [
    Mood { loss: 0, repeat: 0, slow: 0, stall: 0, break_off: 3, stray: 0 },
    Mood { loss: 20, repeat: 30, slow: 30, stall: 10, break_off: 20, stray: 1 },
    Mood { loss: 100, repeat: 100, slow: 50, stall: 0, break_off: 5, stray: 3 },
    Mood { loss: 10, repeat: 200, slow: 200, stall: 5, break_off: 10, stray: 1 },
    Mood { loss: 0, repeat: 10, slow: 0, stall: 40, break_off: 2, stray: 0 },
];

pub struct World<'a> {
    stations: &'a mut [Station; 2],
    tally: &'a mut Tally,
    dice: Dice,
    filler: Dice,
    ends: [Watched; 2],
    time: u64,
    mood: Mood,
    /// Messages under way with the time they come.
    flying: Vec<(u64, Parcel)>,
    kept: VecDeque<Parcel>,
    signals: Vec<(u64, usize, Signal)>,
    /// Until when nothing is handed to an end.
    stalled: [u64; 2],
    next_tick: [u64; 2],
    tick_period: [u32; 2],
    /// Steps between the user's calls, about.
    quiet: u32,
    calls: u64,
    journal: VecDeque<String>,
}

/// Settings under which much happens in a short time.
fn lively(dice: &mut Dice) -> Settings {
    let silence = dice.from_to(60, 400);
    let start_wait = dice.from_to(100, 500);
    Settings {
        age: dice.from_to(5, 120),
        spread: dice.from_to(0, 60),
        jump: dice.from_to(1, 8) as u16,
        errors: dice.from_to(1, 2) as u8,
        silence,
        life_sign: dice.from_to(1, silence / 2),
        start_wait,
        retry: dice.from_to(start_wait, start_wait + 300),
    }
}

/// Two ends whose clocks differ by any whole number of ticks.
fn two_ends(dice: &mut Dice, settings: [Settings; 2]) -> [Watched; 2] {
    let shifts = [INITIATOR, CALLED].map(|_| {
        let near_wrap = 0u32.wrapping_sub(dice.below(2_000));
        let anywhere = dice.word();
        dice.pick(&[0, near_wrap, near_wrap, anywhere])
    });
    [INITIATOR, CALLED].map(|end| {
        let ahead = Reading(shifts[end]).less(Reading(shifts[1 - end]));
        Watched::new(settings[end], shifts[end], ahead)
    })
}

/// Runs one scene of chance.
pub fn scene(stations: &mut [Station; 2], tally: &mut Tally, seed: u64) -> Result<(), String> {
    let mut dice = Dice::new(seed);
    let settings = [lively(&mut dice), lively(&mut dice)];
    let mut world = World::new(stations, tally, dice, settings);
    let result = world.make().and_then(|()| world.run(1_500));
    result.map_err(|trouble| world.tell_trouble(seed, &trouble))
}

impl<'a> World<'a> {
    fn new(
        stations: &'a mut [Station; 2],
        tally: &'a mut Tally,
        mut dice: Dice,
        settings: [Settings; 2],
    ) -> World<'a> {
        let filler = dice.fork();
        let ends = two_ends(&mut dice, settings);
        let tick_period = [INITIATOR, CALLED].map(|end| {
            let slowest = (settings[end].silence / 4).min(settings[end].life_sign).max(1);
            let period = dice.from_to(1, slowest);
            dice.pick(&[period.min(4), period.min(10), period.min(30), period])
        });
        let quiet = dice.pick(&[3, 8, 30]);
        World {
            stations,
            tally,
            mood: dice.pick(&MOODS),
            dice,
            filler,
            ends,
            time: 0,
            flying: Vec::new(),
            kept: VecDeque::new(),
            signals: Vec::new(),
            stalled: [0, 0],
            next_tick: [0, 0],
            tick_period,
            quiet,
            calls: 0,
            journal: VecDeque::new(),
        }
    }

    fn tell_trouble(&self, seed: u64, trouble: &str) -> String {
        let journal: Vec<&str> = self.journal.iter().map(String::as_str).collect();
        format!("scene of seed {seed}: {trouble}\nwhat went before:\n{}", journal.join("\n"))
    }

    fn make(&mut self) -> Result<(), String> {
        for end in [INITIATOR, CALLED] {
            let reading = self.ends[end].clock(self.time);
            let settings = self.ends[end].settings;
            let record = Record::Make(Make { role: ROLES[end], reading, settings });
            let reply = self.exchange(end, &record)?;
            if reply != Reply::bare(0) {
                return Err(format!("a make in range is answered {reply}"));
            }
        }
        Ok(())
    }

    fn exchange(&mut self, end: usize, record: &Record<'_>) -> Result<Reply, String> {
        let told = format!("{} {}: {}", self.time, ROLES[end], record_in_words(record));
        let reply = self.stations[end].exchange(record, &mut self.filler);
        let reply = reply.map_err(|trouble| format!("{told}\n{trouble}"))?;
        self.journal.push_back(format!("{told} -> {reply}"));
        if self.journal.len() > JOURNAL {
            self.journal.pop_front();
        }
        self.tally.see("exchanges");
        Ok(reply)
    }

    fn tell(&mut self, end: usize, event: Event<'_>) -> Result<Reply, String> {
        self.tell_all(end, event, None, None)
    }

    /// One event at one end: the exchange, what is seen of it, and what the
    /// layer below does with what comes out.
    fn tell_all(
        &mut self,
        end: usize,
        event: Event<'_>,
        parcel: Option<&Parcel>,
        call: Option<u64>,
    ) -> Result<Reply, String> {
        let reading = self.ends[end].clock(self.time);
        let was_up = self.ends[end].up;
        let reply = self.exchange(end, &Record::Event(reading, event))?;
        let call = call.unwrap_or(self.calls + 1);
        self.calls = self.calls.max(call);
        let seen = Exchange { time: self.time, event, parcel, call, reply: &reply };
        let sent = self.ends[end].follow(&seen, self.tally)?;
        if let Some(message) = sent {
            self.post(end, message);
        }
        self.below(end, call, &reply);
        self.see(end, was_up, event, &reply);
        Ok(reply)
    }

    /// Counts what happened, for the totals.
    fn see(&mut self, end: usize, was_up: bool, event: Event<'_>, reply: &Reply) {
        let role = ROLES[end];
        if matches!(event, Event::Message(_)) && was_up {
            self.tally.see(format!("message to {role} while Up answered {}", reply.answer));
        }
        if was_up && reply.answer == 12 {
            self.tally.see(format!("{role} heard nothing for R"));
        }
        if !was_up && self.ends[end].up {
            self.tally.see(format!("{role} came Up"));
        }
        if was_up && !self.ends[end].up {
            self.tally.see(format!("{role} went down"));
        }
    }

    /// The layer below carries calls and breaks to the other end.
    fn below(&mut self, end: usize, call: u64, reply: &Reply) {
        let other = 1 - end;
        for output in &reply.outputs {
            let signal = match output {
                Output::Ask => Signal::Connect(call),
                Output::Accept => Signal::Confirm,
                Output::Release if self.dice.chance(2, 3) => Signal::Disconnect,
                _ => continue,
            };
            let most = self.ends[end].settings.start_wait / 8;
            let due = self.time + u64::from(self.dice.below(most));
            self.signals.push((due, other, signal));
        }
    }

    fn post(&mut self, from: usize, message: Message) {
        let to = 1 - from;
        let Some(connection) = self.ends[from].connection else {
            return;
        };
        let parcel = Parcel {
            to,
            connection,
            index: self.ends[from].sent - 1,
            sent_at: self.time,
            bytes: message.encode(),
            message,
        };
        if !self.dice.chance(self.mood.loss, 1000) {
            let due = (self.time + self.delay(&parcel)).max(self.stalled[to]);
            self.flying.push((due, parcel.clone()));
        }
        self.kept.push_back(parcel);
        if self.kept.len() > KEPT {
            self.kept.pop_front();
        }
    }

    /// Start messages mostly come within what the spread allows; data within
    /// the age, at times on one side or the other of where lateness begins.
    fn delay(&mut self, parcel: &Parcel) -> u64 {
        let settings = self.ends[parcel.to].settings;
        let slow = self.dice.chance(self.mood.slow, 1000);
        let ticks = match (parcel.message.body.kind(), slow) {
            (6, false) => self.dice.below(settings.age / 3 + 1),
            (6, true) => self.about(self.ends[parcel.to].last_good_age()),
            (_, false) => self.start_delay(),
            (_, true) => settings.spread + self.dice.below(3),
        };
        ticks.into()
    }

    /// A few ticks more or less.
    fn about(&mut self, ticks: u32) -> u32 {
        (ticks + self.dice.below(5)).saturating_sub(2)
    }

    /// Often nothing at all: the delays of the two ways may then be as unequal
    /// as they can, and the ages as wrong.
    fn start_delay(&mut self) -> u32 {
        let spreads = [INITIATOR, CALLED].map(|end| self.ends[end].settings.spread);
        let most = spreads[INITIATOR].min(spreads[CALLED]) / 3;
        let ticks = self.dice.below(most + 1);
        self.dice.pick(&[0, ticks])
    }

    fn run(&mut self, steps: usize) -> Result<(), String> {
        for _ in 0..steps {
            self.pass_time();
            self.stall();
            self.bring_signals()?;
            self.bring_parcels()?;
            self.bring_again()?;
            self.tick()?;
            self.user_data()?;
            self.mischief()?;
        }
        Ok(())
    }

    /// On to the next thing due, or a little way towards it.
    fn pass_time(&mut self) {
        let flying = self.flying.iter().map(|(due, _)| *due);
        let signals = self.signals.iter().map(|(due, _, _)| *due);
        let next = flying.chain(signals).chain(self.next_tick).min().unwrap_or(self.time);
        let both_up = self.ends.iter().all(|end| end.up);
        let stride = self.time + u64::from(self.dice.below(if both_up { 8 } else { 80 }));
        self.time = next.max(self.time).min(stride);
    }

    fn bring_signals(&mut self) -> Result<(), String> {
        let time = self.time;
        let (due, later) = self.signals.drain(..).partition(|(due, _, _)| *due <= time);
        self.signals = later;
        for (_, end, signal) in due as Vec<(u64, usize, Signal)> {
            match signal {
                Signal::Connect(call) => self.tell_all(end, Event::Connect, None, Some(call))?,
                Signal::Confirm => self.tell(end, Event::Confirm)?,
                Signal::Disconnect => self.tell(end, Event::Disconnect)?,
            };
        }
        Ok(())
    }

    fn bring_parcels(&mut self) -> Result<(), String> {
        let time = self.time;
        let (mut due, later): (Vec<_>, Vec<_>) =
            self.flying.drain(..).partition(|(due, _)| *due <= time);
        self.flying = later;
        let in_order = self.dice.chance(2, 3);
        while !due.is_empty() {
            let at = if in_order { 0 } else { self.dice.index(due.len()) };
            let (_, parcel) = due.remove(at);
            self.hand(&parcel)?;
        }
        Ok(())
    }

    /// Hands over a message if the channel may.
    fn hand(&mut self, parcel: &Parcel) -> Result<Option<Reply>, String> {
        if !self.ends[parcel.to].may_get(parcel, self.time) {
            self.tally.see("messages the channel may not hand over");
            return Ok(None);
        }
        let event = Event::Message(&parcel.bytes);
        self.tell_all(parcel.to, event, Some(parcel), None).map(Some)
    }

    fn bring_again(&mut self) -> Result<(), String> {
        if self.kept.is_empty() || !self.dice.chance(self.mood.repeat, 1000) {
            return Ok(());
        }
        let parcel = self.kept[self.dice.index(self.kept.len())].clone();
        self.hand(&parcel).map(|_| ())
    }

    fn tick(&mut self) -> Result<(), String> {
        for end in [INITIATOR, CALLED] {
            if self.next_tick[end] <= self.time {
                self.next_tick[end] = self.time + u64::from(self.tick_period[end]);
                self.tell(end, Event::Tick)?;
            }
        }
        Ok(())
    }

    fn user_data(&mut self) -> Result<(), String> {
        for end in [INITIATOR, CALLED] {
            if !self.dice.chance(1, self.quiet) {
                continue;
            }
            for _ in 0..self.dice.pick(&[1, 1, 1, 2, 12]) {
                let length = self.dice.pick(&[1, 1, 2, 3, 50, 99, 100, 0]);
                let data = self.dice.bytes(length);
                self.tell(end, Event::Data(&data))?;
            }
        }
        Ok(())
    }

    /// Holds one direction back for about as long as a message stays fresh,
    /// or as long as silence is borne.
    fn stall(&mut self) {
        if !self.dice.chance(self.mood.stall, 1000) {
            return;
        }
        let end = self.dice.index(2);
        let Settings { age, silence, .. } = self.ends[end].settings;
        let good = self.ends[end].last_good_age();
        let lengths = [good, good, good + 5, age + age / 2, 2 * age, silence];
        let length = self.dice.pick(&lengths);
        let ticks = self.about(length);
        self.stalled[end] = self.stalled[end].max(self.time + u64::from(ticks));
        for (due, parcel) in &mut self.flying {
            if parcel.to == end {
                *due = (*due).max(self.stalled[end]);
            }
        }
    }

    /// Breaks, and indications that belong to nothing: a call that nobody
    /// made, or a confirm before the accept.
    fn mischief(&mut self) -> Result<(), String> {
        if self.dice.chance(self.mood.break_off, 1000) {
            let end = self.dice.index(2);
            self.tell(end, Event::Disconnect)?;
            self.signals.push((self.time + 3, 1 - end, Signal::Disconnect));
        }
        if self.dice.chance(self.mood.stray, 1000) {
            let end = self.dice.index(2);
            let event = self.dice.pick(&[Event::Connect, Event::Confirm]);
            self.tell(end, event)?;
        }
        Ok(())
    }
}

/// Refuses totals that show too little to have shown anything.
pub fn enough(tally: &Tally, long: bool) -> Result<(), String> {
    let mut needed = vec![
        "delivered at the true age A".to_string(),
        "late at the least true age that may be, A - spread + 1".to_string(),
    ];
    for role in ROLES {
        needed.push(format!("{role} came Up"));
        needed.push(format!("{role} went down"));
        needed.push(format!("{role} heard nothing for R"));
        let answers = [0, 9, 10, 11, 13];
        needed
            .extend(answers.map(|answer| format!("message to {role} while Up answered {answer}")));
    }
    if long {
        let edges = [
            "age 2^31 - 1 handed over",
            "numbers wrapped in a connection",
            "a number 32,768 behind handed over",
            "a number 32,767 ahead handed over",
        ];
        needed.extend(edges.map(str::to_string));
    }
    let missing: Vec<String> = needed.into_iter().filter(|what| tally.count(what) == 0).collect();
    if missing.is_empty() {
        return Ok(());
    }
    Err(format!("never seen: {}", missing.join("; ")))
}
