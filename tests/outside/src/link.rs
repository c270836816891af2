//! One end of the link: what it does with each event.

use crate::clock::{age, Bounds, Reading, HALF};
use crate::settings::{OutOfRange, Role, Settings};
use crate::wire::{Body, Message, Stamps, Train, LONGEST};
use std::collections::VecDeque;
use std::mem;

mod view;
pub use view::{State, View};

/// Messages that may wait to be sent.
pub const QUEUE: usize = 8;
/// The farthest jump that lies ahead; a farther one lies behind.
const AHEAD: u16 = 32_767;
/// The least output that may be lent.
pub const ROOM: usize = LONGEST;

/// The answers, by the rules' numbers.
pub mod answer {
    pub const HANDLED: u8 = 0;
    pub const OUT_OF_RANGE: u8 = 1;
    pub const CLOCK_BACK: u8 = 2;
    pub const NO_RULE: u8 = 3;
    pub const DATA_LENGTH: u8 = 4;
    pub const QUEUE_FULL: u8 = 5;
    pub const MALFORMED: u8 = 6;
    pub const NOT_AWAITED: u8 = 7;
    pub const START_WRONG: u8 = 8;
    pub const OLD: u8 = 9;
    pub const LOST: u8 = 10;
    pub const LATE: u8 = 11;
    pub const OVERDUE: u8 = 12;
    pub const GAP: u8 = 13;
    pub const SHORT_OUTPUT: u8 = 14;
}

#[derive(Clone, Copy, PartialEq, Eq, Debug)]
pub enum Event<'a> {
    Tick,
    Connect,
    Confirm,
    Disconnect,
    Data(&'a [u8]),
    Message(&'a [u8]),
}

#[derive(Clone, PartialEq, Eq, Debug)]
pub enum Output {
    Ask,
    Accept,
    Send(Vec<u8>),
    Data(Vec<u8>),
    Up,
    Error,
    Release,
    Down,
}

/// What one event comes to.
#[derive(Clone, PartialEq, Eq, Debug)]
pub struct Reply {
    pub answer: u8,
    pub outputs: Vec<Output>,
}

impl Reply {
    pub fn bare(answer: u8) -> Reply {
        Reply { answer, outputs: Vec::new() }
    }

    fn handled(outputs: Vec<Output>) -> Reply {
        Reply { answer: answer::HANDLED, outputs }
    }
}

/// The number and stamps of one connection.
#[derive(Clone, Debug)]
struct Thread {
    /// The number last accepted.
    last: u16,
    /// The number of the next message to go.
    next: u16,
    echo: Reading,
    taken: Reading,
}

impl Thread {
    /// A connection in which nothing has come or gone: the first message
    /// expected is number 0, one after 65,535.
    fn fresh() -> Thread {
        Thread { last: u16::MAX, next: 0, echo: Reading(0), taken: Reading(0) }
    }

    fn jump(&self, number: u16) -> u16 {
        number.wrapping_sub(self.last)
    }

    fn accept(&mut self, message: &Message, now: Reading) {
        self.last = message.number;
        self.echo = message.stamps.sent;
        self.taken = now;
    }

    fn send(&mut self, body: Body, now: Reading) -> Output {
        let number = self.next;
        self.next = number.wrapping_add(1);
        let stamps = Stamps { sent: now, echo: self.echo, taken: self.taken };
        Output::Send(Message { number, stamps, body }.encode())
    }
}

/// Where the start has got to, with what the next message is held against.
#[derive(Clone, Debug)]
enum Stage {
    Calling,
    Opening { sent: Reading },
    Settling { bounds: Bounds },
    Greeted,
    Answering { sent: Reading },
    Closing { bounds: Bounds },
}

/// What an accepted start message leads to.
enum Next {
    Stage(Stage, Body),
    Up(Bounds, Option<Body>),
}

#[derive(Clone, Debug)]
struct Starting {
    stage: Stage,
    /// When the wait began.
    since: Reading,
    thread: Thread,
}

impl Starting {
    fn judge(&self, message: &Message, now: Reading, limit: u32) -> Result<Next, u8> {
        if self.thread.jump(message.number) != 1 {
            return Err(answer::NOT_AWAITED);
        }
        match (&self.stage, &message.body) {
            (Stage::Greeted, Body::Start1) => {
                Ok(Next::Stage(Stage::Answering { sent: now }, Body::Start2))
            }
            (Stage::Opening { sent }, Body::Start2) => {
                let bounds = measure(*sent, message.stamps, now, limit)?;
                Ok(Next::Stage(Stage::Settling { bounds }, Body::Start3))
            }
            (Stage::Answering { sent }, Body::Start3) => {
                let bounds = measure(*sent, message.stamps, now, limit)?;
                Ok(Next::Stage(Stage::Closing { bounds }, Body::Start4(bounds)))
            }
            (Stage::Settling { bounds }, Body::Start4(theirs)) => {
                if theirs.min != bounds.max.seen_by_peer() {
                    return Err(answer::START_WRONG);
                }
                Ok(Next::Up(*bounds, Some(Body::Start5)))
            }
            (Stage::Closing { bounds }, Body::Start5) => Ok(Next::Up(*bounds, None)),
            _ => Err(answer::NOT_AWAITED),
        }
    }
}

/// Bounds of own clock less the peer's, from the reading `sent` that went out
/// and the stamps that came back; both roles measure alike.
fn measure(sent: Reading, stamps: Stamps, now: Reading, limit: u32) -> Result<Bounds, u8> {
    let bounds = Bounds { min: sent.less(stamps.taken), max: now.less(stamps.sent) };
    if stamps.echo != sent || bounds.spread() > limit {
        return Err(answer::START_WRONG);
    }
    Ok(bounds)
}

/// How a stamped message stands in its connection.
#[derive(Clone, Copy, PartialEq, Eq)]
enum Verdict {
    Expected,
    Gap,
    Lost,
    Old,
    Late,
}

/// A link that is Up.
#[derive(Clone, Debug)]
struct Live {
    thread: Thread,
    bounds: Bounds,
    heard: Reading,
    /// When the last kind 6 went.
    sent: Reading,
    failures: u8,
    /// A kind 6 has gone in or after the last tick.
    sent_since_tick: bool,
    queue: VecDeque<Train>,
}

impl Live {
    fn begin(thread: Thread, bounds: Bounds, now: Reading) -> Live {
        Live {
            thread,
            bounds,
            heard: now,
            sent: now,
            failures: 0,
            sent_since_tick: false,
            queue: VecDeque::with_capacity(QUEUE),
        }
    }

    fn send(&mut self, body: Body, now: Reading) -> Output {
        self.sent = now;
        self.sent_since_tick = true;
        self.thread.send(body, now)
    }

    fn tick(&mut self, now: Reading, life_sign: u32) -> Option<Output> {
        match self.queue.pop_front() {
            Some(train) => Some(self.send(Body::Train(train), now)),
            None if now.since(self.sent) >= life_sign => Some(self.send(Body::LifeSign, now)),
            None => {
                self.sent_since_tick = false;
                None
            }
        }
    }

    /// The number is judged before the age.
    fn judge(&self, message: &Message, now: Reading, settings: &Settings) -> Verdict {
        let jump = self.thread.jump(message.number);
        if jump > settings.jump && jump <= AHEAD {
            return Verdict::Lost;
        }
        if jump == 0 || jump > AHEAD {
            return Verdict::Old;
        }
        if age(now, message.stamps.sent, self.bounds.min) > settings.age {
            return Verdict::Late;
        }
        if jump == 1 {
            Verdict::Expected
        } else {
            Verdict::Gap
        }
    }

    fn take(&mut self, message: &Message, now: Reading) {
        self.thread.accept(message, now);
        self.heard = now;
        self.failures = 0;
    }
}

#[derive(Clone, Debug, Default)]
enum Phase {
    #[default]
    Idle,
    Starting(Starting),
    Up(Live),
}

/// One end of the link.
#[derive(Clone, Debug)]
pub struct End {
    role: Role,
    settings: Settings,
    reading: Reading,
    may_ask: bool,
    asked: Reading,
    phase: Phase,
}

impl End {
    pub fn make(role: Role, settings: Settings, reading: Reading) -> Result<End, OutOfRange> {
        settings.check()?;
        Ok(End {
            role,
            settings,
            reading,
            may_ask: role == Role::Initiator,
            asked: Reading(0),
            phase: Phase::Idle,
        })
    }

    /// Handles one event at `reading`, with `room` bytes of output lent.
    pub fn step(&mut self, event: Event<'_>, reading: Reading, room: usize) -> Reply {
        if room < ROOM {
            return Reply::bare(answer::SHORT_OUTPUT);
        }
        if reading.since(self.reading) >= HALF {
            return Reply::bare(answer::CLOCK_BACK);
        }
        self.reading = reading;
        match event {
            Event::Connect => self.connect(),
            Event::Disconnect => self.disconnect(),
            _ if self.overdue() => self.fall(answer::OVERDUE, Vec::new()),
            Event::Tick => self.tick(),
            Event::Confirm => self.confirm(),
            Event::Data(bytes) => self.user_data(bytes),
            Event::Message(bytes) => self.message(bytes),
        }
    }

    fn overdue(&self) -> bool {
        match &self.phase {
            Phase::Idle => false,
            Phase::Starting(start) => self.reading.since(start.since) >= self.settings.start_wait,
            Phase::Up(live) => self.reading.since(live.heard) >= self.settings.silence,
        }
    }

    /// Back to Idle; says whether the end was Up.
    fn leave(&mut self) -> bool {
        let was_up = matches!(mem::take(&mut self.phase), Phase::Up(_));
        if was_up && self.role == Role::Initiator {
            self.may_ask = true;
        }
        was_up
    }

    /// Goes down of its own accord, after the outputs there are already.
    fn fall(&mut self, answer: u8, mut outputs: Vec<Output>) -> Reply {
        outputs.push(Output::Release);
        if self.leave() {
            outputs.push(Output::Down);
        }
        Reply { answer, outputs }
    }

    fn begin(&mut self, stage: Stage) {
        self.phase =
            Phase::Starting(Starting { stage, since: self.reading, thread: Thread::fresh() });
    }

    fn connect(&mut self) -> Reply {
        if self.role == Role::Initiator {
            return Reply::bare(answer::NO_RULE);
        }
        let mut outputs = vec![Output::Accept];
        if self.leave() {
            outputs.push(Output::Down);
        }
        self.begin(Stage::Greeted);
        Reply::handled(outputs)
    }

    fn disconnect(&mut self) -> Reply {
        if matches!(self.phase, Phase::Idle) {
            return Reply::bare(answer::NO_RULE);
        }
        let outputs = if self.leave() { vec![Output::Down] } else { Vec::new() };
        Reply::handled(outputs)
    }

    fn tick(&mut self) -> Reply {
        match &mut self.phase {
            Phase::Idle => self.idle_tick(),
            Phase::Starting(_) => Reply::bare(answer::HANDLED),
            Phase::Up(live) => {
                let sent = live.tick(self.reading, self.settings.life_sign);
                Reply::handled(sent.into_iter().collect())
            }
        }
    }

    fn idle_tick(&mut self) -> Reply {
        let due = self.may_ask || self.reading.since(self.asked) >= self.settings.retry;
        if self.role == Role::Called || !due {
            return Reply::bare(answer::HANDLED);
        }
        self.may_ask = false;
        self.asked = self.reading;
        self.begin(Stage::Calling);
        Reply::handled(vec![Output::Ask])
    }

    fn confirm(&mut self) -> Reply {
        let now = self.reading;
        match &mut self.phase {
            Phase::Starting(start) if matches!(start.stage, Stage::Calling) => {
                start.stage = Stage::Opening { sent: now };
                start.since = now;
                Reply::handled(vec![start.thread.send(Body::Start1, now)])
            }
            _ => Reply::bare(answer::NO_RULE),
        }
    }

    fn user_data(&mut self, bytes: &[u8]) -> Reply {
        let Phase::Up(live) = &mut self.phase else {
            return Reply::bare(answer::NO_RULE);
        };
        let Ok(train) = Train::new(bytes) else {
            return Reply::bare(answer::DATA_LENGTH);
        };
        if !live.sent_since_tick {
            return Reply::handled(vec![live.send(Body::Train(train), self.reading)]);
        }
        if live.queue.len() == QUEUE {
            return Reply::bare(answer::QUEUE_FULL);
        }
        live.queue.push_back(train);
        Reply::bare(answer::HANDLED)
    }

    fn message(&mut self, bytes: &[u8]) -> Reply {
        match &self.phase {
            Phase::Idle => Reply::bare(answer::NO_RULE),
            Phase::Starting(start) if matches!(start.stage, Stage::Calling) => {
                Reply::bare(answer::NO_RULE)
            }
            phase => match (phase, Message::decode(bytes)) {
                (_, Err(_)) => Reply::bare(answer::MALFORMED),
                (Phase::Up(_), Ok(message)) => self.hear(message),
                (_, Ok(message)) => self.start(&message),
            },
        }
    }

    /// A message while starting.
    fn start(&mut self, message: &Message) -> Reply {
        let now = self.reading;
        let Phase::Starting(start) = &mut self.phase else {
            return Reply::bare(answer::NO_RULE);
        };
        match start.judge(message, now, self.settings.spread) {
            Err(answer::START_WRONG) => self.fall(answer::START_WRONG, Vec::new()),
            Err(answer) => Reply::bare(answer),
            Ok(Next::Stage(stage, body)) => {
                start.thread.accept(message, now);
                start.stage = stage;
                Reply::handled(vec![start.thread.send(body, now)])
            }
            Ok(Next::Up(bounds, body)) => {
                start.thread.accept(message, now);
                let sent = body.map(|body| start.thread.send(body, now));
                let live = Live::begin(start.thread.clone(), bounds, now);
                self.phase = Phase::Up(live);
                Reply::handled(sent.into_iter().chain([Output::Up]).collect())
            }
        }
    }

    /// A message while Up.
    fn hear(&mut self, message: Message) -> Reply {
        let Phase::Up(live) = &mut self.phase else {
            return Reply::bare(answer::NO_RULE);
        };
        if message.body.kind() != 6 {
            return Reply::bare(answer::NOT_AWAITED);
        }
        let verdict = live.judge(&message, self.reading, &self.settings);
        match verdict {
            Verdict::Lost => return self.fall(answer::LOST, Vec::new()),
            Verdict::Old => return self.failure(answer::OLD),
            Verdict::Late => return self.failure(answer::LATE),
            Verdict::Expected | Verdict::Gap => live.take(&message, self.reading),
        }
        let mut outputs = Vec::new();
        if let Body::Train(train) = message.body {
            outputs.push(Output::Data(train.into_bytes()));
        }
        if verdict == Verdict::Expected {
            return Reply::handled(outputs);
        }
        outputs.push(Output::Error);
        Reply { answer: answer::GAP, outputs }
    }

    /// An old or late message: reported, and at E of them the end goes down.
    fn failure(&mut self, answer: u8) -> Reply {
        let outputs = vec![Output::Error];
        if let Phase::Up(live) = &mut self.phase {
            live.failures += 1;
            if live.failures >= self.settings.errors {
                return self.fall(answer, outputs);
            }
        }
        Reply { answer, outputs }
    }
}
