//! What an end holds, laid open to whoever steers by it or counts.

use super::{End, Live, Phase, Stage, Starting, Thread};
use crate::clock::{Bounds, Reading};
use crate::settings::{Role, Settings};

/// The states by name.
#[derive(Clone, Copy, PartialEq, Eq, Debug, PartialOrd, Ord)]
pub enum State {
    Idle,
    Calling,
    Opening,
    Settling,
    Greeted,
    Answering,
    Closing,
    Up,
}

impl State {
    pub fn is_starting(self) -> bool {
        !matches!(self, State::Idle | State::Up)
    }

    /// Messages are looked at in this state.
    pub fn reads_messages(self) -> bool {
        !matches!(self, State::Idle | State::Calling)
    }
}

/// What an end holds, to look at: the writer of scripts steers by it and the
/// count of what was met is taken from it. What a state doesn't hold is 0.
#[derive(Clone, Copy, PartialEq, Eq, Debug)]
pub struct View {
    pub role: Role,
    pub settings: Settings,
    pub reading: Reading,
    pub may_ask: bool,
    pub asked: Reading,
    pub state: State,
    pub last: u16,
    pub next: u16,
    pub echo: Reading,
    pub taken: Reading,
    /// When the wait of a starting state began.
    pub since: Reading,
    /// The reading that the echo of the awaited message must hold.
    pub asked_echo: Reading,
    pub bounds: Bounds,
    pub heard: Reading,
    pub sent: Reading,
    pub failures: u8,
    pub sent_since_tick: bool,
    pub queued: usize,
}

impl View {
    /// Whether an event at `now` finds the end's patience at an end.
    pub fn overdue_at(&self, now: Reading) -> bool {
        match self.state {
            State::Idle => false,
            State::Up => now.since(self.heard) >= self.settings.silence,
            _ => now.since(self.since) >= self.settings.start_wait,
        }
    }

    pub fn jump(&self, number: u16) -> u16 {
        number.wrapping_sub(self.last)
    }
}

impl End {
    pub fn view(&self) -> View {
        let mut view = View {
            role: self.role,
            settings: self.settings,
            reading: self.reading,
            may_ask: self.may_ask,
            asked: self.asked,
            state: State::Idle,
            last: 0,
            next: 0,
            echo: Reading(0),
            taken: Reading(0),
            since: Reading(0),
            asked_echo: Reading(0),
            bounds: Bounds::default(),
            heard: Reading(0),
            sent: Reading(0),
            failures: 0,
            sent_since_tick: false,
            queued: 0,
        };
        match &self.phase {
            Phase::Idle => {}
            Phase::Starting(start) => start.show(&mut view),
            Phase::Up(live) => live.show(&mut view),
        }
        view
    }
}

impl Thread {
    fn show(&self, view: &mut View) {
        view.last = self.last;
        view.next = self.next;
        view.echo = self.echo;
        view.taken = self.taken;
    }
}

impl Starting {
    fn show(&self, view: &mut View) {
        self.thread.show(view);
        view.since = self.since;
        view.state = match self.stage {
            Stage::Calling => State::Calling,
            Stage::Opening { .. } => State::Opening,
            Stage::Settling { .. } => State::Settling,
            Stage::Greeted => State::Greeted,
            Stage::Answering { .. } => State::Answering,
            Stage::Closing { .. } => State::Closing,
        };
        match self.stage {
            Stage::Opening { sent } | Stage::Answering { sent } => view.asked_echo = sent,
            Stage::Settling { bounds } | Stage::Closing { bounds } => view.bounds = bounds,
            Stage::Calling | Stage::Greeted => {}
        }
    }
}

impl Live {
    fn show(&self, view: &mut View) {
        self.thread.show(view);
        view.state = State::Up;
        view.bounds = self.bounds;
        view.heard = self.heard;
        view.sent = self.sent;
        view.failures = self.failures;
        view.sent_since_tick = self.sent_since_tick;
        view.queued = self.queue.len();
    }
}
