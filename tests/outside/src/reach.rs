//! What a script can meet and what it can't, and why not.

use crate::link::State;
use crate::settings::Role;
use std::fmt;

/// What a record finds: no end yet, or an end by its state; Idle and Up are
/// told apart by role, the other states belong to one role anyway.
#[derive(Clone, Copy, PartialEq, Eq, Debug, PartialOrd, Ord)]
pub enum Situation {
    NoEnd,
    IdleInitiator,
    IdleCalled,
    Calling,
    Opening,
    Settling,
    Greeted,
    Answering,
    Closing,
    UpInitiator,
    UpCalled,
}

impl Situation {
    pub const ALL: [Situation; 11] = [
        Situation::NoEnd,
        Situation::IdleInitiator,
        Situation::IdleCalled,
        Situation::Calling,
        Situation::Opening,
        Situation::Settling,
        Situation::Greeted,
        Situation::Answering,
        Situation::Closing,
        Situation::UpInitiator,
        Situation::UpCalled,
    ];

    pub fn of(role: Role, state: State) -> Situation {
        match (state, role) {
            (State::Idle, Role::Initiator) => Situation::IdleInitiator,
            (State::Idle, Role::Called) => Situation::IdleCalled,
            (State::Calling, _) => Situation::Calling,
            (State::Opening, _) => Situation::Opening,
            (State::Settling, _) => Situation::Settling,
            (State::Greeted, _) => Situation::Greeted,
            (State::Answering, _) => Situation::Answering,
            (State::Closing, _) => Situation::Closing,
            (State::Up, Role::Initiator) => Situation::UpInitiator,
            (State::Up, Role::Called) => Situation::UpCalled,
        }
    }

    fn is_idle(self) -> bool {
        matches!(self, Situation::IdleInitiator | Situation::IdleCalled)
    }

    fn is_up(self) -> bool {
        matches!(self, Situation::UpInitiator | Situation::UpCalled)
    }

    fn is_called(self) -> bool {
        matches!(
            self,
            Situation::IdleCalled
                | Situation::Greeted
                | Situation::Answering
                | Situation::Closing
                | Situation::UpCalled
        )
    }
}

#[derive(Clone, Copy, PartialEq, Eq, Debug, PartialOrd, Ord)]
pub enum Kind {
    Make,
    Tick,
    Connect,
    Confirm,
    Disconnect,
    Data,
    Message,
}

impl Kind {
    pub const ALL: [Kind; 7] = [
        Kind::Make,
        Kind::Tick,
        Kind::Connect,
        Kind::Confirm,
        Kind::Disconnect,
        Kind::Data,
        Kind::Message,
    ];
}

impl fmt::Display for Situation {
    fn fmt(&self, f: &mut fmt::Formatter<'_>) -> fmt::Result {
        write!(f, "{self:?}")
    }
}

impl fmt::Display for Kind {
    fn fmt(&self, f: &mut fmt::Formatter<'_>) -> fmt::Result {
        write!(f, "{self:?}")
    }
}

/// Why the answer can't be met there; nothing when it can. Every pair of a
/// situation and a kind of record can be met.
pub fn why_not(situation: Situation, kind: Kind, answer: u8) -> Option<&'static str> {
    match (kind, answer) {
        (_, 14) => Some("the script always lends enough output"),
        (_, 15..) => Some("there is no such answer"),
        (Kind::Make, 0 | 1) => None,
        (Kind::Make, _) => Some("a make is taken or refused, nothing else"),
        (_, 1) => Some("only a make has settings"),
        (_, 3) if situation == Situation::NoEnd => None,
        _ if situation == Situation::NoEnd => Some("events before a valid make answer 3"),
        (_, 2) => None,
        (Kind::Connect | Kind::Disconnect, _) => indication(situation, kind, answer),
        (_, 12) if situation.is_idle() => Some("an Idle end waits for nothing"),
        (_, 12) => None,
        (Kind::Tick, 0) => None,
        (Kind::Tick, _) => Some("ticks always have a rule, and nothing in them can fail"),
        (Kind::Confirm, _) => confirm(situation, answer),
        (Kind::Data, _) => data(situation, answer),
        (Kind::Message, _) => message(situation, answer),
    }
}

fn indication(situation: Situation, kind: Kind, answer: u8) -> Option<&'static str> {
    let ruled = match kind {
        Kind::Connect => situation.is_called(),
        _ => !situation.is_idle(),
    };
    match answer {
        0 if ruled => None,
        3 if !ruled => None,
        0 => Some("the indication has no rule here"),
        3 => Some("the indication has a rule here"),
        12 => Some("indications are judged before 12"),
        _ => Some("an indication carries nothing to find fault with"),
    }
}

fn confirm(situation: Situation, answer: u8) -> Option<&'static str> {
    match (answer, situation) {
        (0, Situation::Calling) => None,
        (3, Situation::Calling) => Some("confirm has a rule in Calling"),
        (3, _) => None,
        (0, _) => Some("confirm has a rule in Calling only"),
        _ => Some("a confirm carries nothing to find fault with"),
    }
}

fn data(situation: Situation, answer: u8) -> Option<&'static str> {
    match answer {
        0 | 4 | 5 if situation.is_up() => None,
        3 if !situation.is_up() => None,
        3 => Some("user data have a rule while Up"),
        0 | 4 | 5 => Some("user data have a rule while Up only"),
        _ => Some("this answer is for messages"),
    }
}

fn message(situation: Situation, answer: u8) -> Option<&'static str> {
    let unread = situation.is_idle() || situation == Situation::Calling;
    match answer {
        3 if unread => None,
        3 => Some("messages have a rule here"),
        4 | 5 => Some("this answer is for user data"),
        _ if unread => Some("messages have no rule here"),
        0 | 6 | 7 => None,
        8 if situation.is_up() => Some("the start is over"),
        8 if situation == Situation::Greeted => Some("nothing in kind 1 is held against anything"),
        8 if situation == Situation::Closing => Some("nothing in kind 5 is held against anything"),
        8 => None,
        _ if situation.is_up() => None,
        _ => Some("this answer is for stamped data while Up"),
    }
}

/// Other things that can't be met, for the report.
pub const ELSE: [&str; 5] = [
    "user data of 101 bytes at an end: the record's field holds 100, so the script ends there",
    "W one below its range: it begins at 0",
    "R one below its range with S in range: S lies below R, so S is out of range too",
    "T one above its range with C in range: C is at least T, so C is out of range too",
    "a connect indication that takes an initiator down: it answers 3",
];
