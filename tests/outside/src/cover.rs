//! Counts what scripts met, and names what they should have met.

use crate::clock::{age, Reading, HALF};
use crate::link::{Event, Output, Reply, State, View, QUEUE};
use crate::point::{wanted, Place, Point, Reason};
use crate::reach::{why_not, Kind, Situation, ELSE};
use crate::record::{BadRecord, Make, Record, Records};
use crate::script::Holder;
use crate::settings::{Range, Role, Settings};
use crate::shapes::SHAPES;
use crate::side::Side;
use crate::wire::{Body, Message};
use std::collections::BTreeMap;

/// What a single life is remembered by, from one record to the next.
#[derive(Clone, Debug, Default)]
struct Memory {
    left: Option<Reason>,
    late_number: Option<u16>,
    refused_since_heard: bool,
    failed_before_delivery: bool,
    was_full: bool,
    queue_left: bool,
    quiet_tick: bool,
    sign_tick: bool,
}

/// One record with what it found and what it came to.
struct Step<'a> {
    before: View,
    after: View,
    now: Reading,
    event: Event<'a>,
    reply: &'a Reply,
}

impl Step<'_> {
    fn has(&self, output: &Output) -> bool {
        self.reply.outputs.contains(output)
    }

    fn sent(&self) -> Option<Message> {
        self.reply.outputs.iter().find_map(|output| match output {
            Output::Send(bytes) => Message::decode(bytes).ok(),
            _ => None,
        })
    }

    fn was_up(&self) -> bool {
        self.before.state == State::Up
    }

    /// The end looked further than its clock and its patience.
    fn is_judged(&self) -> bool {
        !matches!(self.reply.answer, 2 | 12)
    }
}

#[derive(Default)]
pub struct Cover {
    met: BTreeMap<Point, u64>,
    memory: Memory,
    pub records: u64,
    pub scripts: u64,
    pub delivered: u64,
}

impl Cover {
    pub fn note(&mut self, point: Point) {
        *self.met.entry(point).or_default() += 1;
    }

    fn side(&mut self, side: Side, met: bool) {
        if met {
            self.note(Point::Side(side));
        }
    }

    /// Runs a script and counts; gives the lines as well.
    pub fn run(&mut self, script: &[u8]) -> String {
        self.scripts += 1;
        self.memory = Memory::default();
        let mut holder = Holder::default();
        let mut lines = String::new();
        for (at, record) in Records::of(script).enumerate() {
            self.records += 1;
            match record {
                Ok(record) => lines.push_str(&self.record(&mut holder, &record).to_string()),
                Err(bad) => {
                    self.bad_end(bad, at);
                    lines.push_str(crate::line::BAD);
                }
            }
            lines.push('\n');
        }
        lines
    }

    fn bad_end(&mut self, bad: BadRecord, at: usize) {
        self.side(Side::BadFirst, at == 0);
        self.side(Side::BadKind, matches!(bad, BadRecord::Kind(_)));
        self.side(Side::BadRole, matches!(bad, BadRecord::Role(_)));
        self.side(Side::BadDataLength, bad == BadRecord::Length { kind: 6, length: 101 });
        self.side(Side::BadMessageLength, bad == BadRecord::Length { kind: 7, length: 129 });
        self.side(Side::BadCut, bad == BadRecord::Cut);
    }

    fn record(&mut self, holder: &mut Holder, record: &Record<'_>) -> Reply {
        let before = holder.end().map(|end| end.view());
        let reply = holder.answer(record);
        let situation = match &before {
            Some(view) => Situation::of(view.role, view.state),
            None => Situation::NoEnd,
        };
        let kind = kind_of(record);
        self.note(Point::Pair(situation, kind));
        self.note(Point::Answer(situation, kind, reply.answer));
        match record {
            Record::Make(make) => self.make(make, before, &reply),
            Record::Event(now, event) => {
                if let (Some(before), Some(end)) = (before, holder.end()) {
                    let after = end.view();
                    self.step(&Step { before, after, now: *now, event: *event, reply: &reply });
                }
            }
        }
        reply
    }

    fn make(&mut self, make: &Make, before: Option<View>, reply: &Reply) {
        let up = before.is_some_and(|view| view.state == State::Up);
        if reply.answer == 0 {
            self.memory = Memory::default();
            self.side(Side::MakeOverLink, up);
            for range in make.settings.ranges() {
                self.taken_setting(&range);
            }
        } else {
            let queued = before.is_some_and(|view| view.queued > 0);
            self.side(Side::RefusedMakeKeepsLink, up && queued);
            if let Some(range) = sole_fault(&make.settings) {
                self.refused_setting(&range);
            }
        }
    }

    fn taken_setting(&mut self, range: &Range) {
        if range.value == range.low {
            self.note(Point::Setting(range.letter, Place::Low));
        }
        if range.value == range.high {
            self.note(Point::Setting(range.letter, Place::High));
        }
    }

    fn refused_setting(&mut self, range: &Range) {
        if range.value.checked_add(1) == Some(range.low) {
            self.note(Point::Setting(range.letter, Place::Below));
        }
        if range.value.checked_sub(1) == Some(range.high) {
            self.note(Point::Setting(range.letter, Place::Above));
        }
    }

    fn step(&mut self, step: &Step<'_>) {
        self.clock_sides(step);
        self.patience_sides(step);
        self.overdue_sides(step);
        if step.is_judged() {
            match step.event {
                Event::Tick => self.tick(step),
                Event::Data(data) => self.data(step, data),
                Event::Message(bytes) => self.message(step, bytes),
                _ => {}
            }
            let wrapped = step.sent().is_some_and(|message| message.number == 0);
            self.side(Side::NumberWrapSent, wrapped && step.was_up());
        }
        self.leaving(step);
    }

    fn clock_sides(&mut self, step: &Step<'_>) {
        let ticks = step.now.since(step.before.reading);
        self.side(Side::StepZero, ticks == 0);
        self.side(Side::StepMost, ticks == HALF - 1);
        self.side(Side::StepOver, ticks == HALF);
        self.side(Side::StepBack, ticks == u32::MAX);
        let wrapped = ticks < HALF && step.now.0 < step.before.reading.0;
        let stays = wrapped && step.after.state == step.before.state;
        self.side(Side::ReadingWrap, stays && step.was_up());
        self.side(Side::ReadingWrapStarting, stays && step.before.state.is_starting());
    }

    fn patience_sides(&mut self, step: &Step<'_>) {
        let indication = matches!(step.event, Event::Connect | Event::Disconnect);
        if step.reply.answer == 2 || indication {
            return;
        }
        let Step { before, now, .. } = step;
        let settings = &before.settings;
        match before.state {
            State::Idle => {}
            State::Up => {
                let silent = now.since(before.heard);
                self.side(Side::SilenceUnder, silent == settings.silence - 1);
                self.side(Side::SilenceAt, silent == settings.silence);
                let refused = self.memory.refused_since_heard;
                self.side(Side::SilenceOverRefused, step.reply.answer == 12 && refused);
            }
            state => {
                let waited = now.since(before.since);
                let (under, at) = wait_sides(state);
                self.side(under, waited == settings.start_wait - 1);
                self.side(at, waited == settings.start_wait);
            }
        }
    }

    fn overdue_sides(&mut self, step: &Step<'_>) {
        if step.reply.answer == 2 || !step.before.overdue_at(step.now) {
            return;
        }
        match step.event {
            Event::Disconnect => self.note(Point::Side(Side::OverdueDisconnect)),
            Event::Connect if step.before.role == Role::Called => {
                self.note(Point::Side(Side::OverdueConnect));
            }
            Event::Connect => self.note(Point::Side(Side::OverdueConnectInitiator)),
            Event::Message(bytes) => {
                self.side(Side::OverdueMalformed, Message::decode(bytes).is_err());
            }
            Event::Data(data) => self.side(Side::OverdueData0, data.is_empty()),
            Event::Tick | Event::Confirm => {}
        }
    }

    fn tick(&mut self, step: &Step<'_>) {
        let before = &step.before;
        match before.state {
            State::Idle if before.role == Role::Initiator => self.idle_tick(step),
            State::Up => self.up_tick(step),
            _ => {}
        }
    }

    fn idle_tick(&mut self, step: &Step<'_>) {
        let Step { before, now, .. } = step;
        let asks = step.has(&Output::Ask);
        let passed = now.since(before.asked);
        let retry = before.settings.retry;
        self.side(Side::RetryUnder, !asks && passed == retry - 1);
        self.side(Side::RetryAt, asks && !before.may_ask && passed == retry);
        let at_once = asks && before.may_ask;
        self.side(Side::AskAtOnceFresh, at_once && self.memory.left.is_none());
        self.side(Side::AskAtOnceAfterUp, at_once && self.memory.left.is_some() && passed < retry);
    }

    fn up_tick(&mut self, step: &Step<'_>) {
        let before = &step.before;
        let passed = step.now.since(before.sent);
        let interval = before.settings.life_sign;
        let empty = before.queued == 0;
        let sent = step.sent();
        self.side(Side::SignUnder, empty && sent.is_none() && passed == interval - 1);
        self.side(Side::SignAt, empty && sent.is_some() && passed == interval);
        self.side(Side::QueueDrained, before.queued == 1);
        self.side(Side::QueueGone, empty && self.memory.queue_left);
        self.memory.queue_left = false;
        self.memory.quiet_tick = sent.is_none();
        self.memory.sign_tick = empty && sent.is_some();
    }

    fn data(&mut self, step: &Step<'_>, data: &[u8]) {
        let Step { before, reply, .. } = step;
        if !step.was_up() {
            return;
        }
        self.side(Side::Data0, data.is_empty());
        self.side(Side::Data1, data.len() == 1);
        self.side(Side::Data99, data.len() == 99);
        self.side(Side::Data100, data.len() == 100);
        self.side(Side::Data0Full, data.is_empty() && before.queued == QUEUE);
        let sent = step.sent().is_some();
        let queued = reply.answer == 0 && !sent;
        self.side(Side::DataAtOnce, sent);
        self.side(Side::AtOnceAfterQuietTick, sent && self.memory.quiet_tick);
        self.side(Side::DataQueued, queued && before.queued == 0);
        self.side(Side::QueuedAfterSign, queued && self.memory.sign_tick);
        self.side(Side::QueueEighth, queued && before.queued == QUEUE - 1);
        self.side(Side::QueueReused, queued && self.memory.was_full);
        self.side(Side::QueueRefused, reply.answer == 5);
        self.memory.was_full |= step.after.queued == QUEUE;
    }

    fn message(&mut self, step: &Step<'_>, bytes: &[u8]) {
        if !step.before.state.reads_messages() {
            return;
        }
        self.note(Point::Length(bytes.len()));
        for shape in SHAPES.iter().filter(|shape| shape.fits(bytes)) {
            self.note(Point::Shape(*shape));
        }
        match Message::decode(bytes) {
            Err(_) => self.memory.refused_since_heard |= step.was_up(),
            Ok(message) if step.was_up() => self.heard(step, &message),
            Ok(message) => self.start(step, &message),
        }
    }

    fn start(&mut self, step: &Step<'_>, message: &Message) {
        let Step { before, reply, .. } = step;
        let awaited = awaited_kind(before.state) == Some(message.body.kind());
        let next = before.jump(message.number) == 1;
        self.side(Side::StartJumpWrong, awaited && !next);
        self.side(Side::StartKindWrong, !awaited && next);
        let stamped = message.body.kind() == 6;
        self.side(Side::StampedInClosing, before.state == State::Closing && next && stamped);
        if !awaited || !next {
            return;
        }
        let stamps = message.stamps;
        match &message.body {
            Body::Start1 => self.side(Side::StampsNotZero, stamps.echo != Reading(0)),
            Body::Start2 | Body::Start3 => self.measured(step, message),
            Body::Start4(theirs) => {
                self.side(Side::MinimumWrong, reply.answer == 8);
                let other = theirs.max != before.bounds.min.seen_by_peer();
                self.side(Side::MaximumFree, reply.answer == 0 && other);
            }
            _ => {}
        }
    }

    fn measured(&mut self, step: &Step<'_>, message: &Message) {
        let Step { before, reply, now, .. } = step;
        let stamps = message.stamps;
        let min = before.asked_echo.less(stamps.taken);
        let spread = now.less(stamps.sent).0.wrapping_sub(min.0);
        let limit = before.settings.spread;
        let echoed = stamps.echo == before.asked_echo;
        let (at, over, echo) = match before.role {
            Role::Initiator => {
                (Side::SpreadAtInitiator, Side::SpreadOverInitiator, Side::EchoWrongInitiator)
            }
            Role::Called => (Side::SpreadAtCalled, Side::SpreadOverCalled, Side::EchoWrongCalled),
        };
        self.side(at, echoed && spread == limit);
        self.side(over, echoed && spread == limit + 1);
        self.side(echo, !echoed && spread <= limit);
        self.side(Side::SpreadNegative, echoed && spread >= HALF);
        let apart = reply.answer == 0 && stamps.sent != stamps.taken;
        self.side(Side::StampsApart, apart && message.body == Body::Start2);
    }

    fn heard(&mut self, step: &Step<'_>, message: &Message) {
        if step.reply.answer == 7 {
            self.memory.refused_since_heard = true;
            return;
        }
        let before = &step.before;
        let jump = before.jump(message.number);
        let age = age(step.now, message.stamps.sent, before.bounds.min);
        self.jump_sides(before.settings.jump, jump);
        self.age_sides(step, message, jump, age);
        match step.reply.answer {
            0 | 13 => self.delivered(step, message, jump),
            9 | 11 => self.failed(step, message),
            _ => {}
        }
    }

    fn jump_sides(&mut self, limit: u16, jump: u16) {
        self.side(Side::Jump1, jump == 1);
        self.side(Side::Jump2, jump == 2 && limit > 1);
        self.side(Side::JumpN, jump == limit && limit > 1);
        self.side(Side::JumpOverN, jump == limit + 1);
        self.side(Side::JumpOver1, jump == 2 && limit == 1);
        self.side(Side::Jump32767, jump == 32_767);
        self.side(Side::Jump32768, jump == 32_768);
        self.side(Side::Jump65535, jump == 65_535);
        self.side(Side::Jump0, jump == 0);
    }

    fn age_sides(&mut self, step: &Step<'_>, message: &Message, jump: u16, age: u32) {
        let answer = step.reply.answer;
        let limit = step.before.settings.age;
        let delivered = matches!(answer, 0 | 13);
        self.side(Side::AgeZero, delivered && age == 0);
        self.side(Side::AgeAt, delivered && age == limit);
        self.side(Side::AgeOver, answer == 11 && age == limit + 1);
        self.side(Side::AgeAhead, answer == 11 && age >= HALF);
        let over_wrap = message.stamps.sent.plus(step.before.bounds.min.0).0 > step.now.0;
        self.side(Side::AgeOverWrap, delivered && over_wrap);
        self.side(Side::LostAndLate, answer == 10 && age > limit);
        self.side(Side::OldAndLate, answer == 9 && age > limit);
        self.side(Side::GapAndLate, answer == 11 && jump > 1);
    }

    fn delivered(&mut self, step: &Step<'_>, message: &Message, jump: u16) {
        let before = &step.before;
        self.delivered += 1;
        let wrapped = message.number < before.last;
        self.side(Side::NumberWrapExpected, wrapped && jump == 1);
        self.side(Side::NumberWrapGap, wrapped && jump > 1);
        match &message.body {
            Body::Train(train) => {
                self.side(Side::GapData, jump > 1);
                self.side(Side::Heard1, train.bytes().len() == 1);
                self.side(Side::Heard100, train.bytes().len() == 100);
            }
            _ => {
                self.side(Side::GapLifeSign, jump > 1);
                self.side(Side::LifeSignHeard, jump == 1);
            }
        }
        self.side(Side::LateThenTaken, self.memory.late_number == Some(message.number));
        self.memory.failed_before_delivery = before.failures > 0;
        self.memory.late_number = None;
        self.memory.refused_since_heard = false;
    }

    fn failed(&mut self, step: &Step<'_>, message: &Message) {
        let before = &step.before;
        let down = step.has(&Output::Down);
        let old = step.reply.answer == 9;
        let (first, second, only) = if old {
            (Side::Old1Of2, Side::Old2Of2, Side::Old1Of1)
        } else {
            (Side::Late1Of2, Side::Late2Of2, Side::Late1Of1)
        };
        self.side(first, !down);
        self.side(second, down && before.settings.errors == 2);
        self.side(only, down && before.settings.errors == 1);
        self.side(Side::FailureForgiven, !down && self.memory.failed_before_delivery);
        self.memory.refused_since_heard = true;
        self.memory.failed_before_delivery = false;
        if !old {
            self.memory.late_number = Some(message.number);
        }
    }

    /// Keeps in mind how a connection ended, and notes the next that comes Up.
    fn leaving(&mut self, step: &Step<'_>) {
        if step.has(&Output::Up) {
            if let Some(reason) = self.memory.left {
                self.note(Point::Again(step.before.role, reason));
            }
            let memory = Memory { queue_left: self.memory.queue_left, ..Memory::default() };
            self.memory = Memory { left: self.memory.left, ..memory };
        }
        if let Some(reason) = reason(step) {
            self.memory.left = Some(reason);
            self.memory.queue_left = step.before.queued > 0;
        }
    }

    /// What can be met and wasn't.
    pub fn missing(&self) -> Vec<Point> {
        wanted().into_iter().filter(|point| !self.met.contains_key(point)).collect()
    }

    /// What was met although it is listed as impossible: then the list errs.
    pub fn impossible(&self) -> Vec<Point> {
        let off_list = |point: &&Point| match point {
            Point::Answer(situation, kind, answer) => why_not(*situation, *kind, *answer).is_some(),
            _ => false,
        };
        self.met.keys().filter(off_list).copied().collect()
    }

    /// Every count, one line each.
    pub fn table(&self) -> String {
        let mut text = String::new();
        for point in wanted() {
            let count = self.met.get(&point).copied().unwrap_or(0);
            text.push_str(&format!("{count:>10}  {point}\n"));
        }
        text
    }
}

/// What can't be met, with the reason, one line each.
pub fn unreachable_table() -> String {
    let mut text = String::new();
    for kind in Kind::ALL {
        for situation in Situation::ALL {
            let mut by_reason: BTreeMap<&str, Vec<String>> = BTreeMap::new();
            for answer in 0..15 {
                if let Some(why) = why_not(situation, kind, answer) {
                    by_reason.entry(why).or_default().push(answer.to_string());
                }
            }
            for (why, answers) in by_reason {
                text.push_str(&format!("{kind} in {situation}: {}: {why}\n", answers.join(" ")));
            }
        }
    }
    for why in ELSE {
        text.push_str(&format!("{why}\n"));
    }
    text
}

fn kind_of(record: &Record<'_>) -> Kind {
    match record {
        Record::Make(_) => Kind::Make,
        Record::Event(_, event) => match event {
            Event::Tick => Kind::Tick,
            Event::Connect => Kind::Connect,
            Event::Confirm => Kind::Confirm,
            Event::Disconnect => Kind::Disconnect,
            Event::Data(_) => Kind::Data,
            Event::Message(_) => Kind::Message,
        },
    }
}

/// The setting that alone is at fault. S and C have bounds that follow R and
/// T, so a fault in these may bring one in those.
fn sole_fault(settings: &Settings) -> Option<Range> {
    let ranges = settings.ranges();
    let mut faults = ranges.into_iter().filter(|range| !range.holds());
    let first = faults.next()?;
    let follows = |range: Range| matches!((first.letter, range.letter), ('R', 'S') | ('T', 'C'));
    faults.all(follows).then_some(first)
}

fn awaited_kind(state: State) -> Option<u8> {
    match state {
        State::Greeted => Some(1),
        State::Opening => Some(2),
        State::Answering => Some(3),
        State::Settling => Some(4),
        State::Closing => Some(5),
        State::Idle | State::Calling | State::Up => None,
    }
}

fn wait_sides(state: State) -> (Side, Side) {
    match state {
        State::Opening => (Side::WaitUnderOpening, Side::WaitAtOpening),
        State::Settling => (Side::WaitUnderSettling, Side::WaitAtSettling),
        State::Greeted => (Side::WaitUnderGreeted, Side::WaitAtGreeted),
        State::Answering => (Side::WaitUnderAnswering, Side::WaitAtAnswering),
        State::Closing => (Side::WaitUnderClosing, Side::WaitAtClosing),
        // Idle and Up wait otherwise and aren't asked about here.
        State::Calling | State::Idle | State::Up => (Side::WaitUnderCalling, Side::WaitAtCalling),
    }
}

/// Why the end left its connection in this step, if it did.
fn reason(step: &Step<'_>) -> Option<Reason> {
    if step.before.state == State::Idle {
        return None;
    }
    let again = matches!(step.event, Event::Connect) && step.has(&Output::Accept);
    if again {
        return Some(Reason::CalledAnew);
    }
    if step.after.state != State::Idle {
        return None;
    }
    Some(match step.reply.answer {
        8 => Reason::Wrong,
        9 => Reason::Old,
        10 => Reason::Lost,
        11 => Reason::Late,
        12 if step.was_up() => Reason::Silent,
        12 => Reason::Waited,
        _ => Reason::Disconnected,
    })
}
