//! Each answer, what it leaves, and what comes out with it.

mod common;

use common::{message, reply, sent, train, Bench, SETTINGS};
use outside::clock::{Bounds, Offset, Reading};
use outside::link::{End, Event, Output, State, ROOM};
use outside::settings::{Role, Settings};
use outside::wire::Body;

#[test]
fn answer_0_handled() {
    let mut bench = Bench::new(Role::Initiator, SETTINGS, 100);
    assert_eq!(bench.say(Event::Tick), reply(0, &[Output::Ask]));
    assert_eq!(bench.state(), State::Calling);
}

/// Tries one setting at several values, the others staying as they are.
fn try_setting(letter: char, set: fn(&mut Settings, u32), values: &[(u32, bool)]) {
    for (value, taken) in values {
        let mut settings = SETTINGS;
        set(&mut settings, *value);
        let made = End::make(Role::Called, settings, Reading(0));
        assert_eq!(made.is_ok(), *taken, "setting {letter} at {value}");
    }
}

/// Each bound and one beyond it.
#[test]
fn answer_1_settings() {
    let whole = [(0, false), (1, true), (1_000_000, true), (1_000_001, false)];
    try_setting('A', |s, v| s.age = v, &[(0, false), (1, true), (100_000, true), (100_001, false)]);
    try_setting('W', |s, v| s.spread = v, &[(0, true), (100_000, true), (100_001, false)]);
    let jumps = [(0, false), (1, true), (1_000, true), (1_001, false)];
    try_setting('N', |s, v| s.jump = v as u16, &jumps);
    try_setting('E', |s, v| s.errors = v as u8, &[(0, false), (1, true), (2, true), (3, false)]);
    let silence = |s: &mut Settings, v| (s.silence, s.life_sign) = (v, 1);
    try_setting('R', silence, &[(0, false), (1, false), (2, true), (1_000_000, true)]);
    try_setting('R', silence, &[(1_000_001, false)]);
    let signs = [(0, false), (1, true), (299, true), (300, false)];
    try_setting('S', |s, v| s.life_sign = v, &signs);
    try_setting('T', |s, v| (s.start_wait, s.retry) = (v, v.max(1_000)), &whole);
    let retries = [(499, false), (500, true), (1_000_000, true), (1_000_001, false)];
    try_setting('C', |s, v| s.retry = v, &retries);
}

#[test]
fn answer_1_names_the_setting() {
    let settings = Settings { errors: 3, ..SETTINGS };
    let refused = End::make(Role::Called, settings, Reading(0)).expect_err("E is 3");
    assert_eq!(refused.to_string(), "setting E is 3, must be 1 to 2");
}

#[test]
fn answer_2_leaves_everything() {
    let mut bench = Bench::initiator_up(SETTINGS, 5_000, 0);
    let before = bench.end.view();
    for event in [Event::Tick, Event::Connect, Event::Disconnect, Event::Data(&[])] {
        assert_eq!(bench.at(4_999, event), reply(2, &[]));
        assert_eq!(bench.end.view(), before);
    }
}

#[test]
fn answer_3_takes_the_reading_only() {
    let mut bench = Bench::new(Role::Initiator, SETTINGS, 0);
    let before = bench.end.view();
    let events =
        [Event::Connect, Event::Disconnect, Event::Confirm, Event::Data(&[]), Event::Message(&[])];
    for (now, event) in (1..).zip(events) {
        assert_eq!(bench.at(now, event), reply(3, &[]));
        let mut expected = before;
        expected.reading = Reading(now);
        assert_eq!(bench.end.view(), expected);
    }
}

#[test]
fn answer_4_data_length() {
    let mut bench = Bench::initiator_up(SETTINGS, 5_000, 0);
    assert_eq!(bench.say(Event::Data(&[])), reply(4, &[]));
    assert_eq!(bench.say(Event::Data(&[1; 101])), reply(4, &[]));
    let went = sent(&bench.say(Event::Data(&[1; 100]))).expect("100 bytes go at once");
    assert_eq!(went.body, train(&[1; 100]));
}

#[test]
fn answer_5_queue_full() {
    let mut bench = Bench::initiator_up(SETTINGS, 5_000, 0);
    assert!(sent(&bench.say(Event::Data(&[0]))).is_some());
    for place in 1..=8 {
        assert_eq!(bench.say(Event::Data(&[place])), reply(0, &[]));
    }
    assert_eq!(bench.say(Event::Data(&[9])), reply(5, &[]));
    assert_eq!(bench.say(Event::Data(&[])), reply(4, &[]), "the length is judged first");
    for place in 1..=8 {
        let went = sent(&bench.say(Event::Tick)).expect("the oldest goes");
        assert_eq!(went.body, train(&[place]));
    }
    assert_eq!(bench.say(Event::Tick), reply(0, &[]));
}

#[test]
fn answer_6_not_well_formed() {
    let mut bench = Bench::called_up(SETTINGS, 0);
    let before = bench.end.view();
    assert_eq!(bench.say(Event::Message(&[6; 15])), reply(6, &[]));
    assert_eq!(bench.end.view(), before);
}

#[test]
fn answer_7_not_awaited() {
    let mut up = Bench::called_up(SETTINGS, 0);
    assert_eq!(up.hear(message(3, 0, 0, 0, Body::Start5)), reply(7, &[]));
    let mut greeted = Bench::new(Role::Called, SETTINGS, 0);
    greeted.say(Event::Connect);
    assert_eq!(greeted.hear(message(1, 0, 0, 0, Body::Start1)), reply(7, &[]));
    assert_eq!(greeted.hear(message(0, 0, 0, 0, Body::Start3)), reply(7, &[]));
    assert_eq!(greeted.hear(message(0, 0, 0, 0, Body::Start1)).answer, 0);
}

fn settling() -> Bench {
    let mut bench = Bench::new(Role::Initiator, SETTINGS, 5_000);
    bench.say(Event::Tick);
    bench.say(Event::Confirm);
    bench.hear(message(0, 4_000, 5_000, 4_000, Body::Start2));
    assert_eq!(bench.state(), State::Settling);
    bench
}

#[test]
fn answer_8_minimum() {
    let right = Offset(1_000).seen_by_peer();
    for (min, answer) in [(right, 0), (Offset(right.0 + 1), 8)] {
        let bounds = Bounds { min, max: Offset(77) };
        let answered = settling().hear(message(1, 0, 0, 0, Body::Start4(bounds)));
        assert_eq!(answered.answer, answer);
        assert_eq!(answered.outputs.contains(&Output::Release), answer == 8);
    }
}

#[test]
fn answer_8_echo() {
    let mut bench = Bench::new(Role::Initiator, SETTINGS, 5_000);
    bench.say(Event::Tick);
    bench.say(Event::Confirm);
    let answered = bench.hear(message(0, 4_000, 4_999, 4_000, Body::Start2));
    assert_eq!(answered, reply(8, &[Output::Release]));
    let view = bench.end.view();
    assert_eq!((view.state, view.last, view.next), (State::Idle, 0, 0));
}

#[test]
fn answer_9_old() {
    let mut bench = Bench::called_up(SETTINGS, 0);
    assert_eq!(bench.hear_data(2, 0), reply(9, &[Output::Error]));
    assert_eq!(bench.hear_data(2, 0), reply(9, &[Output::Error, Output::Release, Output::Down]));
    assert_eq!(bench.state(), State::Idle);
}

#[test]
fn answer_10_lost() {
    let mut bench = Bench::called_up(SETTINGS, 0);
    assert_eq!(bench.hear_data(2 + 5, 0), reply(10, &[Output::Release, Output::Down]));
}

#[test]
fn answer_11_late() {
    let mut bench = Bench::called_up(SETTINGS, 100);
    bench.now = 160;
    assert_eq!(bench.hear_data(3, 109), reply(11, &[Output::Error]));
    assert_eq!(bench.hear_data(3, 110), reply(0, &[Output::Data(vec![7])]), "last didn't move");
    assert_eq!(bench.hear_data(4, 109), reply(11, &[Output::Error]), "the count began anew");
    let down = reply(11, &[Output::Error, Output::Release, Output::Down]);
    assert_eq!(bench.hear_data(4, 109), down);
}

#[test]
fn answer_12_silence() {
    let mut bench = Bench::called_up(SETTINGS, 0);
    assert_eq!(bench.at(299, Event::Data(&[])).answer, 4);
    assert_eq!(bench.at(300, Event::Data(&[])), reply(12, &[Output::Release, Output::Down]));
    assert_eq!(bench.state(), State::Idle);
}

#[test]
fn answer_12_start_wait() {
    let mut bench = Bench::new(Role::Called, SETTINGS, 0);
    bench.say(Event::Connect);
    assert_eq!(bench.at(499, Event::Confirm).answer, 3);
    assert_eq!(bench.at(500, Event::Confirm), reply(12, &[Output::Release]));
}

#[test]
fn answer_13_gap() {
    let mut bench = Bench::called_up(SETTINGS, 0);
    assert_eq!(bench.hear_data(4, 0), reply(13, &[Output::Data(vec![7]), Output::Error]));
    let sign = bench.hear(message(8, 0, 0, 0, Body::LifeSign));
    assert_eq!(sign, reply(13, &[Output::Error]));
    assert_eq!(bench.hear_data(9, 0).answer, 0);
}

#[test]
fn answer_14_leaves_everything() {
    let mut bench = Bench::called_up(SETTINGS, 0);
    let before = bench.end.view();
    for room in [0, 1, ROOM - 1] {
        // It is judged before everything, the clock included.
        for reading in [0, 1_000, u32::MAX] {
            let answered = bench.end.step(Event::Connect, Reading(reading), room);
            assert_eq!(answered, reply(14, &[]));
            assert_eq!(bench.end.view(), before);
        }
    }
    assert_eq!(bench.end.step(Event::Tick, Reading(1), ROOM).answer, 0);
}
