//! The figures of the rules, "Both sides of each line".

mod common;

use common::{message, reply, sent, train, Bench, SETTINGS};
use outside::clock::{age, Offset, Reading};
use outside::link::{Event, Output, State};
use outside::settings::{Role, Settings};
use outside::wire::Body;

/// An end Up that has accepted number 65,534 last, reached by strides of N.
fn last_65534() -> Bench {
    let mut bench = Bench::initiator_up(SETTINGS, 5_000, 0);
    let mut last: u16 = 1;
    while last < 65_534 {
        last += (65_534 - last).min(4);
        assert!(matches!(bench.hear_data(last, 5_000).answer, 0 | 13));
    }
    assert_eq!(bench.end.view().last, 65_534);
    bench
}

#[test]
fn seven_classes_of_number() {
    let figures = [(65_535, 0), (0, 13), (2, 13), (3, 10), (32_765, 10), (32_766, 9), (65_534, 9)];
    let bench = last_65534();
    for (number, answer) in figures {
        let mut fresh = Bench { end: bench.end.clone(), now: bench.now };
        assert_eq!(fresh.hear_data(number, 5_000).answer, answer, "number {number}");
    }
}

fn opening(spread: u32) -> Bench {
    let mut bench = Bench::new(Role::Initiator, Settings { spread, ..SETTINGS }, 4_990);
    bench.say(Event::Tick);
    bench.at(5_000, Event::Confirm);
    bench
}

#[test]
fn initiator_measures_994_to_1003() {
    let mut bench = opening(9);
    bench.now = 5_009;
    let answered = bench.hear(message(0, 4_006, 5_000, 4_006, Body::Start2));
    assert_eq!(answered.answer, 0);
    let bounds = bench.end.view().bounds;
    assert_eq!((bounds.min, bounds.max, bounds.spread()), (Offset(994), Offset(1_003), 9));
    let third = sent(&answered).expect("kind 3 goes out");
    assert_eq!(third, message(1, 5_009, 4_006, 5_009, Body::Start3));
}

#[test]
fn spread_9_is_too_wide_for_8() {
    let mut bench = opening(8);
    bench.now = 5_009;
    let answered = bench.hear(message(0, 4_006, 5_000, 4_006, Body::Start2));
    assert_eq!(answered, reply(8, &[Output::Release]));
    assert_eq!(bench.state(), State::Idle);
}

#[test]
fn called_end_measures_7() {
    for (spread, answer) in [(7, 0), (6, 8)] {
        let mut bench = Bench::new(Role::Called, Settings { spread, ..SETTINGS }, 4_000);
        bench.say(Event::Connect);
        bench.now = 4_006;
        let second = sent(&bench.hear(message(0, 5_000, 0, 0, Body::Start1)));
        assert_eq!(second, Some(message(0, 4_006, 5_000, 4_006, Body::Start2)));
        bench.now = 4_013;
        let answered = bench.hear(message(1, 5_009, 4_006, 5_009, Body::Start3));
        assert_eq!(answered.answer, answer);
        if let Some(fourth) = sent(&answered) {
            let Body::Start4(bounds) = fourth.body else {
                panic!("kind 4 was to come");
            };
            assert_eq!(bounds.min, Offset(4_294_966_293));
            assert_eq!(bounds.max, Offset(4_294_966_300));
            assert_eq!(bounds.spread(), 7);
            assert_eq!(bounds.min, Offset(1_003).seen_by_peer());
        }
    }
}

#[test]
fn ages_18_and_12() {
    assert_eq!(age(Reading(5_112), Reading(4_100), Offset(994)), 18);
    assert_eq!(age(Reading(1_000), Reading(4_294_967_290), Offset(994)), 12);
}

#[test]
fn age_18_decides_at_an_end() {
    for (limit, answer) in [(18, 0), (17, 11)] {
        let mut bench = Bench::initiator_up(Settings { age: limit, ..SETTINGS }, 5_000, 994);
        bench.now = 5_112;
        assert_eq!(bench.hear_data(2, 4_100).answer, answer);
    }
}

#[test]
fn age_12_over_the_wrap_decides_at_an_end() {
    for (limit, answer) in [(12, 0), (11, 11)] {
        let mut bench = Bench::initiator_up(Settings { age: limit, ..SETTINGS }, 990, 994);
        bench.now = 1_000;
        assert_eq!(bench.hear_data(2, 4_294_967_290).answer, answer);
    }
}

#[test]
fn age_50_is_delivered_and_51_is_late() {
    for (now, answer) in [(5_050, 0), (5_051, 11)] {
        let mut bench = Bench::initiator_up(SETTINGS, 5_000, 0);
        bench.now = now;
        let answered = bench.hear(message(2, 5_000, 0, 0, train(&[1, 2])));
        assert_eq!(answered.answer, answer);
        let delivered = answered.outputs.contains(&Output::Data(vec![1, 2]));
        assert_eq!(delivered, answer == 0);
    }
}

#[test]
fn a_step_of_half_the_clock_is_back() {
    let mut bench = Bench::new(Role::Called, SETTINGS, 10);
    assert_eq!(bench.at(2_147_483_658, Event::Tick).answer, 2);
    assert_eq!(bench.end.view().reading, Reading(10));
    assert_eq!(bench.at(2_147_483_657, Event::Tick).answer, 0);
    assert_eq!(bench.end.view().reading, Reading(2_147_483_657));
}
