//! Rules between the answers: asking again, going down, sending.

mod common;

use common::{message, reply, sent, train, Bench, SETTINGS};
use outside::clock::Reading;
use outside::link::{Event, Output, State};
use outside::settings::{Role, Settings};
use outside::wire::Body;

#[test]
fn an_initiator_that_was_up_asks_at_once() {
    let mut bench = Bench::initiator_up(SETTINGS, 5_000, 0);
    assert_eq!(bench.say(Event::Disconnect), reply(0, &[Output::Down]));
    assert_eq!(bench.say(Event::Tick), reply(0, &[Output::Ask]));
    assert_eq!(bench.say(Event::Disconnect), reply(0, &[]), "asking ended that");
    assert_eq!(bench.at(5_999, Event::Tick), reply(0, &[]));
    assert_eq!(bench.at(6_000, Event::Tick), reply(0, &[Output::Ask]));
}

#[test]
fn a_call_takes_an_up_end_down_and_greets() {
    let mut bench = Bench::called_up(SETTINGS, 0);
    bench.say(Event::Data(&[1]));
    bench.say(Event::Data(&[2]));
    assert_eq!(bench.end.view().queued, 1);
    assert_eq!(bench.say(Event::Connect), reply(0, &[Output::Accept, Output::Down]));
    let view = bench.end.view();
    assert_eq!((view.state, view.queued, view.last, view.next), (State::Greeted, 0, 65_535, 0));
    assert_eq!(bench.say(Event::Connect), reply(0, &[Output::Accept]));
}

#[test]
fn indications_come_before_overdue() {
    let mut called = Bench::called_up(SETTINGS, 0);
    assert_eq!(called.at(300, Event::Connect), reply(0, &[Output::Accept, Output::Down]));
    let mut initiator = Bench::initiator_up(SETTINGS, 0, 0);
    assert_eq!(initiator.at(300, Event::Connect), reply(3, &[]));
    assert_eq!(initiator.at(301, Event::Disconnect), reply(0, &[Output::Down]));
}

#[test]
fn the_wait_restarts_at_confirm_and_not_at_messages() {
    let mut bench = Bench::new(Role::Initiator, SETTINGS, 0);
    bench.say(Event::Tick);
    bench.at(499, Event::Confirm);
    bench.now = 510;
    let answered = bench.hear(message(0, 0, 499, 11, Body::Start2));
    assert_eq!(answered.answer, 8, "the spread is 510 - 488 = 22");
    let mut bench = Bench::new(Role::Initiator, SETTINGS, 0);
    bench.say(Event::Tick);
    bench.at(499, Event::Confirm);
    bench.now = 510;
    assert_eq!(bench.hear(message(0, 0, 499, 0, Body::Start2)).answer, 0);
    assert_eq!(bench.at(998, Event::Tick), reply(0, &[]));
    assert_eq!(bench.at(999, Event::Tick), reply(12, &[Output::Release]));
}

#[test]
fn life_signs_and_the_mark_of_sending() {
    let mut bench = Bench::called_up(SETTINGS, 0);
    assert_eq!(bench.at(99, Event::Tick), reply(0, &[]));
    let sign = sent(&bench.at(100, Event::Tick)).expect("a life sign after S ticks");
    assert_eq!(sign.body, Body::LifeSign);
    assert_eq!(bench.say(Event::Data(&[1])), reply(0, &[]), "queued: the tick has sent");
    assert_eq!(sent(&bench.say(Event::Tick)).map(|m| m.body), Some(train(&[1])));
    assert_eq!(bench.say(Event::Tick), reply(0, &[]));
    assert!(sent(&bench.say(Event::Data(&[2]))).is_some(), "at once: the tick was quiet");
}

#[test]
fn a_queued_message_carries_the_reading_it_goes_at() {
    let mut bench = Bench::called_up(SETTINGS, 0);
    bench.say(Event::Data(&[1]));
    bench.at(10, Event::Data(&[2]));
    let went = sent(&bench.at(25, Event::Tick)).expect("the queued one goes");
    assert_eq!(went.stamps.sent, Reading(25));
    assert_eq!(went.body, train(&[2]));
}

#[test]
fn refused_messages_do_not_break_the_silence() {
    let mut bench = Bench::called_up(SETTINGS, 0);
    bench.now = 200;
    assert_eq!(bench.hear_data(3, 0).answer, 11);
    assert_eq!(bench.at(300, Event::Tick).answer, 12);
}

#[test]
fn stamps_echo_the_last_accepted() {
    let mut bench = Bench::called_up(SETTINGS, 1_000);
    bench.now = 1_010;
    bench.hear_data(3, 1_004);
    bench.now = 1_020;
    bench.hear_data(3, 1_018); // old, so not echoed
    let went = sent(&bench.say(Event::Data(&[1]))).expect("at once");
    assert_eq!(went.stamps.echo, Reading(1_004));
    assert_eq!(went.stamps.taken, Reading(1_010));
}

#[test]
fn an_idle_end_holds_nothing_of_its_connection() {
    let mut bench = Bench::initiator_up(SETTINGS, 5_000, 3);
    bench.say(Event::Data(&[1]));
    bench.say(Event::Data(&[2]));
    let mut expected = Bench::new(Role::Initiator, SETTINGS, 5_000).end.view();
    expected.asked = Reading(5_000);
    bench.say(Event::Disconnect);
    assert_eq!(bench.end.view(), expected);
}

#[test]
fn errors_at_1_take_the_link_down_at_the_first() {
    let mut bench = Bench::called_up(Settings { errors: 1, ..SETTINGS }, 0);
    let down = reply(9, &[Output::Error, Output::Release, Output::Down]);
    assert_eq!(bench.hear_data(2, 0), down);
}

#[test]
fn stamped_data_in_closing_are_not_awaited() {
    let mut bench = Bench::new(Role::Called, SETTINGS, 0);
    bench.say(Event::Connect);
    bench.hear(message(0, 0, 0, 0, Body::Start1));
    bench.hear(message(1, 0, 0, 0, Body::Start3));
    assert_eq!(bench.state(), State::Closing);
    assert_eq!(bench.hear_data(2, 0), reply(7, &[]));
    assert_eq!(bench.hear(message(2, 0, 0, 0, Body::Start5)), reply(0, &[Output::Up]));
}
