//! The comparison finds what differs, and the pair finds what is wrong.

mod common;

use outside::compare::{difference, Plan};
use outside::cover::Cover;
use outside::pair;
use outside::script::Holder;
use outside::station::Station;
use outside::watch::Tally;

#[test]
fn no_difference() {
    assert_eq!(difference("0\n0 ask\n", "0\n0 ask\n"), None);
}

fn place(expected: &str, printed: &str) -> (usize, usize) {
    let found = difference(expected, printed).expect("a difference");
    (found.record, found.output)
}

#[test]
fn the_place_of_a_difference() {
    assert_eq!(place("0\n0 ask\n", "0\n1 ask\n"), (2, 0));
    assert_eq!(place("0\n0 ask\n", "0\n0\n"), (2, 1));
    assert_eq!(place("0 send 01 up\n", "0 send 02 up\n"), (1, 1));
    assert_eq!(place("0 send 01 up\n", "0 send 01 down\n"), (1, 2));
    assert_eq!(place("0 send 01\n", "0 send 01 up\n"), (1, 2));
    assert_eq!(place("0\n", "0\n3\n"), (2, 0));
    assert_eq!(place("0\n3\n", "0\n"), (2, 0));
    assert_eq!(place("0\n", "0"), (1, 1), "the line isn't ended");
}

#[test]
fn the_usual_scripts_meet_everything() {
    let mut cover = Cover::default();
    for source in (Plan { scripts: 300, seed: 1, long: true }).sources() {
        cover.run(&source.script);
    }
    let words: Vec<String> = cover.missing().iter().map(|point| point.to_string()).collect();
    assert!(words.is_empty(), "not met: {words:?}");
    assert!(cover.impossible().is_empty(), "met: {:?}", cover.impossible());
}

#[test]
fn own_ends_keep_the_demand() {
    let mut stations = [Station::Own(Holder::default()), Station::Own(Holder::default())];
    let mut tally = Tally::default();
    for seed in 1..=60 {
        pair::scene(&mut stations, &mut tally, seed).expect("no check fails");
    }
    pair::long_scene(&mut stations, &mut tally, 1).expect("no check fails");
    pair::enough(&tally, true).expect("enough was seen");
}
