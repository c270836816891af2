//! The Sunday script: the example of the rules, bad records, and input in
//! any pieces.

mod common;

use common::SETTINGS;
use outside::clock::Reading;
use outside::link::{Event, Reply};
use outside::plan;
use outside::record::{Make, Record, Records};
use outside::script::{lines, sunday};
use outside::settings::{Role, Settings};
use std::io::{self, Read};

fn written(records: &[Record<'_>]) -> Vec<u8> {
    let mut bytes = Vec::new();
    records.iter().for_each(|record| record.encode(&mut bytes, || 0x5a));
    bytes
}

fn make(role: Role, reading: u32, settings: Settings) -> Record<'static> {
    Record::Make(Make { role, reading: Reading(reading), settings })
}

fn event(reading: u32, event: Event<'_>) -> Record<'_> {
    Record::Event(Reading(reading), event)
}

fn example() -> Vec<u8> {
    written(&[
        make(Role::Initiator, 100, SETTINGS),
        event(100, Event::Tick),
        event(103, Event::Confirm),
        event(50, Event::Tick),
        event(603, Event::Tick),
        event(604, Event::Tick),
        event(1_100, Event::Tick),
    ])
}

const EXAMPLE_LINES: &str = "0
0 ask
0 send 010000000000670000000000000000
2
12 release
0
0 ask
";

#[test]
fn the_example_of_the_rules() {
    assert_eq!(lines(&example()), EXAMPLE_LINES);
}

#[test]
fn make_has_the_widths_of_the_rules() {
    let bytes = example();
    let expected: [u8; 33] = [
        1, 0, 0, 0, 0, 100, 0, 0, 0, 50, 0, 0, 0, 20, 0, 4, 2, 0, 0, 1, 0x2c, 0, 0, 0, 100, 0, 0,
        1, 0xf4, 0, 0, 3, 0xe8,
    ];
    assert_eq!(bytes[..33], expected);
}

#[test]
fn nothing_in_nothing_out() {
    assert_eq!(lines(&[]), "");
}

#[test]
fn before_a_valid_make_everything_answers_3() {
    let script = written(&[
        event(5, Event::Tick),
        make(Role::Called, 0, Settings { errors: 0, ..SETTINGS }),
        event(4, Event::Connect),
        event(3, Event::Data(&[])),
        event(2, Event::Message(&[])),
        make(Role::Called, 0, SETTINGS),
        event(2, Event::Connect),
    ]);
    assert_eq!(lines(&script), "3\n1\n3\n3\n3\n0\n0 accept\n");
}

#[test]
fn a_refused_make_keeps_the_end_and_a_valid_one_replaces_it() {
    let script = written(&[
        make(Role::Called, 0, SETTINGS),
        event(10, Event::Connect),
        make(Role::Called, 0, Settings { age: 0, ..SETTINGS }),
        event(11, Event::Disconnect),
        make(Role::Initiator, 0, SETTINGS),
        event(0, Event::Tick),
    ]);
    assert_eq!(lines(&script), "0\n0 accept\n1\n0\n0\n0 ask\n");
}

#[test]
fn bad_records_end_the_script() {
    let tick = written(&[event(5, Event::Tick)]);
    let mut bad_role = written(&[make(Role::Called, 0, SETTINGS)]);
    bad_role[1] = 2;
    let mut long_data = written(&[event(0, Event::Data(&[]))]);
    long_data[5] = 101;
    let mut long_message = written(&[event(0, Event::Message(&[]))]);
    long_message[5] = 129;
    let bad: [&[u8]; 7] =
        [&[0], &[8], &[255], &bad_role, &long_data, &long_message, &tick[..tick.len() - 1]];
    for ending in bad {
        let script = [&tick, ending].concat();
        assert_eq!(lines(&script), "3\nbad record\n");
        if ending.len() > 4 && ending[0] != 2 {
            let followed = [&script, tick.as_slice()].concat();
            assert_eq!(lines(&followed), "3\nbad record\n");
        }
    }
}

#[test]
fn full_fields_are_taken() {
    let script = written(&[event(0, Event::Data(&[1; 100])), event(0, Event::Message(&[1; 128]))]);
    assert_eq!(lines(&script), "3\n3\n");
}

/// Gives its bytes in pieces of a fixed size.
struct Pieces<'a>(&'a [u8], usize);

impl Read for Pieces<'_> {
    fn read(&mut self, buffer: &mut [u8]) -> io::Result<usize> {
        let count = self.1.min(self.0.len()).min(buffer.len());
        let (piece, rest) = self.0.split_at(count);
        buffer[..count].copy_from_slice(piece);
        self.0 = rest;
        Ok(count)
    }
}

#[test]
fn pieces_make_no_difference() {
    for seed in 1..20 {
        let script = plan::script(seed);
        for size in [1, 3, 134, 70_000] {
            let mut output = Vec::new();
            sunday(Pieces(&script, size), &mut output).expect("reading and writing can't fail");
            assert_eq!(output, lines(&script).into_bytes(), "seed {seed} in pieces of {size}");
        }
    }
}

#[test]
fn lines_read_back() {
    for line in lines(&plan::script(3)).lines().filter(|line| *line != "bad record") {
        let reply = Reply::parse(line).expect("own lines read back");
        assert_eq!(reply.to_string(), line);
    }
    for bad in ["", "x", "0 send", "0 send 0", "0 data AB", "0 jump", "0  ask", "256"] {
        assert!(Reply::parse(bad).is_err(), "{bad:?}");
    }
}

#[test]
fn records_read_back() {
    let script = plan::script(5);
    let mut again = Vec::new();
    let mut count = 0;
    for record in Records::of(&script).filter_map(Result::ok) {
        again.clear();
        record.encode(&mut again, || 0);
        let first = Records::of(&again).next().expect("one record").expect("a good one");
        assert_eq!(first, record);
        count += 1;
    }
    assert!(count > 100);
}
