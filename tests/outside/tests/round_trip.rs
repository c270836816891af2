//! Every message written reads back as the same fields, and every message
//! read is written with the same bytes.

mod common;

use common::message;
use outside::clock::{Bounds, Offset};
use outside::dice::Dice;
use outside::forge;
use outside::wire::{Body, Malformed, Message, Train, LONGEST};

fn any_body(dice: &mut Dice) -> Body {
    let bounds = Bounds { min: Offset(dice.word()), max: Offset(dice.word()) };
    let length = dice.from_to(1, 100) as usize;
    let train = Train::new(&dice.bytes(length)).expect("1 to 100 bytes");
    let bodies = [
        Body::Start1,
        Body::Start2,
        Body::Start3,
        Body::Start4(bounds),
        Body::Start5,
        Body::LifeSign,
        Body::Train(train),
    ];
    bodies[dice.index(bodies.len())].clone()
}

#[test]
fn written_reads_back() {
    let mut dice = Dice::new(1);
    for _ in 0..20_000 {
        let body = any_body(&mut dice);
        let number = dice.word() as u16;
        let written = message(number, dice.word(), dice.word(), dice.word(), body);
        assert_eq!(Message::decode(&written.encode()), Ok(written));
    }
}

#[test]
fn read_writes_back() {
    let mut dice = Dice::new(2);
    let mut read = 0;
    for _ in 0..50_000 {
        let body = any_body(&mut dice);
        let whole = message(0, dice.word(), dice.word(), dice.word(), body).encode();
        let bytes = forge::damage(&mut dice, whole);
        if let Ok(message) = Message::decode(&bytes) {
            assert_eq!(message.encode(), bytes);
            read += 1;
        }
    }
    assert!(read > 1_000, "only {read} of the damaged messages were well formed");
}

#[test]
fn lengths() {
    for (kind, length) in [(1, 15), (2, 15), (3, 15), (4, 23), (5, 15)] {
        for tried in 0..=128 {
            let mut bytes = vec![0; tried];
            if let Some(first) = bytes.first_mut() {
                *first = kind;
            }
            assert_eq!(Message::decode(&bytes).is_ok(), tried == length, "kind {kind} of {tried}");
        }
    }
}

#[test]
fn payloads() {
    for first in 0..=255 {
        for tried in 16..=128 {
            let mut bytes = vec![9; tried];
            bytes[0] = 6;
            bytes[15] = first;
            let sign = first == 2 && tried == 16;
            let train = first == 3 && (17..=116).contains(&tried);
            assert_eq!(Message::decode(&bytes).is_ok(), sign || train, "{first} of {tried}");
        }
    }
}

#[test]
fn kinds() {
    for kind in (0..=0).chain(7..=255) {
        let mut bytes = vec![0; 15];
        bytes[0] = kind;
        assert_eq!(Message::decode(&bytes), Err(Malformed::UnknownKind(kind)));
    }
    assert_eq!(Message::decode(&[]), Err(Malformed::Empty));
    assert_eq!(Message::decode(&[6; 15]), Err(Malformed::Length { kind: 6, length: 15 }));
}

#[test]
fn the_longest_message_fits_the_least_output() {
    let body = Body::Train(Train::new(&[0; 100]).expect("100 bytes"));
    assert_eq!(message(0, 0, 0, 0, body).encode().len(), LONGEST);
    assert_eq!(LONGEST, 116);
    assert_eq!(Train::new(&[]), Err(Malformed::TrainLength(0)));
    assert_eq!(Train::new(&[0; 101]), Err(Malformed::TrainLength(101)));
}

#[test]
fn bytes_stand_where_the_rules_put_them() {
    let bounds = Bounds { min: Offset(0x1112_1314), max: Offset(0x1516_1718) };
    let bytes = message(0x0203, 0x0405_0607, 0x0809_0a0b, 0x0c0d_0e0f, Body::Start4(bounds));
    let expected: Vec<u8> = [4].into_iter().chain(2..=15).chain(0x11..=0x18).collect();
    assert_eq!(bytes.encode(), expected);
}
