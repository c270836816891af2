//! What is counted, and all of it that scripts can meet.

use crate::reach::{why_not, Kind, Situation};
use crate::settings::Role;
use crate::shapes::{Shape, SHAPES};
use crate::side::Side;
use std::fmt;

/// Why an end left its connection.
#[derive(Clone, Copy, PartialEq, Eq, Debug, PartialOrd, Ord)]
pub enum Reason {
    Wrong,
    Old,
    Lost,
    Late,
    Silent,
    Waited,
    Disconnected,
    CalledAnew,
}

const REASONS: [Reason; 8] = [
    Reason::Wrong,
    Reason::Old,
    Reason::Lost,
    Reason::Late,
    Reason::Silent,
    Reason::Waited,
    Reason::Disconnected,
    Reason::CalledAnew,
];

/// Where a setting lies in a make.
#[derive(Clone, Copy, PartialEq, Eq, Debug, PartialOrd, Ord)]
pub enum Place {
    Below,
    Low,
    High,
    Above,
}

/// Anything that is counted.
#[derive(Clone, Copy, PartialEq, Eq, Debug, PartialOrd, Ord)]
pub enum Point {
    Pair(Situation, Kind),
    Answer(Situation, Kind, u8),
    Side(Side),
    /// A message of this length was looked at.
    Length(usize),
    Shape(Shape),
    Setting(char, Place),
    /// An end of this role came Up after it left a connection so.
    Again(Role, Reason),
}

impl fmt::Display for Point {
    fn fmt(&self, f: &mut fmt::Formatter<'_>) -> fmt::Result {
        match self {
            Point::Pair(situation, kind) => write!(f, "{kind} in {situation}"),
            Point::Answer(situation, kind, answer) => {
                write!(f, "{kind} in {situation} answered {answer}")
            }
            Point::Side(side) => f.write_str(side.words()),
            Point::Length(length) => write!(f, "a message of {length} bytes looked at"),
            Point::Shape(shape) => write!(f, "a message of the shape {shape:?}"),
            Point::Setting(letter, place) => write!(f, "setting {letter} at {place:?}"),
            Point::Again(role, reason) => write!(f, "{role} Up again after {reason:?}"),
        }
    }
}

/// Everything that scripts can meet.
pub fn wanted() -> Vec<Point> {
    let mut points: Vec<Point> = Side::ALL.iter().copied().map(Point::Side).collect();
    for situation in Situation::ALL {
        for kind in Kind::ALL {
            points.push(Point::Pair(situation, kind));
            let can = (0..15).filter(|answer| why_not(situation, kind, *answer).is_none());
            points.extend(can.map(|answer| Point::Answer(situation, kind, answer)));
        }
    }
    points.extend((0..=128).map(Point::Length));
    points.extend(SHAPES.map(Point::Shape));
    for letter in "AWNERSTC".chars() {
        let places = [Place::Below, Place::Low, Place::High, Place::Above];
        let there = places.into_iter().filter(|place| (letter, *place) != ('W', Place::Below));
        points.extend(there.map(|place| Point::Setting(letter, place)));
    }
    for reason in REASONS {
        points.push(Point::Again(Role::Called, reason));
        if reason != Reason::CalledAnew {
            points.push(Point::Again(Role::Initiator, reason));
        }
    }
    points
}
