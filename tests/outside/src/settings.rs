//! The numbers the installer sets, and their ranges.

use std::fmt;

#[derive(Clone, Copy, PartialEq, Eq, Debug, PartialOrd, Ord)]
pub enum Role {
    Initiator,
    Called,
}

impl fmt::Display for Role {
    fn fmt(&self, f: &mut fmt::Formatter<'_>) -> fmt::Result {
        f.write_str(match self {
            Role::Initiator => "initiator",
            Role::Called => "called",
        })
    }
}

/// The eight settings, by the letters of the rules.
#[derive(Clone, Copy, PartialEq, Eq, Debug)]
pub struct Settings {
    /// A, the age limit.
    pub age: u32,
    /// W, the spread limit.
    pub spread: u32,
    /// N, the jump limit.
    pub jump: u16,
    /// E, the error limit.
    pub errors: u8,
    /// R, the silence.
    pub silence: u32,
    /// S, the life-sign interval.
    pub life_sign: u32,
    /// T, the start wait.
    pub start_wait: u32,
    /// C, the retry interval.
    pub retry: u32,
}

/// One setting with the range it must lie in.
#[derive(Clone, Copy, PartialEq, Eq, Debug)]
pub struct Range {
    pub letter: char,
    pub value: u32,
    pub low: u32,
    pub high: u32,
}

impl Range {
    pub fn holds(&self) -> bool {
        (self.low..=self.high).contains(&self.value)
    }
}

/// Names the first setting that is out of range.
#[derive(Clone, Copy, PartialEq, Eq, Debug)]
pub struct OutOfRange(pub Range);

impl fmt::Display for OutOfRange {
    fn fmt(&self, f: &mut fmt::Formatter<'_>) -> fmt::Result {
        let Range { letter, value, low, high } = self.0;
        write!(f, "setting {letter} is {value}, must be {low} to {high}")
    }
}

impl std::error::Error for OutOfRange {}

impl Settings {
    /// Every setting with its range, in the order of the make record.
    pub fn ranges(&self) -> [Range; 8] {
        let range = |letter, value, low, high| Range { letter, value, low, high };
        [
            range('A', self.age, 1, 100_000),
            range('W', self.spread, 0, 100_000),
            range('N', self.jump.into(), 1, 1_000),
            range('E', self.errors.into(), 1, 2),
            range('R', self.silence, 2, 1_000_000),
            // With R at 0 the range is empty, and R itself is refused.
            range('S', self.life_sign, 1, self.silence.saturating_sub(1)),
            range('T', self.start_wait, 1, 1_000_000),
            range('C', self.retry, self.start_wait, 1_000_000),
        ]
    }

    pub fn check(&self) -> Result<(), OutOfRange> {
        match self.ranges().into_iter().find(|range| !range.holds()) {
            Some(range) => Err(OutOfRange(range)),
            None => Ok(()),
        }
    }
}
