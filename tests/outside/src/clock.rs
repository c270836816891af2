//! Readings of a clock that wraps, and the offset between two clocks.

use std::fmt;

/// A step of this many ticks or more is taken for a clock that went back.
pub const HALF: u32 = 1 << 31;

/// What a clock shows, in ticks of 10 ms, modulo 2^32.
#[derive(Clone, Copy, PartialEq, Eq, Debug, Default)]
pub struct Reading(pub u32);

impl Reading {
    /// Ticks from `earlier` to here, modulo 2^32.
    pub fn since(self, earlier: Reading) -> u32 {
        self.0.wrapping_sub(earlier.0)
    }

    /// The reading `ticks` later.
    pub fn plus(self, ticks: u32) -> Reading {
        Reading(self.0.wrapping_add(ticks))
    }

    /// This end's reading less the peer's: one bound of the offset.
    pub fn less(self, peers: Reading) -> Offset {
        Offset(self.since(peers))
    }
}

impl fmt::Display for Reading {
    fn fmt(&self, f: &mut fmt::Formatter<'_>) -> fmt::Result {
        self.0.fmt(f)
    }
}

/// Own clock less the peer's clock, modulo 2^32; kept apart from [`Reading`]
/// so that the two can't be mixed.
#[derive(Clone, Copy, PartialEq, Eq, Debug, Default)]
pub struct Offset(pub u32);

impl Offset {
    /// The same offset as the peer would state it: 0 less this one.
    pub fn seen_by_peer(self) -> Offset {
        Offset(self.0.wrapping_neg())
    }
}

impl fmt::Display for Offset {
    fn fmt(&self, f: &mut fmt::Formatter<'_>) -> fmt::Result {
        self.0.fmt(f)
    }
}

/// The two bounds that the clock start measured.
#[derive(Clone, Copy, PartialEq, Eq, Debug, Default)]
pub struct Bounds {
    pub min: Offset,
    pub max: Offset,
}

impl Bounds {
    /// Maximum less minimum, modulo 2^32.
    pub fn spread(self) -> u32 {
        self.max.0.wrapping_sub(self.min.0)
    }
}

/// Age of a message: always by the minimum, so that it is never below the
/// true age.
pub fn age(now: Reading, sent: Reading, min: Offset) -> u32 {
    now.since(sent).wrapping_sub(min.0)
}
