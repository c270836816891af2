//! One end of the link between radio block centres, written from the rules
//! alone, and the tools that hold another implementation against it.
//!
//! The end itself is in [`clock`], [`settings`], [`wire`] and [`link`]; the
//! Sunday script around it in [`record`], [`line`], [`script`] and [`words`].
//! [`dice`], [`tape`], [`shapes`], [`forge`], [`life`], [`plan`] and [`long`]
//! write scripts; [`cover`], [`point`], [`side`] and [`reach`] count what the
//! scripts met. [`program`], [`compare`], [`station`], [`watch`] and [`pair`]
//! deal with a program under test, [`args`] with the command line, and [`receive`]
//! is a job to be timed.

pub mod args;
pub mod clock;
pub mod compare;
pub mod cover;
pub mod dice;
pub mod forge;
pub mod life;
pub mod line;
pub mod link;
pub mod long;
pub mod pair;
pub mod plan;
pub mod point;
pub mod program;
pub mod reach;
pub mod receive;
pub mod record;
pub mod script;
pub mod settings;
pub mod shapes;
pub mod side;
pub mod station;
pub mod tape;
pub mod watch;
pub mod wire;
pub mod words;
