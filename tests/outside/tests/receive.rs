//! The job that is timed delivers every message, as the program beside it does.

use outside::receive::{receive, INPUT};

#[test]
fn every_message_is_delivered() {
    let mut messages: [u8; INPUT] = *include_bytes!("../../../crates/receive/stdin");
    assert_eq!(receive(&mut messages), Ok(5_000_000));
    let printed = include_str!("../../../crates/receive/stdout");
    assert_eq!(printed, "5000000 delivered\n");
}
