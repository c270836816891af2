//! A script being written, with the end it talks to running alongside, so
//! that the writer knows what the end holds and sends.

use crate::dice::Dice;
use crate::link::{Reply, View};
use crate::record::Record;
use crate::script::Holder;

pub struct Tape {
    bytes: Vec<u8>,
    filler: Dice,
    holder: Holder,
}

impl Tape {
    pub fn new(filler: Dice) -> Tape {
        Tape { bytes: Vec::new(), filler, holder: Holder::default() }
    }

    /// Writes a record and gives the answer to it.
    pub fn put(&mut self, record: &Record<'_>) -> Reply {
        let filler = &mut self.filler;
        record.encode(&mut self.bytes, || filler.byte());
        self.holder.answer(record)
    }

    /// Writes bytes that may be no record; nothing may follow them.
    pub fn end_with(mut self, bytes: &[u8]) -> Vec<u8> {
        self.bytes.extend(bytes);
        self.bytes
    }

    pub fn view(&self) -> Option<View> {
        self.holder.end().map(|end| end.view())
    }

    pub fn into_bytes(self) -> Vec<u8> {
        self.bytes
    }
}
