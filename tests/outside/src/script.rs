//! The Sunday script: records in, lines out.

use crate::line::BAD;
use crate::link::{answer, End, Reply, ROOM};
use crate::record::{front, Front, Record, Records};
use std::io::{self, Read, Write};

/// The end a script talks to, if a valid make has made one.
#[derive(Clone, Debug, Default)]
pub struct Holder {
    end: Option<End>,
}

impl Holder {
    pub fn end(&self) -> Option<&End> {
        self.end.as_ref()
    }

    pub fn answer(&mut self, record: &Record<'_>) -> Reply {
        match record {
            Record::Make(make) => match End::make(make.role, make.settings, make.reading) {
                Ok(end) => {
                    self.end = Some(end);
                    Reply::bare(answer::HANDLED)
                }
                Err(_) => Reply::bare(answer::OUT_OF_RANGE),
            },
            Record::Event(reading, event) => match &mut self.end {
                Some(end) => end.step(*event, *reading, ROOM),
                None => Reply::bare(answer::NO_RULE),
            },
        }
    }
}

/// All the lines for a script held whole.
pub fn lines(script: &[u8]) -> String {
    let mut holder = Holder::default();
    let mut text = String::new();
    for record in Records::of(script) {
        let line = match record {
            Ok(record) => holder.answer(&record).to_string(),
            Err(_) => BAD.to_string(),
        };
        text.push_str(&line);
        text.push('\n');
    }
    text
}

/// Answers a script that comes in any pieces. Everything that can be answered
/// is flushed before more input is asked for, so that a partner who waits for
/// a line gets it.
pub fn sunday(mut input: impl Read, mut output: impl Write) -> io::Result<()> {
    let mut holder = Holder::default();
    let mut held: Vec<u8> = Vec::new();
    let mut piece = vec![0; 1 << 16];
    loop {
        let used = match answer_held(&mut holder, &held, &mut output)? {
            Some(used) => used,
            None => return output.flush(),
        };
        held.drain(..used);
        output.flush()?;
        match input.read(&mut piece) {
            Ok(0) => break,
            Ok(count) => held.extend(&piece[..count]),
            Err(error) if error.kind() == io::ErrorKind::Interrupted => {}
            Err(error) => return Err(error),
        }
    }
    if !held.is_empty() {
        writeln!(output, "{BAD}")?;
    }
    output.flush()
}

/// Answers every whole record held; gives the bytes used, or nothing when a
/// bad record has ended the script.
fn answer_held(
    holder: &mut Holder,
    held: &[u8],
    output: &mut impl Write,
) -> io::Result<Option<usize>> {
    let mut used = 0;
    loop {
        match front(&held[used..]) {
            Front::Whole(record, length) => {
                writeln!(output, "{}", holder.answer(&record))?;
                used += length;
            }
            Front::Partial => return Ok(Some(used)),
            Front::Bad(_) => {
                writeln!(output, "{BAD}")?;
                return Ok(None);
            }
        }
    }
}
