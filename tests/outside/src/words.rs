//! Scripts in the words of docs/SCRIPTS.md, so that what is reported here can
//! be pasted into a scene. Filler is left out: nobody reads it.

use crate::link::{Event, Output, Reply};
use crate::record::{front, record_length, Front, Make, Record};
use crate::wire::{Body, Message};
use std::io::{self, Write};

/// From this many equal bytes on, a run is written as a byte and a count.
const SHORTEST_RUN: usize = 5;
/// Numbers that are nearer to 2^32 than this are written from there.
const NEAR_WRAP: u32 = 10_000;
/// Where the answers stand.
const COLUMN: usize = 32;
/// What a record gets that comes after a bad one.
const NOTHING: &str = "nothing";

pub fn record_in_words(record: &Record<'_>) -> String {
    match record {
        Record::Make(make) => make_in_words(make),
        Record::Event(reading, event) => {
            let reading = number_in_words(reading.0);
            match event {
                Event::Tick => format!("tick {reading}"),
                Event::Connect => format!("connect {reading}"),
                Event::Confirm => format!("confirm {reading}"),
                Event::Disconnect => format!("disconnect {reading}"),
                Event::Data(data) => format!("data {reading} {}", bytes_in_words(data)),
                Event::Message(bytes) => format!("message {reading} {}", message_in_words(bytes)),
            }
        }
    }
}

fn make_in_words(make: &Make) -> String {
    let settings = &make.settings;
    let named = [
        ("at", make.reading.0),
        ("age", settings.age),
        ("spread", settings.spread),
        ("jump", settings.jump.into()),
        ("errors", settings.errors.into()),
        ("silence", settings.silence),
        ("life-sign", settings.life_sign),
        ("wait", settings.start_wait),
        ("retry", settings.retry),
    ];
    let words = named.map(|(name, value)| format!("{name} {}", number_in_words(value)));
    format!("make {} {}", make.role, words.join(" "))
}

pub fn message_in_words(bytes: &[u8]) -> String {
    let Ok(message) = Message::decode(bytes) else {
        return format!("bytes {}", bytes_in_words(bytes));
    };
    let (name, rest) = match &message.body {
        Body::Start1 => ("start", String::new()),
        Body::Start2 => ("answ1", String::new()),
        Body::Start3 => ("answ2", String::new()),
        Body::Start4(bounds) => {
            let (min, max) = (offset_in_words(bounds.min.0), offset_in_words(bounds.max.0));
            ("est", format!(" minimum {min} maximum {max}"))
        }
        Body::Start5 => ("end", String::new()),
        Body::LifeSign => ("life-sign", String::new()),
        Body::Train(train) => ("train", format!(" data {}", bytes_in_words(train.bytes()))),
    };
    let stamps = message.stamps;
    let [sent, echo, taken] =
        [stamps.sent, stamps.echo, stamps.taken].map(|stamp| number_in_words(stamp.0));
    format!("{name} number {} sent {sent} echo {echo} receipt {taken}{rest}", message.number)
}

/// A printed line; as it is, if it is no answer of an end.
pub fn answer_in_words(line: &str) -> String {
    let Ok(reply) = Reply::parse(line) else {
        return line.to_string();
    };
    let outputs = reply.outputs.iter().map(|output| match output {
        Output::Send(bytes) => format!(" send {}", message_in_words(bytes)),
        Output::Data(bytes) => format!(" data {}", bytes_in_words(bytes)),
        sign => format!(" {sign}"),
    });
    format!("{}{}", reply.answer, outputs.collect::<String>())
}

fn number_in_words(value: u32) -> String {
    match value.wrapping_neg() {
        below @ 1..NEAR_WRAP => format!("2^32-{below}"),
        _ => value.to_string(),
    }
}

/// An offset with its sign: the nearer of the two ways round.
fn offset_in_words(value: u32) -> String {
    (value as i32).to_string()
}

/// Hex, with long runs of one byte as a byte and a count.
fn bytes_in_words(bytes: &[u8]) -> String {
    let mut pieces: Vec<String> = Vec::new();
    let mut plain = String::new();
    for run in bytes.chunk_by(|a, b| a == b) {
        if run.len() < SHORTEST_RUN {
            run.iter().for_each(|byte| plain.push_str(&format!("{byte:02x}")));
            continue;
        }
        if !plain.is_empty() {
            pieces.push(std::mem::take(&mut plain));
        }
        pieces.push(format!("{:02x}*{}", run[0], run.len()));
    }
    if !plain.is_empty() {
        pieces.push(plain);
    }
    if pieces.is_empty() {
        return "empty".to_string();
    }
    pieces.join(" ")
}

/// A record and its answer as they stand in a scene.
pub fn laid_out(words: &str, answer: &str) -> String {
    if words.len() < COLUMN {
        format!("{words:COLUMN$}-> {answer}")
    } else {
        format!("{words}\n{:COLUMN$}-> {answer}", "")
    }
}

/// The bytes of a script record by record, good and bad. An unknown kind
/// counts as a record of one byte, so that none is lost.
pub fn pieces(script: &[u8]) -> Vec<&[u8]> {
    let mut pieces = Vec::new();
    let mut rest = script;
    while let Some(kind) = rest.first() {
        let length = record_length(*kind).unwrap_or(1).min(rest.len());
        let (piece, more) = rest.split_at(length);
        pieces.push(piece);
        rest = more;
    }
    pieces
}

pub fn piece_in_words(piece: &[u8]) -> String {
    match front(piece) {
        Front::Whole(record, _) => record_in_words(&record),
        Front::Partial | Front::Bad(_) => format!("record {}", bytes_in_words(piece)),
    }
}

/// A whole script with the lines it gets, as a scene. After a bad record
/// there are none.
pub fn script_in_words(script: &[u8], lines: &str) -> String {
    let mut lines = lines.lines();
    let mut text = String::new();
    for piece in pieces(script) {
        let answer = lines.next().map_or(NOTHING.to_string(), answer_in_words);
        text.push_str(&laid_out(&piece_in_words(piece), &answer));
        text.push('\n');
    }
    text
}

/// Prints a script with the answers that the rules give.
pub fn print_script(script: &[u8], mut output: impl Write) -> io::Result<()> {
    let text = script_in_words(script, &crate::script::lines(script));
    output.write_all(text.as_bytes())?;
    output.flush()
}
