//! The lines that answer the records: printed, and read back.

use crate::link::{Output, Reply};
use std::fmt::{self, Write as _};

/// What is printed for a record that is none.
pub const BAD: &str = "bad record";

impl fmt::Display for Output {
    fn fmt(&self, f: &mut fmt::Formatter<'_>) -> fmt::Result {
        match self {
            Output::Ask => f.write_str("ask"),
            Output::Accept => f.write_str("accept"),
            Output::Send(bytes) => write!(f, "send {}", hex(bytes)),
            Output::Data(bytes) => write!(f, "data {}", hex(bytes)),
            Output::Up => f.write_str("up"),
            Output::Error => f.write_str("error"),
            Output::Release => f.write_str("release"),
            Output::Down => f.write_str("down"),
        }
    }
}

impl fmt::Display for Reply {
    fn fmt(&self, f: &mut fmt::Formatter<'_>) -> fmt::Result {
        write!(f, "{}", self.answer)?;
        self.outputs.iter().try_for_each(|output| write!(f, " {output}"))
    }
}

pub fn hex(bytes: &[u8]) -> String {
    let mut text = String::with_capacity(2 * bytes.len());
    for byte in bytes {
        let _ = write!(text, "{byte:02x}"); // writing to a String can't fail
    }
    text
}

fn unhex(text: &str) -> Option<Vec<u8>> {
    let lower = |byte: &u8| matches!(byte, b'0'..=b'9' | b'a'..=b'f');
    if !text.len().is_multiple_of(2) || !text.as_bytes().iter().all(lower) {
        return None;
    }
    let pairs = (0..text.len()).step_by(2);
    pairs.map(|at| u8::from_str_radix(&text[at..at + 2], 16).ok()).collect()
}

impl Reply {
    /// Reads a printed line back.
    pub fn parse(line: &str) -> Result<Reply, String> {
        let mut words = line.split(' ');
        let number = words.next().unwrap_or_default();
        let answer = number.parse().map_err(|_| format!("no answer number in {line:?}"))?;
        let mut outputs = Vec::new();
        while let Some(word) = words.next() {
            outputs.push(match word {
                "ask" => Output::Ask,
                "accept" => Output::Accept,
                "up" => Output::Up,
                "error" => Output::Error,
                "release" => Output::Release,
                "down" => Output::Down,
                "send" | "data" => {
                    let bytes = words.next().and_then(unhex);
                    let bytes = bytes.ok_or_else(|| format!("no lower-case hex in {line:?}"))?;
                    if word == "send" {
                        Output::Send(bytes)
                    } else {
                        Output::Data(bytes)
                    }
                }
                other => return Err(format!("no output is called {other:?} in {line:?}")),
            });
        }
        Ok(Reply { answer, outputs })
    }
}
