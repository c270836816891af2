//! A program under test: run over a whole script, or spoken to line by line.

use crate::dice::Dice;
use std::io::{self, BufRead, BufReader, Read, Write};
use std::process::{Child, ChildStdin, Command, ExitStatus, Stdio};
use std::sync::mpsc::{self, Receiver, RecvTimeoutError};
use std::thread;
use std::time::{Duration, Instant};

/// The words that start the program; an emulator may stand before it.
#[derive(Clone, Debug)]
pub struct Program {
    pub words: Vec<String>,
    /// How long it may take over what it is given.
    pub patience: Duration,
}

/// How a script is fed: all at once, or in pieces that cut records anywhere.
#[derive(Clone, Debug)]
pub enum Feeding {
    Whole,
    Pieces(Dice),
}

impl Feeding {
    fn feed(self, script: &[u8], mut input: impl Write) -> io::Result<()> {
        let Feeding::Pieces(mut dice) = self else {
            return input.write_all(script);
        };
        let mut rest = script;
        while !rest.is_empty() {
            let most = dice.pick(&[1, 5, 34, 134, 4_000, 70_000]);
            let (piece, more) =
                rest.split_at(dice.from_to(1, most).min(rest.len() as u32) as usize);
            input.write_all(piece)?;
            rest = more;
        }
        Ok(())
    }
}

/// What a run over a whole script came to.
pub struct Finished {
    pub text: Vec<u8>,
    pub status: ExitStatus,
}

impl Program {
    fn spawn(&self) -> Result<Child, String> {
        let (first, rest) = self.words.split_first().ok_or("no program given")?;
        Command::new(first)
            .args(rest)
            .stdin(Stdio::piped())
            .stdout(Stdio::piped())
            .spawn()
            .map_err(|error| format!("can't start {first:?}: {error}"))
    }

    /// Feeds the whole script and gathers all that is printed.
    pub fn run(&self, script: &[u8], feeding: Feeding) -> Result<Finished, String> {
        let mut child = self.spawn()?;
        let input = child.stdin.take();
        let output = child.stdout.take();
        thread::scope(|scope| {
            // The program may end before it has read everything; that shows
            // in what it printed, not here.
            scope.spawn(move || input.map(|input| feeding.feed(script, input)));
            let (tell, told) = mpsc::channel();
            scope.spawn(move || {
                let mut text = Vec::new();
                let read = output.map(|mut output| output.read_to_end(&mut text));
                tell.send(read.map(|result| result.map(|_| text)))
            });
            let printed = told.recv_timeout(self.patience);
            if printed.is_err() {
                let _ = child.kill(); // it may have ended just now
            }
            let status = child.wait().map_err(|error| format!("can't await it: {error}"))?;
            match printed {
                Ok(Some(Ok(text))) => Ok(Finished { text, status }),
                Ok(Some(Err(error))) => Err(format!("can't read what it prints: {error}")),
                Ok(None) => Err("it has no output".to_string()),
                Err(_) => Err(format!("it was not done within {:?}", self.patience)),
            }
        })
    }

    /// Starts it to be spoken to.
    pub fn talk(&self) -> Result<Talk, String> {
        let mut child = self.spawn()?;
        let input = child.stdin.take();
        let output = child.stdout.take().ok_or("it has no output")?;
        let (tell, lines) = mpsc::channel();
        thread::spawn(move || {
            for line in BufReader::new(output).lines() {
                if tell.send(line.map_err(|error| error.to_string())).is_err() {
                    break;
                }
            }
        });
        Ok(Talk { child, input, lines, patience: self.patience })
    }
}

/// A program that is given a record and asked for a line, in turn.
pub struct Talk {
    child: Child,
    input: Option<ChildStdin>,
    lines: Receiver<Result<String, String>>,
    patience: Duration,
}

impl Talk {
    pub fn ask(&mut self, record: &[u8]) -> Result<String, String> {
        let input = self.input.as_mut().ok_or("it has no input")?;
        let written = input.write_all(record).and_then(|()| input.flush());
        written.map_err(|error| format!("it takes no more records: {error}"))?;
        match self.lines.recv_timeout(self.patience) {
            Ok(line) => line,
            Err(RecvTimeoutError::Timeout) => Err(format!(
                "no line within {:?}: does it answer what it has got before it reads on?",
                self.patience
            )),
            Err(RecvTimeoutError::Disconnected) => Err("it has ended".to_string()),
        }
    }
}

impl Drop for Talk {
    /// The end of its input should end it; if not, it is stopped.
    fn drop(&mut self) {
        self.input = None;
        let begun = Instant::now();
        while begun.elapsed() < Duration::from_secs(2) {
            if !matches!(self.child.try_wait(), Ok(None)) {
                return;
            }
            thread::sleep(Duration::from_millis(2));
        }
        let _ = self.child.kill();
        let _ = self.child.wait();
    }
}
