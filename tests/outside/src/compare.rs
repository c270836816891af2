//! Holds what a program prints against what it should.

use crate::cover::Cover;
use crate::dice::Dice;
use crate::line::BAD;
use crate::long;
use crate::plan;
use crate::program::{Feeding, Program};
use crate::record::{front, Front, Record};
use crate::settings::Role;
use crate::words::{answer_in_words, laid_out, piece_in_words, pieces, script_in_words};
use std::fmt;
use std::fs;
use std::path::Path;

/// More records of a scene than this are not all printed.
const PRINTED: usize = 400;
/// More of a line than this is not printed; the longest good line is shorter.
const LINE: usize = 400;
/// What stands above the scene that a difference is told with.
const SCENE: &str = "The records since the last valid make, with the answers that they must get:";

/// What to run and how much of it.
pub struct Plan {
    pub scripts: u64,
    pub seed: u64,
    /// The long lives, too.
    pub long: bool,
}

/// A script and how it came about.
pub struct Source {
    pub name: String,
    pub script: Vec<u8>,
    pub feeding: Feeding,
}

impl Plan {
    /// All the scripts, one after another.
    pub fn sources(&self) -> impl Iterator<Item = Source> + '_ {
        let usual = (self.seed..self.seed.saturating_add(self.scripts)).map(|seed| Source {
            name: format!("seed {seed}"),
            script: plan::script(seed),
            feeding: if seed % 2 == 0 { Feeding::Whole } else { Feeding::Pieces(Dice::new(seed)) },
        });
        let roles: &[Role] = if self.long { &[Role::Initiator, Role::Called] } else { &[] };
        let long = roles.iter().filter_map(|role| {
            let script = long::script(self.seed, *role)?;
            let name = format!("seed {} long {role}", self.seed);
            Some(Source { name, script, feeding: Feeding::Whole })
        });
        usual.chain(long)
    }
}

/// The first place where two texts of lines differ; both count from 1, and
/// output 0 is the answer number.
#[derive(Clone, PartialEq, Eq, Debug)]
pub struct Difference {
    pub record: usize,
    pub output: usize,
    pub expected: Option<String>,
    pub printed: Option<String>,
}

pub fn difference(expected: &str, printed: &str) -> Option<Difference> {
    if expected == printed {
        return None;
    }
    let mut wanted = expected.split_inclusive('\n');
    let mut given = printed.split_inclusive('\n');
    for record in 1.. {
        let pair = (wanted.next(), given.next());
        if pair == (None, None) {
            break;
        }
        if pair.0 != pair.1 {
            return Some(Difference {
                record,
                output: differing_output(pair.0.unwrap_or(""), pair.1.unwrap_or("")),
                expected: pair.0.map(str::to_string),
                printed: pair.1.map(str::to_string),
            });
        }
    }
    None
}

/// Which output of a line differs: the first that isn't the same in both.
fn differing_output(expected: &str, printed: &str) -> usize {
    let (wanted, given) = (outputs(expected), outputs(printed));
    let same = wanted.iter().zip(&given).take_while(|(wanted, given)| wanted == given);
    same.count()
}

/// The answer, then each output; the hex belongs to the word before it.
fn outputs(line: &str) -> Vec<String> {
    let mut words = line.trim_end_matches('\n').split(' ');
    let mut outputs = Vec::new();
    while let Some(word) = words.next() {
        outputs.push(match word {
            "send" | "data" => format!("{word} {}", words.next().unwrap_or_default()),
            _ => word.to_string(),
        });
    }
    outputs
}

/// Compares one script; says in words what is wrong.
fn compare_one(
    program: &Program,
    source: &Source,
    expected: &str,
    keep: &Path,
) -> Result<(), String> {
    let name = &source.name;
    let finished = program.run(&source.script, source.feeding.clone());
    let finished = finished.map_err(|trouble| format!("{name}: {trouble}"))?;
    let printed = String::from_utf8_lossy(&finished.text);
    let ending = format!("it ended with {}", finished.status);
    if let Some(difference) = difference(expected, &printed) {
        let kept = keep_script(source, expected, keep);
        let scene = scene_in_words(&source.script, expected, difference.record);
        let heading = commented(&format!("{name}: {difference}\n{ending}\n{kept}\n{SCENE}"));
        return Err(format!("{heading}\n{scene}"));
    }
    // After a bad record any exit status will do: the rules name none.
    let ended_bad = expected.ends_with(&format!("{BAD}\n"));
    match finished.status.code() {
        Some(0) => Ok(()),
        Some(_) if ended_bad => Ok(()),
        _ => Err(format!("{name}: its lines are right, but {ending}")),
    }
}

/// Runs the whole plan against the program; stops at the first difference.
pub fn compare(
    program: &Program,
    plan: &Plan,
    cover: &mut Cover,
    keep: &Path,
) -> Result<(), String> {
    for source in plan.sources() {
        let expected = cover.run(&source.script);
        compare_one(program, &source, &expected, keep)?;
    }
    Ok(())
}

impl fmt::Display for Difference {
    fn fmt(&self, f: &mut fmt::Formatter<'_>) -> fmt::Result {
        write!(f, "difference at record {}, ", self.record)?;
        match self.output {
            0 => writeln!(f, "the answer")?,
            output => writeln!(f, "output {output}")?,
        }
        writeln!(f, "expected {}", quoted(&self.expected))?;
        write!(f, "printed  {}", quoted(&self.printed))
    }
}

/// A line as far as it is of use to a reader.
fn quoted(line: &Option<String>) -> String {
    match line {
        None => "no line".to_string(),
        Some(line) if line.chars().count() > LINE => {
            format!("{:?} and more", line.chars().take(LINE).collect::<String>())
        }
        Some(line) => format!("{line:?}"),
    }
}

/// Words as comments of a scene, so that they may be pasted with it.
fn commented(text: &str) -> String {
    let lines: Vec<String> = text.lines().map(|line| format!("# {line}")).collect();
    lines.join("\n")
}

/// Keeps the whole script as bytes, for trying again, and as a scene with
/// the lines expected for it.
fn keep_script(source: &Source, expected: &str, keep: &Path) -> String {
    let name = source.name.replace(' ', "-");
    let path = keep.join(format!("{name}.script"));
    let scene = keep.join(format!("{name}.txt"));
    let kept = fs::write(&path, &source.script)
        .and_then(|()| fs::write(&scene, script_in_words(&source.script, expected)));
    match kept {
        Ok(()) => format!(
            "the whole script is in {}, and in words in {}",
            path.display(),
            scene.display()
        ),
        Err(error) => format!("the script can't be kept in {}: {error}", path.display()),
    }
}

/// The records from the last valid make up to the one that differs, each
/// with the answer expected for it, as a scene.
fn scene_in_words(script: &[u8], expected: &str, until: usize) -> String {
    let mut scene: Vec<String> = Vec::new();
    for (piece, line) in pieces(script).into_iter().zip(expected.lines()).take(until) {
        if begins_anew(piece) {
            scene.clear();
        }
        scene.push(laid_out(&piece_in_words(piece), &answer_in_words(line)));
    }
    let skipped = scene.len().saturating_sub(PRINTED);
    if skipped > 1 {
        scene.splice(1..=skipped, [format!("# {skipped} records are left out here")]);
    }
    scene.join("\n")
}

/// Whether a record makes an end.
fn begins_anew(piece: &[u8]) -> bool {
    matches!(front(piece), Front::Whole(Record::Make(make), _) if make.settings.check().is_ok())
}
