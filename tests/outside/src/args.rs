//! Options on the command line.

use std::collections::BTreeMap;
use std::str::FromStr;

/// Options by name, each with the words up to the next option.
#[derive(Debug)]
pub struct Args {
    given: BTreeMap<String, Vec<String>>,
}

impl Args {
    /// Takes options called by one of the `known` names only.
    pub fn parse(words: &[String], known: &[&str]) -> Result<Args, String> {
        let mut given: BTreeMap<String, Vec<String>> = BTreeMap::new();
        let mut current: Option<String> = None;
        for word in words {
            match (word.strip_prefix("--"), &current) {
                (Some(name), _) if known.contains(&name) => {
                    given.insert(name.to_string(), Vec::new());
                    current = Some(name.to_string());
                }
                (Some(name), _) => return Err(unknown(name, known)),
                (None, None) => return Err(format!("{word:?} belongs to no option")),
                (None, Some(name)) => given.entry(name.clone()).or_default().push(word.clone()),
            }
        }
        Ok(Args { given })
    }

    pub fn flag(&self, name: &str) -> bool {
        self.given.contains_key(name)
    }

    /// One value, or the default when the option isn't there.
    pub fn value<T: FromStr>(&self, name: &str, default: T) -> Result<T, String> {
        match self.given.get(name).map(Vec::as_slice) {
            None => Ok(default),
            Some([word]) => word.parse().map_err(|_| format!("--{name} can't be {word:?}")),
            Some(words) => Err(format!("--{name} takes one value, not {}", words.len())),
        }
    }

    /// A command of several words, given one by one or as one text.
    pub fn command(&self, name: &str) -> Result<Vec<String>, String> {
        let words = self.given.get(name).map(Vec::as_slice).unwrap_or_default();
        let split: Vec<String> = match words {
            [text] => text.split_whitespace().map(str::to_string).collect(),
            words => words.to_vec(),
        };
        if split.is_empty() {
            return Err(format!("--{name} needs a command"));
        }
        Ok(split)
    }
}

fn unknown(name: &str, known: &[&str]) -> String {
    let names: Vec<String> = known.iter().map(|name| format!("--{name}")).collect();
    format!("there is no --{name} here, only {}", names.join(" "))
}
