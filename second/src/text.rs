//! Steps for people: `write 1 0 40` is the step by which transaction 1 writes 40 to item 0.

use crate::steps::{Answer, Step};
use std::fmt;

impl fmt::Display for Step {
    fn fmt(&self, f: &mut fmt::Formatter<'_>) -> fmt::Result {
        match self {
            Step::Open { count } => write!(f, "open {count}"),
            Step::Begin => write!(f, "begin"),
            Step::Read { by, item } => write!(f, "read {by} {item}"),
            Step::Write { by, item, value } => write!(f, "write {by} {item} {value}"),
            Step::Commit { by } => write!(f, "commit {by}"),
            Step::Abort { by } => write!(f, "abort {by}"),
            Step::Latest { item } => write!(f, "latest {item}"),
        }
    }
}

impl fmt::Display for Answer {
    fn fmt(&self, f: &mut fmt::Formatter<'_>) -> fmt::Result {
        write!(f, "{} {}", self.number, self.value)
    }
}

pub fn hex(bytes: &[u8]) -> String {
    let words: Vec<String> = bytes.iter().map(|b| format!("{b:02x}")).collect();
    words.join(" ")
}

fn number<T: std::str::FromStr>(word: Option<&str>) -> Result<T, String> {
    let word = word.ok_or("a number is missing")?;
    word.parse().map_err(|_| format!("'{word}' is no number that fits here"))
}

/// The bytes of one readable step. `bytes 07 ff` stands for those bytes as they are.
pub fn parse_step(text: &str) -> Result<Vec<u8>, String> {
    let mut words = text.split_whitespace();
    let kind = words.next().ok_or("no step")?;
    let mut file = Vec::new();
    if kind == "bytes" {
        for word in words {
            file.push(u8::from_str_radix(word, 16).map_err(|_| format!("'{word}' is no byte in hex"))?);
        }
        return Ok(file);
    }
    let step = match kind {
        "open" => Step::Open { count: number(words.next())? },
        "begin" => Step::Begin,
        "read" => Step::Read { by: number(words.next())?, item: number(words.next())? },
        "write" => Step::Write { by: number(words.next())?, item: number(words.next())?, value: number(words.next())? },
        "commit" => Step::Commit { by: number(words.next())? },
        "abort" => Step::Abort { by: number(words.next())? },
        "latest" => Step::Latest { item: number(words.next())? },
        _ => return Err(format!("unknown step '{kind}'")),
    };
    if let Some(word) = words.next() {
        return Err(format!("'{word}' is one word too many"));
    }
    step.write_to(&mut file);
    Ok(file)
}

/// A case: each line is a step, then `=`, then the answer that it must get.
/// `#` starts a comment.
pub fn parse_case(text: &str) -> Result<(Vec<u8>, Vec<Answer>), String> {
    let (mut file, mut answers) = (Vec::new(), Vec::new());
    for (at, line) in text.lines().enumerate() {
        let line = line.split('#').next().unwrap_or("").trim();
        if line.is_empty() {
            continue;
        }
        let said = |e: String| format!("line {}: {e}", at + 1);
        let (step, answer) = line.split_once('=').ok_or_else(|| said("no '='".into()))?;
        let mut words = answer.split_whitespace();
        answers
            .push(Answer { number: number(words.next()).map_err(said)?, value: number(words.next()).map_err(said)? });
        file.extend(parse_step(step).map_err(said)?);
    }
    Ok((file, answers))
}
