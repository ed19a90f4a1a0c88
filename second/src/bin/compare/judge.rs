//! One file through every door, the counts of answers, and the report of a difference.

use crate::doors::{Door, Right};
use crate::shrink;
use second::steps::split;
use second::text::hex;
use std::io::{IsTerminal, Write};
use std::time::{Duration, Instant};

pub struct Judge {
    pub doors: Vec<Box<dyn Door>>,
    /// By number: answers 0 to 10, and runs that ended with 11 or 12.
    pub counts: [u64; 13],
    pub files: u64,
    pub steps: u64,
    /// Whether a report shows the smallest file found, which takes a while.
    pub shrinks: bool,
    started: Instant,
    said: Instant,
}

/// The smallest file found on which a door differs.
pub struct Difference {
    pub what: String,
    pub report: String,
}

impl Judge {
    pub fn new(doors: Vec<Box<dyn Door>>) -> Judge {
        let now = Instant::now();
        Judge { doors, counts: [0; 13], files: 0, steps: 0, shrinks: true, started: now, said: now }
    }

    /// A file that goes through every door. `what` names it in a report.
    pub fn file(&mut self, what: &str, file: &[u8]) -> Result<(), Difference> {
        self.through(what, file, |_| true)
    }

    /// One of many files: each door says whether it takes this one.
    pub fn one_of_many(&mut self, what: &str, file: &[u8]) -> Result<(), Difference> {
        let turn = self.files;
        self.through(what, file, |door| door.wants(turn))
    }

    fn through(&mut self, what: &str, file: &[u8], takes: impl Fn(&dyn Door) -> bool) -> Result<(), Difference> {
        let turn = self.files;
        let mut right = Right::of(file);
        let mut wrong = None;
        for (at, door) in self.doors.iter_mut().enumerate().filter(|(_, door)| takes(door.as_ref())) {
            if let Some(said) = door.check(file, &mut right, turn) {
                wrong = Some((at, said));
                break;
            }
        }
        self.files += 1;
        match &right.answers {
            Some(answers) => {
                self.steps += answers.len() as u64;
                answers.iter().for_each(|a| self.counts[usize::from(a.number)] += 1);
            }
            None => self.counts[11] += 1,
        }
        self.counts[12] += right.short;
        self.progress(what);
        match wrong {
            None => Ok(()),
            Some((at, said)) => Err(self.differs(at, what, file, turn, &said)),
        }
    }

    fn differs(&mut self, at: usize, what: &str, file: &[u8], turn: u64, said: &str) -> Difference {
        let door = &mut self.doors[at];
        // The shrinker asks with the same turn, so that buffers are chosen alike and each file goes through the door.
        let mut still = |candidate: &[u8]| door.check(candidate, &mut Right::of(candidate), turn).is_some();
        let small = if self.shrinks { shrink::smallest(file, &mut still) } else { file.to_vec() };
        let now = door.check(&small, &mut Right::of(&small), turn).unwrap_or_else(|| said.to_string());
        let shown = door.show(&small);
        let report = format!(
            "DIFFERENCE at door {}, {what}: {said}\nsmallest file found, {} of {} bytes: {now}\n{}\n{}",
            door.name(),
            small.len(),
            file.len(),
            hex(&small),
            side_by_side(&small, &shown),
        );
        Difference { what: what.to_string(), report }
    }

    fn progress(&mut self, what: &str) {
        let terminal = std::io::stderr().is_terminal();
        if self.said.elapsed() < Duration::from_secs(if terminal { 1 } else { 20 }) {
            return;
        }
        self.said = Instant::now();
        let seconds = self.started.elapsed().as_secs();
        let line = format!("{seconds} s: {} files, {} steps, no difference; now {what}", self.files, self.steps);
        let _ = match terminal {
            true => write!(std::io::stderr(), "\r\x1b[K{line}"),
            false => writeln!(std::io::stderr(), "{line}"),
        };
    }

    pub fn seconds(&self) -> u64 {
        self.started.elapsed().as_secs()
    }

    /// Prints the counts; the numbers that step files can reach and that never came.
    pub fn tally(&self) -> Vec<usize> {
        if std::io::stderr().is_terminal() {
            eprint!("\r\x1b[K");
        }
        println!("{} files, {} steps, {} s", self.files, self.steps, self.seconds());
        for (number, count) in self.counts.iter().enumerate() {
            println!("  answer {number:2}: {count}");
        }
        // 4 needs 65,535 begins, and a step file has room for 8,192.
        (0..13).filter(|&n| n != 4 && self.counts[n] == 0).collect()
    }
}

/// The steps, what the second program answers and what the door answers.
pub fn side_by_side(file: &[u8], other: &str) -> String {
    let (steps, rest) = split(file);
    let mut names: Vec<String> = steps.iter().map(|s| s.to_string()).collect();
    if !rest.is_empty() {
        names.push(format!("bytes {}", hex(rest)));
    }
    let right = Right::of(file).answers.map_or(vec!["11 0".to_string()], |a| a.iter().map(|a| a.to_string()).collect());
    let other: Vec<&str> = other.lines().collect();
    let mut text = format!("  {:<26} {:<16} door\n", "step", "second program");
    for at in 0..names.len().max(right.len()).max(other.len()) {
        let name = names.get(at).map_or("", |s| s);
        let (a, b) = (right.get(at).map_or("", |s| s), other.get(at).copied().unwrap_or(""));
        let mark = if a == b { "" } else { "   <- differs" };
        text += &format!("  {name:<26} {a:<16} {b}{mark}\n");
    }
    text
}
