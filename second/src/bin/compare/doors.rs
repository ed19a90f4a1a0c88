//! The doors: ways to hand a step file to a scheduler, and what is wrong with what comes back.

use second::rules::{Published, Rules};
use second::steps::{Answer, ANSWER_BYTES};
use std::io::Write;
use std::process::{Command, Stdio};

/// What the second program says of a file.
pub struct Right {
    /// None: the file is above the size limit.
    pub answers: Option<Vec<Answer>>,
    /// How often a buffer was too short, over all calls of this file.
    pub short: u64,
}

impl Right {
    pub fn of(file: &[u8]) -> Right {
        Right { answers: Published.answers(file), short: 0 }
    }
}

pub trait Door {
    fn name(&self) -> &str;
    /// Whether it takes this one of many files.
    fn wants(&self, _turn: u64) -> bool {
        true
    }
    /// What is wrong, if anything. `turn` varies the buffers.
    fn check(&mut self, file: &[u8], right: &mut Right, turn: u64) -> Option<String>;
    /// The answers as they come through the door, for a report.
    fn show(&mut self, file: &[u8]) -> String;
}

/// A program that reads the file from standard input.
pub struct Program {
    path: String,
    /// Of many files only each so many-th: a process takes about a millisecond.
    every: u64,
}

impl Program {
    pub fn new(path: &str, every: u64) -> Program {
        Program { path: path.to_string(), every }
    }

    fn run(&self, file: &[u8]) -> Result<String, String> {
        let mut command = Command::new(&self.path);
        command.stdin(Stdio::piped()).stdout(Stdio::piped()).stderr(Stdio::piped());
        let mut child = command.spawn().map_err(|e| format!("{} does not start: {e}", self.path))?;
        // A program that ends before it has read all is judged by its output.
        let _ = child.stdin.take().map(|mut input| input.write_all(file));
        let output = child.wait_with_output().map_err(|e| e.to_string())?;
        let text = String::from_utf8_lossy(&output.stdout).into_owned();
        match output.status.success() && output.stderr.is_empty() {
            true => Ok(text),
            false => Err(format!(
                "it ended with {}, and on standard error: {}",
                output.status,
                String::from_utf8_lossy(&output.stderr)
            )),
        }
    }
}

impl Door for Program {
    fn name(&self) -> &str {
        &self.path
    }

    fn wants(&self, turn: u64) -> bool {
        turn.is_multiple_of(self.every)
    }

    fn check(&mut self, file: &[u8], _: &mut Right, _: u64) -> Option<String> {
        match self.run(file) {
            Ok(text) => (text != Published.print(file)).then(|| "it prints something else".to_string()),
            Err(e) => Some(e),
        }
    }

    fn show(&mut self, file: &[u8]) -> String {
        self.run(file).unwrap_or_else(|e| e)
    }
}

/// A function from a file and a buffer to the run's number and count.
pub struct Library<F> {
    pub title: String,
    pub run: F,
}

const MARGIN: usize = 24;

impl<F: FnMut(&[u8], &mut [u8]) -> u64> Library<F> {
    /// One call with a buffer of this size, which lies between two margins.
    fn call(&mut self, file: &[u8], right: &mut Right, size: usize, fill: u8) -> Option<String> {
        let mut memory = vec![fill; MARGIN + size + MARGIN];
        let mut expected = memory.clone();
        let want = Published.lay(right.answers.as_deref(), &mut expected[MARGIN..MARGIN + size]);
        let steps = file.to_vec();
        let got = (self.run)(&steps, &mut memory[MARGIN..MARGIN + size]);
        right.short += u64::from(want >> 16 == 12);
        if got != want {
            let say = |r: u64| format!("{} and {} answers", r >> 16, r & 0xFFFF);
            return Some(format!("with a buffer of {size} bytes it returns {}, not {}", say(got), say(want)));
        }
        if steps != file {
            return Some("it changed the file".to_string());
        }
        let at = (0..memory.len()).find(|&at| memory[at] != expected[at])?;
        let place = at as i64 - MARGIN as i64;
        Some(format!("byte {place} of a buffer of {size} bytes is {}, not {}", memory[at], expected[at]))
    }
}

impl<F: FnMut(&[u8], &mut [u8]) -> u64> Door for Library<F> {
    fn name(&self) -> &str {
        &self.title
    }

    fn check(&mut self, file: &[u8], right: &mut Right, turn: u64) -> Option<String> {
        // A file above the limit is tried with a buffer that would hold its answers too.
        let needed = right.answers.as_ref().map_or(100, |a| ANSWER_BYTES * a.len());
        let fill = 0x80 | turn as u8;
        let odd = turn as usize % 97;
        let short = match turn % 4 {
            0 => needed.saturating_sub(1),
            1 => needed.saturating_sub(ANSWER_BYTES),
            2 => odd.min(needed),
            _ => 0,
        };
        let roomy = if turn % 16 == 5 { 65_536 } else { needed + 1 + odd };
        [roomy, needed, short].into_iter().find_map(|size| self.call(file, right, size, fill))
    }

    fn show(&mut self, file: &[u8]) -> String {
        let mut buffer = vec![0; 65_536];
        let result = (self.run)(file, &mut buffer);
        let answers = buffer.chunks_exact(ANSWER_BYTES).take(result as usize & 0xFFFF);
        let lines = answers.map(|a| format!("{}\n", Answer::from_bytes(a)));
        if result >> 16 == 11 {
            "11 0\n".to_string()
        } else {
            lines.collect()
        }
    }
}

/// The Rust scheduler that our instruction counts are put beside.
pub fn bench() -> Box<dyn Door> {
    Box::new(Library { title: "bench".to_string(), run: bench::run })
}

/// `parlour_run` from the archive that `PARLOUR_LIB` named when this was built.
#[cfg(parlour_lib)]
pub fn parlour() -> Option<Box<dyn Door>> {
    extern "C" {
        fn parlour_run(steps: *const u8, steps_len: usize, answers: *mut u8, answers_len: usize) -> u64;
    }
    // Both slices are valid for their lengths while the call lasts, and it keeps neither.
    let run = |file: &[u8], buffer: &mut [u8]| unsafe {
        parlour_run(file.as_ptr(), file.len(), buffer.as_mut_ptr(), buffer.len())
    };
    Some(Box::new(Library { title: "parlour_run".to_string(), run }))
}

#[cfg(not(parlour_lib))]
pub fn parlour() -> Option<Box<dyn Door>> {
    None
}
