//! The command line.

use crate::doors::{self, Door, Program};
use crate::profiles::PROFILES;

const USAGE: &str = "\
usage: compare gate [FILE..]       all of the following, with the FILEs as further cases
       compare cases [FILE..]      the cases of document 01, and the step files named
       compare small [--deep]      all histories of three small transactions over two items
       compare random [--seed N] [--from N] [--files N | --seconds N] [--profile NAME]
       compare variants [--all] [--show] [NAME]   each wrong variant of the second program must be caught
       compare show FILE..         step files as hex and as readable steps with their answers
doors: --program PATH [--every N]  a program that reads the step file from standard input (each N-th random file, by default each tenth)
       bench and, if PARLOUR_LIB named its archive when this was built, parlour_run are always compared
With a difference the exit status is 1, and the smallest file found is printed.";

pub struct Options {
    pub what: String,
    pub paths: Vec<String>,
    pub seed: u64,
    pub from: u64,
    pub files: u64,
    pub seconds: Option<u64>,
    pub profile: Option<String>,
    pub deep: bool,
    pub all: bool,
    pub show: bool,
    program: Option<String>,
    every: u64,
}

pub fn refuse(why: &str) -> ! {
    eprintln!("compare: {why}\n{USAGE}");
    std::process::exit(2);
}

pub fn parse() -> Options {
    let mut words = std::env::args().skip(1);
    let what = words.next().unwrap_or_else(|| refuse("nothing to do"));
    if what == "--help" {
        println!("{USAGE}");
        std::process::exit(0);
    }
    if !["gate", "cases", "small", "random", "variants", "show"].contains(&what.as_str()) {
        refuse(&format!("unknown word '{what}'"));
    }
    let mut o = Options {
        what,
        paths: Vec::new(),
        seed: 1,
        from: 0,
        files: 30_000,
        seconds: None,
        profile: None,
        deep: false,
        all: false,
        show: false,
        program: None,
        every: 10,
    };
    while let Some(word) = words.next() {
        let mut value = || words.next().unwrap_or_else(|| refuse(&format!("{word} needs a word after it")));
        let number = |text: String| text.parse::<u64>().unwrap_or_else(|_| refuse(&format!("'{text}' is no number")));
        match word.as_str() {
            "--seed" => o.seed = number(value()),
            "--from" => o.from = number(value()),
            "--files" => o.files = number(value()),
            "--seconds" => o.seconds = Some(number(value())),
            "--profile" => o.profile = Some(value()),
            "--deep" => o.deep = true,
            "--all" => o.all = true,
            "--show" => o.show = true,
            "--program" => o.program = Some(value()),
            "--every" => o.every = number(value()).max(1),
            _ if word.starts_with("--") => refuse(&format!("unknown word '{word}'")),
            _ => o.paths.push(word),
        }
    }
    if let Some(name) = &o.profile {
        if !PROFILES.iter().any(|p| p.0 == name) {
            let names: Vec<&str> = PROFILES.iter().map(|p| p.0).collect();
            refuse(&format!("no profile '{name}'; there are {}", names.join(", ")));
        }
    }
    o
}

impl Options {
    pub fn doors(&self) -> Vec<Box<dyn Door>> {
        let mut doors = vec![doors::bench()];
        doors.extend(doors::parlour());
        if let Some(path) = &self.program {
            if !std::path::Path::new(path).is_file() {
                refuse(&format!("no program {path}"));
            }
            doors.push(Box::new(Program::new(path, self.every)));
        }
        doors
    }
}
