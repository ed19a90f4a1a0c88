//! Compares schedulers with the second program, file by file.

mod chance;
mod doors;
mod judge;
mod options;
mod profiles;
mod shrink;
mod slips;
mod small;
mod variants;
mod writer;
mod wrong;

use judge::{Difference, Judge};
use options::Options;
use second::cases;

fn cases(judge: &mut Judge, files: &[String]) -> Result<(), Difference> {
    for case in cases::all() {
        judge.file(&format!("case {}", case.name), &case.file)?;
    }
    // Begins alone, at the size limit, one byte above it, and more than a pipe holds.
    for size in [8192, 8193, 100_000] {
        judge.file(&format!("case {size} bytes"), &vec![1; size])?;
    }
    for path in files {
        let bytes = std::fs::read(path).unwrap_or_else(|e| options::refuse(&format!("{path}: {e}")));
        judge.file(path, &bytes)?;
    }
    Ok(())
}

fn small(judge: &mut Judge, deep: bool) -> Result<(), Difference> {
    let mut found = Ok(());
    small::files(deep, |file| {
        found = judge.file("three small transactions", file);
        found.is_ok()
    });
    found
}

fn random(judge: &mut Judge, options: &Options) -> Result<(), Difference> {
    let end = options.seconds.map(|s| judge.seconds() + s);
    let mut at = options.from;
    while end.map_or(at < options.from + options.files, |end| judge.seconds() < end) {
        let (profile, file) = profiles::file(options.seed, at, options.profile.as_deref());
        judge.one_of_many(&format!("seed {}, file {at} ({profile})", options.seed), &file)?;
        at += 1;
    }
    Ok(())
}

fn main() {
    let options = options::parse();
    if options.what == "variants" {
        std::process::exit(i32::from(!wrong::all_caught(&options)));
    }
    if options.what == "show" {
        for path in &options.paths {
            let bytes = std::fs::read(path).unwrap_or_else(|e| options::refuse(&format!("{path}: {e}")));
            print!("{}\n{}", second::text::hex(&bytes), judge::side_by_side(&bytes, ""));
        }
        return;
    }
    let mut judge = Judge::new(options.doors());
    let names: Vec<String> = judge.doors.iter().map(|d| d.name().to_string()).collect();
    println!("doors: {}", names.join(", "));
    let gate = options.what == "gate";
    let found = (|| -> Result<(), Difference> {
        if gate || options.what == "cases" {
            cases(&mut judge, &options.paths)?;
        }
        if gate || options.what == "small" {
            small(&mut judge, options.deep)?;
        }
        if gate || options.what == "random" {
            random(&mut judge, &options)?;
        }
        Ok(())
    })();
    let missing = judge.tally();
    if let Err(difference) = found {
        println!("{}", difference.report);
        println!("FAILED: a difference");
        std::process::exit(1);
    }
    // Only a run over all profiles has to reach every answer.
    if (gate || options.what == "random" && options.profile.is_none()) && !missing.is_empty() {
        println!("FAILED: these answers never came: {missing:?}");
        std::process::exit(1);
    }
    println!("ok: no difference");
}
