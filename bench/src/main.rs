//! Runs a step file by the Rust scheduler of this folder or by ours, for callgrind and for the clock.

use std::time::{Duration, Instant};

const USAGE: &str = "\
usage: bench files DIR            writes the step files that are measured
       bench steps FILE           how many answers it gives, and how many of each number
       bench once rust|ours FILE  one run, to be counted by callgrind
       bench time rust|ours FILE  nanoseconds for each step, the least of many runs
       bench same FILE            whether both give the same answers
ours needs PARLOUR_LIB, the archive with parlour_run, when this is built";

/// A name that callgrind can find, with the interface that ours has.
///
/// # Safety
/// Each pointer must be valid for its length.
#[no_mangle]
#[inline(never)]
pub unsafe extern "C" fn rust_run(steps: *const u8, steps_len: usize, answers: *mut u8, answers_len: usize) -> u64 {
    let (steps, answers) =
        (std::slice::from_raw_parts(steps, steps_len), std::slice::from_raw_parts_mut(answers, answers_len));
    bench::run(steps, answers)
}

type Run = unsafe extern "C" fn(*const u8, usize, *mut u8, usize) -> u64;

#[cfg(parlour_lib)]
fn ours() -> Option<Run> {
    extern "C" {
        fn parlour_run(steps: *const u8, steps_len: usize, answers: *mut u8, answers_len: usize) -> u64;
    }
    Some(parlour_run)
}

#[cfg(not(parlour_lib))]
fn ours() -> Option<Run> {
    None
}

fn refuse(why: &str) -> ! {
    eprintln!("bench: {why}\n{USAGE}");
    std::process::exit(2);
}

fn read(path: &str) -> Vec<u8> {
    std::fs::read(path).unwrap_or_else(|e| refuse(&format!("{path}: {e}")))
}

fn runner(name: &str) -> Run {
    match name {
        "rust" => rust_run,
        "ours" => ours().unwrap_or_else(|| refuse("ours is not linked")),
        _ => refuse(&format!("unknown scheduler '{name}'")),
    }
}

/// The answers, and the time of the one call.
fn run(run: Run, file: &[u8]) -> (u64, Vec<u8>, Duration) {
    let mut answers = vec![0; 5 * bench::steps_in(file)];
    let start = Instant::now();
    // Both are valid for their lengths.
    let result = unsafe { run(file.as_ptr(), file.len(), answers.as_mut_ptr(), answers.len()) };
    (result, answers, start.elapsed())
}

fn main() {
    let words: Vec<String> = std::env::args().skip(1).collect();
    let words: Vec<&str> = words.iter().map(String::as_str).collect();
    match words[..] {
        ["--help"] => println!("{USAGE}"),
        ["files", dir] => {
            for (name, bytes) in bench::files::all() {
                let path = format!("{dir}/{name}.steps");
                std::fs::write(&path, bytes).unwrap_or_else(|e| refuse(&format!("{path}: {e}")));
            }
        }
        ["steps", path] => {
            let (_, answers, _) = run(rust_run, &read(path));
            print!("{}", answers.len() / 5);
            for number in 0..13 {
                let count = answers.chunks_exact(5).filter(|a| a[0] == number).count();
                if count > 0 {
                    print!(" {number}:{count}");
                }
            }
            println!();
        }
        ["once", who, path] => drop(run(runner(who), &read(path))),
        ["time", who, path] => {
            let file = read(path);
            let least = (0..200).map(|_| run(runner(who), &file).2).min().unwrap_or_default();
            println!("{:.1}", least.as_nanos() as f64 / bench::steps_in(&file) as f64);
        }
        ["same", path] => {
            let file = read(path);
            let (a, b) = (run(runner("rust"), &file), run(runner("ours"), &file));
            if (a.0, &a.1) != (b.0, &b.1) {
                eprintln!("bench: the answers to {path} differ");
                std::process::exit(1);
            }
        }
        _ => refuse("nothing to do"),
    }
}
