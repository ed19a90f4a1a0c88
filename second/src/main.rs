//! Reads a step file from standard input and prints each answer as number, space, value.

use second::rules::{Published, Rules};
use std::io::{self, Read, Write};

fn main() -> io::Result<()> {
    if let Some(word) = std::env::args().nth(1) {
        println!("usage: second < STEPFILE     prints each answer as number, space, value");
        std::process::exit(if word == "--help" { 0 } else { 2 });
    }
    let mut file = Vec::new();
    io::stdin().lock().read_to_end(&mut file)?;
    io::stdout().lock().write_all(Published.print(&file).as_bytes())
}
