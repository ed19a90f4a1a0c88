//! A whole step file into an answer buffer.

use crate::tables::{Outcome, Tables};

const SIZE_LIMIT: usize = 8192;

fn length(kind: u8) -> Option<usize> {
    [3, 1, 5, 9, 3, 3, 3].get(usize::from(kind)).copied()
}

/// The step at the head of `rest` with its kind byte; none for an unknown kind or a cut body.
fn head(rest: &[u8]) -> Option<&[u8]> {
    rest.get(..length(*rest.first()?)?)
}

/// How many answers the file gives, a 10 included.
pub fn steps_in(file: &[u8]) -> usize {
    let (mut rest, mut count) = (file, 0);
    while !rest.is_empty() {
        count += 1;
        let Some(step) = head(rest) else { break };
        rest = &rest[step.len()..];
    }
    count
}

fn step(tables: &mut Tables, step: &[u8]) -> Outcome {
    let two = |at: usize| u32::from(u16::from_le_bytes([step[at], step[at + 1]]));
    let four = |at: usize| u32::from_le_bytes([step[at], step[at + 1], step[at + 2], step[at + 3]]);
    match step[0] {
        0 => tables.open(two(1)),
        _ if tables.is_closed() => Err(1),
        1 => tables.begin(),
        2 => tables.read(two(1), two(3)),
        3 => tables.write(two(1), two(3), four(5)),
        4 => tables.commit(two(1)),
        5 => tables.abort(two(1)),
        _ => tables.latest(two(1)),
    }
}

/// 65,536 times the run's number plus the answers written.
pub fn run(file: &[u8], answers: &mut [u8]) -> u64 {
    if file.len() > SIZE_LIMIT {
        return 11 << 16;
    }
    if answers.len() < 5 * steps_in(file) {
        return 12 << 16;
    }
    let mut tables = Tables::closed();
    let (mut rest, mut written) = (file, 0);
    for place in answers.chunks_exact_mut(5) {
        if rest.is_empty() {
            break;
        }
        written += 1;
        let Some(bytes) = head(rest) else {
            place[0] = 10;
            place[1..].copy_from_slice(&((file.len() - rest.len()) as u32).to_le_bytes());
            return (10 << 16) + written;
        };
        let (number, value) = match step(&mut tables, bytes) {
            Ok(value) => (0, value),
            Err(number) => (number, 0),
        };
        place[0] = number;
        place[1..].copy_from_slice(&value.to_le_bytes());
        rest = &rest[bytes.len()..];
    }
    written
}
