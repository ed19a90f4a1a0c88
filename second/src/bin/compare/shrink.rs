//! The smallest file found on which a door still differs, by taking steps away.

use second::history::History;
use second::rules::{Published, Rules};
use second::steps::{join, split, Number, Step};

pub fn smallest(file: &[u8], differs: &mut dyn FnMut(&[u8]) -> bool) -> Vec<u8> {
    let (mut steps, rest) = split(file);
    let mut rest = rest.to_vec();
    let whole = |steps: &[Step], rest: &[u8]| [join(steps), rest.to_vec()].concat();
    loop {
        let before = (steps.len(), rest.len());
        if !rest.is_empty() && differs(&whole(&steps, &[])) {
            rest.clear();
        }
        if rest.len() > 1 && differs(&whole(&steps, &rest[..1])) {
            rest.truncate(1);
        }
        // Halves, quarters, and so on down to single steps.
        let mut length = steps.len() / 2;
        while length > 0 {
            let mut at = 0;
            while at + length <= steps.len() {
                let less = [&steps[..at], &steps[at + length..]].concat();
                match differs(&whole(&less, &rest)) {
                    true => steps = less,
                    false => at += length,
                }
            }
            length /= 2;
        }
        // Whole transactions, with the others numbered anew.
        let mut at = steps.len();
        while at > 0 {
            at -= 1;
            let less = without_transaction(&steps, at);
            if let Some(less) = less.filter(|l| differs(&whole(l, &rest))) {
                steps = less;
                at = at.min(steps.len());
            }
        }
        if (steps.len(), rest.len()) == before {
            return whole(&steps, &rest);
        }
    }
}

/// The steps without the transaction that begins at this place: its steps go, and the numbers above it fall by one, up to
/// the next opening. None if no transaction begins there.
fn without_transaction(steps: &[Step], at: usize) -> Option<Vec<Step>> {
    let mut h = History::default();
    let answer = steps[..=at].iter().map(|s| Published.step(&mut h, *s)).last()?;
    if steps[at] != Step::Begin || answer.number != 0 {
        return None;
    }
    let gone = answer.value as Number;
    let mut less = steps[..at].to_vec();
    let mut open = true;
    for step in &steps[at + 1..] {
        let mut step = *step;
        open &= !matches!(step, Step::Open { .. });
        if let Step::Read { by, .. } | Step::Write { by, .. } | Step::Commit { by } | Step::Abort { by } = &mut step {
            if open && *by == gone {
                continue;
            }
            *by -= Number::from(open && *by > gone);
        }
        less.push(step);
    }
    Some(less)
}

#[cfg(test)]
mod tests {
    use super::*;
    use second::cases;

    fn answered(file: &[u8], number: u8) -> bool {
        Published.answers(file).is_some_and(|all| all.iter().any(|a| a.number == number))
    }

    fn lines(file: &[u8]) -> Vec<String> {
        split(file).0.iter().map(Step::to_string).collect()
    }

    /// Of P8 only what makes an answer 7 is left.
    #[test]
    fn steps_that_do_not_matter_go() {
        let file = &cases::all()[7].file;
        let small = smallest(file, &mut |f| answered(f, 7));
        assert_eq!(lines(&small), ["open 2", "begin", "begin", "write 1 0 5", "write 2 0 6", "commit 1", "commit 2"]);
    }

    /// Transactions 1 and 3 go, and the others are numbered anew.
    #[test]
    fn transactions_that_do_not_matter_go() {
        let mut file = vec![0, 2, 0, 1, 1, 1, 1];
        for by in [1, 2, 3, 4] {
            file.extend(join(&[Step::Write { by, item: by % 2, value: 9 }]));
        }
        file.extend(join(&[Step::Commit { by: 2 }, Step::Commit { by: 4 }]));
        let small = smallest(&file, &mut |f| answered(f, 7));
        assert_eq!(lines(&small), ["open 2", "begin", "begin", "write 1 0 9", "write 2 0 9", "commit 1", "commit 2"]);
    }

    #[test]
    fn a_bad_step_stays_where_it_matters() {
        let small = smallest(&[0, 2, 0, 1, 9, 9, 9], &mut |f| answered(f, 10));
        assert_eq!(small, [9]);
    }
}
