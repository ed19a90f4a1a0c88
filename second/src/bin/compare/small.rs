//! All histories of three small transactions over two items, in every interleaving. Numbers are given in the order of the
//! begins, so only orders in which transaction 1 begins first, then 2, then 3 are written. Each history begins with an
//! opening, which resets everything, and many histories stand in one file.

use second::steps::{join, Step, SIZE_LIMIT};

/// Every order of three transactions of `events` events each, as a list of who is next.
fn orders(events: usize) -> Vec<Vec<usize>> {
    fn go(left: &mut [usize; 3], begun: usize, events: usize, order: &mut Vec<usize>, all: &mut Vec<Vec<usize>>) {
        if left.iter().all(|l| *l == 0) {
            all.push(order.clone());
        }
        for who in 0..3 {
            let begins = left[who] == events;
            if left[who] == 0 || begins && who != begun {
                continue;
            }
            left[who] -= 1;
            order.push(who);
            go(left, begun + usize::from(begins), events, order, all);
            order.pop();
            left[who] += 1;
        }
    }
    let mut all = Vec::new();
    go(&mut [events; 3], 0, events, &mut Vec::new(), &mut all);
    all
}

/// Access 0 to 3 of transaction `who`: read 0, read 1, write 0, write 1. Each write has a value of its own.
fn access(who: usize, which: usize) -> Step {
    let (by, item) = (who as u16 + 1, which as u16 % 2);
    match which < 2 {
        true => Step::Read { by, item },
        false => Step::Write { by, item, value: u32::from(10 * by + item) },
    }
}

fn ending(who: usize, aborts: bool) -> Step {
    let by = who as u16 + 1;
    match aborts {
        true => Step::Abort { by },
        false => Step::Commit { by },
    }
}

/// The steps of one history; `event(who, which)` gives those of one event.
fn history(order: &[usize], event: impl Fn(usize, usize) -> Vec<Step>) -> Vec<Step> {
    let mut steps = vec![Step::Open { count: 2 }];
    let mut done = [0; 3];
    for &who in order {
        steps.extend(event(who, done[who]));
        done[who] += 1;
    }
    steps.extend([Step::Latest { item: 0 }, Step::Latest { item: 1 }]);
    steps
}

/// Each of the three makes any set of accesses, all of them just before its commit.
fn sets(mut take: impl FnMut(Vec<Step>) -> bool) -> bool {
    for order in orders(2) {
        for sets in 0..16usize.pow(3) {
            let set = |who: usize| sets >> (4 * who) & 15;
            let event = |who: usize, which: usize| match which {
                0 => vec![Step::Begin],
                _ => {
                    let chosen = (0..4).filter(|a| set(who) >> a & 1 == 1);
                    chosen.map(|a| access(who, a)).chain([ending(who, false)]).collect()
                }
            };
            if !take(history(&order, event)) {
                return false;
            }
        }
    }
    true
}

/// Each of the three makes `accesses` accesses one by one, anywhere among the steps of the others, then commits. Or one
/// of them aborts, where that is asked for.
fn spread(accesses: usize, aborting: bool, mut take: impl FnMut(Vec<Step>) -> bool) -> bool {
    let programs = 4usize.pow(accesses as u32);
    for order in orders(accesses + 2) {
        for chosen in 0..programs.pow(3) {
            for aborts in 0..if aborting { 4 } else { 1 } {
                let event = |who: usize, which: usize| match which {
                    0 => vec![Step::Begin],
                    w if w == accesses + 1 => vec![ending(who, aborts == who + 1)],
                    w => vec![access(who, chosen / programs.pow(who as u32) / 4usize.pow(w as u32 - 1) % 4)],
                };
                if !take(history(&order, event)) {
                    return false;
                }
            }
        }
    }
    true
}

/// Hands on files full of whole histories, until one is not wanted. `deep` adds those with two accesses each, spread (24
/// million histories).
pub fn files(deep: bool, mut take: impl FnMut(&[u8]) -> bool) {
    let mut file = Vec::new();
    let mut pack = |steps: Vec<Step>| {
        let bytes = join(&steps);
        let mut go_on = true;
        if file.len() + bytes.len() > SIZE_LIMIT {
            go_on = take(&file);
            file.clear();
        }
        file.extend(bytes);
        go_on
    };
    let all = sets(&mut pack) && spread(1, true, &mut pack) && (!deep || spread(2, false, &mut pack));
    if all {
        take(&file);
    }
}
