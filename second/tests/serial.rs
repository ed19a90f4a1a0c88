//! What the rules are for: whatever is committed has a serial order that explains every value read and every item's
//! final value. The values come from the answers alone.

use second::history::{dependencies, History};
use second::rules::{Published, Rules};
use second::steps::Step;
use std::collections::HashMap;

const ITEMS: u16 = 3;

struct Chance(u64);

impl Chance {
    fn below(&mut self, bound: u64) -> u64 {
        self.0 = self.0.wrapping_mul(6364136223846793005).wrapping_add(1442695040888963407);
        (self.0 >> 33) % bound
    }
}

/// What a client saw: its reads and writes in order.
#[derive(Clone, Copy)]
enum Act {
    Saw(u16, u32),
    Put(u16, u32),
}

/// Runs random steps; the history, and the acts of each transaction.
fn run(chance: &mut Chance) -> (History, HashMap<u16, Vec<Act>>) {
    let mut h = History::default();
    Published.step(&mut h, Step::Open { count: ITEMS });
    let mut acts: HashMap<u16, Vec<Act>> = HashMap::new();
    for at in 0..80 {
        let by = (h.transactions.len() as u64).saturating_sub(chance.below(5)) as u16;
        let item = chance.below(u64::from(ITEMS)) as u16;
        match chance.below(10) {
            0..=1 => drop(Published.step(&mut h, Step::Begin)),
            2..=5 => {
                let answer = Published.step(&mut h, Step::Read { by, item });
                if answer.number == 0 {
                    acts.entry(by).or_default().push(Act::Saw(item, answer.value));
                }
            }
            6..=7 => {
                if Published.step(&mut h, Step::Write { by, item, value: at }).number == 0 {
                    acts.entry(by).or_default().push(Act::Put(item, at));
                }
            }
            _ => drop(Published.step(&mut h, Step::Commit { by })),
        }
    }
    (h, acts)
}

/// The committed ones, each after all that lead to it; fewer than all if there is a ring.
fn serial(h: &History) -> Vec<u16> {
    let list = h.committed(None);
    let edges = dependencies(&list);
    let mut order: Vec<usize> = Vec::new();
    while let Some(next) =
        (0..list.len()).find(|p| !order.contains(p) && edges.iter().all(|e| e.to != *p || order.contains(&e.from)))
    {
        order.push(next);
    }
    order.iter().map(|p| list[*p].number).collect()
}

#[test]
fn a_serial_order_explains_every_value() {
    let mut chance = Chance(7);
    let (mut refused, mut moved) = (0, 0);
    for _ in 0..3000 {
        let (h, acts) = run(&mut chance);
        let order = serial(&h);
        let by_commit: Vec<u16> = h.committed(None).iter().map(|t| t.number).collect();
        assert_eq!(order.len(), by_commit.len(), "a ring was committed");
        let mut items = [0; ITEMS as usize];
        for number in &order {
            for act in acts.get(number).into_iter().flatten() {
                match *act {
                    Act::Saw(item, value) => assert_eq!(items[usize::from(item)], value, "transaction {number}"),
                    Act::Put(item, value) => items[usize::from(item)] = value,
                }
            }
        }
        for item in 0..ITEMS {
            assert_eq!(Published.latest(&h, item).value, items[usize::from(item)]);
        }
        moved += usize::from(order != by_commit);
        refused += h.transactions.len() - by_commit.len();
    }
    // Otherwise the histories were too tame to show anything.
    assert!(moved > 100 && refused > 1000, "{moved} {refused}");
}
