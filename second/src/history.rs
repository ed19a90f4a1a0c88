//! The whole history since the last accepted opening, and the published definitions over it.
//! Nothing is forgotten here: a transaction that is spent stays, and every test looks at all of them.

use crate::steps::{Item, Moment, Number, Value};
use std::collections::HashMap;

#[derive(Clone, Copy, Debug, PartialEq, Eq)]
pub enum Ending {
    Active,
    Committed(Moment),
    Aborted,
}

#[derive(Clone, Debug)]
pub struct Transaction {
    pub number: Number,
    pub start: Moment,
    pub ending: Ending,
    /// Each item read from the snapshot, with the writer of the version seen (0: the opening).
    pub reads: Vec<(Item, Number)>,
    /// Each item written, with the latest value.
    pub writes: Vec<(Item, Value)>,
}

#[derive(Clone, Copy, Debug, PartialEq, Eq)]
pub struct Version {
    pub writer: Number,
    pub value: Value,
}

/// Count 0 is the closed state.
#[derive(Clone, Debug, Default)]
pub struct History {
    pub count: u16,
    pub next_moment: Moment,
    /// By number: transaction t stands at t - 1.
    pub transactions: Vec<Transaction>,
    /// Which of them are spent, judged anew after each accepted commit and each ended transaction.
    pub spent: Vec<bool>,
}

impl Transaction {
    pub fn active(&self) -> bool {
        self.ending == Ending::Active
    }

    pub fn commit(&self) -> Option<Moment> {
        match self.ending {
            Ending::Committed(moment) => Some(moment),
            _ => None,
        }
    }

    pub fn written(&self, item: Item) -> Option<Value> {
        self.writes.iter().find(|w| w.0 == item).map(|w| w.1)
    }

    pub fn has_read(&self, item: Item) -> bool {
        self.reads.iter().any(|r| r.0 == item)
    }

    pub fn records(&self) -> usize {
        self.reads.len() + self.writes.len()
    }
}

impl History {
    pub fn opened(count: u16) -> History {
        History { count, next_moment: 1, ..History::default() }
    }

    pub fn find_active(&self, number: Number) -> Option<&Transaction> {
        let t = self.transactions.get(usize::from(number).checked_sub(1)?)?;
        t.active().then_some(t)
    }

    pub fn at(&mut self, number: Number) -> &mut Transaction {
        &mut self.transactions[usize::from(number) - 1]
    }

    /// Those that have a row: the active ones, and the committed ones that are not spent.
    pub fn with_row(&self) -> impl Iterator<Item = &Transaction> {
        let kept = |t: &&Transaction| t.active() || t.commit().is_some() && !self.spent[usize::from(t.number) - 1];
        self.transactions.iter().filter(kept)
    }

    /// The item's version with the latest commit that passes the test, or else the opening's.
    pub fn version(&self, item: Item, passes: impl Fn(Moment) -> bool) -> Version {
        let mut latest = (0, Version { writer: 0, value: 0 });
        for t in &self.transactions {
            if let (Some(commit), Some(value)) = (t.commit(), t.written(item)) {
                if passes(commit) && commit > latest.0 {
                    latest = (commit, Version { writer: t.number, value });
                }
            }
        }
        latest.1
    }

    /// A committed transaction whose commit is after t's start wrote an item that t wrote.
    pub fn beaten(&self, t: &Transaction) -> bool {
        let later = |c: &&Transaction| c.commit().is_some_and(|moment| moment > t.start);
        self.transactions.iter().filter(later).any(|c| c.writes.iter().any(|w| t.written(w.0).is_some()))
    }

    /// The committed transactions in commit order, with `last` added as the newest.
    pub fn committed<'a>(&'a self, last: Option<&'a Transaction>) -> Vec<&'a Transaction> {
        let mut list: Vec<&Transaction> = self.transactions.iter().filter(|t| t.commit().is_some()).collect();
        list.sort_by_key(|t| t.commit());
        list.extend(last);
        list
    }

    /// A committed transaction is spent when its commit is before the start of every active one and all its incoming
    /// dependencies come from spent ones. The least such set: begin with none and add until nothing changes.
    pub fn least_spent(&self) -> Vec<bool> {
        let list = self.committed(None);
        let edges = dependencies(&list);
        let old = |t: &Transaction| self.transactions.iter().all(|a| !a.active() || t.commit() < Some(a.start));
        let olds: Vec<bool> = list.iter().map(|t| old(t)).collect();
        let mut spent = vec![false; list.len()];
        loop {
            let mut next = olds.clone();
            for edge in edges.iter().filter(|e| !spent[e.from]) {
                next[edge.to] = false;
            }
            if next == spent {
                break;
            }
            spent = next;
        }
        let mut by_number = vec![false; self.transactions.len()];
        for (t, is) in list.iter().zip(spent) {
            by_number[usize::from(t.number) - 1] = is;
        }
        by_number
    }
}

#[derive(Clone, Copy, Debug, PartialEq, Eq)]
pub enum Why {
    /// `to` read a version that `from` installed.
    Seen,
    /// `to` installed the immediate successor of a version that `from` installed.
    Replaced,
    /// `from` read a version whose immediate successor `to` installed.
    Overwritten,
}

/// A dependency; `from` and `to` are places in the list of committed transactions.
#[derive(Clone, Copy, Debug)]
pub struct Edge {
    pub from: usize,
    pub to: usize,
    pub why: Why,
}

/// All dependencies among these transactions, which stand in commit order. None is from one to itself.
pub fn dependencies(list: &[&Transaction]) -> Vec<Edge> {
    // The versions of all items: by item, then by commit.
    let mut versions: Vec<(Item, usize)> = Vec::new();
    for (place, t) in list.iter().enumerate() {
        versions.extend(t.writes.iter().map(|w| (w.0, place)));
    }
    versions.sort_unstable();
    let mut edges = Vec::new();
    let mut add = |from: usize, to: usize, why: Why| {
        if from != to {
            edges.push(Edge { from, to, why });
        }
    };
    for pair in versions.windows(2) {
        if pair[0].0 == pair[1].0 {
            add(pair[0].1, pair[1].1, Why::Replaced);
        }
    }
    let place_of: HashMap<Number, usize> = list.iter().enumerate().map(|(place, t)| (t.number, place)).collect();
    for (reader, t) in list.iter().enumerate() {
        for &(item, writer) in &t.reads {
            let seen = place_of.get(&writer).and_then(|&place| versions.binary_search(&(item, place)).ok());
            // The opening's version stands before the first of the item.
            let successor = seen.map_or_else(|| versions.partition_point(|v| v.0 < item), |at| at + 1);
            if let Some(at) = seen {
                add(versions[at].1, reader, Why::Seen);
            }
            if let Some(version) = versions.get(successor).filter(|v| v.0 == item) {
                add(reader, version.1, Why::Overwritten);
            }
        }
    }
    edges
}

/// Whether these edges among `count` places have a cycle: what is left when those without an incoming edge are taken
/// away, again and again.
pub fn cycle(count: usize, edges: &[Edge]) -> bool {
    let mut incoming = vec![0usize; count];
    let mut outgoing = vec![Vec::new(); count];
    for edge in edges {
        incoming[edge.to] += 1;
        outgoing[edge.from].push(edge.to);
    }
    let mut free: Vec<usize> = (0..count).filter(|&p| incoming[p] == 0).collect();
    let mut taken = 0;
    while let Some(place) = free.pop() {
        taken += 1;
        for &to in &outgoing[place] {
            incoming[to] -= 1;
            if incoming[to] == 0 {
                free.push(to);
            }
        }
    }
    taken < count
}
