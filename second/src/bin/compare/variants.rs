//! Wrong variants of the second program: each replaces one rule by a wrong one. The comparison has to catch them all.
//! Faults of dependencies, rings and spending stand here, those of the calls and of files in `slips`.

use second::history::{cycle, dependencies, Edge, History, Transaction, Version, Why};
use second::rules::Rules;
use second::steps::{Item, Number};

/// The ring test over those that still have a row, in place of the whole history.
fn ring_among_rows(h: &History, t: &Transaction) -> bool {
    let kept: Vec<Number> = h.with_row().map(|k| k.number).collect();
    let mut list = h.committed(Some(t));
    list.retain(|c| kept.contains(&c.number));
    cycle(list.len(), &dependencies(&list))
}

/// A struct for each fault: its name, and the rules that it replaces.
macro_rules! variants {
    ($list:ident: $($name:ident $text:literal { $($rule:item)* })*) => {
        $(struct $name; impl Rules for $name { $($rule)* })*
        pub fn $list() -> Vec<(&'static str, Box<dyn Rules>)> {
            vec![$(($text, Box::new($name) as Box<dyn Rules>)),*]
        }
    };
}
pub(crate) use variants;

variants! { rings:
    ForgottenAtCommit "fault 1: a transaction is forgotten at its commit" {
        fn ring(&self, h: &History, t: &Transaction) -> bool {
            ring_among_rows(h, t)
        }
        fn spent(&self, h: &History) -> Vec<bool> {
            h.transactions.iter().map(|t| t.commit().is_some()).collect()
        }
    }
    RingsOnlyForWriters "fault 2: rings are tested only for writers" {
        fn ring(&self, h: &History, t: &Transaction) -> bool {
            let list = h.committed(Some(t));
            !t.writes.is_empty() && cycle(list.len(), &self.edges(&list))
        }
    }
    TwoOverwrittenInARow "fault 3: two reads overwritten in a row are refused, ring or not" {
        fn ring(&self, h: &History, t: &Transaction) -> bool {
            let edges = self.edges(&h.committed(Some(t)));
            let overwritten = |e: &&Edge| e.why == Why::Overwritten;
            edges.iter().filter(overwritten).any(|a| edges.iter().filter(overwritten).any(|b| a.to == b.from))
        }
    }
    SeesLaterCommits "fault 4: a read sees a commit made after its start" {
        fn visible(&self, h: &History, _: &Transaction, item: Item) -> Version {
            h.version(item, |_| true)
        }
    }
    KeptTillTheEnd "fault 5: a transaction is kept until the day's end" {
        fn spent(&self, h: &History) -> Vec<bool> {
            vec![false; h.transactions.len()]
        }
    }
    DroppedByAge "fault 6: a committed transaction is dropped once it is older than all active ones" {
        fn ring(&self, h: &History, t: &Transaction) -> bool {
            ring_among_rows(h, t)
        }
        fn spent(&self, h: &History) -> Vec<bool> {
            let old = |t: &Transaction| h.transactions.iter().all(|a| !a.active() || t.commit() < Some(a.start));
            h.transactions.iter().map(|t| t.commit().is_some() && old(t)).collect()
        }
    }
    SeesOneTooMany "visible: also the commit just after the start" {
        fn visible(&self, h: &History, t: &Transaction, item: Item) -> Version {
            h.version(item, |commit| commit <= t.start + 1)
        }
    }
    SeesOneTooFew "visible: not the commit just before the start" {
        fn visible(&self, h: &History, t: &Transaction, item: Item) -> Version {
            h.version(item, |commit| commit + 1 < t.start)
        }
    }
    RingsWithoutT "the ring test leaves T out" {
        fn ring(&self, h: &History, _: &Transaction) -> bool {
            let list = h.committed(None);
            cycle(list.len(), &self.edges(&list))
        }
    }
    NoRings "no ring test" {
        fn ring(&self, _: &History, _: &Transaction) -> bool {
            false
        }
    }
    NothingSeen "no dependency for a version read" {
        fn edges(&self, list: &[&Transaction]) -> Vec<Edge> {
            dependencies(list).into_iter().filter(|e| e.why != Why::Seen).collect()
        }
    }
    NothingReplaced "no dependency for a version replaced" {
        fn edges(&self, list: &[&Transaction]) -> Vec<Edge> {
            dependencies(list).into_iter().filter(|e| e.why != Why::Replaced).collect()
        }
    }
    NothingOverwritten "no dependency for a read overwritten" {
        fn edges(&self, list: &[&Transaction]) -> Vec<Edge> {
            dependencies(list).into_iter().filter(|e| e.why != Why::Overwritten).collect()
        }
    }
    OpeningNotRead "a read of the opening's version makes no dependency" {
        fn edges(&self, list: &[&Transaction]) -> Vec<Edge> {
            let mut forgetful: Vec<Transaction> = list.iter().map(|t| (*t).clone()).collect();
            forgetful.iter_mut().for_each(|t| t.reads.retain(|r| r.1 != 0));
            dependencies(&forgetful.iter().collect::<Vec<_>>())
        }
    }
    RingsOfTwo "only rings of two are found" {
        fn ring(&self, h: &History, t: &Transaction) -> bool {
            let edges = self.edges(&h.committed(Some(t)));
            edges.iter().any(|a| edges.iter().any(|b| a.to == b.from && b.to == a.from))
        }
    }
    RingsAmongNeighbours "the ring test knows only the newest eight committed" {
        fn ring(&self, h: &History, t: &Transaction) -> bool {
            let list = h.committed(Some(t));
            let newest = &list[list.len().saturating_sub(9)..];
            cycle(newest.len(), &dependencies(newest))
        }
    }
    RingsOfConcurrent "the ring test knows only those concurrent with T" {
        fn ring(&self, h: &History, t: &Transaction) -> bool {
            let mut list = h.committed(Some(t));
            list.retain(|c| c.number == t.number || c.commit() > Some(t.start));
            cycle(list.len(), &dependencies(&list))
        }
    }
    SpentByAge "rows and records go by age, though the ring test still knows all" {
        fn spent(&self, h: &History) -> Vec<bool> {
            DroppedByAge.spent(h)
        }
    }
    SpentBesideReaders "active ones that wrote nothing delay no spending" {
        fn spent(&self, h: &History) -> Vec<bool> {
            let mut fewer = h.clone();
            let idle = |t: &&mut Transaction| t.active() && t.writes.is_empty();
            fewer.transactions.iter_mut().filter(idle).for_each(|t| t.ending = second::history::Ending::Aborted);
            fewer.least_spent()
        }
    }
    SpentTogether "spending waits until none is active" {
        fn spent(&self, h: &History) -> Vec<bool> {
            let none = !h.transactions.iter().any(Transaction::active);
            if none { h.least_spent() } else { h.spent.clone() }
        }
    }
    SpentWithoutReads "spending follows no dependency that a read makes" {
        fn spent(&self, h: &History) -> Vec<bool> {
            let mut bare = h.clone();
            bare.transactions.iter_mut().filter(|t| t.commit().is_some()).for_each(|t| t.reads.clear());
            bare.least_spent()
        }
    }
    SpentVersionsLost "the versions of spent ones are lost" {
        fn latest_version(&self, h: &History, item: Item) -> Version {
            unspent_version(h, item, u32::MAX)
        }
        fn visible(&self, h: &History, t: &Transaction, item: Item) -> Version {
            unspent_version(h, item, t.start)
        }
    }
}

fn unspent_version(h: &History, item: Item, before: u32) -> Version {
    let mut kept = h.clone();
    kept.transactions = h.with_row().cloned().collect();
    kept.version(item, |commit| commit < before)
}
