//! Writes a step file while the second program runs it, so that a profile knows who is active.

use crate::chance::Chance;
use second::history::History;
use second::rules::{Published, Rules};
use second::steps::{Item, Number, Step};

pub struct Writer {
    pub chance: Chance,
    pub file: Vec<u8>,
    pub active: Vec<Number>,
    pub count: u16,
    history: History,
}

impl Writer {
    pub fn new(chance: Chance) -> Writer {
        Writer { chance, file: Vec::new(), active: Vec::new(), count: 0, history: History::default() }
    }

    /// Adds a step; whether it was accepted.
    pub fn put(&mut self, step: Step) -> bool {
        step.write_to(&mut self.file);
        let answer = Published.step(&mut self.history, step);
        match step {
            Step::Open { count } if answer.number == 0 => {
                self.count = count;
                self.active.clear();
            }
            Step::Begin if answer.number == 0 => self.active.push(answer.value as Number),
            Step::Commit { by } | Step::Abort { by } => self.active.retain(|n| *n != by),
            _ => {}
        }
        answer.number == 0
    }

    pub fn open(&mut self, count: usize) {
        self.put(Step::Open { count: count as u16 });
    }

    /// The number of the new transaction, if there was room.
    pub fn begin(&mut self) -> Option<Number> {
        self.put(Step::Begin).then(|| self.active[self.active.len() - 1])
    }

    pub fn read(&mut self, by: Number, item: usize) -> bool {
        let item = item as Item;
        self.put(Step::Read { by, item })
    }

    /// Mostly small values, so that equal ones are written too.
    pub fn write(&mut self, by: Number, item: usize) -> bool {
        let value = match self.chance.below(8) {
            0 => 0,
            1 => u32::MAX - self.chance.below(2) as u32,
            _ => self.chance.below(100) as u32,
        };
        let item = item as Item;
        self.put(Step::Write { by, item, value })
    }

    pub fn commit(&mut self, by: Number) -> bool {
        self.put(Step::Commit { by })
    }

    pub fn abort(&mut self, by: Number) {
        self.put(Step::Abort { by });
    }

    pub fn latest(&mut self, item: usize) {
        self.put(Step::Latest { item: item as Item });
    }

    pub fn any_active(&mut self) -> Option<Number> {
        (!self.active.is_empty()).then(|| self.chance.pick(&self.active))
    }

    pub fn any_item(&mut self) -> usize {
        self.chance.below(usize::from(self.count))
    }

    /// A step that is most likely refused: a wrong number, item or count, an ended transaction.
    pub fn odd(&mut self) {
        let last = self.history.transactions.len();
        let by = match self.chance.below(5) {
            0 => 0,
            1 => last + 1,
            2 => self.chance.below(65536),
            _ => self.chance.below(last + 2),
        } as Number;
        let count = usize::from(self.count);
        let item = match self.chance.below(6) {
            0 => count,
            1 => self.chance.below(65536),
            2 => count + 256,
            3 => 65535,
            _ => self.any_item(),
        };
        match self.chance.below(12) {
            0 => {
                let count = self.chance.pick(&[0, 257, 258, 512, 513, 65535, 256, 1]);
                self.open(count);
            }
            1..=3 => {
                self.read(by, item);
            }
            4..=6 => {
                self.write(by, item);
            }
            7..=8 => {
                self.commit(by);
            }
            9..=10 => self.abort(by),
            _ => self.latest(item),
        }
    }
}
