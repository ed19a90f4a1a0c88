//! The tables and the seven calls.

use crate::graph::Graph;

pub const ITEMS: usize = 256;
pub const ROWS: usize = 32;
pub const RECORDS: usize = 256;
const READ: u64 = 1;
const WRITE: u64 = 2;

#[derive(Clone, Copy, Default)]
pub struct Row {
    pub number: u32,
    pub start: u32,
    /// 0 while active.
    pub commit: u32,
}

/// Transaction 16 bits, item 8, kind 8, word 32: the order of records is the order of numbers.
#[derive(Clone, Copy, PartialEq, Eq, PartialOrd, Ord)]
pub struct Record(u64);

impl Record {
    fn new(number: u32, item: u32, kind: u64, word: u32) -> Record {
        Record(u64::from(number) << 48 | u64::from(item) << 40 | kind << 32 | u64::from(word))
    }

    fn key(self) -> u64 {
        self.0 >> 32
    }

    pub fn number(self) -> u32 {
        (self.0 >> 48) as u32
    }

    pub fn item(self) -> usize {
        (self.0 >> 40) as usize & 255
    }

    pub fn is_write(self) -> bool {
        self.0 >> 32 & 255 == WRITE
    }

    fn word(self) -> u32 {
        self.0 as u32
    }
}

pub struct Tables {
    count: u32,
    next_number: u32,
    next_moment: u32,
    values: [u32; ITEMS],
    writers: [u32; ITEMS],
    rows: [Row; ROWS],
    rows_used: usize,
    records: [Record; RECORDS],
    records_used: usize,
}

/// A refusal is its number.
pub type Outcome = Result<u32, u8>;

impl Tables {
    pub fn closed() -> Tables {
        Tables {
            count: 0,
            next_number: 0,
            next_moment: 0,
            values: [0; ITEMS],
            writers: [0; ITEMS],
            rows: [Row::default(); ROWS],
            rows_used: 0,
            records: [Record(0); RECORDS],
            records_used: 0,
        }
    }

    pub fn is_closed(&self) -> bool {
        self.count == 0
    }

    fn rows(&self) -> &[Row] {
        &self.rows[..self.rows_used]
    }

    fn records(&self) -> &[Record] {
        &self.records[..self.records_used]
    }

    fn find_row(&self, number: u32) -> Option<usize> {
        self.rows().binary_search_by_key(&number, |r| r.number).ok()
    }

    fn find_active(&self, number: u32) -> Result<usize, u8> {
        self.find_row(number).filter(|&at| self.rows[at].commit == 0).ok_or(3)
    }

    fn find_record(&self, record: Record) -> Result<usize, usize> {
        self.records().binary_search_by_key(&record.key(), |r| r.key())
    }

    fn insert(&mut self, at: usize, record: Record) -> Result<(), u8> {
        if self.records_used == RECORDS {
            return Err(6);
        }
        self.records.copy_within(at..self.records_used, at + 1);
        self.records[at] = record;
        self.records_used += 1;
        Ok(())
    }

    /// Writer and value of the item's version with the latest commit before this moment.
    fn version_before(&self, item: u32, before: u32) -> (u32, u32) {
        let key = u64::from(item) << 8 | WRITE;
        let mut latest = 0;
        let mut version = (self.writers[item as usize], self.values[item as usize]);
        for record in self.records().iter().filter(|r| r.key() & 0xFFFF == key) {
            let Some(at) = self.find_row(record.number()) else { continue };
            let commit = self.rows[at].commit;
            if commit > latest && commit < before {
                latest = commit;
                version = (record.number(), record.word());
            }
        }
        version
    }

    fn access(&self, number: u32, item: u32) -> Result<usize, u8> {
        if item >= self.count {
            return Err(2);
        }
        self.find_active(number)
    }

    pub fn open(&mut self, count: u32) -> Outcome {
        if !(1..=ITEMS as u32).contains(&count) {
            return Err(9);
        }
        *self = Tables { count, next_number: 1, next_moment: 1, ..Tables::closed() };
        Ok(0)
    }

    pub fn begin(&mut self) -> Outcome {
        if self.next_number == 65_536 {
            return Err(4);
        }
        if self.rows_used == ROWS {
            return Err(5);
        }
        let number = self.next_number;
        self.rows[self.rows_used] = Row { number, start: self.next_moment, commit: 0 };
        self.rows_used += 1;
        self.next_number += 1;
        self.next_moment += 1;
        Ok(number)
    }

    pub fn read(&mut self, number: u32, item: u32) -> Outcome {
        let row = self.access(number, item)?;
        if let Ok(at) = self.find_record(Record::new(number, item, WRITE, 0)) {
            return Ok(self.records[at].word());
        }
        let (writer, value) = self.version_before(item, self.rows[row].start);
        let record = Record::new(number, item, READ, writer);
        if let Err(at) = self.find_record(record) {
            self.insert(at, record)?;
        }
        Ok(value)
    }

    pub fn write(&mut self, number: u32, item: u32, value: u32) -> Outcome {
        self.access(number, item)?;
        let record = Record::new(number, item, WRITE, value);
        match self.find_record(record) {
            Ok(at) => self.records[at] = record,
            Err(at) => self.insert(at, record)?,
        }
        Ok(0)
    }

    pub fn commit(&mut self, number: u32) -> Outcome {
        let row = self.find_active(number)?;
        let mut rows = self.rows;
        rows[row].commit = self.next_moment;
        let graph = Graph::of(&rows[..self.rows_used], self.records());
        let refused = match () {
            _ if graph.beaten(row) => 7,
            _ if graph.on_ring(row) => 8,
            _ => 0,
        };
        if refused != 0 {
            self.end(row);
            return Err(refused);
        }
        let moment = self.next_moment;
        self.next_moment += 1;
        let was_oldest = self.oldest_active() == Some(row);
        self.rows = rows;
        if was_oldest {
            self.spend(&graph);
        }
        Ok(moment)
    }

    pub fn abort(&mut self, number: u32) -> Outcome {
        let row = self.find_active(number)?;
        self.end(row);
        Ok(0)
    }

    pub fn latest(&self, item: u32) -> Outcome {
        if item >= self.count {
            return Err(2);
        }
        Ok(self.version_before(item, u32::MAX).1)
    }

    fn oldest_active(&self) -> Option<usize> {
        self.rows().iter().position(|r| r.commit == 0)
    }

    fn end(&mut self, row: usize) {
        let was_oldest = self.oldest_active() == Some(row);
        self.remove(1 << row);
        if was_oldest {
            let graph = Graph::of(self.rows(), self.records());
            self.spend(&graph);
        }
    }

    /// Only the end of the oldest active one can make others spent: all else leaves the oldest start as it was.
    fn spend(&mut self, graph: &Graph) {
        let oldest = self.oldest_active().map_or(u32::MAX, |at| self.rows[at].start);
        let spent = graph.not_reached_from(self.rows(), oldest);
        if spent == 0 {
            return;
        }
        // Two kept writers of one item are never concurrent, so the one with the higher number has the later version.
        let mut row = 0;
        for record in &self.records[..self.records_used] {
            while self.rows[row].number < record.number() {
                row += 1;
            }
            if record.is_write() && spent >> row & 1 == 1 {
                self.values[record.item()] = record.word();
                self.writers[record.item()] = record.number();
            }
        }
        self.remove(spent);
    }

    /// Takes these rows and their records out.
    fn remove(&mut self, gone: u32) {
        let (mut kept, mut row) = (0, 0);
        for at in 0..self.records_used {
            let record = self.records[at];
            while self.rows[row].number < record.number() {
                row += 1;
            }
            if gone >> row & 1 == 0 {
                self.records[kept] = record;
                kept += 1;
            }
        }
        self.records_used = kept;
        let mut kept = 0;
        for at in 0..self.rows_used {
            if gone >> at & 1 == 0 {
                self.rows[kept] = self.rows[at];
                kept += 1;
            }
        }
        self.rows_used = kept;
    }
}
