//! Dependencies between committed rows, one word of 32 bits for each row.

use crate::tables::{Record, Row, ITEMS, ROWS};

pub struct Graph {
    after: [u32; ROWS],
    /// For each row the rows that wrote an item that it wrote, and committed after its start.
    winners: [u32; ROWS],
}

impl Graph {
    /// An access of an item by A and a write of it by B, both committed: A goes before B if B committed after A's
    /// start, else B before A.
    pub fn of(rows: &[Row], records: &[Record]) -> Graph {
        let mut graph = Graph { after: [0; ROWS], winners: [0; ROWS] };
        let mut writers = [0u32; ITEMS];
        each(rows, records, |row, record| {
            if record.is_write() {
                writers[record.item()] |= 1 << row;
            }
        });
        each(rows, records, |row, record| {
            let mut others = writers[record.item()] & !(1 << row);
            while others != 0 {
                let other = others.trailing_zeros() as usize;
                others &= others - 1;
                if rows[other].commit > rows[row].start {
                    graph.after[row] |= 1 << other;
                    if record.is_write() {
                        graph.winners[row] |= 1 << other;
                    }
                } else {
                    graph.after[other] |= 1 << row;
                }
            }
        });
        graph
    }

    /// For the row that commits last: a concurrent writer was first.
    pub fn beaten(&self, row: usize) -> bool {
        self.winners[row] != 0
    }

    pub fn on_ring(&self, row: usize) -> bool {
        self.reached(self.after[row]) >> row & 1 == 1
    }

    /// The committed rows that no row with a commit after this moment leads to.
    pub fn not_reached_from(&self, rows: &[Row], moment: u32) -> u32 {
        let (mut committed, mut young) = (0, 0);
        for (at, row) in rows.iter().enumerate().filter(|(_, r)| r.commit != 0) {
            committed |= 1 << at;
            if row.commit > moment {
                young |= 1 << at;
            }
        }
        committed & !self.reached(young)
    }

    /// These rows and all that they lead to.
    fn reached(&self, from: u32) -> u32 {
        let (mut seen, mut fresh) = (from, from);
        while fresh != 0 {
            let row = fresh.trailing_zeros() as usize;
            fresh &= fresh - 1;
            fresh |= self.after[row] & !seen;
            seen |= self.after[row];
        }
        seen
    }
}

/// Each record of a committed row, with the row's place. Both stand by ascending number.
fn each(rows: &[Row], records: &[Record], mut f: impl FnMut(usize, Record)) {
    let mut row = 0;
    for &record in records {
        while rows[row].number < record.number() {
            row += 1;
        }
        if rows[row].commit != 0 {
            f(row, record);
        }
    }
}
