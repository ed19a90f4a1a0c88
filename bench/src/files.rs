//! The step files that are measured. Each is as long as a step file may be, or a little shorter.

const SIZE_LIMIT: usize = 8192;

#[derive(Default)]
struct File {
    bytes: Vec<u8>,
    begun: u16,
}

impl File {
    fn open(&mut self, count: u16) {
        self.begun = 0;
        self.put(0, &[count]);
    }

    fn begin(&mut self) -> u16 {
        self.begun += 1;
        self.put(1, &[]);
        self.begun
    }

    fn read(&mut self, by: u16, item: u16) {
        self.put(2, &[by, item]);
    }

    fn write(&mut self, by: u16, item: u16, value: u32) {
        self.put(3, &[by, item]);
        self.bytes.extend(value.to_le_bytes());
    }

    fn commit(&mut self, by: u16) {
        self.put(4, &[by]);
    }

    fn latest(&mut self, item: u16) {
        self.put(6, &[item]);
    }

    fn put(&mut self, kind: u8, numbers: &[u16]) {
        self.bytes.push(kind);
        for n in numbers {
            self.bytes.extend(n.to_le_bytes());
        }
    }

    fn room(&self, bytes: usize) -> bool {
        self.bytes.len() + bytes <= SIZE_LIMIT
    }
}

/// A parlour morning: 24 stalls, two short transactions at a time, each reads three stalls and writes one of its own.
fn morning() -> Vec<u8> {
    let mut f = File::default();
    f.open(24);
    let mut stall = 0;
    while f.room(120) {
        let (a, b) = (f.begin(), f.begin());
        for by in [a, b] {
            for near in 0..3 {
                f.read(by, (stall + near) % 24);
            }
            f.write(by, stall, u32::from(by));
            stall = (stall + 7) % 24;
        }
        f.commit(a);
        f.latest(stall);
        f.commit(b);
    }
    f.bytes
}

/// Full tables: 32 rows with 8 records each. While the first is active none is spent, so every commit meets full tables.
fn full() -> Vec<u8> {
    let mut f = File::default();
    f.open(256);
    while f.room(4000) {
        let first = f.begin();
        for _ in 1..32 {
            f.begin();
        }
        for row in 0..32 {
            for k in 0..6 {
                f.read(first + row, (row * 5 + k * 3) % 256);
            }
            f.write(first + row, 2 * row, 1);
            f.write(first + row, 2 * row + 1, 2);
        }
        // Each row once more: a record that is there, a value changed, an item asked for, and two refusals.
        for row in 0..32 {
            f.read(first + row, row * 5);
            f.write(first + row, 2 * row, 3);
            f.latest(2 * row);
            f.read(first + row, 255 - row);
            f.put(1, &[]);
        }
        for row in (0..32).rev() {
            f.latest(row);
            f.commit(first + row);
        }
    }
    f.bytes
}

/// Long chains: each begins before the last one commits and reads what that one overwrites, so that 31 stay unspent
/// until the chain's last end.
fn chains() -> Vec<u8> {
    let mut f = File::default();
    f.open(64);
    let mut link = 0;
    while f.room(1000) {
        let mut last = f.begin();
        for _ in 1..32 {
            let next = f.begin();
            f.read(next, link % 64);
            f.read(next, (link + 1) % 64);
            f.write(last, link % 64, u32::from(next));
            f.commit(last);
            last = next;
            link += 1;
        }
        f.commit(last);
    }
    f.bytes
}

pub fn all() -> [(&'static str, Vec<u8>); 3] {
    [("morning", morning()), ("full", full()), ("chains", chains())]
}
