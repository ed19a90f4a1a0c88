//! Random step files: each profile goes to one corner of the rules.

use crate::chance::Chance;
use crate::writer::Writer;
use second::steps::SIZE_LIMIT;

pub type Profile = (&'static str, usize, fn(&mut Writer));

/// Name, how many of a hundred files, and what writes one.
pub const PROFILES: [Profile; 10] = [
    ("crowd", 24, crowd),
    ("readers", 14, readers),
    ("chains", 16, chains),
    ("rows", 7, rows),
    ("records", 5, records),
    ("refusals", 10, refusals),
    ("morning", 7, morning),
    ("damaged", 14, damaged),
    ("noise", 2, noise),
    ("limit", 1, limit),
];

/// File `at` of a seed, and its profile's name. `only` asks for one profile.
pub fn file(seed: u64, at: u64, only: Option<&str>) -> (&'static str, Vec<u8>) {
    let mut chance = Chance::new(seed, at);
    let mut left = chance.below(100);
    let by_weight = |p: &&Profile| {
        let found = left < p.1;
        left = left.wrapping_sub(p.1);
        found
    };
    let profile = match only {
        Some(name) => PROFILES.iter().find(|p| p.0 == name),
        None => PROFILES.iter().find(by_weight),
    };
    let (name, _, write) = profile.unwrap_or(&PROFILES[0]);
    let mut writer = Writer::new(chance);
    write(&mut writer);
    (name, writer.file)
}

/// How often each kind of step comes, and how many are active at most.
struct Mix {
    active: usize,
    begin: usize,
    read: usize,
    write: usize,
    commit: usize,
    abort: usize,
    latest: usize,
    odd: usize,
}

fn steps(w: &mut Writer, count: usize, mix: &Mix) {
    let all = mix.begin + mix.read + mix.write + mix.commit + mix.abort + mix.latest + mix.odd;
    for _ in 0..count {
        let mut left = w.chance.below(all);
        let mut is = |weight: usize| {
            let found = left < weight;
            left = left.wrapping_sub(weight);
            found
        };
        let (begin, odd, latest) = (is(mix.begin), is(mix.odd), is(mix.latest));
        let (read, write, commit) = (is(mix.read), is(mix.write), is(mix.commit));
        let item = w.any_item();
        if begin && w.active.len() < mix.active {
            w.begin();
        } else if odd {
            w.odd();
        } else if latest {
            w.latest(item);
        } else if let Some(by) = w.any_active() {
            match () {
                _ if read => drop(w.read(by, item)),
                _ if write => drop(w.write(by, item)),
                _ if commit || begin => drop(w.commit(by)),
                _ => w.abort(by),
            }
        } else {
            w.begin();
        }
    }
}

/// Few items and many concurrent transactions.
fn crowd(w: &mut Writer) {
    let count = w.chance.between(1, 8);
    w.open(count);
    let active = w.chance.pick(&[2, 3, 4, 6, 10, 32]);
    let length = w.chance.between(10, 150);
    let write = w.chance.pick(&[8, 15, 25]);
    let odd = w.chance.pick(&[0, 0, 1]);
    // Few commits of their own: most come when a begin finds the crowd complete.
    steps(w, length, &Mix { active, begin: 22, read: 40, write, commit: 5, abort: 1, latest: 1, odd });
}

/// Long readers beside short writers; a reader may write at its end.
fn readers(w: &mut Writer) {
    let count = w.chance.between(2, 6);
    w.open(count);
    let mut long = Vec::new();
    for _ in 0..w.chance.between(5, 30) {
        if long.len() < 4 && w.chance.percent(30) {
            long.extend(w.begin());
        }
        if let Some(short) = w.begin() {
            for _ in 0..w.chance.between(0, 2) {
                let item = w.any_item();
                w.read(short, item);
            }
            let item = w.any_item();
            w.write(short, item);
            if w.chance.percent(95) {
                w.commit(short);
            }
        }
        if !long.is_empty() {
            let at = w.chance.below(long.len());
            let item = w.any_item();
            w.read(long[at], item);
            if w.chance.percent(15) {
                if w.chance.percent(40) {
                    let item = w.any_item();
                    w.write(long[at], item);
                }
                match w.chance.percent(85) {
                    true => drop(w.commit(long[at])),
                    false => w.abort(long[at]),
                }
                long.remove(at);
            }
        }
    }
    for item in 0..count {
        w.latest(item);
    }
}

/// Each transaction begins before the last one commits and reads what that one overwrites, so that the whole chain
/// stays unspent, however old. Now and then one reads what an old link wrote, which closes a ring.
fn chains(w: &mut Writer) {
    let count = w.chance.between(3, 40);
    w.open(count);
    let mut last = w.begin();
    let length = w.chance.between(3, 45);
    for link in 0..length {
        let next = w.begin();
        if let (Some(last), Some(next)) = (last, next) {
            w.read(next, link % count);
            if w.chance.percent(20) {
                let item = w.any_item();
                w.read(next, item);
            }
            if w.chance.percent(8) {
                w.begin();
            }
            w.write(last, link % count);
            match w.chance.percent(96) {
                true => drop(w.commit(last)),
                false => w.abort(last),
            }
        } else if let Some(by) = w.any_active() {
            w.commit(by);
        }
        last = next.or_else(|| w.begin());
        if w.chance.percent(6) {
            // A gap: with none active all are spent, and a new chain begins.
            while let Some(by) = w.any_active() {
                w.commit(by);
            }
            last = w.begin();
        }
    }
    steps(w, 20, &Mix { active: 32, begin: 10, read: 30, write: 15, commit: 40, abort: 5, latest: 10, odd: 0 });
}

/// All 32 rows in use, some by committed ones.
fn rows(w: &mut Writer) {
    let count = w.chance.between(1, 12);
    w.open(count);
    let length = w.chance.between(60, 250);
    let commit = w.chance.between(3, 20);
    steps(w, length, &Mix { active: 40, begin: 40, read: 15, write: 10, commit, abort: 4, latest: 1, odd: 1 });
}

/// All 256 records in use.
fn records(w: &mut Writer) {
    let count = w.chance.between(20, 256);
    w.open(count);
    let others = w.chance.between(1, 8);
    for _ in 0..others {
        w.begin();
    }
    while let Some(by) = w.any_active() {
        let (first, length) = (w.any_item(), w.chance.between(5, 120));
        let writes = w.chance.percent(30);
        for item in first..first + length {
            let accepted = if writes { w.write(by, item % count) } else { w.read(by, item % count) };
            if !accepted && w.chance.percent(70) {
                break;
            }
        }
        if w.chance.percent(35) || w.file.len() > 4000 {
            w.commit(by);
        }
        if w.chance.percent(25) && w.file.len() < 3000 {
            w.begin();
        }
    }
}

/// All refusals, also before the first opening.
fn refusals(w: &mut Writer) {
    for _ in 0..w.chance.below(4) {
        w.odd();
    }
    for _ in 0..w.chance.between(1, 3) {
        let count = w.chance.pick(&[1, 2, 3, 255, 256]);
        w.open(count);
        let length = w.chance.between(5, 60);
        steps(w, length, &Mix { active: 5, begin: 10, read: 10, write: 10, commit: 8, abort: 5, latest: 3, odd: 40 });
    }
}

/// Short transactions, few conflicts.
fn morning(w: &mut Writer) {
    let count = w.chance.between(24, 256);
    w.open(count);
    let length = w.chance.between(30, 150);
    steps(w, length, &Mix { active: 4, begin: 20, read: 40, write: 25, commit: 20, abort: 1, latest: 5, odd: 0 });
}

/// Another profile's file with a few bytes changed, put in, taken out or cut.
fn damaged(w: &mut Writer) {
    let at = w.chance.below(7);
    (PROFILES[at].2)(w);
    for _ in 0..w.chance.between(1, 4) {
        let at = w.chance.below(w.file.len());
        match w.chance.below(6) {
            0 if !w.file.is_empty() => w.file[at] ^= 1 << w.chance.below(8),
            1 if !w.file.is_empty() => w.file[at] = w.chance.below(256) as u8,
            2 => w.file.insert(at, w.chance.below(8) as u8),
            3 if !w.file.is_empty() => drop(w.file.remove(at)),
            4 => w.file.truncate(at),
            _ => w.file.extend([w.chance.below(9) as u8, w.chance.below(256) as u8]),
        }
    }
}

/// Bytes of which many are kinds.
fn noise(w: &mut Writer) {
    if w.chance.percent(70) {
        w.open(2);
    }
    for _ in 0..w.chance.below(60) {
        let small = w.chance.percent(95);
        let byte = w.chance.below(if small { 7 } else { 256 });
        w.file.push(byte as u8);
    }
}

/// Files around the size limit, cut and whole.
fn limit(w: &mut Writer) {
    let size = match w.chance.below(4) {
        0 => SIZE_LIMIT,
        1 => SIZE_LIMIT + 1,
        2 => w.chance.between(SIZE_LIMIT - 9, SIZE_LIMIT + 9),
        _ => w.chance.between(SIZE_LIMIT / 2, SIZE_LIMIT + 600),
    };
    while w.file.len() < size {
        let at = w.chance.below(7);
        (PROFILES[at].2)(w);
    }
    w.file.truncate(size);
    if w.chance.percent(50) {
        // Whole to the end: one-byte steps in the place of the step that was cut.
        let rest = second::steps::split(&w.file).1.len();
        let whole = w.file.len() - rest;
        w.file[whole..].fill(1);
    }
}
