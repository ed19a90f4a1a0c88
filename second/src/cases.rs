//! The parlour cases of document 01, as readable steps with the answers that its text gives, and a few more whose answers
//! follow from its rules by hand.

use crate::steps::Answer;
use crate::text::parse_case;

pub struct Case {
    pub name: &'static str,
    pub file: Vec<u8>,
    pub answers: Vec<Answer>,
}

const P1: &str = "open 2 = 0 0\n begin = 0 1\n begin = 0 2\n read 1 0 = 0 0\n read 2 1 = 0 0\n write 1 1 40 = 0 0\n
    write 2 0 50 = 0 0\n commit 1 = 0 3\n commit 2 = 8 0\n latest 1 = 0 40\n latest 0 = 0 0";

const P2: &str = "open 2 = 0 0\n begin = 0 1\n begin = 0 2\n write 1 0 5 = 0 0\n write 2 0 6 = 0 0\n
    commit 1 = 0 3\n commit 2 = 7 0\n latest 0 = 0 5";

const P3: &str = "open 2 = 0 0\n begin = 0 1\n write 1 0 5 = 0 0\n commit 1 = 0 2\n
    begin = 0 2\n write 2 0 6 = 0 0\n commit 2 = 0 4\n latest 0 = 0 6";

const P4: &str = "open 2 = 0 0\n begin = 0 1\n begin = 0 2\n read 1 0 = 0 0\n read 1 1 = 0 0\n
    read 2 1 = 0 0\n write 2 1 20 = 0 0\n commit 2 = 0 3\n
    begin = 0 3\n read 3 0 = 0 0\n read 3 1 = 0 20\n commit 3 = 0 5\n
    write 1 0 11 = 0 0\n commit 1 = 8 0\n latest 0 = 0 0\n latest 1 = 0 20";

const P5: &str = "open 2 = 0 0\n begin = 0 1\n begin = 0 2\n read 1 0 = 0 0\n read 1 1 = 0 0\n
    read 2 1 = 0 0\n write 2 1 20 = 0 0\n commit 2 = 0 3\n
    begin = 0 3\n read 3 0 = 0 0\n read 3 1 = 0 20\n
    write 1 0 11 = 0 0\n commit 1 = 0 5\n commit 3 = 8 0";

const P6: &str = "open 2 = 0 0\n begin = 0 1\n begin = 0 2\n read 1 0 = 0 0\n read 1 1 = 0 0\n
    read 2 1 = 0 0\n write 2 1 20 = 0 0\n commit 2 = 0 3\n write 1 0 11 = 0 0\n commit 1 = 0 4";

const P7: &str = "open 2 = 0 0\n begin = 0 1\n begin = 0 2\n begin = 0 3\n read 1 0 = 0 0\n
    write 2 0 1 = 0 0\n read 2 1 = 0 0\n write 3 1 2 = 0 0\n
    commit 3 = 0 4\n commit 2 = 0 5\n commit 1 = 0 6";

const P8: &str = "open 2 = 0 0\n begin = 0 1\n begin = 0 2\n read 1 0 = 0 0\n write 1 0 5 = 0 0\n
    read 2 0 = 0 0\n write 2 0 6 = 0 0\n commit 1 = 0 3\n commit 2 = 7 0";

const COUNTS: &str = "open 0 = 9 0\n begin = 1 0\n open 257 = 9 0\n begin = 1 0\n
    open 1 = 0 0\n begin = 0 1\n read 1 0 = 0 0\n read 1 1 = 2 0\n
    open 256 = 0 0\n begin = 0 1\n read 1 255 = 0 0\n read 1 256 = 2 0";

const CLOSED: &str =
    "begin = 1 0\n read 1 0 = 1 0\n write 1 0 5 = 1 0\n commit 1 = 1 0\n abort 1 = 1 0\n latest 0 = 1 0";

// A refused open leaves everything as it was; an accepted one replaces everything.
const OPENINGS: &str = "open 2 = 0 0\n begin = 0 1\n write 1 0 7 = 0 0\n commit 1 = 0 2\n begin = 0 2\n
    open 0 = 9 0\n latest 0 = 0 7\n read 2 0 = 0 7\n
    open 1 = 0 0\n latest 0 = 0 0\n latest 1 = 2 0\n commit 2 = 3 0\n begin = 0 1\n commit 1 = 0 2";

// The lowest number of several: 2 before 3.
const SEVERAL: &str = "open 2 = 0 0\n read 1 2 = 2 0\n read 1 1 = 3 0\n write 0 2 5 = 2 0\n write 0 1 5 = 3 0\n
    commit 0 = 3 0\n abort 1 = 3 0\n begin = 0 1\n abort 1 = 0 0\n abort 1 = 3 0\n commit 1 = 3 0";

// T reads its own write, which makes no record; an equal value is a write; aborted transactions leave nothing.
const OWN: &str =
    "open 2 = 0 0\n begin = 0 1\n write 1 0 5 = 0 0\n read 1 0 = 0 5\n write 1 0 6 = 0 0\n read 1 0 = 0 6\n
    latest 0 = 0 0\n begin = 0 2\n write 2 0 0 = 0 0\n commit 1 = 0 3\n commit 2 = 7 0\n
    begin = 0 3\n write 3 1 9 = 0 0\n abort 3 = 0 0\n latest 1 = 0 0\n latest 0 = 0 6";

// A read sees no commit made after its start.
const SNAPSHOT: &str =
    "open 2 = 0 0\n begin = 0 1\n begin = 0 2\n write 2 0 5 = 0 0\n commit 2 = 0 3\n read 1 0 = 0 0\n
    latest 0 = 0 5\n begin = 0 3\n read 3 0 = 0 5\n commit 1 = 0 5\n commit 3 = 0 6";

// 7 and 8 end the transaction and take no moment.
const ENDED: &str = "open 2 = 0 0\n begin = 0 1\n begin = 0 2\n begin = 0 3\n read 3 0 = 0 0\n write 3 1 8 = 0 0\n
    write 1 0 5 = 0 0\n read 1 1 = 0 0\n write 2 0 6 = 0 0\n commit 1 = 0 4\n commit 2 = 7 0\n commit 2 = 3 0\n abort 2 = 3 0\n
    commit 3 = 8 0\n read 3 0 = 3 0\n begin = 0 4\n read 4 1 = 0 0\n commit 4 = 0 6";

// 2 to 3 only because 3 replaces what 2 wrote; 3 to 1 and 1 to 2 by reads overwritten.
const REPLACED: &str =
    "open 3 = 0 0\n begin = 0 1\n begin = 0 2\n write 2 0 1 = 0 0\n write 2 1 1 = 0 0\n commit 2 = 0 3\n
    begin = 0 3\n write 3 0 2 = 0 0\n read 3 2 = 0 0\n commit 3 = 0 5\n
    read 1 1 = 0 0\n write 1 2 3 = 0 0\n commit 1 = 8 0";

const UNKNOWN: &str = "open 2 = 0 0\n begin = 0 1\n bytes 07 00 00 = 10 4";
const CUT: &str = "open 2 = 0 0\n begin = 0 1\n bytes 03 01 00 00 00 28 00 00 = 10 4";

/// 32 begins, the 33rd gets 5; after abort of 4, begin gives 33.
fn rows() -> String {
    let mut text = String::from("open 2 = 0 0\n");
    for number in 1..=32 {
        text += &format!("begin = 0 {number}\n");
    }
    text + "begin = 5 0\n abort 4 = 0 0\n begin = 0 33\n begin = 5 0"
}

/// 256 items, transaction 1 reads all: reading item 0 again is accepted, writing it gets 6.
fn records() -> String {
    let mut text = String::from("open 256 = 0 0\n begin = 0 1\n");
    for item in 0..256 {
        text += &format!("read 1 {item} = 0 0\n");
    }
    text + "read 1 0 = 0 0\n write 1 0 5 = 6 0\n begin = 0 2\n read 2 0 = 6 0\n abort 1 = 0 0\n read 2 0 = 0 0"
}

/// Rows that are spent come back: 100 transactions one after the other beside none active.
fn spent_rows() -> String {
    let mut text = String::from("open 2 = 0 0\n");
    for number in 1..=100u32 {
        text += &format!("begin = 0 {number}\n write {number} 0 {number} = 0 0\n commit {number} = 0 {}\n", 2 * number);
    }
    text + "latest 0 = 0 100"
}

/// While 1 is active none of the later ones is spent; once it ends, by an abort, all are.
fn pinned_rows() -> String {
    let mut text = String::from("open 2 = 0 0\n begin = 0 1\n");
    for number in 2..=32u32 {
        text +=
            &format!("begin = 0 {number}\n write {number} 0 {number} = 0 0\n commit {number} = 0 {}\n", 2 * number - 1);
    }
    text + "begin = 5 0\n abort 1 = 0 0\n begin = 0 33\n begin = 0 34\n read 33 0 = 0 32"
}

/// Reads of one's own writes make no record, and are accepted when all 256 are used.
fn own_records() -> String {
    let mut text = String::from("open 256 = 0 0\n begin = 0 1\n write 1 0 5 = 0 0\n read 1 0 = 0 5\n");
    for item in 1..256 {
        text += &format!("read 1 {item} = 0 0\n");
    }
    text + "read 1 0 = 0 5\n write 1 0 6 = 0 0\n write 1 1 6 = 6 0\n read 1 0 = 0 6"
}

pub fn all() -> Vec<Case> {
    let texts = [
        ("P1", P1.into()),
        ("P2", P2.into()),
        ("P3", P3.into()),
        ("P4", P4.into()),
        ("P5", P5.into()),
        ("P6", P6.into()),
        ("P7", P7.into()),
        ("P8", P8.into()),
        ("rows", rows()),
        ("records", records()),
        ("spent rows", spent_rows()),
        ("counts", COUNTS.into()),
        ("closed", CLOSED.into()),
        ("openings", OPENINGS.into()),
        ("several", SEVERAL.into()),
        ("own", OWN.into()),
        ("unknown kind", UNKNOWN.into()),
        ("cut body", CUT.into()),
        ("empty", String::new()),
        ("snapshot", SNAPSHOT.into()),
        ("ended", ENDED.into()),
        ("replaced", REPLACED.into()),
        ("pinned rows", pinned_rows()),
        ("own records", own_records()),
    ];
    let mut cases = Vec::new();
    for (name, text) in texts {
        let (file, answers) = parse_case(&text).unwrap_or_else(|e| panic!("case {name}: {e}"));
        cases.push(Case { name, file, answers });
    }
    cases
}
