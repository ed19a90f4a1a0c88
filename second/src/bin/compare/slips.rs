//! Wrong variants: faults of the calls, of the order of refusals, of the step reader and of the run's buffer.

use crate::variants::variants;
use second::history::{Ending, History, Transaction, Version};
use second::rules::{Published, Rules};
use second::steps::{decode, Answer, Item, Number, Step, Value, ANSWER_BYTES};

variants! { calls:
    BeatenNever "no one is beaten" {
        fn beaten(&self, _: &History, _: &Transaction) -> bool {
            false
        }
    }
    BeatenByReading "beaten also by writes of items that were only read" {
        fn beaten(&self, h: &History, t: &Transaction) -> bool {
            let later = h.transactions.iter().filter(|c| c.commit() > Some(t.start));
            h.beaten(t) || later.into_iter().any(|c| c.writes.iter().any(|w| t.has_read(w.0)))
        }
    }
    BeatenByActive "beaten also by active writers" {
        fn beaten(&self, h: &History, t: &Transaction) -> bool {
            let others = h.transactions.iter().filter(|c| c.active() && c.number != t.number);
            h.beaten(t) || others.into_iter().any(|c| c.writes.iter().any(|w| t.written(w.0).is_some()))
        }
    }
    BeatenByOlder "beaten by every committed writer of the item" {
        fn beaten(&self, h: &History, t: &Transaction) -> bool {
            h.transactions.iter().any(|c| c.commit().is_some() && c.writes.iter().any(|w| t.written(w.0).is_some()))
        }
    }
    RingFirst "8 goes before 7" {
        fn verdict(&self, h: &History, t: &Transaction) -> u8 {
            if self.ring(h, t) { 8 } else { Published.verdict(h, t) }
        }
    }
    EqualIsNoWrite "writing the visible value is no write" {
        fn write(&self, h: &mut History, by: Number, item: Item, value: Value) -> Answer {
            let t = h.find_active(by).filter(|t| item < h.count && t.written(item).is_none());
            let equal = t.is_some_and(|t| self.visible(h, t, item).value == value);
            if equal { Answer::accepted(0) } else { Published.write(h, by, item, value) }
        }
    }
    FirstWriteStays "a second write of an item changes nothing" {
        fn write(&self, h: &mut History, by: Number, item: Item, value: Value) -> Answer {
            let first = h.find_active(by).and_then(|t| t.written(item));
            Published.write(h, by, item, first.unwrap_or(value))
        }
    }
    OwnWriteNotRead "a read does not see the transaction's own write" {
        fn own(&self, _: &Transaction, _: Item) -> Option<Value> {
            None
        }
    }
    OwnReadRecorded "a read of the transaction's own write makes a record" {
        fn read(&self, h: &mut History, by: Number, item: Item) -> Answer {
            let answer = Published.read(h, by, item);
            if answer.number == 0 && !h.at(by).has_read(item) && self.room(h) {
                let seen = self.visible(h, &h.transactions[usize::from(by) - 1], item).writer;
                h.at(by).reads.push((item, seen));
            }
            answer
        }
    }
    ReadsNotRecorded "a read makes no record" {
        fn read(&self, h: &mut History, by: Number, item: Item) -> Answer {
            let answer = Published.read(h, by, item);
            if answer.number == 0 {
                h.at(by).reads.clear();
            }
            answer
        }
    }
    EachReadRecorded "a repeated read needs a new record" {
        fn read(&self, h: &mut History, by: Number, item: Item) -> Answer {
            let again = h.find_active(by).is_some_and(|t| t.has_read(item) && t.written(item).is_none());
            if again && !self.room(h) { Answer::refused(6) } else { Published.read(h, by, item) }
        }
    }
    LatestUncommitted "latest sees active writers" {
        fn latest_version(&self, h: &History, item: Item) -> Version {
            let writer = h.transactions.iter().rev().find(|t| t.active() && t.written(item).is_some());
            let own = |t: &Transaction| Version { writer: t.number, value: t.written(item).unwrap_or(0) };
            writer.map_or_else(|| h.version(item, |_| true), own)
        }
    }
    ThreeBeforeTwo "3 goes before 2" {
        fn wrong_access(&self, h: &History, by: Number, item: Item) -> Option<Answer> {
            if h.find_active(by).is_none() { Some(Answer::refused(3)) } else { Published.wrong_access(h, by, item) }
        }
    }
    ItemAtCount "the item that equals count is accepted" {
        fn wrong_access(&self, h: &History, by: Number, item: Item) -> Option<Answer> {
            Published.wrong_access(h, by, if item == h.count { 0 } else { item })
        }
    }
    ItemCutToAByte "items are cut to one byte" {
        fn wrong_access(&self, h: &History, by: Number, item: Item) -> Option<Answer> {
            Published.wrong_access(h, by, item % 256)
        }
    }
    RefusedStaysActive "a commit refused by 7 or 8 leaves the transaction active" {
        fn end_refused(&self, _: &mut History, _: Number) {}
    }
    RefusedTakesMoment "a refused commit takes a moment" {
        fn end_refused(&self, h: &mut History, by: Number) {
            self.end(h, by);
            h.next_moment += 1;
        }
    }
    AbortTakesMoment "an abort takes a moment" {
        fn abort(&self, h: &mut History, by: Number) -> Answer {
            let answer = Published.abort(h, by);
            h.next_moment += u32::from(answer.number == 0);
            answer
        }
    }
    AbortSpendsNone "nothing is spent after an abort" {
        fn end(&self, h: &mut History, by: Number) {
            let spent = h.spent.clone();
            Published.end(h, by);
            h.spent = spent;
        }
    }
    CommitSpendsNone "nothing is spent after a commit" {
        fn after_commit(&self, _: &mut History) {}
    }
    AbortInstalls "an abort installs the writes" {
        fn abort(&self, h: &mut History, by: Number) -> Answer {
            let kept = h.find_active(by).cloned();
            let answer = Published.abort(h, by);
            if let Some(t) = kept {
                h.at(by).writes = t.writes;
                h.at(by).ending = Ending::Committed(t.start);
                h.spent = self.spent(h);
            }
            answer
        }
    }
    Rows31 "31 rows" {
        fn rows(&self) -> usize {
            31
        }
    }
    Rows33 "33 rows" {
        fn rows(&self) -> usize {
            33
        }
    }
    Records255 "255 records" {
        fn records(&self) -> usize {
            255
        }
    }
    Records257 "257 records" {
        fn records(&self) -> usize {
            257
        }
    }
    Count256Refused "count 256 is refused" {
        fn counts(&self, count: u16) -> bool {
            (1..=255).contains(&count)
        }
    }
    Count257Accepted "count 257 is accepted" {
        fn counts(&self, count: u16) -> bool {
            (1..=257).contains(&count)
        }
    }
    RefusedOpenCloses "a refused open closes the tables" {
        fn open(&self, h: &mut History, count: u16) -> Answer {
            *h = History::default();
            Published.open(h, count)
        }
    }
    OpenKeepsNumbers "an open keeps what stood there" {
        fn open(&self, h: &mut History, count: u16) -> Answer {
            let before = h.clone();
            let answer = Published.open(h, count);
            if answer.number == 0 && before.count != 0 {
                *h = History { count, ..before };
            }
            answer
        }
    }
    ClosedIsThree "before an open, 3 in place of 1" {
        fn step(&self, h: &mut History, step: Step) -> Answer {
            match step {
                Step::Commit { .. } | Step::Abort { .. } if h.count == 0 => Answer::refused(3),
                _ => Published.step(h, step),
            }
        }
    }
    Limit8191 "the size limit is 8,191" {
        fn size_limit(&self) -> usize {
            8191
        }
    }
    Limit8193 "the size limit is 8,193" {
        fn size_limit(&self) -> usize {
            8193
        }
    }
    BadAtEnd "10 gives where the file ends" {
        fn bad_step(&self, file: &[u8], _: usize) -> Answer {
            Answer { number: 10, value: file.len() as u32 }
        }
    }
    CutIsPadded "a cut body is filled up with zeros" {
        fn decode(&self, part: &[u8]) -> Option<(Step, usize)> {
            let padded = [part, &[0; 8]].concat();
            decode(&padded).map(|(step, length)| (step, length.min(part.len())))
        }
    }
    KindByRemainder "kinds above 6 are taken modulo 7" {
        fn decode(&self, part: &[u8]) -> Option<(Step, usize)> {
            let mut part = part.to_vec();
            part[0] %= 7;
            decode(&part)
        }
    }
    TenNeedsNoRoom "12 does not count a 10" {
        fn fits(&self, answers: &[Answer], room: usize) -> bool {
            room >= ANSWER_BYTES * answers.iter().filter(|a| a.number != 10).count()
        }
    }
    OneByteMore "12 wants one byte too many" {
        fn fits(&self, answers: &[Answer], room: usize) -> bool {
            answers.is_empty() || room > ANSWER_BYTES * answers.len()
        }
    }
    WritesBeforeTwelve "with 12 the answers that fit are written" {
        fn lay(&self, answers: Option<&[Answer]>, buffer: &mut [u8]) -> u64 {
            let fitting = answers.map(|a| &a[..a.len().min(buffer.len() / ANSWER_BYTES)]);
            Published.lay(fitting, buffer);
            if fitting.map(<[_]>::len) < answers.map(<[_]>::len) { 12 << 16 } else { Published.lay(answers, buffer) }
        }
    }
    ClearsTheRest "bytes past the last answer are cleared" {
        fn lay(&self, answers: Option<&[Answer]>, buffer: &mut [u8]) -> u64 {
            let result = Published.lay(answers, buffer);
            if result >> 16 != 11 && result >> 16 != 12 {
                buffer[ANSWER_BYTES * (result as usize & 0xFFFF)..].fill(0);
            }
            result
        }
    }
    TwelveBeforeEleven "12 goes before 11" {
        fn lay(&self, answers: Option<&[Answer]>, buffer: &mut [u8]) -> u64 {
            if answers.is_none() && buffer.len() < 5 * 8192 { 12 << 16 } else { Published.lay(answers, buffer) }
        }
    }
    TenReturnsZero "a run that ends with 10 returns number 0" {
        fn lay(&self, answers: Option<&[Answer]>, buffer: &mut [u8]) -> u64 {
            let result = Published.lay(answers, buffer);
            if result >> 16 == 10 { result & 0xFFFF } else { result }
        }
    }
}
