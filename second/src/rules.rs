//! The calls and the run of a whole file. Every rule is a method with its published meaning, so that the comparison can
//! put a wrong one in its place (`Published` replaces none).

use crate::history::{cycle, dependencies, Edge, Ending, History, Transaction, Version};
use crate::steps::{decode, Answer, Item, Moment, Number, Step, Value, ANSWER_BYTES, SIZE_LIMIT};

pub struct Published;
impl Rules for Published {}

pub trait Rules {
    fn rows(&self) -> usize {
        32
    }

    fn records(&self) -> usize {
        256
    }

    fn counts(&self, count: u16) -> bool {
        (1..=256).contains(&count)
    }

    fn visible(&self, h: &History, t: &Transaction, item: Item) -> Version {
        h.version(item, |commit| commit < t.start)
    }

    fn latest_version(&self, h: &History, item: Item) -> Version {
        h.version(item, |_| true)
    }

    fn own(&self, t: &Transaction, item: Item) -> Option<Value> {
        t.written(item)
    }

    fn beaten(&self, h: &History, t: &Transaction) -> bool {
        h.beaten(t)
    }

    fn edges(&self, list: &[&Transaction]) -> Vec<Edge> {
        dependencies(list)
    }

    fn ring(&self, h: &History, t: &Transaction) -> bool {
        let list = h.committed(Some(t));
        cycle(list.len(), &self.edges(&list))
    }

    fn spent(&self, h: &History) -> Vec<bool> {
        h.least_spent()
    }

    /// Room for one record more.
    fn room(&self, h: &History) -> bool {
        h.with_row().map(Transaction::records).sum::<usize>() < self.records()
    }

    fn open(&self, h: &mut History, count: u16) -> Answer {
        if !self.counts(count) {
            return Answer::refused(9);
        }
        *h = History::opened(count);
        Answer::accepted(0)
    }

    fn begin(&self, h: &mut History) -> Answer {
        if h.transactions.len() >= usize::from(u16::MAX) {
            return Answer::refused(4);
        }
        if h.with_row().count() >= self.rows() {
            return Answer::refused(5);
        }
        let number = h.transactions.len() as Number + 1;
        let start = self.next_moment(h);
        h.transactions.push(Transaction {
            number,
            start,
            ending: Ending::Active,
            reads: Vec::new(),
            writes: Vec::new(),
        });
        h.spent.push(false);
        Answer::accepted(u32::from(number))
    }

    fn next_moment(&self, h: &mut History) -> Moment {
        h.next_moment += 1;
        h.next_moment - 1
    }

    /// What is wrong with an access: the lowest number of those that apply.
    fn wrong_access(&self, h: &History, by: Number, item: Item) -> Option<Answer> {
        if item >= h.count {
            return Some(Answer::refused(2));
        }
        h.find_active(by).is_none().then_some(Answer::refused(3))
    }

    fn read(&self, h: &mut History, by: Number, item: Item) -> Answer {
        if let Some(refused) = self.wrong_access(h, by, item) {
            return refused;
        }
        let t = h.at(by).clone();
        if let Some(value) = self.own(&t, item) {
            return Answer::accepted(value);
        }
        let version = self.visible(h, &t, item);
        if !t.has_read(item) {
            if !self.room(h) {
                return Answer::refused(6);
            }
            h.at(by).reads.push((item, version.writer));
        }
        Answer::accepted(version.value)
    }

    fn write(&self, h: &mut History, by: Number, item: Item, value: Value) -> Answer {
        if let Some(refused) = self.wrong_access(h, by, item) {
            return refused;
        }
        if let Some(written) = h.at(by).writes.iter_mut().find(|w| w.0 == item) {
            written.1 = value;
            return Answer::accepted(0);
        }
        if !self.room(h) {
            return Answer::refused(6);
        }
        h.at(by).writes.push((item, value));
        Answer::accepted(0)
    }

    /// 0 if this active transaction may commit, or else 7 or 8.
    fn verdict(&self, h: &History, t: &Transaction) -> u8 {
        match () {
            _ if self.beaten(h, t) => 7,
            _ if self.ring(h, t) => 8,
            _ => 0,
        }
    }

    fn commit(&self, h: &mut History, by: Number) -> Answer {
        let Some(t) = h.find_active(by) else {
            return Answer::refused(3);
        };
        let verdict = self.verdict(h, t);
        if verdict != 0 {
            self.end_refused(h, by);
            return Answer::refused(verdict);
        }
        let moment = self.next_moment(h);
        h.at(by).ending = Ending::Committed(moment);
        self.after_commit(h);
        Answer::accepted(moment)
    }

    fn after_commit(&self, h: &mut History) {
        h.spent = self.spent(h);
    }

    /// A transaction refused by 7 or 8 ends as abort ends it.
    fn end_refused(&self, h: &mut History, by: Number) {
        self.end(h, by);
    }

    /// An aborted transaction leaves nothing but its number.
    fn end(&self, h: &mut History, by: Number) {
        let t = h.at(by);
        t.ending = Ending::Aborted;
        t.reads.clear();
        t.writes.clear();
        h.spent = self.spent(h);
    }

    fn abort(&self, h: &mut History, by: Number) -> Answer {
        if h.find_active(by).is_none() {
            return Answer::refused(3);
        }
        self.end(h, by);
        Answer::accepted(0)
    }

    fn latest(&self, h: &History, item: Item) -> Answer {
        if item >= h.count {
            return Answer::refused(2);
        }
        Answer::accepted(self.latest_version(h, item).value)
    }

    /// The closed state is unsound for every call but open.
    fn closed(&self, h: &History) -> bool {
        h.count == 0
    }

    fn step(&self, h: &mut History, step: Step) -> Answer {
        match step {
            Step::Open { count } => self.open(h, count),
            _ if self.closed(h) => Answer::refused(1),
            Step::Begin => self.begin(h),
            Step::Read { by, item } => self.read(h, by, item),
            Step::Write { by, item, value } => self.write(h, by, item, value),
            Step::Commit { by } => self.commit(h, by),
            Step::Abort { by } => self.abort(h, by),
            Step::Latest { item } => self.latest(h, item),
        }
    }

    fn size_limit(&self) -> usize {
        SIZE_LIMIT
    }

    fn decode(&self, part: &[u8]) -> Option<(Step, usize)> {
        decode(part)
    }

    fn bad_step(&self, _file: &[u8], kind_at: usize) -> Answer {
        Answer { number: 10, value: kind_at as u32 }
    }

    /// The answers of a file from the closed state; none for a file above the size limit.
    fn answers(&self, file: &[u8]) -> Option<Vec<Answer>> {
        if file.len() > self.size_limit() {
            return None;
        }
        let mut h = History::default();
        let (mut at, mut answers) = (0, Vec::new());
        while at < file.len() {
            let Some((step, length)) = self.decode(&file[at..]) else {
                answers.push(self.bad_step(file, at));
                break;
            };
            answers.push(self.step(&mut h, step));
            at += length;
        }
        Some(answers)
    }

    /// Whether the answers fit; a 10 is one of them.
    fn fits(&self, answers: &[Answer], room: usize) -> bool {
        room >= ANSWER_BYTES * answers.len()
    }

    /// The run of a whole file into a buffer: 65,536 times its number plus the answers written.
    fn run(&self, file: &[u8], buffer: &mut [u8]) -> u64 {
        self.lay(self.answers(file).as_deref(), buffer)
    }

    /// The same, once the answers are known.
    fn lay(&self, answers: Option<&[Answer]>, buffer: &mut [u8]) -> u64 {
        let Some(answers) = answers else {
            return 11 << 16;
        };
        if !self.fits(answers, buffer.len()) {
            return 12 << 16;
        }
        for (place, answer) in buffer.chunks_exact_mut(ANSWER_BYTES).zip(answers) {
            place.copy_from_slice(&answer.bytes());
        }
        let bad = answers.last().is_some_and(|a| a.number == 10);
        (if bad { 10 << 16 } else { 0 }) + answers.len() as u64
    }

    /// What the program prints for a file.
    fn print(&self, file: &[u8]) -> String {
        match self.answers(file) {
            None => "11 0\n".to_string(),
            Some(answers) => answers.iter().map(|a| format!("{a}\n")).collect(),
        }
    }
}
