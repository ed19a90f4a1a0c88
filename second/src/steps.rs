//! Steps and answers as bytes: "Step files" of document 01.

/// A step file above this many bytes is answered 11.
pub const SIZE_LIMIT: usize = 8192;
/// An answer in a buffer: its number, then its value, little-endian.
pub const ANSWER_BYTES: usize = 5;

pub type Number = u16;
pub type Item = u16;
pub type Value = u32;
pub type Moment = u32;

#[derive(Clone, Copy, Debug, PartialEq, Eq)]
pub enum Step {
    Open { count: u16 },
    Begin,
    Read { by: Number, item: Item },
    Write { by: Number, item: Item, value: Value },
    Commit { by: Number },
    Abort { by: Number },
    Latest { item: Item },
}

#[derive(Clone, Copy, Debug, PartialEq, Eq)]
pub struct Answer {
    pub number: u8,
    pub value: u32,
}

impl Answer {
    pub fn accepted(value: u32) -> Answer {
        Answer { number: 0, value }
    }

    pub fn refused(number: u8) -> Answer {
        Answer { number, value: 0 }
    }

    pub fn bytes(self) -> [u8; ANSWER_BYTES] {
        let [a, b, c, d] = self.value.to_le_bytes();
        [self.number, a, b, c, d]
    }

    pub fn from_bytes(bytes: &[u8]) -> Answer {
        let value = u32::from_le_bytes([bytes[1], bytes[2], bytes[3], bytes[4]]);
        Answer { number: bytes[0], value }
    }
}

/// How many bytes follow the kind byte; none for an unknown kind.
pub fn body_length(kind: u8) -> Option<usize> {
    match kind {
        0 | 4 | 5 | 6 => Some(2),
        1 => Some(0),
        2 => Some(4),
        3 => Some(8),
        _ => None,
    }
}

/// The step whose kind byte is the first of `part`, and its length; none for an unknown kind or a cut body.
pub fn decode(part: &[u8]) -> Option<(Step, usize)> {
    let (&kind, rest) = part.split_first()?;
    let body = rest.get(..body_length(kind)?)?;
    let two = |at: usize| u16::from_le_bytes([body[at], body[at + 1]]);
    let four = |at: usize| u32::from_le_bytes([body[at], body[at + 1], body[at + 2], body[at + 3]]);
    let step = match kind {
        0 => Step::Open { count: two(0) },
        1 => Step::Begin,
        2 => Step::Read { by: two(0), item: two(2) },
        3 => Step::Write { by: two(0), item: two(2), value: four(4) },
        4 => Step::Commit { by: two(0) },
        5 => Step::Abort { by: two(0) },
        _ => Step::Latest { item: two(0) },
    };
    Some((step, 1 + body.len()))
}

impl Step {
    pub fn write_to(self, file: &mut Vec<u8>) {
        let mut put = |kind: u8, numbers: &[u16]| {
            file.push(kind);
            for n in numbers {
                file.extend(n.to_le_bytes());
            }
        };
        match self {
            Step::Open { count } => put(0, &[count]),
            Step::Begin => put(1, &[]),
            Step::Read { by, item } => put(2, &[by, item]),
            Step::Write { by, item, value } => {
                put(3, &[by, item]);
                file.extend(value.to_le_bytes());
            }
            Step::Commit { by } => put(4, &[by]),
            Step::Abort { by } => put(5, &[by]),
            Step::Latest { item } => put(6, &[item]),
        }
    }
}

/// The steps of a file up to its first bad step, and the bytes from there on.
pub fn split(file: &[u8]) -> (Vec<Step>, &[u8]) {
    let mut steps = Vec::new();
    let mut rest = file;
    while let Some((step, length)) = decode(rest) {
        steps.push(step);
        rest = &rest[length..];
    }
    (steps, rest)
}

/// The bytes of these steps.
pub fn join(steps: &[Step]) -> Vec<u8> {
    let mut file = Vec::new();
    for step in steps {
        step.write_to(&mut file);
    }
    file
}
