//! Refusals, and the 8-byte number in which one crosses to the console.

pub const SHORT: u8 = 1;
pub const VERSION: u8 = 2;
pub const COUNT: u8 = 3;
pub const VALUE: u8 = 4;
pub const LINK_ORDER: u8 = 5;
pub const TAIL: u8 = 6;
pub const UNABLE: u8 = 7;
pub const SAME_NODE: u8 = 8;
pub const EARLY: u8 = 9;
pub const LATE: u8 = 10;
pub const PRIMARY_UNFED: u8 = 11;
pub const BACKUP_UNFED: u8 = 12;
pub const COMMON_LOSS: u8 = 13;
pub const OVERLAP: u8 = 14;
pub const NO_PRIMARY: u8 = 15;
pub const NO_BACKUP: u8 = 16;
pub const SHORT_BUFFER: u8 = 17;
pub const NO_SUCH_NODE: u8 = 18;
pub const TOO_SOON: u8 = 19;
pub const FULL: u8 = 20;
pub const STALE: u8 = 21;
pub const NOT_A_SENTENCE: u8 = 22;

/// The word of each number; 0 is success.
pub const WORDS: [&str; 23] = [
    "(success)",
    "short",
    "version",
    "count",
    "value",
    "link order",
    "tail",
    "unable",
    "same node",
    "early",
    "late",
    "primary unfed",
    "backup unfed",
    "common loss",
    "overlap",
    "no primary",
    "no backup",
    "short buffer",
    "no such node",
    "too soon",
    "full",
    "stale",
    "not a sentence",
];

#[derive(Clone, Copy, Debug, PartialEq, Eq)]
pub struct Refusal {
    pub number: u8,
    pub first: u64,
    pub second: u64,
}

impl Refusal {
    /// A refusal whose only place is a byte offset, a length, a group or a task.
    pub fn at(number: u8, place: u64) -> Refusal {
        Refusal { number, first: place, second: 0 }
    }

    /// A refusal that names one task twice, as the table asks.
    pub fn of_task(number: u8, task: usize) -> Refusal {
        Refusal::of_tasks(number, task, task)
    }

    pub fn of_tasks(number: u8, first: usize, second: usize) -> Refusal {
        Refusal { number, first: first as u64, second: second as u64 }
    }

    /// Number in the lowest 8 bits, first place in the next 32, second in the top 24.
    pub fn code(self) -> u64 {
        assert!(self.first < 1 << 32 && self.second < 1 << 24);
        u64::from(self.number) | self.first << 8 | self.second << 40
    }
}

/// An answer as the 8-byte number: success is 0.
pub fn code_of(answer: Result<(), Refusal>) -> u64 {
    answer.map_or_else(Refusal::code, |()| 0)
}

/// The trial's no, which is no refusal: number 0 and first place 1 (request (ix)).
pub const NO: u64 = 1 << 8;

/// The number of an 8-byte result, which may come from a faulty library.
pub fn number_of(code: u64) -> usize {
    (code & 0xff) as usize
}

/// Both places of an 8-byte result.
pub fn places_of(code: u64) -> (u64, u64) {
    (code >> 8 & 0xffff_ffff, code >> 40)
}

/// An 8-byte result in words.
pub fn describe(code: u64) -> String {
    if code == NO {
        return "no".into();
    }
    let word = WORDS.get(number_of(code)).copied().unwrap_or("(no such refusal)");
    let (first, second) = places_of(code);
    format!("{} {word} ({first}, {second})", number_of(code))
}
