//! Samples for request (xi): each number's sentence, written out, both ways, and texts that are
//! none.

use crate::refusal::{Refusal, NOT_A_SENTENCE, SHORT_BUFFER};
use crate::samples::{Check, FILL, SPARE};
use crate::sentences::{Parts, MAX_BYTES};

const MOST: u64 = u64::MAX;

/// A refusal of each number as a call gives it, or might.
const USUAL: [(Parts, &str); 22] = [
    ([1, 0, 0], "Refused 1, short: the file ends before the number at byte 0 is whole."),
    ([2, 0, 0], "Refused 2, version: the version at byte 0 is not known here."),
    ([3, 4, 0], "Refused 3, count: the count at byte 4 is outside its limits."),
    ([4, 56, 0], "Refused 4, value: the number at byte 56 is outside its limits."),
    ([5, 60, 0], "Refused 5, link order: the link at byte 60 is not above the one before."),
    ([6, 72, 0], "Refused 6, tail: the file goes on at byte 72, where it should end."),
    ([7, 24, 0], "Refused 7, unable: the node at byte 24 cannot run its task."),
    ([8, 0, 0], "Refused 8, same node: both copies of task 0 are on one node or supply."),
    ([9, 1, 1], "Refused 9, early: the backup of task 1 starts before a loss is noticed."),
    ([10, 63, 63], "Refused 10, late: the backup of task 63 ends after the deadline."),
    (
        [11, 0, 1],
        "Refused 11, primary unfed: the result of task 0 is late for the primary of task 1.",
    ),
    (
        [12, 3, 12],
        "Refused 12, backup unfed: a result of task 3 is late for the backup of task 12.",
    ),
    ([13, 10, 10], "Refused 13, common loss: one loss can stop both copies of task 10."),
    (
        [14, 2, 40],
        "Refused 14, overlap: one node is held at the same time by copies of tasks 2 and 40.",
    ),
    ([15, 5, 5], "Refused 15, no primary: no node has a place for the primary of task 5."),
    ([16, 1, 1], "Refused 16, no backup: no node has a place for the backup of task 1."),
    ([17, 1032, 0], "Refused 17, short buffer: the output needs room for 1032 bytes."),
    (
        [18, 4_294_967_295, 0],
        "Refused 18, no such node: the loss of 4294967295 takes no node of the job.",
    ),
    ([19, 7, 7], "Refused 19, too soon: the primary of task 7 starts before it is ready."),
    ([20, 64, 0], "Refused 20, full: the job has no room for task 64 or its links."),
    ([21, 2, 2], "Refused 21, stale: the place for task 2 now breaks a rule; ask again."),
    ([22, 5, 0], "Refused 22, not a sentence: no refusal has it; its length or number: 5."),
];

/// Places that no call gives.
const UNUSUAL: [(Parts, &str); 12] = [
    ([13, 10, 0], "Refused 13, common loss: one loss can stop both copies of task 10, second 0."),
    ([13, 0, 10], "Refused 13, common loss: one loss can stop both copies of task 0, second 10."),
    ([4, 56, 56], "Refused 4, value: the number at byte 56 is outside its limits, second 56."),
    ([6, 0, 1], "Refused 6, tail: the file goes on at byte 0, where it should end, second 1."),
    (
        [22, 0, MOST],
        "Refused 22, not a sentence: no refusal has it; its length or number: 0, \
         second 18446744073709551615.",
    ),
    (
        [21, MOST, 0],
        "Refused 21, stale: the place for task 18446744073709551615 now breaks a rule; ask again, \
         second 0.",
    ),
    (
        [11, MOST, MOST],
        "Refused 11, primary unfed: the result of task 18446744073709551615 is late for the \
         primary of task 18446744073709551615.",
    ),
    ([12, 1, 0], "Refused 12, backup unfed: a result of task 1 is late for the backup of task 0."),
    (
        [14, 0, 0],
        "Refused 14, overlap: one node is held at the same time by copies of tasks 0 and 0.",
    ),
    (
        [1, MOST, MOST],
        "Refused 1, short: the file ends before the number at byte 18446744073709551615 is whole, \
         second 18446744073709551615.",
    ),
    (
        [17, 10_000_000_000_000_000_000, 9_999_999_999_999_999_999],
        "Refused 17, short buffer: the output needs room for 10000000000000000000 bytes, \
         second 9999999999999999999.",
    ),
    (
        [9, 1 << 32, 1 << 32],
        "Refused 9, early: the backup of task 4294967296 starts before a loss is noticed.",
    ),
];

/// How long the sentence of each number is with two places of twenty digits that are not one.
const LONGEST: [usize; 22] = [
    117, 108, 108, 109, 118, 113, 106, 118, 119, 111, MAX_BYTES, 116, 113, MAX_BYTES, 118, 116,
    108, 113, 118, 110, 117, 119,
];

/// What the three numbers of a reader hold before.
const KEPT: Parts = [0xa5a5, 7, MOST];

impl Check<'_> {
    /// Both ways; a byte too few is refused with the length.
    fn told(&mut self, parts: Parts, text: &str) {
        let sample = format!("(xi), {parts:?}");
        let [number, first, second] = parts;
        let length = text.len();
        for room in [length, length + SPARE, MAX_BYTES + SPARE] {
            let mut out = vec![FILL; room];
            let got = (self.console.sentence)(number as u32, first, second, &mut out);
            self.expect(&sample, got, Ok(()));
            self.expect_bytes(&sample, &out, Some(text.into()));
        }
        for room in [0, 1, length - 1] {
            self.unsaid(&sample, parts, room, Refusal::at(SHORT_BUFFER, length as u64));
        }
        self.read(&sample, text.as_bytes(), Ok(parts));
    }

    fn unsaid(&mut self, sample: &str, parts: Parts, room: usize, refusal: Refusal) {
        let [number, first, second] = parts;
        let mut out = vec![FILL; room];
        let got = (self.console.sentence)(number as u32, first, second, &mut out);
        self.expect(sample, got, Err(refusal));
        self.expect_bytes(sample, &out, None);
    }

    fn read(&mut self, sample: &str, text: &[u8], expected: Result<Parts, Refusal>) {
        let mut parts = KEPT;
        let got = (self.console.read_sentence)(text, &mut parts);
        self.expect(sample, got, expected.map(|_| ()));
        self.expect_parts(sample, parts, expected.unwrap_or(KEPT));
    }

    fn unread_text(&mut self, text: &[u8]) {
        let sample = format!("(xi), \"{}\"", text.escape_ascii());
        self.read(&sample, text, Err(Refusal::at(NOT_A_SENTENCE, text.len() as u64)));
    }
}

pub fn run(check: &mut Check) {
    for (parts, text) in USUAL.into_iter().chain(UNUSUAL) {
        check.told(parts, text);
    }
    of_greatest_places(check);
    outside(check);
    no_sentences(check);
    of_no_other(check);
    with_other_numbers(check);
}

/// Each number with two places of twenty digits: it has just that length, which is at most 120.
fn of_greatest_places(check: &mut Check) {
    for (number, length) in (1..).zip(LONGEST) {
        let sample = format!("(xi), {number}, the largest places");
        let refusal = Refusal::at(SHORT_BUFFER, length as u64);
        check.unsaid(&sample, [number, MOST, MOST - 1], length - 1, refusal);
        let mut out = vec![FILL; length];
        let got = (check.console.sentence)(number as u32, MOST, MOST - 1, &mut out);
        check.expect(&sample, got, Ok(()));
        check.read(&sample, &out, Ok([number, MOST, MOST - 1]));
    }
}

/// 22 comes before 17.
fn outside(check: &mut Check) {
    for number in [0, 23, 24, 255, 256, 256 + 13, 65_536 + 13, 1 << 31, u64::from(u32::MAX)] {
        for room in [0, 1, MAX_BYTES, MAX_BYTES + 1] {
            let sample = format!("(xi), number {number}");
            let refusal = Refusal::at(NOT_A_SENTENCE, number);
            check.unsaid(&sample, [number, 10, 10], room, refusal);
        }
    }
}

/// Number 13's sentence cut everywhere, with bytes before and behind it, and with each byte
/// changed where that gives none.
fn no_sentences(check: &mut Check) {
    let text = USUAL[12].1.as_bytes();
    for length in 0..text.len() {
        check.unread_text(&text[..length]);
        check.unread_text(&text[length + 1..]);
    }
    for more in [b" ".as_slice(), b".", b"\n", b"\r\n", b"\0", b"0", b"1", text] {
        check.unread_text(&[text, more].concat());
        check.unread_text(&[more, text].concat());
    }
    for at in (0..text.len()).filter(|&at| !text[at].is_ascii_digit()) {
        for byte in [text[at] ^ 1, text[at] ^ 0x20, text[at] ^ 0x80, 0, b'0'] {
            check.unread_text(&[&text[..at], &[byte], &text[at + 1..]].concat());
        }
    }
    check.unread_text(&[b'7'; 4_000]);
    check.unread_text(&[b"Refused ".as_slice(), &[b'1'; 100]].concat());
}

/// What goes without saying is not said, and what is shown is not said again.
fn of_no_other(check: &mut Check) {
    let texts = [
        "Refused 13, common loss: one loss can stop both copies of task 10, second 10.",
        "Refused 4, value: the number at byte 56 is outside its limits, second 0.",
        "Refused 22, not a sentence: no refusal has it; its length or number: 5, second 0.",
        "Refused 12, backup unfed: a result of task 0 is late for the backup of task 1, second 1.",
        "Refused 12, backup unfed: a result of task 0 is late for the backup of task 1, second 2.",
        "Refused 11, primary unfed: the result of task 0 is late for the primary of task .",
        "Refused 11, primary unfed: the result of task 0 is late for the primary of task.",
        "Refused 14, overlap: one node is held at the same time by copies of tasks 2.",
        "Refused 13, common loss: one loss can stop both copies of task 10, second .",
        "Refused 13, common loss: one loss can stop both copies of task 10, second.",
        "Refused 13, common loss: one loss can stop both copies of task 10, second 0, second 0.",
        "Refused 13, common loss: one loss can stop both copies of task , second 0.",
        // The number of one, the word or the phrase of another.
        "Refused 12, common loss: one loss can stop both copies of task 10.",
        "Refused 13, overlap: one loss can stop both copies of task 10.",
        "Refused 15, no primary: no node has a place for the backup of task 5.",
        "Refused 3, count: the number at byte 4 is outside its limits.",
    ];
    texts.iter().for_each(|text| check.unread_text(text.as_bytes()));
}

/// Each of the three numbers as it may not be written.
fn with_other_numbers(check: &mut Check) {
    let say = |number: &str, first: &str, second: &str| {
        format!(
            "Refused {number}, late: the backup of task {first} ends after the deadline{second}."
        )
    };
    for number in
        ["0", "00", "010", "1", "9", "11", "23", "266", "", "+10", " 10", "18446744073709551626"]
    {
        check.unread_text(say(number, "7", "").as_bytes());
    }
    let beyond = [
        "18446744073709551616",
        "18446744073709551623",
        "36893488147419103232",
        "99999999999999999999",
    ];
    let long = ["100000000000000000000", "999999999999999999999999999999"];
    let odd = ["", "00", "07", "+7", "-7", " 7", "7 ", "7e0", "0x7", "1,000", "7.0"];
    for place in beyond.into_iter().chain(long).chain(odd) {
        check.unread_text(say("10", place, "").as_bytes());
        check.unread_text(say("10", "8", &format!(", second {place}")).as_bytes());
    }
}
