//! Refusals as sentences (request (xi)): printed, and read from left to right, phrase by phrase.

use crate::refusal::WORDS;

/// The number of a refusal, its first place and its second place.
pub type Parts = [u64; 3];

/// The longest sentence.
pub const MAX_BYTES: usize = 120;

/// What is said of each number, from 1 on: `A` is the first place, `B` the second. There is no
/// other capital in it.
const PHRASES: [&str; WORDS.len() - 1] = [
    "the file ends before the number at byte A is whole",
    "the version at byte A is not known here",
    "the count at byte A is outside its limits",
    "the number at byte A is outside its limits",
    "the link at byte A is not above the one before",
    "the file goes on at byte A, where it should end",
    "the node at byte A cannot run its task",
    "both copies of task A are on one node or supply",
    "the backup of task A starts before a loss is noticed",
    "the backup of task A ends after the deadline",
    "the result of task A is late for the primary of task B",
    "a result of task A is late for the backup of task B",
    "one loss can stop both copies of task A",
    "one node is held at the same time by copies of tasks A and B",
    "no node has a place for the primary of task A",
    "no node has a place for the backup of task A",
    "the output needs room for A bytes",
    "the loss of A takes no node of the job",
    "the primary of task A starts before it is ready",
    "the job has no room for task A or its links",
    "the place for task A now breaks a rule; ask again",
    "no refusal has it; its length or number: A",
];

/// Word and phrase of a number, if the tables have it.
fn of_number(number: u64) -> Option<(&'static str, &'static str)> {
    let at = usize::try_from(number).ok()?;
    Some((WORDS[1..].get(at.checked_sub(1)?)?, PHRASES[at - 1]))
}

/// Whether the phrase has the second place, so that it is always said.
pub fn shows_second(number: u64) -> bool {
    of_number(number).is_some_and(|(_, phrase)| phrase.contains('B'))
}

/// The second place that goes without saying: for a rule about one task that task, else 0.
pub fn unsaid_second(number: u64, first: u64) -> u64 {
    match number {
        8..=10 | 13 | 15 | 16 | 19 | 21 => first,
        _ => 0,
    }
}

/// The sentence of a refusal, unless its number is outside the tables.
pub fn printed([number, first, second]: Parts) -> Option<String> {
    let (word, phrase) = of_number(number)?;
    let mut text = format!("Refused {number}, {word}: ");
    for letter in phrase.chars() {
        match letter {
            'A' => text += &first.to_string(),
            'B' => text += &second.to_string(),
            _ => text.push(letter),
        }
    }
    if !shows_second(number) && second != unsaid_second(number, first) {
        text += &format!(", second {second}");
    }
    text.push('.');
    Some(text)
}

/// The refusal that has this sentence, if any has.
pub fn read(text: &[u8]) -> Option<Parts> {
    let mut rest = Rest(text);
    rest.words("Refused ")?;
    let number = rest.number()?;
    let (word, phrase) = of_number(number)?;
    rest.words(", ")?;
    rest.words(word)?;
    rest.words(": ")?;
    let (before, behind) = phrase.split_once('A').expect("each phrase has the first place");
    rest.words(before)?;
    let first = rest.number()?;
    let second = match behind.split_once('B') {
        Some((between, end)) => {
            rest.words(between)?;
            let second = rest.number()?;
            rest.words(end)?;
            second
        }
        None => {
            rest.words(behind)?;
            rest.second(unsaid_second(number, first))?
        }
    };
    rest.words(".")?;
    rest.0.is_empty().then_some([number, first, second])
}

/// What is still to be read.
struct Rest<'a>(&'a [u8]);

impl Rest<'_> {
    fn words(&mut self, words: &str) -> Option<()> {
        self.0 = self.0.strip_prefix(words.as_bytes())?;
        Some(())
    }

    /// All digits that follow: at least one, no zero in front of others, and 8 bytes hold it.
    fn number(&mut self) -> Option<u64> {
        let length = self.0.iter().take_while(|byte| byte.is_ascii_digit()).count();
        let (digits, rest) = self.0.split_at(length);
        self.0 = rest;
        if digits.is_empty() || (digits[0] == b'0' && length > 1) {
            return None;
        }
        let add = |sum: u64, digit: &u8| sum.checked_mul(10)?.checked_add(u64::from(digit - b'0'));
        digits.iter().try_fold(0, add)
    }

    /// It stands here only if it is not the one that goes without saying.
    fn second(&mut self, unsaid: u64) -> Option<u64> {
        if self.words(", second ").is_none() {
            return Some(unsaid);
        }
        self.number().filter(|&second| second != unsaid)
    }
}

#[cfg(test)]
mod tests {
    use std::collections::HashMap;

    use super::*;

    const PLACES: [u64; 9] = [0, 1, 9, 10, 13, 100, 1 << 32, u64::MAX / 10, u64::MAX];

    fn all() -> impl Iterator<Item = Parts> {
        let pairs = || PLACES.into_iter().flat_map(|a| PLACES.into_iter().map(move |b| (a, b)));
        (1..=22).flat_map(move |number| pairs().map(move |(a, b)| [number, a, b]))
    }

    fn read_text(text: &str) -> Option<Parts> {
        read(text.as_bytes())
    }

    #[test]
    fn each_sentence_reads_back() {
        for parts in all() {
            let text = printed(parts).unwrap();
            assert_eq!(read_text(&text), Some(parts), "{text}");
        }
    }

    #[test]
    fn no_two_refusals_share_a_sentence() {
        let mut told = HashMap::new();
        for parts in all() {
            assert_eq!(told.insert(printed(parts).unwrap(), parts), None, "{parts:?}");
        }
    }

    #[test]
    fn a_sentence_is_as_the_request_wants_it() {
        let mut longest = 0;
        for parts in all() {
            let text = printed(parts).unwrap();
            longest = longest.max(text.len());
            assert!(text.contains(WORDS[parts[0] as usize]), "{text}");
            assert_eq!(text.find('.'), Some(text.len() - 1), "{text}");
            assert!(text.bytes().all(|byte| (b' '..=b'~').contains(&byte)), "{text}");
        }
        assert_eq!(longest, MAX_BYTES);
    }

    #[test]
    fn what_goes_without_saying_is_not_said() {
        let good = "Refused 13, common loss: one loss can stop both copies of task 10";
        assert_eq!(read_text(&format!("{good}.")), Some([13, 10, 10]));
        assert_eq!(read_text(&format!("{good}, second 0.")), Some([13, 10, 0]));
        assert_eq!(read_text(&format!("{good}, second 10.")), None);
        let good = "Refused 4, value: the number at byte 56 is outside its limits";
        assert_eq!(read_text(&format!("{good}.")), Some([4, 56, 0]));
        assert_eq!(read_text(&format!("{good}, second 56.")), Some([4, 56, 56]));
        assert_eq!(read_text(&format!("{good}, second 0.")), None);
        let good = "Refused 12, backup unfed: a result of task 1 is late for the backup of task 2";
        assert_eq!(read_text(&format!("{good}.")), Some([12, 1, 2]));
        assert_eq!(read_text(&format!("{good}, second 2.")), None);
        assert_eq!(read_text(&format!("{good}, second 3.")), None);
    }

    #[test]
    fn numbers_are_strict() {
        let say = |place: &str| {
            format!("Refused 17, short buffer: the output needs room for {place} bytes.")
        };
        assert_eq!(read_text(&say("0")), Some([17, 0, 0]));
        assert_eq!(read_text(&say("18446744073709551615")), Some([17, u64::MAX, 0]));
        let bad =
            ["", "00", "01", "+1", "-1", " 1", "1 ", "1e3", "0x1", "1,000", "18446744073709551616"];
        for place in bad.into_iter().chain(["18446744073709551625", "100000000000000000000"]) {
            assert_eq!(read_text(&say(place)), None, "{place}");
        }
        assert_eq!(read_text(&say(&"9".repeat(30))), None);
        for number in ["0", "00", "017", "16", "18", "23", "18446744073709551633", ""] {
            assert_eq!(read_text(&say("1").replacen("17", number, 1)), None, "{number}");
        }
    }

    #[test]
    fn a_cut_or_longer_text_is_none() {
        for parts in all().step_by(7) {
            let text = printed(parts).unwrap();
            for length in 0..text.len() {
                assert_eq!(read_text(&text[..length]), None, "{}", &text[..length]);
            }
            for tail in [".", " ", "\n", "\0", "0", &text] {
                assert_eq!(read_text(&format!("{text}{tail}")), None);
                assert_eq!(read_text(&format!("{tail}{text}")), None);
            }
        }
    }

    #[test]
    fn outside_the_tables_nothing_is_printed() {
        for number in [0, 23, 24, 255, 256 + 13, 1 << 32 | 13, u64::MAX] {
            assert_eq!(printed([number, 1, 1]), None);
        }
    }
}
