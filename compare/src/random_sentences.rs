//! Refusals drawn at random for sentences (request (xi)), and texts that are nearly one.

use std::ops::Range;

use crate::random::Random;
use crate::refusal::WORDS;
use crate::sentences::{printed, shows_second, unsaid_second, Parts};

/// The numbers of the tables are 1 to this.
pub const LAST: u64 = WORDS.len() as u64 - 1;

/// Places around which a number of another length, or of another type, begins.
const EDGES: [u64; 8] = [1 << 8, 1 << 16, 1 << 24, 1 << 31, 1 << 32, 1 << 40, 1 << 63, u64::MAX];

/// Of every length of digits.
fn random_place(random: &mut Random) -> u64 {
    match random.between(0, 9) {
        0 => 0,
        1 | 2 => random.between(0, 99),
        3 => random.pick(&EDGES).saturating_add(1) - random.between(0, 2),
        4 => 10_u64.pow(random.between(0, 19) as u32) - random.between(0, 1),
        5 => u64::MAX - random.between(0, 9),
        _ => {
            let digits = random.between(1, 20) as u32;
            let least = if digits == 1 { 0 } else { 10_u64.pow(digits - 1) };
            random.between(least, 10_u64.checked_pow(digits).map_or(u64::MAX, |above| above - 1))
        }
    }
}

/// A refusal of that number, as often as not with the second place that it usually has.
pub fn random_parts(random: &mut Random, number: u64) -> Parts {
    let first = random_place(random);
    let second = match random.between(0, 9) {
        0 => 0,
        1 => first,
        2 => first.wrapping_add(random.pick(&[1, u64::MAX])),
        3 => random.between(0, 99),
        4 | 5 => random_place(random),
        _ if shows_second(number) => random_place(random),
        _ => unsaid_second(number, first),
    };
    [number, first, second]
}

pub fn random_number(random: &mut Random) -> u64 {
    random.between(1, LAST)
}

/// A number outside the tables.
pub fn number_outside(random: &mut Random) -> u32 {
    let known = random_number(random) as u32;
    match random.between(0, 9) {
        0 => 0,
        1 => LAST as u32 + 1,
        2 => LAST as u32 + 2,
        3 => random.pick(&[99, 254, 255, 256]),
        4 => 256 + known,
        5 => (1 << 16) + known,
        6 => (1 << 31) + known,
        7 => u32::MAX,
        8 => u32::MAX - random.between(0, LAST) as u32,
        _ => (random.draw() as u32).max(LAST as u32 + 1),
    }
}

/// What is done to a sentence.
#[derive(Clone, Copy)]
pub enum Damage {
    Changed,
    Digit,
    Case,
    Removed,
    Doubled,
    InFront,
    Inside,
    Behind,
    Spaces,
    Sign,
    ZeroNumber,
    ZeroFirst,
    ZeroSecond,
    Space,
    LineEnd,
    Nul,
    Cut,
    OtherNumber,
    OtherWord,
    OtherPhrase,
    NumberOutside,
    FirstBeyond,
    SecondBeyond,
    Swapped,
    SaidAnyway,
    SaidTwice,
    ShownLeftOut,
    SaidLeftOut,
    Twice,
    ManyDigits,
    AnyBytes,
    Empty,
}

/// All of them, in their order, in words.
pub const DAMAGES: [(Damage, &str); 32] = [
    (Damage::Changed, "a byte changed"),
    (Damage::Digit, "a digit changed"),
    (Damage::Case, "a letter of the other case"),
    (Damage::Removed, "a byte removed"),
    (Damage::Doubled, "a byte doubled"),
    (Damage::InFront, "a byte in front"),
    (Damage::Inside, "a byte more inside"),
    (Damage::Behind, "a byte behind"),
    (Damage::Spaces, "a space more, fewer or changed"),
    (Damage::Sign, "a sign at a number or within it"),
    (Damage::ZeroNumber, "zeros in front of the number"),
    (Damage::ZeroFirst, "zeros in front of the first place"),
    (Damage::ZeroSecond, "zeros in front of the second place"),
    (Damage::Space, "a space behind"),
    (Damage::LineEnd, "a line end behind"),
    (Damage::Nul, "a byte of 0 behind"),
    (Damage::Cut, "cut"),
    (Damage::OtherNumber, "another number of the tables"),
    (Damage::OtherWord, "another word"),
    (Damage::OtherPhrase, "another phrase"),
    (Damage::NumberOutside, "a number outside the tables"),
    (Damage::FirstBeyond, "a first place beyond 8 bytes"),
    (Damage::SecondBeyond, "a second place beyond 8 bytes"),
    (Damage::Swapped, "places swapped"),
    (Damage::SaidAnyway, "a second place that goes without saying"),
    (Damage::SaidTwice, "a second place said twice"),
    (Damage::ShownLeftOut, "a second place left out of the phrase"),
    (Damage::SaidLeftOut, "a second place left out behind the phrase"),
    (Damage::Twice, "two sentences"),
    (Damage::ManyDigits, "many digits"),
    (Damage::AnyBytes, "any bytes"),
    (Damage::Empty, "empty"),
];

/// A text made of a sentence, and not that sentence. Where a refusal does not lend itself to a kind
/// another is drawn.
pub fn damaged(random: &mut Random, damage: Damage) -> Vec<u8> {
    loop {
        let number = random_number(random);
        let parts = random_parts(random, number);
        let sentence = printed(parts).expect("the number is one of the tables").into_bytes();
        match damage.done(random, parts, &sentence) {
            Some(text) if text != sentence => return text,
            _ => {}
        }
    }
}

impl Damage {
    fn done(self, random: &mut Random, parts: Parts, sentence: &[u8]) -> Option<Vec<u8>> {
        let [number, first, second] = parts;
        let at = random.below(sentence.len());
        let numbers = numbers_in(sentence);
        let put = |range: Range<usize>, with: &[u8]| Some(with_put(sentence, range, with));
        let append = |tail: &[u8]| Some([sentence, tail].concat());
        let other = (number + random.between(1, LAST - 1) - 1) % LAST + 1;
        match self {
            Damage::Changed => put(at..at + 1, &[random_byte(random)]),
            Damage::Digit => {
                let digit = pick_at(random, sentence, |byte| byte.is_ascii_digit())?;
                put(digit..digit + 1, &[b'0' + random.below(10) as u8])
            }
            Damage::Case => {
                let letter = pick_at(random, sentence, |byte| byte.is_ascii_alphabetic())?;
                put(letter..letter + 1, &[sentence[letter] ^ 0x20])
            }
            Damage::Removed => put(at..at + 1, &[]),
            Damage::Doubled => put(at..at, &[sentence[at]]),
            Damage::InFront => put(0..0, &[random_byte(random)]),
            Damage::Inside => put(at..at, &[random_byte(random)]),
            Damage::Behind => append(&[random_byte(random)]),
            Damage::Spaces => {
                let space = pick_at(random, sentence, |byte| byte == b' ')?;
                put(space..space + 1, random.pick(&[b"".as_slice(), b"  ", b"\t", b"\n", b"\0"]))
            }
            Damage::Sign => {
                let digits = numbers[random.below(numbers.len())].clone();
                let at = random.pick(&[digits.start, digits.end, digits.start + 1]);
                put(at..at, random.pick(&[b"+".as_slice(), b"-", b" ", b"_", b",", b"0x", b"e1"]))
            }
            Damage::ZeroNumber => put_zeros(random, sentence, &numbers[0]),
            Damage::ZeroFirst => put_zeros(random, sentence, &numbers[1]),
            Damage::ZeroSecond => put_zeros(random, sentence, numbers.get(2)?),
            Damage::Space => append(b" "),
            Damage::LineEnd => append(random.pick(&[b"\n".as_slice(), b"\r\n", b"\r"])),
            Damage::Nul => append(&[0]),
            Damage::Cut => {
                let length = random.pick(&[at, sentence.len() - 1]);
                Some(sentence[..length].to_vec())
            }
            Damage::OtherNumber => put(numbers[0].clone(), other.to_string().as_bytes()),
            Damage::OtherWord => Some(mixed(parts, [number, other, number])),
            Damage::OtherPhrase => Some(mixed(parts, [number, number, other])),
            Damage::NumberOutside => {
                put(numbers[0].clone(), text_outside(random, number).as_bytes())
            }
            Damage::FirstBeyond => put(numbers[1].clone(), text_beyond(random, first).as_bytes()),
            Damage::SecondBeyond => {
                put(numbers.get(2)?.clone(), text_beyond(random, second).as_bytes())
            }
            Damage::Swapped => {
                let text =
                    with_put(sentence, numbers.get(2)?.clone(), first.to_string().as_bytes());
                Some(with_put(&text, numbers[1].clone(), second.to_string().as_bytes()))
            }
            Damage::SaidAnyway if numbers.len() < 3 => Some(said(sentence, second)),
            Damage::SaidTwice if numbers.len() == 3 => {
                let again = random.pick(&[second, 0, first, second.wrapping_add(1)]);
                Some(said(sentence, again))
            }
            Damage::ShownLeftOut if shows_second(number) => {
                let from = random.pick(&[numbers[1].end, numbers[2].start - 1, numbers[2].start]);
                put(from..numbers[2].end, b"")
            }
            Damage::SaidLeftOut if !shows_second(number) => {
                put(numbers.get(2)?.start - ", second ".len()..numbers[2].end, b"")
            }
            Damage::Twice => {
                let between = random.pick(&[b"".as_slice(), b" ", b"\n", b"\0"]);
                Some([sentence, between, sentence].concat())
            }
            Damage::ManyDigits => Some(many_digits(random, sentence, &numbers)),
            Damage::AnyBytes => Some((0..random.below(200)).map(|_| random.draw() as u8).collect()),
            Damage::Empty => Some(vec![]),
            _ => None,
        }
    }
}

/// Where the digits of number, first place and, if it is said, second place stand: nothing else in
/// a sentence has a digit.
fn numbers_in(sentence: &[u8]) -> Vec<Range<usize>> {
    let mut numbers: Vec<Range<usize>> = vec![];
    for at in (0..sentence.len()).filter(|&at| sentence[at].is_ascii_digit()) {
        match numbers.last_mut() {
            Some(last) if last.end == at => last.end += 1,
            _ => numbers.push(at..at + 1),
        }
    }
    numbers
}

fn with_put(text: &[u8], range: Range<usize>, with: &[u8]) -> Vec<u8> {
    [&text[..range.start], with, &text[range.end..]].concat()
}

fn put_zeros(random: &mut Random, sentence: &[u8], number: &Range<usize>) -> Option<Vec<u8>> {
    let zeros = vec![b'0'; random.pick(&[1, 1, 1, 2, 3, 20])];
    Some(with_put(sentence, number.start..number.start, &zeros))
}

/// Before the full stop.
fn said(sentence: &[u8], second: u64) -> Vec<u8> {
    let end = sentence.len() - 1;
    with_put(sentence, end..end, format!(", second {second}").as_bytes())
}

/// Number, word and phrase of three refusals with the same places.
fn mixed([_, first, second]: Parts, [number, word, phrase]: [u64; 3]) -> Vec<u8> {
    let sentence = printed([phrase, first, second]).expect("the number is one of the tables");
    let (_, phrase) = sentence.split_once(": ").expect("it stands behind each word");
    format!("Refused {number}, {}: {phrase}", WORDS[word as usize]).into_bytes()
}

fn text_outside(random: &mut Random, number: u64) -> String {
    match random.between(0, 9) {
        0 => "0".into(),
        1 => "00".into(),
        2 => "23".into(),
        3 => "24".into(),
        4 => "".into(),
        5 => (256 + number).to_string(),
        6 => ((1 << 32) + number).to_string(),
        7 => ((1 << 64) + u128::from(number)).to_string(),
        8 => number_outside(random).to_string(),
        _ => format!("{number}{}", random.between(0, 999)).replacen("0", "9", 1),
    }
}

/// The least ones, those that a wrong reading takes for the place that stood there, and longer
/// ones.
fn text_beyond(random: &mut Random, place: u64) -> String {
    let beyond = 1_u128 << 64;
    match random.between(0, 9) {
        0 => beyond,
        1 => beyond + 1,
        2 => 2 * beyond,
        3 => 100_000_000_000_000_000_000,
        4 => beyond + u128::from(random.between(0, 9)),
        5 => 10 * (beyond - 1) + u128::from(random.between(0, 9)),
        6 => u128::from(random.between(1, u64::MAX / 2)) * beyond + u128::from(place),
        7 => beyond + u128::from(place),
        _ => return "9".repeat(random.pick(&[20, 21, 30, 39, 50])),
    }
    .to_string()
}

fn many_digits(random: &mut Random, sentence: &[u8], numbers: &[Range<usize>]) -> Vec<u8> {
    let count = random.pick(&[1, 20, 100, 120, 121, 300, 3_000]);
    let digits: Vec<u8> = (0..count).map(|_| b'0' + random.below(10) as u8).collect();
    match random.between(0, 2) {
        0 => digits,
        1 => [b"Refused ".as_slice(), &digits].concat(),
        _ => {
            let at = numbers[random.below(numbers.len())].end;
            with_put(sentence, at..at, &[digits, vec![b'1'; 20]].concat())
        }
    }
}

/// A byte as they stand in sentences, or any.
fn random_byte(random: &mut Random) -> u8 {
    let usual = b"0123456789 ,:;.abcdefghijklmnopqrstuvwxyzR\n\t";
    if random.percent(50) {
        random.pick(usual)
    } else {
        random.draw() as u8
    }
}

fn pick_at(random: &mut Random, text: &[u8], is_one: fn(u8) -> bool) -> Option<usize> {
    let places: Vec<usize> = (0..text.len()).filter(|&at| is_one(text[at])).collect();
    (!places.is_empty()).then(|| random.pick(&places))
}

#[cfg(test)]
mod tests {
    use super::*;
    use crate::sentences::read;

    #[test]
    fn places_have_every_length_of_digits() {
        let mut random = Random::new(1);
        let mut met = [0; 21];
        (0..10_000).for_each(|_| met[random_place(&mut random).to_string().len()] += 1);
        assert!(met[1..].iter().all(|&met| met > 100), "{met:?}");
    }

    #[test]
    fn numbers_outside_are_outside() {
        let mut random = Random::new(2);
        for _ in 0..1_000 {
            let number = u64::from(number_outside(&mut random));
            assert!(number == 0 || number > LAST, "{number}");
        }
    }

    /// Some leave no sentence, one leaves another's, some both.
    #[test]
    fn damage_does_what_it_says() {
        let mut random = Random::new(3);
        for (place, (damage, words)) in DAMAGES.into_iter().enumerate() {
            assert_eq!(damage as usize, place, "{words}");
            let texts: Vec<_> = (0..500).map(|_| damaged(&mut random, damage)).collect();
            let read = texts.iter().filter(|text| read(text).is_some()).count();
            match damage {
                Damage::SaidLeftOut => assert_eq!(read, 500, "{words}"),
                Damage::Digit | Damage::Swapped => assert!(read > 100 && read < 500, "{words}"),
                Damage::Changed | Damage::Removed | Damage::Doubled | Damage::Inside => {
                    assert!(read > 0 && read < 250, "{words}: {read}");
                }
                _ => assert_eq!(read, 0, "{words}"),
            }
        }
    }
}
