//! Rounds with sentences (request (xi)): refusals printed and read back, numbers outside the
//! tables, and texts that are no sentence or that of another refusal.

use std::mem::take;

use crate::random::Random;
use crate::random_sentences::{
    damaged, number_outside, random_number, random_parts, DAMAGES, LAST,
};
use crate::refusal::{number_of, places_of, Refusal, NOT_A_SENTENCE, SHORT_BUFFER};
use crate::sentences::{printed, shows_second, unsaid_second, Parts, MAX_BYTES};
use crate::trial::{Call, Function, Mismatch, Trial};

/// Texts of each kind of damage, and numbers outside the tables, in a round.
const TEXTS: usize = 2;
const OUTSIDE: usize = 4;

/// In so many rounds of a hundred every length of buffer and of text is tried for one sentence.
const EVERY_LENGTH: u64 = 2;

pub fn sentences(trial: &mut Trial, random: &mut Random) -> Result<(), Mismatch> {
    for number in 1..=LAST {
        let parts = random_parts(random, number);
        let text = tell(trial, parts)?;
        count(trial, parts, text.len());
        try_rooms(trial, random, parts, text.len())?;
    }
    for _ in 0..OUTSIDE {
        try_outside(trial, random)?;
    }
    for (kind, (damage, _)) in DAMAGES.into_iter().enumerate() {
        for _ in 0..TEXTS {
            let is_told = try_text(trial, &damaged(random, damage))?;
            let met = &mut trial.tally.texts[kind];
            met[usize::from(is_told)] += 1;
        }
    }
    if random.percent(EVERY_LENGTH) {
        let number = random_number(random);
        try_every_length(trial, random_parts(random, number))?;
    }
    tell_met(trial)
}

fn call<'a>(function: Function<'a>, room: usize) -> Call<'a> {
    Call { function, job: &[], plan: &[], room }
}

fn say([number, first, second]: Parts, room: usize) -> Call<'static> {
    call(Function::Sentence(number as u32, first, second), room)
}

/// Prints a refusal into a buffer of just the length, and reads it back: it is the same.
fn tell(trial: &mut Trial, parts: Parts) -> Result<String, Mismatch> {
    let text = printed(parts).expect("the number is one of the tables");
    let said = say(parts, text.len());
    if trial.compare(&said)? != 0 || trial.written() != text.as_bytes() || text.len() > MAX_BYTES {
        return Err(Mismatch::new(&said, format!("did not print \"{text}\"")));
    }
    let read = call(Function::ReadSentence(text.as_bytes()), 0);
    if trial.compare(&read)? != 0 || trial.written_parts() != parts {
        return Err(Mismatch::new(&read, format!("did not read {parts:?}")));
    }
    Ok(text)
}

fn count(trial: &mut Trial, [number, first, second]: Parts, length: usize) {
    let is_shown = shows_second(number);
    let is_said = !is_shown && second != unsaid_second(number, first);
    let kind = if is_shown { 0 } else { 1 + usize::from(is_said) };
    trial.tally.told[number as usize - 1] += 1;
    trial.tally.told_second[kind] += 1;
    trial.tally.told_far += u64::from(first >> 32 != 0 || second >> 24 != 0);
    trial.tally.told_most += u64::from(first == u64::MAX || second == u64::MAX);
    trial.tally.told_longest += u64::from(length == MAX_BYTES);
}

/// Buffers that are a byte too short, a byte too long, and of some other length.
fn try_rooms(
    trial: &mut Trial,
    random: &mut Random,
    parts: Parts,
    needed: usize,
) -> Result<(), Mismatch> {
    let any = random.below(200);
    let other = random.pick(&[0, MAX_BYTES, MAX_BYTES + 1, any]);
    for room in [needed - 1, needed + 1, other] {
        try_room(trial, parts, needed, room)?;
    }
    Ok(())
}

fn try_room(trial: &mut Trial, parts: Parts, needed: usize, room: usize) -> Result<(), Mismatch> {
    if room >= needed {
        return trial.compare(&say(parts, room)).map(|_| ());
    }
    trial.tally.told_short += 1;
    trial.refuse(&say(parts, room), Refusal::at(SHORT_BUFFER, needed as u64))
}

/// No buffer is too short for 22.
fn try_outside(trial: &mut Trial, random: &mut Random) -> Result<(), Mismatch> {
    let number = number_outside(random);
    let [_, first, second] = random_parts(random, LAST);
    for room in [0, random.below(30), MAX_BYTES, MAX_BYTES + 1] {
        let said = call(Function::Sentence(number, first, second), room);
        trial.refuse(&said, Refusal::at(NOT_A_SENTENCE, u64::from(number)))?;
        trial.tally.outside[usize::from(room < MAX_BYTES)] += 1;
    }
    Ok(())
}

/// Any text. If it is a sentence, the refusal that was read has it. Answers whether it is.
fn try_text(trial: &mut Trial, text: &[u8]) -> Result<bool, Mismatch> {
    let read = call(Function::ReadSentence(text), 0);
    if trial.compare(&read)? != 0 {
        return Ok(false);
    }
    let parts = trial.written_parts();
    if tell(trial, parts)?.as_bytes() != text {
        return Err(Mismatch::new(&read, format!("read {parts:?}, which has another sentence")));
    }
    Ok(true)
}

/// Every length of buffer; and the text cut everywhere, and with each byte changed, removed and
/// doubled.
fn try_every_length(trial: &mut Trial, parts: Parts) -> Result<(), Mismatch> {
    let text = tell(trial, parts)?.into_bytes();
    for room in 0..=MAX_BYTES + 8 {
        try_room(trial, parts, text.len(), room)?;
    }
    for at in 0..text.len() {
        let (before, behind) = (&text[..at], &text[at + 1..]);
        let refusal = Refusal::at(NOT_A_SENTENCE, at as u64);
        trial.refuse(&call(Function::ReadSentence(before), 0), refusal)?;
        trial.tally.texts_cut += 1;
        let byte = text[at];
        for with in [[byte ^ 1].as_slice(), &[byte ^ 0x80], &[], &[byte; 2], b" ", b"0"] {
            try_text(trial, &[before, with, behind].concat())?;
        }
    }
    Ok(())
}

/// The refusals that the other calls gave since the last time, each once in a run.
fn tell_met(trial: &mut Trial) -> Result<(), Mismatch> {
    for code in take(&mut trial.tally.untold) {
        let (first, second) = places_of(code);
        tell(trial, [number_of(code) as u64, first, second])?;
        trial.tally.told_met[number_of(code) - 1] += 1;
    }
    Ok(())
}

/// All comparisons on a given text, as written after a mismatch: with every length, and if it is a
/// sentence that of its refusal.
pub fn text(trial: &mut Trial, text: &[u8]) -> Result<(), Mismatch> {
    for length in 0..text.len() {
        try_text(trial, &text[..length])?;
    }
    if try_text(trial, text)? {
        let parts = trial.written_parts();
        try_every_length(trial, parts)?;
    }
    Ok(())
}
