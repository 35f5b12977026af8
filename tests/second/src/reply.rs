//! Results as one number, by include/hyaloneth.h: the kind of answer in bits 56 to 63, its number in bits 0 to 31. Whom a deliver served has two
//! numbers: the component in bits 48 to 55, the block in bits 32 to 47.

use crate::blind;
use crate::model::{Answer, Refusal, Reply};

pub fn done(count: u32) -> u64 {
    u64::from(count)
}

pub fn refused(refusal: Refusal) -> u64 {
    1 << 56 | u64::from(refusal.number())
}

pub fn word(word: u32) -> u64 {
    2 << 56 | u64::from(word)
}

pub fn letter(letter: char) -> u64 {
    3 << 56 | letter as u64
}

pub fn served(component: u8, block: u8) -> u64 {
    4 << 56 | u64::from(component) << 48 | u64::from(block) << 32
}

pub fn of_reply(reply: Reply) -> u64 {
    match reply {
        Ok(Answer::Done) => done(0),
        Ok(Answer::Word(w)) => word(w),
        Ok(Answer::Served { component, block }) => served(component, block),
        Err(refusal) => refused(refusal),
    }
}

pub fn of_letter(given: Result<char, Refusal>) -> u64 {
    given.map_or_else(refused, letter)
}

/// What the blind program gives for a step, or for an opening.
pub fn of_blind(given: Result<blind::Answer, u32>) -> u64 {
    match given {
        Ok(blind::Answer::Done) => done(0),
        Ok(blind::Answer::Word(w)) => word(w),
        // Its numbers are not cut to their bits: one that is too large shows.
        Ok(blind::Answer::Served { component, block }) => 4 << 56 | u64::from(component) << 48 | u64::from(block) << 32,
        Err(number) => 1 << 56 | u64::from(number),
    }
}

/// What it gives for a letter.
pub fn of_blind_letter(given: Result<u8, u32>) -> u64 {
    given.map_or_else(|number| 1 << 56 | u64::from(number), |byte| letter(byte.into()))
}

/// A result in words, for a person.
pub fn say(result: u64) -> String {
    let [kind, component, high, low, ..] = result.to_be_bytes();
    let (block, number) = (u16::from_be_bytes([high, low]), result as u32);
    match (kind, component, block) {
        (0, 0, 0) if number == 0 => "done".into(),
        (0, 0, 0) => format!("done {number}"),
        (1, 0, 0) => format!("refused {number}"),
        (2, 0, 0) => format!("word {number:08x}"),
        (3, 0, 0) if number < 0x80 => format!("letter {}", number as u8 as char),
        (4, _, _) if number == 0 => format!("served component {component}, block {block}"),
        _ => format!("{result:#018x}"),
    }
}
