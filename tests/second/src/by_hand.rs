//! Letters worked by hand from documents 01 and 02 alone: the lines of letters.txt, which says at its top how they are written.

use crate::calls::unhex;
use crate::letters::LETTERS;
use crate::model::{self, Step};
use std::str::FromStr;

const TEXT: &str = include_str!("../letters.txt");

/// A rack from its opening on. `at` is for messages here and below: the number of the line and what it says.
pub struct Situation {
    pub at: String,
    pub sizes: (u32, u32, u32),
    pub lines: Vec<Line>,
}

pub struct Line {
    pub at: String,
    pub asks: Asks,
    /// How often it is asked.
    pub times: u32,
    pub letters: Option<Letters>,
}

/// What a line asks before the letters, with its stated result.
pub enum Asks {
    Nothing,
    Step(Vec<u8>, &'static str),
    Letter(u32, u32, &'static str),
}

/// By block, those of boards 1 to N.
type Letters = Vec<Vec<&'static str>>;

/// The situations of letters.txt, or which of its lines is wrong.
pub fn all() -> Result<Vec<Situation>, String> {
    let mut situations: Vec<Situation> = Vec::new();
    for (number, text) in (1..).zip(TEXT.lines()) {
        let text = text.split('#').next().expect("a first part").trim();
        if text.is_empty() {
            continue;
        }
        let words: Vec<&'static str> = text.split_whitespace().collect();
        let at = format!("letters.txt, line {number}: {}", words.join(" "));
        let wrong = |why: &str| format!("# {at}: {why}");
        if let Some(rest) = text.strip_prefix("rack ") {
            let sizes = sizes(rest).ok_or_else(|| wrong("not N, B, T, a colon and a title"))?;
            situations.push(Situation { at, sizes, lines: Vec::new() });
        } else {
            let situation = situations.last_mut().ok_or_else(|| wrong("no rack before it"))?;
            let (asks, times, letters) = line(&words, situation).map_err(wrong)?;
            situation.lines.push(Line { at, asks, times, letters });
        }
    }
    match situations.iter().find(|situation| situation.lines.is_empty()) {
        Some(situation) => Err(format!("# {}: no line behind it", situation.at)),
        None => Ok(situations),
    }
}

fn sizes(text: &str) -> Option<(u32, u32, u32)> {
    let (sizes, title) = text.split_once(':')?;
    let sizes = sizes.split(' ').map(number::<u8>).collect::<Option<Vec<u8>>>()?;
    match sizes[..] {
        [boards, blocks, tokens] if !title.trim().is_empty() => Some((boards.into(), blocks.into(), tokens.into())),
        _ => None,
    }
}

fn line(words: &[&'static str], situation: &Situation) -> Result<(Asks, u32, Option<Letters>), &'static str> {
    match *words {
        ["open", "|", shown] if situation.lines.is_empty() => Ok((Asks::Nothing, 1, letters(shown, situation.sizes)?)),
        ["open", ..] => Err("open has letters alone, and stands first"),
        ["letter", place, "->", says] => {
            let [component, block] = places(place).ok_or("not a component and a block")?;
            let answer = LETTERS.contains(&says) || says.strip_prefix('r').and_then(number::<u8>).is_some();
            answer.then_some((Asks::Letter(component, block, says), 1, None)).ok_or("neither a letter nor a refusal")
        }
        [ref step @ .., "->", says, "|", shown] => {
            let (times, step) = match step {
                [first, step @ ..] if first.ends_with('x') => (number(&first[..first.len() - 1]).unwrap_or(0), step),
                _ => (1, step),
            };
            if times == 0 {
                return Err("not a number of times");
            }
            let bytes = bytes(step).ok_or("not a step")?;
            if !is_reply(says) {
                return Err("not a reply");
            }
            Ok((Asks::Step(bytes, says), times, letters(shown, situation.sizes)?))
        }
        _ => Err("neither STEP -> REPLY | LETTERS nor letter C.B -> ANSWER"),
    }
}

/// The letters of a line, none where it does not state them.
fn letters(shown: &str, (boards, blocks, _): (u32, u32, u32)) -> Result<Option<Letters>, &'static str> {
    if shown == "-" {
        return Ok(None);
    }
    let letter = |shown: char| LETTERS.into_iter().find(|letter| letter.starts_with(shown));
    let block = |row: &str| row.chars().map(letter).collect::<Option<Vec<_>>>().filter(|row| row.len() == boards as usize);
    let rows = shown.split('/').map(block).collect::<Option<Letters>>().filter(|rows| rows.len() == blocks as usize);
    rows.map(Some).ok_or("not a letter for each board, block by block")
}

/// The bytes of a step.
fn bytes(words: &[&str]) -> Option<Vec<u8>> {
    let step = match *words {
        ["raw", ref bytes @ ..] => return unhex(&bytes.concat()).filter(|_| bytes.iter().all(|byte| byte.len() == 2)),
        ["load", place] => places(place).map(|[component, block, word]| Step::Load { component, block, word })?,
        ["store", place, value] => {
            let ([component, block, word], value) = (places(place)?, number(value)?);
            Step::Store { component, block, word, value }
        }
        ["send", place, target, tokens] => {
            let ([component, block], target) = (places(place)?, number(target)?);
            let (tokens, data) = tokens.strip_suffix('d').map_or((tokens, false), |tokens| (tokens, true));
            let (plain, owner) = tokens.strip_suffix('o').map_or((tokens, false), |plain| (plain, true));
            Step::Send { component, block, target, plain: number(plain)?, owner, data }
        }
        ["deliver", position] => Step::Deliver { position: number(position)? },
        ["raise", place] => places(place).map(|[component, block]| Step::Raise { component, block })?,
        ["lower", place] => places(place).map(|[component, block]| Step::Lower { component, block })?,
        ["forward", place] => places(place).map(|[component, block]| Step::Forward { component, block })?,
        _ => return None,
    };
    Some(model::write(step))
}

/// Whether it is a reply in rackrun's words.
fn is_reply(says: &str) -> bool {
    match says.split_at_checked(1) {
        Some(("v", word)) => word.len() == 8 && word.bytes().all(|digit| matches!(digit, b'0'..=b'9' | b'a'..=b'f')),
        Some(("d", place)) => places::<u8, 2>(place).is_some(),
        Some(("r", refusal)) => number::<u8>(refusal).is_some(),
        _ => says == "ok",
    }
}

/// Numbers with points between.
fn places<T: FromStr, const COUNT: usize>(text: &str) -> Option<[T; COUNT]> {
    text.split('.').map(number).collect::<Option<Vec<T>>>()?.try_into().ok()
}

/// A number in decimal digits alone.
fn number<T: FromStr>(digits: &str) -> Option<T> {
    digits.parse().ok().filter(|_| digits.bytes().all(|digit| digit.is_ascii_digit()))
}
