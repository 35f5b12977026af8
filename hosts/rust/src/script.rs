//! The readable form of an input of program rackrun: one line for the opening and one for each step.
//!
//! ```text
//! rack 2 boards 1 block 3 tokens
//! send 0 block 0 -> 1 plain 2 owner data
//! deliver 0
//! store 1 block 0 word 0 = 0x2a
//! load 1 block 0 word 0
//! ```
//!
//! The package's README has the grammar. [`disassemble`] gives, for any bytes, a script that
//! [`assemble`] turns back into the same bytes; what is no step record stands there as a `bytes`
//! line. A script that [`disassemble`] wrote comes back as the same text.
//!
//! ```
//! use hyaloneth::script::{assemble, disassemble};
//!
//! let bytes = assemble("rack 2 boards 1 block 3 tokens\ndeliver 0  # there is none\n")?;
//! assert_eq!(bytes, [2, 1, 3, 0x13, 0, 4, 9, 0, 1, 0]);
//! assert_eq!(disassemble(&bytes), "rack 2 boards 1 block 3 tokens\ndeliver 0\n");
//! assert_eq!(disassemble(&bytes[..7]), "rack 2 boards 1 block 3 tokens\nbytes 13 00 04 09\n");
//!
//! let error = assemble("rack 2 boards 1 block 3 tokens\nraise 258 block 0\n").unwrap_err();
//! assert_eq!(error.to_string(), "line 2: the component is 258, but its field takes 0 to 255");
//! # Ok::<(), hyaloneth::script::ScriptError>(())
//! ```

use crate::{Refusal, Reply, Step};
use std::error::Error;
use std::fmt;

/// How many bytes a `bytes` or `+` line of [`disassemble`] has at most.
const BYTES_PER_LINE: usize = 16;

/// Why a script is none: the line, counted from 1, and what was expected there.
#[derive(Clone, Debug, PartialEq, Eq)]
pub struct ScriptError {
    /// The line, counted from 1.
    pub line: usize,
    /// What is wrong with it.
    pub message: String,
}

impl fmt::Display for ScriptError {
    fn fmt(&self, f: &mut fmt::Formatter<'_>) -> fmt::Result {
        write!(f, "line {}: {}", self.line, self.message)
    }
}

impl Error for ScriptError {}

/// The step as a line of a script.
///
/// ```
/// use hyaloneth::Step;
///
/// let step = Step::Send { component: 0, block: 3, target: 1, plain: 2, owner: true, data: true };
/// assert_eq!(step.to_string(), "send 0 block 3 -> 1 plain 2 owner data");
/// ```
impl fmt::Display for Step {
    fn fmt(&self, f: &mut fmt::Formatter<'_>) -> fmt::Result {
        match *self {
            Step::Load { component, block, word } => {
                write!(f, "load {component} block {block} word {word}")
            }
            Step::Store { component, block, word, value } => {
                write!(f, "store {component} block {block} word {word} = {value:#x}")
            }
            Step::Send { component, block, target, plain, owner, data } => {
                write!(f, "send {component} block {block} -> {target} plain {plain}")?;
                f.write_str(if owner { " owner" } else { "" })?;
                f.write_str(if data { " data" } else { "" })
            }
            Step::Deliver { position } => write!(f, "deliver {position}"),
            Step::Raise { component, block } => write!(f, "raise {component} block {block}"),
            Step::Lower { component, block } => write!(f, "lower {component} block {block}"),
            Step::Forward { component, block } => write!(f, "forward {component} block {block}"),
        }
    }
}

/// Cuts a list into its step records by their lengths, as the engine does: see [`records`].
#[derive(Clone, Debug)]
pub struct Records<'a> {
    rest: &'a [u8],
}

/// The step records of a list, cut by their lengths. A record that the list ends before is the last
/// one, incomplete.
///
/// ```
/// use hyaloneth::script::records;
///
/// let list = [0x13, 0, 1, 0xff, 0x99, 0, 0, 0x13];
/// let cut: Vec<&[u8]> = records(&list).collect();
/// assert_eq!(cut, [&list[..4], &list[4..7], &list[7..]]);
/// ```
pub fn records(list: &[u8]) -> Records<'_> {
    Records { rest: list }
}

impl<'a> Iterator for Records<'a> {
    type Item = &'a [u8];

    fn next(&mut self) -> Option<&'a [u8]> {
        if self.rest.is_empty() {
            return None;
        }
        let end = stated_len(self.rest).unwrap_or(usize::MAX).min(self.rest.len());
        let (record, rest) = self.rest.split_at(end);
        self.rest = rest;
        Some(record)
    }
}

/// How long the record at the front says it is; nothing where its length is not all there.
fn stated_len(bytes: &[u8]) -> Option<usize> {
    let &[_, high, low, ..] = bytes else { return None };
    Some(3 + usize::from(u16::from_be_bytes([high, low])))
}

/// The line that opens a rack.
///
/// ```
/// use hyaloneth::script::opening_line;
///
/// assert_eq!(opening_line([2, 1, 3]), "rack 2 boards 1 block 3 tokens");
/// ```
pub fn opening_line(sizes: [u8; 3]) -> String {
    let [boards, blocks, tokens] = sizes.map(|size| (size, if size == 1 { "" } else { "s" }));
    format!(
        "rack {} board{} {} block{} {} token{}",
        boards.0, boards.1, blocks.0, blocks.1, tokens.0, tokens.1
    )
}

/// The line of one step record, or the lines of bytes that are none.
///
/// ```
/// use hyaloneth::script::step_lines;
///
/// assert_eq!(step_lines(&[0x14, 0, 8, 1, 0, 1, 2, 2, 0, 1, 0]), "raise 2 block 0");
/// assert_eq!(step_lines(&[0x14, 0, 8]), "bytes 14 00 08");
/// ```
pub fn step_lines(record: &[u8]) -> String {
    match Step::from_bytes(record) {
        Ok(step) => step.to_string(),
        Err(_) => bytes_lines(record),
    }
}

/// A reply or refusal as program rackrun prints it.
///
/// ```
/// use hyaloneth::script::reply_text;
/// use hyaloneth::{Refusal, Reply};
///
/// assert_eq!(reply_text(Ok(Reply::Done)), "ok");
/// assert_eq!(reply_text(Ok(Reply::Word(42))), "v0000002a");
/// assert_eq!(reply_text(Ok(Reply::Served { component: 3, block: 10 })), "d3.10");
/// assert_eq!(reply_text(Err(Refusal::NoToken)), "r5");
/// ```
pub fn reply_text(reply: Result<Reply, Refusal>) -> String {
    match reply {
        Ok(Reply::Done) => "ok".into(),
        Ok(Reply::Word(word)) => format!("v{word:08x}"),
        Ok(Reply::Served { component, block }) => format!("d{component}.{block}"),
        Err(refusal) => format!("r{}", refusal.number()),
    }
}

fn bytes_lines(bytes: &[u8]) -> String {
    let lines: Vec<String> = bytes
        .chunks(BYTES_PER_LINE)
        .map(|line| line.iter().map(|byte| format!(" {byte:02x}")).collect())
        .collect();
    format!("bytes{}", lines.join("\n    +"))
}

/// The script of an input: bytes N, B, T, then step records.
pub fn disassemble(bytes: &[u8]) -> String {
    let mut script = String::new();
    let mut line = |text: String| {
        script.push_str(&text);
        script.push('\n');
    };
    match bytes.split_first_chunk::<3>() {
        Some((&sizes, list)) => {
            line(opening_line(sizes));
            records(list).for_each(|record| line(step_lines(record)));
        }
        None if bytes.is_empty() => {}
        None => line(bytes_lines(bytes)),
    }
    script
}

/// The input of a script: bytes N, B, T, then step records.
///
/// The error names the first line that is wrong.
pub fn assemble(script: &str) -> Result<Vec<u8>, ScriptError> {
    let mut input = Input::default();
    for (i, line) in script.lines().enumerate() {
        let error = |message| ScriptError { line: i + 1, message };
        let mut words = Words::of(line);
        match words.next() {
            None => {}
            Some("+") => match &mut input.raw {
                Some((_, bytes)) => words.bytes(bytes).map_err(error)?,
                None => return Err(error("expected a `bytes` line before this one".into())),
            },
            Some(first) => {
                input.finish(false)?;
                input.statement(i + 1, first, &mut words).map_err(error)?;
            }
        }
    }
    input.finish(true)?;
    Ok(input.bytes)
}

/// What was assembled so far.
#[derive(Default)]
struct Input {
    bytes: Vec<u8>,
    /// The line of the opening.
    opened: Option<usize>,
    /// The line and bytes of a `bytes` statement to which `+` lines may still come.
    raw: Option<(usize, Vec<u8>)>,
}

impl Input {
    fn statement(&mut self, line: usize, first: &str, words: &mut Words) -> Result<(), String> {
        match (first, self.opened) {
            ("rack", None) => {
                let sizes = words.rack()?;
                self.bytes.extend(sizes);
                self.opened = Some(line);
            }
            ("rack", Some(opened)) => {
                return Err(format!("the rack is opened already, in line {opened}"));
            }
            ("bytes", _) => {
                let mut bytes = Vec::new();
                words.bytes(&mut bytes)?;
                self.raw = Some((line, bytes));
            }
            (_, None) => {
                return Err(format!(
                    "expected `rack`, which opens the rack, before the first step, found `{first}`"
                ));
            }
            (_, Some(_)) => {
                let step = words.step(first)?;
                let record = step.to_bytes().map_err(|refusal| refusal.to_string())?;
                self.bytes.extend(record);
            }
        }
        Ok(())
    }

    /// Ends a `bytes` statement. It is one record, so that the steps behind it are cut as their
    /// lines stand; only the last may be incomplete.
    fn finish(&mut self, last: bool) -> Result<(), ScriptError> {
        let Some((line, bytes)) = self.raw.take() else { return Ok(()) };
        let error = |message| Err(ScriptError { line, message });
        let len = bytes.len();
        if self.opened.is_none() {
            if len >= 3 || !last {
                return error(
                    "expected `rack` first: without it, a script is one `bytes` statement of \
                     fewer than three bytes"
                        .into(),
                );
            }
        } else {
            match stated_len(&bytes) {
                Some(stated) if stated < len => {
                    return error(format!(
                        "this record ends after {stated} of the {len} bytes: expected a `bytes` \
                         line for each record"
                    ));
                }
                Some(stated) if stated > len && !last => {
                    return error(format!(
                        "this record has {stated} bytes by its length, but {len} are here: only \
                         the last step may be incomplete"
                    ));
                }
                None if !last => {
                    return error(
                        "expected a kind byte and a two-byte length: only the last step may be \
                         incomplete"
                            .into(),
                    );
                }
                _ => {}
            }
        }
        self.bytes.extend(bytes);
        Ok(())
    }
}

/// The words of a line that were not taken yet.
struct Words<'a> {
    words: std::vec::IntoIter<&'a str>,
}

impl<'a> Words<'a> {
    /// `->` and `=` are words also where no space stands around them.
    fn of(line: &'a str) -> Words<'a> {
        let line = line.split('#').next().unwrap_or_default();
        let mut words = Vec::new();
        for mut word in line.split_whitespace() {
            while let Some((at, sign)) =
                ["->", "="].iter().filter_map(|sign| Some((word.find(sign)?, sign))).min()
            {
                if at > 0 {
                    words.push(&word[..at]);
                }
                words.push(&word[at..at + sign.len()]);
                word = &word[at + sign.len()..];
            }
            if !word.is_empty() {
                words.push(word);
            }
        }
        Words { words: words.into_iter() }
    }

    fn next(&mut self) -> Option<&'a str> {
        self.words.next()
    }

    fn peek(&self) -> Option<&'a str> {
        self.words.as_slice().first().copied()
    }

    /// Takes one of these words.
    fn take(&mut self, expected: &[&str]) -> Result<(), String> {
        match self.next() {
            Some(word) if expected.contains(&word) => Ok(()),
            found => Err(format!("expected `{}`, found {}", expected[0], named(found))),
        }
    }

    /// Takes this word if it is the next one.
    fn has(&mut self, word: &str) -> bool {
        let there = self.peek() == Some(word);
        if there {
            self.next();
        }
        there
    }

    fn end(&self, expected: &str) -> Result<(), String> {
        match self.peek() {
            None => Ok(()),
            found => Err(format!("expected {expected}, found {}", named(found))),
        }
    }

    /// A decimal or hexadecimal number that a field of so many bits takes.
    fn number(&mut self, field: &str, bits: u32) -> Result<u32, String> {
        let found = self.next();
        let word = found.unwrap_or_default();
        let (digits, radix) = match word.strip_prefix("0x") {
            Some(digits) => (digits, 16),
            None => (word, 10),
        };
        if digits.is_empty() || !digits.chars().all(|digit| digit.is_digit(radix)) {
            return Err(format!(
                "expected a number, decimal or 0x and hexadecimal, for the {field}, found {}",
                named(found)
            ));
        }
        let most = u32::MAX >> (32 - bits);
        match u32::from_str_radix(digits, radix) {
            Ok(number) if number <= most => Ok(number),
            _ => Err(format!("the {field} is {word}, but its field takes 0 to {most}")),
        }
    }

    /// A component: its number, or `home` for 0.
    fn component(&mut self, field: &str) -> Result<u32, String> {
        if self.has("home") {
            Ok(0)
        } else {
            self.number(field, 8)
        }
    }

    fn block(&mut self) -> Result<u32, String> {
        self.take(&["block"])?;
        self.number("block", 8)
    }

    fn word(&mut self) -> Result<u32, String> {
        self.take(&["word"])?;
        self.number("word", 8)
    }

    fn rack(&mut self) -> Result<[u8; 3], String> {
        let mut sizes = [0; 3];
        let fields = [["boards", "board"], ["blocks", "block"], ["tokens", "token"]];
        for (size, names) in sizes.iter_mut().zip(fields) {
            *size = self.number(&format!("number of {}", names[0]), 8)? as u8;
            self.take(&names)?;
        }
        self.end("the end of the line")?;
        Ok(sizes)
    }

    fn step(&mut self, kind: &str) -> Result<Step, String> {
        let mut end = "the end of the line";
        let step = match kind {
            "load" => Step::Load {
                component: self.component("component")?,
                block: self.block()?,
                word: self.word()?,
            },
            "store" => Step::Store {
                component: self.component("component")?,
                block: self.block()?,
                word: self.word()?,
                value: {
                    self.take(&["="])?;
                    self.number("value", 32)?
                },
            },
            "send" => {
                let component = self.component("component")?;
                let block = self.block()?;
                self.take(&["->"])?;
                let target = self.component("target")?;
                let plain = if self.has("plain") { self.number("plain count", 8)? } else { 0 };
                let (owner, data) = (self.has("owner"), self.has("data"));
                end = "`plain` and a number, `owner`, `data`, each at most once and in this \
                       order, or the end of the line";
                Step::Send { component, block, target, plain, owner, data }
            }
            "deliver" => Step::Deliver { position: self.number("position", 8)? },
            "raise" => {
                Step::Raise { component: self.component("component")?, block: self.block()? }
            }
            "lower" => {
                Step::Lower { component: self.component("component")?, block: self.block()? }
            }
            "forward" => {
                Step::Forward { component: self.component("component")?, block: self.block()? }
            }
            _ => {
                return Err(format!(
                    "expected send, deliver, load, store, raise, lower, forward or bytes, found \
                     `{kind}`"
                ));
            }
        };
        self.end(end)?;
        Ok(step)
    }

    /// Two hexadecimal digits for each byte, at least one byte.
    fn bytes(&mut self, bytes: &mut Vec<u8>) -> Result<(), String> {
        loop {
            let found = self.next();
            let word = found.unwrap_or_default();
            if word.len() != 2 || !word.bytes().all(|digit| digit.is_ascii_hexdigit()) {
                return Err(format!(
                    "expected a byte of two hexadecimal digits, found {}",
                    named(found)
                ));
            }
            bytes.extend(u8::from_str_radix(word, 16));
            if self.peek().is_none() {
                return Ok(());
            }
        }
    }
}

fn named(word: Option<&str>) -> String {
    match word {
        Some(word) => format!("`{word}`"),
        None => "the end of the line".into(),
    }
}
