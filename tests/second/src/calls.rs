//! One call on the bytes of a buffer, made by the model and by each engine, and compared: the result, and every byte that was lent.
//!
//! An engine with a record of its own (`tuned`) gets the rack in its own bytes; its results and the
//! figures that it leaves are compared.

use crate::model::{self, Rack, Refusal};
use crate::{best, engine, record, reply, tuned};
use std::fmt::Write;

pub enum Call<'a> {
    Length(u32),
    Open(u32, u32, u32),
    Step(&'a [u8]),
    Letter(u32, u32),
    Run { list: &'a [u8], at: usize, places: usize },
}

/// What a call gave. `at` and `replies` are those of a run.
#[derive(Default, PartialEq, Eq)]
pub struct Given {
    pub result: u64,
    pub at: usize,
    pub replies: Vec<u64>,
}

impl From<u64> for Given {
    fn from(result: u64) -> Given {
        Given { result, ..Given::default() }
    }
}

/// What the places for replies hold before a run.
const BLANK: u64 = 0x5a5a_5a5a_5a5a_5a5a;

/// A layout of the record: how long it is for so many blocks, and a rack written over the front of a buffer.
pub struct Layout {
    pub length: fn(usize) -> usize,
    pub encode: fn(&Rack, &mut [u8]),
}

/// The record's, and the tuned engine's own.
pub static LAYOUTS: [Layout; 2] =
    [Layout { length: record::length, encode: record::encode }, Layout { length: tuned::length, encode: tuned::encode }];

/// The record's in `LAYOUTS`.
pub const RECORD: usize = 0;
const TUNED: usize = 1;

pub struct Engine {
    pub name: &'static str,
    /// Its layout in `LAYOUTS`.
    pub layout: usize,
    pub record_len: fn(u32) -> u64,
    pub open: fn(&mut [u8], u32, u32, u32) -> u64,
    pub step: fn(&mut [u8], &[u8]) -> u64,
    pub run: fn(&mut [u8], &[u8], &mut usize, &mut [u64]) -> usize,
    pub letter: fn(&[u8], u32, u32) -> u64,
}

pub static ENGINES: [Engine; 3] = [
    Engine {
        name: "engine",
        layout: RECORD,
        record_len: engine::record_len,
        open: engine::open,
        step: engine::step,
        run: engine::run,
        letter: engine::letter,
    },
    Engine {
        name: "best",
        layout: RECORD,
        record_len: best::record_len,
        open: best::open,
        step: best::step,
        run: best::run,
        letter: best::letter,
    },
    Engine {
        name: "tuned",
        layout: TUNED,
        record_len: tuned::record_len,
        open: tuned::open,
        step: tuned::step,
        run: tuned::run,
        letter: tuned::letter,
    },
];

impl Engine {
    pub fn call(&self, buffer: &mut [u8], call: &Call) -> Given {
        match *call {
            Call::Length(blocks) => (self.record_len)(blocks).into(),
            Call::Open(boards, blocks, tokens) => (self.open)(buffer, boards, blocks, tokens).into(),
            Call::Step(bytes) => (self.step)(buffer, bytes).into(),
            Call::Letter(component, block) => (self.letter)(buffer, component, block).into(),
            Call::Run { list, mut at, places } => {
                let mut replies = vec![BLANK; places];
                let made = (self.run)(buffer, list, &mut at, &mut replies);
                Given { result: made as u64, at, replies }
            }
        }
    }
}

/// The rack of a buffer that holds a sound record, else refusal 2.
pub fn sound_rack(buffer: &[u8]) -> Result<Rack, Refusal> {
    record::decode(buffer).filter(Rack::sound).ok_or(Refusal::Unsound)
}

/// The call by document 01: 1, then 2, then the rules on the rack; an accepted step's rack is written over the buffer. `rack` is what the buffer
/// was decoded to, and afterwards what it holds.
fn by_model(buffer: &mut [u8], rack: &mut Option<Rack>, call: &Call) -> Given {
    match *call {
        Call::Length(blocks @ 1..=32) => reply::done(record::length(blocks as usize) as u32).into(),
        Call::Length(_) => reply::refused(Refusal::Size).into(),
        Call::Open(boards, blocks, tokens) => match Rack::open(boards, blocks, tokens) {
            Err(refusal) => reply::refused(refusal).into(),
            Ok(_) if buffer.len() < record::length(blocks as usize) => reply::refused(Refusal::ShortBuffer).into(),
            Ok(opened) => {
                record::encode(&opened, buffer);
                *rack = Some(opened);
                reply::done(0).into()
            }
        },
        Call::Step(bytes) => {
            let mut sound = rack.as_mut().filter(|rack| rack.sound());
            step(buffer, &mut sound, bytes).into()
        }
        Call::Letter(component, block) => {
            let sound = rack.as_ref().filter(|rack| rack.sound()).ok_or(Refusal::Unsound);
            reply::of_letter(sound.and_then(|rack| rack.letter(component, block))).into()
        }
        Call::Run { list, mut at, places } => {
            let mut replies = vec![BLANK; places];
            let mut sound = rack.as_mut().filter(|rack| rack.sound());
            let mut made = 0;
            while made < places && at < list.len() {
                let (bytes, _) = model::cut(&list[at..]);
                replies[made] = step(buffer, &mut sound, bytes);
                at += bytes.len();
                made += 1;
            }
            Given { result: made as u64, at, replies }
        }
    }
}

/// A step on the bytes and on the rack that they hold, if they are sound.
fn step(buffer: &mut [u8], sound: &mut Option<&mut Rack>, bytes: &[u8]) -> u64 {
    let given = model::read(bytes).and_then(|step| {
        let rack = sound.as_mut().ok_or(Refusal::Unsound)?;
        let answer = rack.step(step)?;
        record::encode(rack, buffer);
        Ok(answer)
    });
    reply::of_reply(given)
}

/// Compares calls; its buffers are used again and again.
#[derive(Default)]
pub struct Comparison {
    /// The buffer after the last call, by the model.
    pub after: Vec<u8>,
    got: Vec<u8>,
    /// Those of an engine with a layout of its own.
    own_after: Vec<u8>,
    own_got: Vec<u8>,
}

impl Comparison {
    /// What the model and all engines give alike, or the difference as a case for `--replay`.
    pub fn call(&mut self, before: &[u8], call: &Call) -> Result<Given, String> {
        self.after.clear();
        self.after.extend(before);
        let mut rack = match call {
            Call::Length(_) | Call::Open(..) => None,
            _ => record::decode(before),
        };
        let comparable = self.lend_own(before, &rack, call);
        let want = by_model(&mut self.after, &mut rack, call);
        for engine in ENGINES.iter().filter(|engine| engine.layout == RECORD) {
            self.got.clear();
            self.got.extend(before);
            let given = engine.call(&mut self.got, call);
            if given != want || self.got != self.after {
                let what = difference(engine.name, &want, &given, &self.after, &self.got);
                return Err(format!("{what}\nbytes {}\n{}", hex(before), call.text()));
            }
        }
        if comparable {
            for engine in ENGINES.iter().filter(|engine| engine.layout == TUNED) {
                let given = engine.call(&mut self.own_got, call);
                // The figures are the model's where writing the model's rack over them changes nothing; after a refused opening there is no rack.
                if let Some(rack) = &rack {
                    self.own_after.clone_from(&self.own_got);
                    (LAYOUTS[TUNED].encode)(rack, &mut self.own_after);
                }
                if given != want || self.own_got != self.own_after {
                    let what = difference(engine.name, &want, &given, &self.own_after, &self.own_got);
                    return Err(format!("{what} (in its own layout)\nbytes {}\n{}", hex(before), call.text()));
                }
            }
        }
        Ok(want)
    }

    /// Puts the rack into the bytes of the other layout, in a buffer that has as many bytes to spare. Bytes that no rack can be decoded from say
    /// nothing in another layout, and a length is each layout's own: false.
    fn lend_own(&mut self, before: &[u8], rack: &Option<Rack>, call: &Call) -> bool {
        let blocks = match (call, rack) {
            (Call::Open(_, blocks, _), _) => (*blocks).min(32) as usize,
            (_, Some(rack)) => rack.blocks.len(),
            _ => return false,
        };
        let needed = (LAYOUTS[TUNED].length)(blocks);
        let length = (needed + before.len()).saturating_sub(record::length(blocks));
        self.own_after.clear();
        self.own_after.resize(length, 0xa5);
        if let Some(rack) = rack {
            (LAYOUTS[TUNED].encode)(rack, &mut self.own_after);
        }
        self.own_got.clone_from(&self.own_after);
        true
    }
}

fn difference(name: &str, want: &Given, given: &Given, after: &[u8], got: &[u8]) -> String {
    let mut what = format!("# {name}: {} where the model gives {}", reply::say(given.result), reply::say(want.result));
    if given.at != want.at {
        write!(what, "; at {} where the model has {}", given.at, want.at).expect("a string takes it");
    }
    if let Some(i) = given.replies.iter().zip(&want.replies).position(|(g, w)| g != w) {
        let (g, w) = (reply::say(given.replies[i]), reply::say(want.replies[i]));
        write!(what, "; reply {i} is {g} where the model gives {w}").expect("a string takes it");
    }
    if let Some(at) = byte_difference(after, got) {
        write!(what, "; {at}").expect("a string takes it");
    }
    what
}

/// The first byte in which two buffers differ, in words.
pub fn byte_difference(want: &[u8], got: &[u8]) -> Option<String> {
    if want == got {
        return None;
    }
    let at = want.iter().zip(got).position(|(w, g)| w != g)?;
    Some(format!("byte {at} is {:02x} where the model has {:02x}", got[at], want[at]))
}

pub fn hex(bytes: &[u8]) -> String {
    bytes.iter().fold(String::new(), |mut text, byte| {
        write!(text, "{byte:02x}").expect("a string takes it");
        text
    })
}

pub fn unhex(text: &str) -> Option<Vec<u8>> {
    let digits = text.chars().filter(|c| !c.is_whitespace()).map(|c| c.to_digit(16)).collect::<Option<Vec<u32>>>()?;
    digits.chunks(2).map(|two| Some((two[0] * 16 + *two.get(1)?) as u8)).collect()
}

impl Call<'_> {
    /// The call as a line of a case.
    pub fn text(&self) -> String {
        match self {
            Call::Length(blocks) => format!("length {blocks}"),
            Call::Open(boards, blocks, tokens) => format!("open {boards} {blocks} {tokens}"),
            Call::Step(bytes) => format!("step {}", hex(bytes)),
            Call::Letter(component, block) => format!("letter {component} {block}"),
            Call::Run { list, at, places } => format!("run {at} {places} {}", hex(list)),
        }
    }
}
