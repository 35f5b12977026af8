//! What documents 01 and 02 have rackrun write, by the model, and inputs to try the program on.
//!
//!   rackrun_text                  reads an input from standard input and writes its text
//!   rackrun_text --inputs DIR     writes the inputs to files of a folder
//!
//! The blind program must write the same lines.

use second::blind;
use second::examples::{self, Line, HOME_LOADS, HOME_LOADS_FAR, LISTING, SERVED_FAR, SERVED_HOME, SERVED_MIDDLE};
use second::examples::{BARE_ALONE, BARE_CLAIMED, BARE_DIRTY, BARE_FULL, BARE_HOME_LOADS, BARE_RETURN};
use second::lists::Lists;
use second::model::{self, Answer, Rack, Reply, Step};
use std::fmt::Write as _;
use std::io::{Error, Read, Write as _};
use std::path::Path;
use std::process::ExitCode;

/// Only so many bytes of an input are used.
const USED: usize = 65_536;

// ---- the text

fn say(reply: Reply) -> String {
    match reply {
        Ok(Answer::Done) => "ok".into(),
        Ok(Answer::Word(word)) => format!("v{word:08x}"),
        Ok(Answer::Served { component, block }) => format!("d{component}.{block}"),
        Err(refusal) => format!("r{}", refusal.number()),
    }
}

/// Bytes N, B, T, then records, cut by their lengths; it stops after a refused opening; under three bytes it is `0 r1`.
fn text(input: &[u8]) -> String {
    let used = &input[..input.len().min(USED)];
    let [boards, blocks, tokens, list @ ..] = used else {
        return "0 r1\n".into();
    };
    let [boards, blocks, tokens] = [*boards, *blocks, *tokens].map(u32::from);
    let (opened, blind) = (Rack::open(boards, blocks, tokens), blind::Rack::open(boards, blocks, tokens));
    let (mut rack, mut blind) = match (opened, blind) {
        (Ok(rack), Ok(blind)) => (rack, blind),
        (Err(refusal), Err(number)) if u32::from(refusal.number()) == number => return format!("0 r{number}\n"),
        _ => panic!("the blind program opens otherwise"),
    };
    let mut text = String::from("0 ok\n");
    let (mut left, mut index) = (list, 0);
    while !left.is_empty() {
        let (bytes, rest) = model::cut(left);
        let given = model::read(bytes).and_then(|step| rack.step(step));
        let said = say(given);
        assert_eq!(said, blind::text(blind.step(bytes)), "the blind program writes otherwise");
        index += 1;
        writeln!(text, "{index} {said}").expect("a string takes it");
        left = rest;
    }
    text
}

// ---- the inputs

/// An opening and records, with the rack that they lead to.
struct Input {
    bytes: Vec<u8>,
    rack: Rack,
    lists: Lists,
}

impl Input {
    fn open((boards, blocks, tokens): (u8, u8, u8), seed: u64) -> Input {
        let rack = Rack::open(boards.into(), blocks.into(), tokens.into()).expect("sizes in range");
        Input { bytes: vec![boards, blocks, tokens], rack, lists: Lists::new(seed) }
    }

    fn give(&mut self, step: Step) {
        // A refused step has its line too.
        let _ = self.rack.step(step);
        self.bytes.extend(model::write(step));
    }

    /// Seeded steps, now and then torn, while they fit into so many bytes.
    fn fill(&mut self, most: usize) {
        loop {
            let bytes = self.lists.bytes(&self.rack);
            // Of torn steps only those that are one record by their length: others would take in what follows.
            if bytes.len() < 3 || declared(&bytes) != bytes.len() {
                continue;
            }
            if self.bytes.len() + bytes.len() > most {
                return;
            }
            if let Ok(step) = model::read(&bytes) {
                let _ = self.rack.step(step);
            }
            self.bytes.extend(bytes);
        }
    }

    /// A record of no step that fills up to so many bytes.
    fn pad(&mut self, length: usize) {
        let body = length - self.bytes.len() - 3;
        self.bytes.push(0x7f);
        self.bytes.extend((body as u16).to_be_bytes());
        self.bytes.resize(length, 0x13);
    }

    /// Steps up to so many bytes; the last is a deliver that is accepted, if all of its bytes are used.
    fn ends_with_deliver(mut self, length: usize) -> Vec<u8> {
        let send = Step::Send { component: 0, block: 0, target: 1, plain: 1, owner: false, data: false };
        let last = [send, Step::Deliver { position: 0 }].map(model::write).concat();
        // Steps that leave block 0 with home and the mesh empty.
        while self.bytes.len() + 64 < length - last.len() {
            self.give(Step::Raise { component: 1, block: 0 });
            self.give(Step::Lower { component: 1, block: 0 });
            self.give(Step::Load { component: 1, block: 0, word: 7 });
        }
        self.pad(length - last.len());
        self.bytes.extend(last);
        assert_eq!(self.bytes.len(), length);
        self.bytes
    }
}

/// How long a record says it is.
fn declared(bytes: &[u8]) -> usize {
    3 + usize::from(u16::from_be_bytes([bytes[1], bytes[2]]))
}

/// The input of an example, of which the model's text is as stated. Of its lines rackrun has the steps; the others change nothing.
fn example(name: &str) -> Vec<u8> {
    let example = examples::all().into_iter().find(|example| example.name == name).expect("it is among the examples");
    let (boards, blocks, tokens) = example.sizes;
    let mut bytes: Vec<u8> = [boards, blocks, tokens].map(|size| size as u8).to_vec();
    let mut stated = format!("0 {}\n", example.opening);
    let steps = example.lines.into_iter().filter_map(|line| match line {
        Line::Step(step, says) => Some((step, says)),
        Line::Letter(..) | Line::ShortLetter(..) | Line::Target(_) => None,
    });
    for (index, (step, says)) in (1..).zip(steps) {
        bytes.extend(step);
        writeln!(stated, "{index} {says}").expect("a string takes it");
    }
    assert_eq!(text(&bytes), stated, "{name}");
    bytes
}

/// Document 01's input.
fn listing() -> Vec<u8> {
    example(LISTING)
}

/// Each board and home served each block: every text that a deliver can have.
fn served_all() -> Vec<u8> {
    let mut input = Input::open((15, 32, 64), 0);
    for block in 0..32 {
        for board in 1..=15 {
            for (component, target) in [(0, board), (board, 0)] {
                input.give(Step::Send { component, block, target, plain: 1, owner: false, data: false });
                input.give(Step::Deliver { position: 0 });
            }
        }
    }
    input.bytes
}

fn inputs() -> Vec<(String, Vec<u8>)> {
    let mut all: Vec<(String, Vec<u8>)> = Vec::new();
    let mut add = |name: &str, bytes: Vec<u8>| all.push((name.to_string(), bytes));
    let with = |tail: &[u8]| [&listing()[..], tail].concat();

    for name in [LISTING, SERVED_FAR, SERVED_HOME, SERVED_MIDDLE, HOME_LOADS, HOME_LOADS_FAR] {
        add(name, example(name));
    }
    for name in [BARE_RETURN, BARE_DIRTY, BARE_ALONE, BARE_HOME_LOADS, BARE_CLAIMED, BARE_FULL] {
        add(name, example(name));
    }
    add("served_all", served_all());
    add("nothing", Vec::new());
    add("one_byte", vec![2]);
    add("two_bytes", vec![2, 1]);
    add("opening_alone", vec![2, 1, 3]);
    for (name, sizes) in [
        ("no_boards", [0, 1, 3]),
        ("16_boards", [16, 1, 64]),
        ("no_blocks", [2, 0, 3]),
        ("33_blocks", [2, 33, 3]),
        ("fewer_tokens_than_boards", [2, 1, 1]),
        ("65_tokens", [2, 1, 65]),
        ("all_255", [255; 3]),
    ] {
        // Records behind a refused opening have no line.
        add(&format!("refused_{name}"), [&sizes[..], &listing()[3..]].concat());
    }
    add("tail_of_1", with(&[0x13]));
    add("tail_of_2", with(&[0x13, 0]));
    add("tail_without_body", with(&[0x13, 0, 4]));
    add("length_past_the_end", with(&[0x13, 0, 5, 9, 0, 1, 0]));
    add("longest_length_past_the_end", with(&[0x13, 0xff, 0xff, 9, 0, 1, 0]));
    add("empty_bodies", with(&[0x10, 0, 0, 0x13, 0, 0, 0x16, 0, 0]));
    // The length decides where the next record starts, not the kind.
    add("torn_then_whole", [&[2, 1, 3, 0x13, 0, 5, 9, 0, 1, 0, 0x77][..], &listing()[3..]].concat());
    add("torn_swallows_a_record", [&[2, 1, 3, 0x13, 0, 11, 9, 0, 1, 0][..], &listing()[3..]].concat());

    // The limit: at the end of a record, one byte before it, far behind it, and between records.
    for length in [USED - 1, USED, USED + 1, USED + 6] {
        add(&format!("{length}_bytes"), Input::open((2, 1, 3), 1).ends_with_deliver(length));
    }
    let mut between = Input::open((2, 1, 3), 2).ends_with_deliver(USED);
    between.extend(&listing()[3..]);
    add("records_behind_the_limit", between);
    let mut far = Input::open((4, 3, 40), 3);
    far.fill(70_000 - 3);
    far.pad(70_000);
    add("70000_bytes", far.bytes);
    // The most lines: records of three bytes.
    add("most_lines", [&[2, 1, 3][..], &[0; USED]].concat());
    // A text of long lines: answered loads.
    let mut loads = Input::open((2, 1, 3), 4);
    loads.give(Step::Send { component: 0, block: 0, target: 1, plain: 2, owner: true, data: true });
    loads.give(Step::Deliver { position: 0 });
    loads.give(Step::Store { component: 1, block: 0, word: 0, value: 0xffff_ffff });
    while loads.bytes.len() < USED + 100 {
        loads.give(Step::Load { component: 1, block: 0, word: 0 });
    }
    add("loads", loads.bytes);

    // Every count of blocks, so every length of a record.
    for blocks in 1..=32 {
        let mut input = Input::open((15, blocks, 64), blocks.into());
        input.fill(2000);
        add(&format!("15_{blocks}_64"), input.bytes);
    }
    for (i, (boards, blocks, tokens)) in
        [(1, 1, 1), (2, 1, 3), (3, 2, 5), (2, 2, 64), (8, 16, 16), (1, 32, 64), (15, 32, 15), (15, 32, 64)].into_iter().enumerate()
    {
        let mut input = Input::open((boards, blocks, tokens), 100 + i as u64);
        input.fill(USED);
        add(&format!("long_{boards}_{blocks}_{tokens}"), input.bytes);
    }
    all
}

fn main() -> ExitCode {
    let arguments: Vec<String> = std::env::args().skip(1).collect();
    let written = match arguments.iter().map(String::as_str).collect::<Vec<_>>()[..] {
        [] => {
            let mut input = Vec::new();
            std::io::stdin().read_to_end(&mut input).and_then(|_| std::io::stdout().write_all(text(&input).as_bytes()))
        }
        ["--inputs", folder] => inputs().into_iter().try_for_each(|(name, bytes)| std::fs::write(Path::new(folder).join(name), bytes)),
        _ => Err(Error::other("there is --inputs with a folder")),
    };
    match written {
        Ok(()) => ExitCode::SUCCESS,
        Err(error) => {
            eprintln!("{error}");
            ExitCode::FAILURE
        }
    }
}
