//! Scripts and their bytes: both round trips, and what a wrong script is told.

use hyaloneth::script::{assemble, disassemble, records};
use hyaloneth::Step;

/// Numbers that a seed decides.
struct Dice(u64);

impl Dice {
    fn draw(&mut self, count: u32) -> u32 {
        self.0 ^= self.0 << 13;
        self.0 ^= self.0 >> 7;
        self.0 ^= self.0 << 17;
        (self.0 >> 32) as u32 % count
    }

    fn byte(&mut self) -> u32 {
        self.draw(256)
    }

    fn flag(&mut self) -> bool {
        self.draw(2) == 1
    }

    fn step(&mut self) -> Step {
        let (component, block) = (self.byte(), self.byte());
        match self.draw(7) {
            0 => Step::Load { component, block, word: self.byte() },
            1 => {
                let value = self.byte() << 24 | self.draw(1 << 24);
                Step::Store { component, block, word: self.byte(), value }
            }
            2 => {
                let (target, plain) = (self.byte(), self.byte());
                Step::Send {
                    component,
                    block,
                    target,
                    plain,
                    owner: self.flag(),
                    data: self.flag(),
                }
            }
            3 => Step::Deliver { position: self.byte() },
            4 => Step::Raise { component, block },
            5 => Step::Lower { component, block },
            _ => Step::Forward { component, block },
        }
    }
}

/// Bytes to script to bytes, and that script to bytes to script.
fn round_trip(bytes: &[u8]) {
    let script = disassemble(bytes);
    let assembled = assemble(&script);
    assert_eq!(assembled.as_deref(), Ok(bytes), "{script}");
    assert_eq!(assembled.map(|bytes| disassemble(&bytes)).as_ref(), Ok(&script));
    let lines = script.lines().filter(|line| !line.trim_start().starts_with('+')).count();
    let statements = match bytes.len() {
        0 => 0,
        1 | 2 => 1,
        _ => 1 + records(&bytes[3..]).count(),
    };
    assert_eq!(lines, statements, "{script}");
}

#[test]
fn random_bytes_come_back() {
    let mut dice = Dice(1);
    for len in 0..600 {
        for _ in 0..5 {
            let bytes: Vec<u8> = (0..len).map(|_| dice.byte() as u8).collect();
            round_trip(&bytes);
            // Short lengths make many records of one input.
            let small: Vec<u8> = (0..len).map(|_| dice.draw(24) as u8 % 23).collect();
            round_trip(&small);
        }
    }
    let long: Vec<u8> = (0..70_000).map(|_| dice.byte() as u8).collect();
    round_trip(&long);
}

#[test]
fn damaged_lists_come_back() {
    let mut dice = Dice(2);
    for _ in 0..3_000 {
        let mut bytes = vec![2, 1, 3];
        for _ in 0..dice.draw(12) {
            bytes.extend(dice.step().to_bytes().unwrap());
        }
        for _ in 0..dice.draw(4) {
            let at = dice.draw(bytes.len() as u32) as usize;
            match dice.draw(3) {
                0 => bytes[at] = dice.byte() as u8,
                1 => bytes.truncate(at.max(1)),
                _ => bytes.insert(at, dice.byte() as u8),
            }
        }
        round_trip(&bytes);
    }
}

#[test]
fn random_scripts_come_back() {
    let mut dice = Dice(3);
    for _ in 0..2_000 {
        let plural = |n| if n == 1 { "" } else { "s" };
        let [n, b, t] = [dice.draw(4), dice.draw(4), dice.byte()];
        let mut script =
            format!("rack {n} board{} {b} block{} {t} token{}\n", plural(n), plural(b), plural(t));
        let mut loose = script.clone();
        for _ in 0..dice.draw(20) {
            let step = dice.step();
            script += &format!("{step}\n");
            // The same with other spaces, comments and empty lines.
            let mut line = step.to_string();
            if dice.flag() {
                line = line.replace(" -> ", "->").replace(" = ", "=");
            }
            if dice.flag() {
                line = line.replace(' ', " \t ");
            }
            if dice.flag() {
                line += "# load 1 block";
            }
            if dice.flag() {
                line += "\r";
            }
            loose += &format!("  {line}\n{}", if dice.flag() { "\n" } else { " # -> = \n" });
        }
        let bytes = assemble(&script).unwrap();
        assert_eq!(disassemble(&bytes), script);
        assert_eq!(assemble(&loose).as_ref(), Ok(&bytes), "{loose}");
    }
}

#[test]
fn forms_of_the_same_step() {
    let rack = "rack 2 boards 1 block 3 tokens\n";
    let same = |a: &str, b: &str| {
        let [a, b] = [a, b].map(|step| assemble(&format!("{rack}{step}")));
        assert!(a.is_ok(), "{a:?}");
        assert_eq!(a, b);
    };
    same("send home block 0 -> 1 owner data", "send 0 block 0 -> 1 plain 0 owner data");
    same("send 1 block 0->home plain 1", "send 1 block 0 -> 0 plain 1");
    same("forward home block 0x1f", "forward 0 block 31");
    same("load home block 0 word 0", "load 0 block 0 word 0");
    same("store 1 block 0 word 0=42", "store 1 block 0 word 0 = 0x2A");
    same("deliver 007", "deliver 7");
    same("bytes 13 00 04 09 00 01\n + 00", "deliver 0");
    same("bytes 13 00 # four bytes\n\n# follow\n+ 04 09 # two\n+ 00 01 00", "deliver 0");
    assert_eq!(assemble("rack 1 boards 1 blocks 1 tokens"), Ok(vec![1, 1, 1]));
    assert_eq!(assemble("\n# nothing\n"), Ok(vec![]));
    assert_eq!(assemble("bytes 02"), Ok(vec![2]));
    assert_eq!(assemble("bytes 02\n+ 01"), Ok(vec![2, 1]));
}

#[test]
fn a_load_at_home_comes_back() {
    let script = "rack 2 boards 1 block 3 tokens\nload home block 0 word 0\n";
    let bytes = assemble(script).unwrap();
    let load = Step::Load { component: 0, block: 0, word: 0 };
    assert_eq!(Step::from_bytes(&bytes[3..]), Ok(load));
    assert_eq!(load.to_string(), "load 0 block 0 word 0");
    assert_eq!(disassemble(&bytes), script.replace("home", "0"));
    round_trip(&bytes);
}

#[test]
fn errors_name_the_line_and_what_was_expected() {
    let wrong = |script: &str, message: &str| {
        assert_eq!(assemble(script).unwrap_err().to_string(), message, "{script}");
    };
    wrong(
        "# first\ndeliver 0",
        "line 2: expected `rack`, which opens the rack, before the first step, found `deliver`",
    );
    wrong(
        "rack 2 boards",
        "line 1: expected a number, decimal or 0x and hexadecimal, for the number of blocks, \
         found the end of the line",
    );
    wrong("rack 2 cards 1 block 3 tokens", "line 1: expected `boards`, found `cards`");
    wrong(
        "rack 256 boards 1 block 3 tokens",
        "line 1: the number of boards is 256, but its field takes 0 to 255",
    );
    wrong("rack 2 boards 1 block 3 tokens 4", "line 1: expected the end of the line, found `4`");

    let step = |step: &str, message: &str| {
        wrong(&format!("rack 2 boards 1 block 3 tokens\n\n{step}"), &format!("line 3: {message}"));
    };
    step("rack 2 boards 1 block 3 tokens", "the rack is opened already, in line 1");
    step(
        "lode 1 block 0 word 0",
        "expected send, deliver, load, store, raise, lower, forward or bytes, found `lode`",
    );
    step(
        "LOAD 1 block 0 word 0",
        "expected send, deliver, load, store, raise, lower, forward or bytes, found `LOAD`",
    );
    step("load 1 word 0", "expected `block`, found `word`");
    step("load 1 block 0", "expected `word`, found the end of the line");
    step(
        "load one block 0 word 0",
        "expected a number, decimal or 0x and hexadecimal, for the component, found `one`",
    );
    step(
        "load -1 block 0 word 0",
        "expected a number, decimal or 0x and hexadecimal, for the component, found `-1`",
    );
    step(
        "deliver 0x",
        "expected a number, decimal or 0x and hexadecimal, for the position, found `0x`",
    );
    step(
        "deliver +1",
        "expected a number, decimal or 0x and hexadecimal, for the position, found `+1`",
    );
    step("raise 258 block 0", "the component is 258, but its field takes 0 to 255");
    step("raise 1 block 0x100", "the block is 0x100, but its field takes 0 to 255");
    step(
        "store 1 block 0 word 0 = 4294967296",
        "the value is 4294967296, but its field takes 0 to 4294967295",
    );
    step(
        "store 1 block 0 word 0 = 99999999999999999999",
        "the value is 99999999999999999999, but its field takes 0 to 4294967295",
    );
    step("store 1 block 0 word 0 7", "expected `=`, found `7`");
    step("send 0 block 0 to 1", "expected `->`, found `to`");
    step(
        "send 0 block 0 -> 1 data owner",
        "expected `plain` and a number, `owner`, `data`, each at most once and in this order, or \
         the end of the line, found `owner`",
    );
    step("bytes", "expected a byte of two hexadecimal digits, found the end of the line");
    step("bytes 1", "expected a byte of two hexadecimal digits, found `1`");
    step("bytes 12 0g", "expected a byte of two hexadecimal digits, found `0g`");
    step("bytes é", "expected a byte of two hexadecimal digits, found `é`");
    step("+ 12", "expected a `bytes` line before this one");
    step(
        "bytes 13 00 04 09\ndeliver 0",
        "this record has 7 bytes by its length, but 4 are here: only the last step may be \
         incomplete",
    );
    step(
        "bytes 13 00\ndeliver 0",
        "expected a kind byte and a two-byte length: only the last step may be incomplete",
    );
    step(
        "bytes 13 00 04\n+ 09 00 01 00 13",
        "this record ends after 7 of the 8 bytes: expected a `bytes` line for each record",
    );
    let unopened = "line 1: expected `rack` first: without it, a script is one `bytes` statement \
                    of fewer than three bytes";
    wrong("bytes 02 01 03", unopened);
    wrong("bytes 02\nrack 2 boards 1 block 3 tokens", unopened);
    wrong("bytes 02\nbytes 01", unopened);
}

#[test]
fn any_text_is_a_script_or_an_error() {
    let words = [
        "rack", "boards", "block", "tokens", "send", "deliver", "store", "load", "raise", "bytes",
        "+", "->", "=", "0", "1", "255", "256", "0x1f", "home", "plain", "owner", "data", "word",
        "12", "00", "ff", "\n", "\n", "\n", "#", "é", "->=",
    ];
    let mut dice = Dice(4);
    let mut scripts = 0;
    for _ in 0..20_000 {
        let front = if dice.flag() { "rack 2 boards 1 block 3 tokens\n" } else { "" };
        let text: String = (0..dice.draw(8))
            .map(|_| format!("{} ", words[dice.draw(words.len() as u32) as usize]))
            .collect();
        if let Ok(bytes) = assemble(&format!("{front}{text}")) {
            scripts += 1;
            round_trip(&bytes);
        }
    }
    assert!(scripts > 1_000, "{scripts}");
}
