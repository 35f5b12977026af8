//! Writes, reads and runs step records in a form for people: see the package's README.

use hyaloneth::script::{assemble, disassemble, opening_line, records, reply_text, step_lines};
use hyaloneth::{Cell, Message, Owner, Record, Refusal, Reply, View};
use std::fmt::Write as _;
use std::io::{self, Read, Write};
use std::process::ExitCode;

const USAGE: &str = "\
usage: hyaloneth-trace assemble FILE       a script becomes N, B, T and step records
       hyaloneth-trace disassemble FILE    N, B, T and step records become a script
       hyaloneth-trace run [OPTIONS] FILE  every step with its reply

FILE is a file's name, or - for the standard input. Results go to the standard output.
  --show     also prints the rack after each step that was accepted
  --rackrun  prints the lines of program rackrun instead
  --bytes    takes FILE for bytes; run otherwise takes it for a script unless it has bytes that no
             text has
";

/// How many bytes program rackrun reads.
const RACKRUN_READS: usize = 65_536;

/// How many bytes of a torn step `run` prints.
const BYTES_SHOWN: usize = 8;

/// A failure: what to say, and the exit status.
struct Failure {
    message: String,
    status: u8,
}

fn failed(message: String) -> Failure {
    Failure { message, status: 1 }
}

fn misused(message: &str) -> Failure {
    Failure { message: format!("{message}\n\n{}", USAGE.trim_end()), status: 2 }
}

fn main() -> ExitCode {
    let arguments: Option<Vec<String>> =
        std::env::args_os().skip(1).map(|argument| argument.into_string().ok()).collect();
    let output = match &arguments {
        Some(arguments) => answer(&arguments.iter().map(String::as_str).collect::<Vec<_>>()),
        None => Err(misused("expected UTF-8 arguments; any file can be given as - instead")),
    };
    match output.and_then(|output| print(&output)) {
        Ok(()) => ExitCode::SUCCESS,
        Err(failure) => {
            eprintln!("hyaloneth-trace: {}", failure.message);
            ExitCode::from(failure.status)
        }
    }
}

/// What the program prints.
fn answer(arguments: &[&str]) -> Result<Vec<u8>, Failure> {
    match arguments {
        ["help" | "--help" | "-h"] => Ok(USAGE.into()),
        ["assemble", file] => {
            let bytes = assembled(file, read(file)?)?;
            if bytes.len() > RACKRUN_READS {
                eprintln!(
                    "hyaloneth-trace: note: {} bytes, of which program rackrun reads the first {}",
                    bytes.len(),
                    RACKRUN_READS
                );
            }
            Ok(bytes)
        }
        ["disassemble", file] => Ok(disassemble(&read(file)?).into_bytes()),
        ["run", options @ .., file] => {
            let (mut show, mut rackrun, mut bytes) = (false, false, false);
            for option in options {
                match *option {
                    "--show" => show = true,
                    "--rackrun" => rackrun = true,
                    "--bytes" => bytes = true,
                    _ => return Err(misused(&format!("run has no option `{option}`"))),
                }
            }
            if show && rackrun {
                return Err(misused("--rackrun prints no rack: expected it or --show, not both"));
            }
            let mut input = read(file)?;
            if !bytes && is_text(&input) {
                input = assembled(file, input)?;
            }
            Ok(if rackrun { rackrun_lines(&input) } else { run(&input, show) }.into_bytes())
        }
        ["assemble" | "disassemble", ..] => Err(misused("expected one file")),
        ["run"] => Err(misused("expected a file")),
        [other, ..] => Err(misused(&format!("there is no command `{other}`"))),
        [] => Err(misused("expected a command")),
    }
}

fn read(file: &str) -> Result<Vec<u8>, Failure> {
    let mut bytes = Vec::new();
    if file == "-" {
        io::stdin().read_to_end(&mut bytes).map(|_| bytes)
    } else {
        std::fs::read(file)
    }
    .map_err(|error| failed(format!("{file}: {error}")))
}

fn print(output: &[u8]) -> Result<(), Failure> {
    let mut stdout = io::stdout().lock();
    match stdout.write_all(output).and_then(|()| stdout.flush()) {
        // The reader of a pipe has seen enough.
        Err(error) if error.kind() == io::ErrorKind::BrokenPipe => Ok(()),
        Err(error) => Err(failed(format!("standard output: {error}"))),
        Ok(()) => Ok(()),
    }
}

fn assembled(file: &str, script: Vec<u8>) -> Result<Vec<u8>, Failure> {
    let script = String::from_utf8(script)
        .map_err(|_| failed(format!("{file}: expected a script, but this is no UTF-8 text")))?;
    assemble(&script).map_err(|error| failed(format!("{file}: {error}")))
}

/// Every step record has a byte that no text has: its kind byte, 10 to 16.
fn is_text(input: &[u8]) -> bool {
    std::str::from_utf8(input)
        .is_ok_and(|text| !text.chars().any(|c| c.is_control() && !c.is_whitespace()))
}

/// Opens the rack of an input and makes its steps. Hands over the reply of the opening and of each
/// step, and the rack, which there is once it was opened.
fn play(input: &[u8], mut each: impl FnMut(Result<Reply, Refusal>, Option<&Record>)) {
    let Some((&sizes, list)) = input.split_first_chunk::<3>() else {
        return each(Err(Refusal::Torn), None);
    };
    let mut buffer = vec![0; Record::LONGEST];
    let [boards, blocks, tokens] = sizes.map(u32::from);
    match Record::open(&mut buffer, boards, blocks, tokens) {
        Ok(mut rack) => {
            each(Ok(Reply::Done), Some(&rack));
            for record in records(list) {
                let reply = rack.step_bytes(record);
                each(reply, Some(&rack));
            }
        }
        Err(refusal) => each(Err(refusal), None),
    }
}

/// The opening and every step of an input with its reply, each on a line.
fn run(input: &[u8], show: bool) -> String {
    let mut steps = Vec::new();
    match input.split_first_chunk::<3>() {
        Some((&sizes, list)) => {
            steps.push(opening_line(sizes));
            steps.extend(records(list).map(shortened));
        }
        None => steps.push("fewer than three bytes".into()),
    }
    let index_width = (steps.len() - 1).to_string().len();
    let width = steps.iter().map(|step| step.chars().count()).max().unwrap_or(0);
    let mut out = String::new();
    let mut lines = steps.iter().enumerate();
    play(input, |reply, rack| {
        let Some((index, step)) = lines.next() else { return };
        let text = match reply {
            Ok(reply) => reply.to_string(),
            Err(refusal) => refusal.to_string(),
        };
        let _ = writeln!(out, "{index:>index_width$}  {step:<width$}  {text}");
        match rack {
            // A refused step leaves the rack as the table before shows it.
            Some(rack) if show && reply.is_ok() => out.push_str(&table(rack.view())),
            _ => {}
        }
    });
    out
}

/// What program rackrun prints for an input.
fn rackrun_lines(input: &[u8]) -> String {
    let mut lines = String::new();
    let mut index = 0;
    play(&input[..input.len().min(RACKRUN_READS)], |reply, _| {
        let _ = writeln!(lines, "{index} {}", reply_text(reply));
        index += 1;
    });
    lines
}

/// A step on one line, also where it is long and torn.
fn shortened(record: &[u8]) -> String {
    let lines = step_lines(record);
    if !lines.starts_with("bytes") || record.len() <= BYTES_SHOWN {
        return lines;
    }
    let front = step_lines(&record[..BYTES_SHOWN]);
    format!("{front} … ({} bytes)", record.len())
}

/// The whole rack: tokens and claims of each block, then the mesh.
fn table(view: Result<View, Refusal>) -> String {
    let mut out = String::new();
    let view = match view {
        Ok(view) => view,
        Err(refusal) => return format!("    {refusal}\n"),
    };
    let mut block = 0;
    while block < view.blocks() {
        let fresh = (block..view.blocks()).take_while(|&b| is_fresh(&view, b)).count() as u32;
        if fresh >= 2 {
            let last = block + fresh - 1;
            let _ = writeln!(out, "    blocks {block} to {last}: as opened");
            block += fresh;
        } else {
            block_table(&mut out, &view, block);
            block += 1;
        }
    }
    if view.messages().len() > 0 {
        let _ = writeln!(out, "    in flight, oldest first");
        for (position, message) in view.messages().enumerate() {
            let _ = writeln!(out, "      {position:>2}: {}", message_line(&message));
        }
    }
    out.push('\n');
    out
}

fn block_table(out: &mut String, view: &View, block: u32) {
    let title = format!("block {block}");
    let _ = writeln!(out, "    {title:<10}  plain  owner  valid  letter  words other than 0");
    for component in 0..=view.boards() {
        let Some(cell) = view.cell(component, block) else { continue };
        let name = if component == 0 { "home".into() } else { format!("board {component}") };
        let letter = view.letter(component, block).map_or("-".into(), |l| l.to_string());
        let line = format!(
            "      {name:<8}  {:>5}  {:<5}  {:<5}  {letter:<6}  {}",
            cell.plain,
            owner_mark(cell.owner).unwrap_or("-"),
            if cell.valid { "yes" } else { "-" },
            words(&cell.words)
        );
        let _ = writeln!(out, "{}", line.trim_end());
    }
    if let (Some(waiting), Some(active)) = (view.waiting(block), view.active(block)) {
        let _ = writeln!(out, "      waiting {waiting}, active board {active}");
    }
    for board in 1..=view.boards() {
        match view.barring(board, block) {
            Some(barring) if !barring.is_empty() => {
                let _ = writeln!(out, "      board {board} barred by {barring}");
            }
            _ => {}
        }
    }
}

/// Whether a block is as the opening left it. A board that is barred is so by one that waits.
fn is_fresh(view: &View, block: u32) -> bool {
    let home = Cell { plain: view.tokens() - 1, owner: Owner::Clean, valid: true, words: [0; 8] };
    let board = Cell { plain: 0, owner: Owner::Away, valid: false, words: [0; 8] };
    view.active(block).is_none()
        && (0..=view.boards())
            .all(|c| view.cell(c, block) == Some(if c == 0 { home } else { board }))
}

fn message_line(message: &Message) -> String {
    let Message { sender, target, block, plain, owner, data, words: carried } = message;
    // A comma on both sides of the mark: it is the owner's, not the data's.
    let owner = match owner_mark(*owner) {
        Some(mark) => format!(" owner, {mark}{}", if *data { "," } else { "" }),
        None => String::new(),
    };
    let line = format!(
        "{sender} -> {target} block {block} plain {plain}{owner}{}  {}",
        if *data { " data" } else { "" },
        words(carried)
    );
    line.trim_end().into()
}

/// The mark of an owner that is there.
fn owner_mark(owner: Owner) -> Option<&'static str> {
    match owner {
        Owner::Away => None,
        Owner::Dirty => Some("dirty"),
        Owner::Clean => Some("clean"),
    }
}

/// The words that are not 0, each with its number.
fn words(words: &[u32; 8]) -> String {
    let shown: Vec<String> = words
        .iter()
        .enumerate()
        .filter(|(_, &word)| word != 0)
        .map(|(w, word)| format!("{w}: {word:#x}"))
        .collect();
    shown.join(", ")
}
