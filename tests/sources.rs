//! Checks over the sources, before anything is proved: no public entry has a `requires`; each must-fail edit fits its crate; what the
//! documents name is there; modules use only those before them; specifications and proofs say in their first line what they state; no
//! size or offset of the record's layout stands outside its definitions, and its number is the same everywhere; a deliver runs no code with
//! an array and copies a message's words once; numbers with the high byte first go by one trait; docs/PROOFS.md lists all that must be
//! believed. Run at the root of the repository; it ends with 1 and says why where something is amiss.

use std::collections::{BTreeMap, BTreeSet};
use std::fs;
use std::path::{Path, PathBuf};

/// The crates all of whose public functions in `lib.rt` are entries; of the others, and of their modules, those that docs/ENTRIES.md names.
const ENTRY_CRATES: [&str; 11] = [
    "wire_reader",
    "wire_writer",
    "wire",
    "wire_c",
    "record_open",
    "record_soundness",
    "engine_letter",
    "engine_results",
    "engine",
    "engine_c",
    "rackrun_text",
];

/// Numbers of the record's layout that have no other meaning: they stand in the definitions alone.
const LAYOUT_NUMBERS: [&str; 3] = ["2592", "632", "22816"];

/// The files that define the layout, the specification's and the code's, and the examples that hold its numbers to documents.
const LAYOUT_FILES: [&str; 3] =
    ["crates/spec_rack/specs/RecordLayout.antt", "crates/spec_rack/specs/Readings.antt", "crates/spec_rack/src/lib.rt"];

/// What a deliver runs at least. The first is where it starts.
const DELIVER: [&str; 8] = [
    "step_deliver::deliver",
    "step_deliver::deliver_message",
    "step_deliver::fill_target",
    "record_mesh::header_at",
    COPY_WORDS,
    "step_tokens::with_tokens",
    "record::cells::set_token_state",
    "record_mesh::remove",
];

/// What alone reads the words of a message that is delivered, and the offset that they are at.
const COPY_WORDS: &str = "record_mesh::copy_words";
const WORDS_OF_MESSAGE: &str = "MESSAGE_WORDS_OFFSET";

/// What a deliver may call of the library: none of it makes an array or moves a byte.
const LIBRARY: [&str; 4] = ["matches!(", "u8::from", "u32::from", "usize::from"];

/// The methods of the library that move bytes or lend a part of them, and the one function of a deliver that calls each, once: the words go by the first,
/// and the last moves the messages behind the one that is removed.
const BYTE_METHODS: [(&str, &str); 3] =
    [(".copy_from_slice", COPY_WORDS), (".split_at_mut", COPY_WORDS), (".copy_within", "record_mesh::remove")];

/// The functions that read or write eight words as an array.
const WORD_ARRAYS: [&str; 3] = ["words_at", "put_words", "words_of"];

/// Words of the language that are no names: a bracket behind one opens an array, and a parenthesis no arguments.
const KEYWORDS: [&str; 14] = ["as", "break", "const", "else", "for", "if", "in", "let", "loop", "match", "move", "mut", "return", "while"];

/// The longest line of a document, but for the rows of tables and for indented text, which cannot be wrapped.
const LINE: usize = 160;

fn main() {
    let crates = Crates::read();
    let mut bad = Vec::new();
    let said = [
        entries(&crates, &mut bad),
        edits(&crates, &mut bad),
        modules(&crates, &mut bad),
        heads(&mut bad),
        layout_numbers(&mut bad),
        format(&mut bad),
        deliver(&crates, &mut bad),
        high_first(&crates, &mut bad),
        reading_list(&mut bad),
        documents(&crates, &mut bad),
    ];
    if !bad.is_empty() {
        eprintln!("{}", bad.join("\n"));
        std::process::exit(1);
    }
    println!("{}", said.join("\n"));
}

/// The text of each crate's source files, by crate and file.
struct Crates(BTreeMap<String, BTreeMap<PathBuf, String>>);

impl Crates {
    fn read() -> Self {
        let all = files("crates").into_iter().filter(|path| path.is_dir());
        Crates(all.map(|path| (name_of(&path), sources(&path.join("src")))).collect())
    }

    fn has(&self, name: &str) -> bool {
        self.0.contains_key(name)
    }

    /// Whether the crate declares an item of that name.
    fn declares(&self, name: &str, item: &str) -> bool {
        self.0[name].values().any(|text| {
            let words: Vec<&str> = text.split(|c: char| !(c.is_alphanumeric() || c == '_')).filter(|w| !w.is_empty()).collect();
            words.windows(2).any(|pair| ["fn", "mod", "enum", "struct", "trait", "const"].contains(&pair[0]) && pair[1] == item)
        })
    }
}

fn files(directory: impl AsRef<Path>) -> Vec<PathBuf> {
    let Ok(list) = fs::read_dir(directory) else { return Vec::new() };
    let mut paths: Vec<PathBuf> = list.map(|entry| entry.expect("a folder can be listed").path()).collect();
    paths.sort();
    paths
}

fn sources(directory: &Path) -> BTreeMap<PathBuf, String> {
    let of_rattle = files(directory).into_iter().filter(|path| path.extension().is_some_and(|e| e == "rt"));
    of_rattle.map(|path| (path.clone(), with_single_uses(&text(&path)))).collect()
}

/// A source file with each `use` of several names as so many lines of one name.
fn with_single_uses(text: &str) -> String {
    let (mut out, mut item) = (String::new(), String::new());
    for line in text.lines() {
        if item.is_empty() && !line.starts_with("use ") {
            out.push_str(line);
            out.push('\n');
            continue;
        }
        item.push_str(line.trim_start());
        if let Some(path) = item.strip_prefix("use ").and_then(|rest| rest.strip_suffix(';')) {
            out.extend(used(path).iter().map(|path| format!("use {path};\n")));
            item.clear();
        }
    }
    out + &item
}

/// The paths of a `use`: `a::{b, c::{self, d}}` has `a::b`, `a::c` and `a::c::d`.
fn used(path: &str) -> Vec<String> {
    let Some((before, list)) = path.split_once('{').and_then(|(before, rest)| Some((before, rest.strip_suffix('}')?))) else {
        return vec![path.to_string()];
    };
    let (mut parts, mut depth) = (vec![String::new()], 0);
    for c in list.chars() {
        depth += i32::from(c == '{') - i32::from(c == '}');
        if c == ',' && depth == 0 {
            parts.push(String::new());
        } else {
            parts.last_mut().expect("one part at least").push(c);
        }
    }
    let parts = parts.iter().map(|part| part.trim()).filter(|part| !part.is_empty());
    let inner = parts.flat_map(|part| if part == "self" { vec![String::new()] } else { used(part) });
    inner.map(|name| if name.is_empty() { before.trim_end_matches("::").to_string() } else { format!("{before}{name}") }).collect()
}

/// The files with an ending below a folder, at any depth.
fn below(directory: &Path, ending: &str) -> Vec<PathBuf> {
    let mut found = Vec::new();
    for path in files(directory) {
        if path.is_dir() {
            found.extend(below(&path, ending));
        } else if path.extension().is_some_and(|e| e == ending) {
            found.push(path);
        }
    }
    found
}

/// The files with an ending that are written in a crate; what `rt` makes in its `out` is left out.
fn written(ending: &str) -> Vec<PathBuf> {
    let parts = files("crates").into_iter().flat_map(|path| ["src", "specs", "proofs"].map(|part| path.join(part)));
    parts.flat_map(|part| below(&part, ending)).collect()
}

/// The must-fail edits of a crate.
fn edit_files(name: &str) -> Vec<PathBuf> {
    files(Path::new("crates").join(name).join("must-fail"))
}

fn text(path: &Path) -> String {
    fs::read_to_string(path).unwrap_or_else(|error| panic!("{}: {error}", path.display()))
}

fn name_of(path: &Path) -> String {
    path.file_name().expect("a path in the repository").to_string_lossy().into_owned()
}

/// Every public entry has an `ensures` and no `requires`, and each that docs/ENTRIES.md names is there.
fn entries(crates: &Crates, bad: &mut Vec<String>) -> String {
    let mut named = BTreeSet::new();
    for word in text(Path::new("docs/ENTRIES.md")).split('`') {
        if let Some((head, _)) = word.split_once('(') {
            if let Some((name, rest)) = head.split_once("::").filter(|(name, _)| name.starts_with(char::is_lowercase)) {
                let function = rest.rsplit("::").next().expect("a last part");
                named.insert((name.to_string(), function.to_string()));
            }
        }
    }
    let mut count = 0;
    for (name, files) in &crates.0 {
        for (path, text) in files {
            let mut lines = text.lines();
            while let Some(line) = lines.next() {
                let exported = line.strip_prefix("pub extern \"C\" fn ");
                let Some(rest) = exported.or(line.strip_prefix("pub fn ")) else { continue };
                let function = rest.split('(').next().expect("a first part").to_string();
                // the contract stands between the function's head and its body
                let contract: Vec<&str> = lines.by_ref().take_while(|line| *line != "{").map(str::trim_start).collect();
                let listed = named.remove(&(name.clone(), function.clone()));
                let rooted = ENTRY_CRATES.contains(&name.as_str()) && path.ends_with("lib.rt");
                if exported.is_none() && !listed && !rooted {
                    continue;
                }
                count += 1;
                if contract.iter().any(|line| line.starts_with("requires")) {
                    bad.push(format!("{}: the entry {function} has a requires", path.display()));
                }
                if !contract.iter().any(|line| line.starts_with("ensures")) {
                    bad.push(format!("{}: the entry {function} has no ensures", path.display()));
                }
            }
        }
    }
    for (name, function) in named {
        bad.push(format!("docs/ENTRIES.md names {name}::{function}, which is not there"));
    }
    format!("entries: {count} public entries, none with a requires, each with an ensures")
}

/// Every `old:` text stands exactly once in its file and is changed; the edit opens with the fact that it breaks.
fn edits(crates: &Crates, bad: &mut Vec<String>) -> String {
    let mut count = 0;
    for name in crates.0.keys() {
        let root = Path::new("crates").join(name);
        for path in edit_files(name) {
            count += 1;
            let edit = text(&path);
            let mut say = |what: String| bad.push(format!("{}: {what}", path.display()));
            if !edit.starts_with("# ") {
                say("it does not open with the fact that it breaks".into());
            }
            let mut edited: BTreeMap<String, String> = BTreeMap::new();
            let (mut file, mut old, mut pairs) = (String::new(), "", 0);
            let mut named = BTreeSet::new();
            for line in edit.lines() {
                if let Some(rest) = line.strip_prefix("file: ") {
                    file = rest.into();
                } else if let Some(rest) = line.strip_prefix("old: ") {
                    old = rest;
                } else if let Some(rest) = line.strip_prefix("new:") {
                    let new = rest.strip_prefix(' ').unwrap_or(rest);
                    let body = edited.entry(file.clone()).or_insert_with(|| fs::read_to_string(root.join(&file)).unwrap_or_default());
                    let found = if old.is_empty() { 0 } else { body.matches(old).count() };
                    if found != 1 || old == new {
                        say(format!("its old text stands {found} times in {file} and must stand once and be changed: {old}"));
                    }
                    if file.ends_with(".rt") {
                        named.extend(constants(new).map(|word| (file.clone(), word.to_string())));
                    }
                    *body = body.replacen(old, new, 1);
                    pairs += 1;
                }
            }
            if pairs == 0 {
                say("it has no old and new text".into());
            }
            let known = |file: &str, word: &str| {
                let body = with_single_uses(&edited[file]);
                body.contains(&format!("::{word};")) || body.contains(&format!("const {word}:"))
            };
            let unknown: BTreeSet<&String> = named.iter().filter(|(file, word)| !known(file, word)).map(|(_, word)| word).collect();
            if !unknown.is_empty() {
                say(format!("its new text has constants that its file does not import, so it would not reach the prover: {unknown:?}"));
            }
        }
    }
    format!("edits: {count} must-fail edits, each fits its crate")
}

/// The constants that a text names without a path: words of capitals.
fn constants(text: &str) -> impl Iterator<Item = &str> {
    let part = |c: char| c.is_alphanumeric() || c == '_' || c == ':';
    let capital = |c: char| c.is_ascii_uppercase() || c.is_ascii_digit() || c == '_';
    text.split(move |c| !part(c)).filter(move |word| word.len() > 2 && word.starts_with(|c: char| c.is_ascii_uppercase()) && word.chars().all(capital))
}

/// Within a crate of several modules, `// order:` in lib.rt names them all, `lib` for itself, and each uses only those before it.
fn modules(crates: &Crates, bad: &mut Vec<String>) -> String {
    let mut count = 0;
    for (name, files) in &crates.0 {
        let stem = |path: &Path| path.file_stem().expect("a file's name").to_string_lossy().into_owned();
        let all: BTreeSet<String> = files.keys().map(|path| stem(path)).collect();
        if all.len() < 2 {
            continue;
        }
        let root = Path::new("crates").join(name).join("src/lib.rt");
        let line = files[&root].lines().find_map(|line| line.strip_prefix("// order: "));
        let order: Vec<&str> = line.unwrap_or("").split(", ").filter(|word| !word.is_empty()).collect();
        if order.iter().map(|word| word.to_string()).collect::<BTreeSet<_>>() != all {
            bad.push(format!("{}: its line `// order:` does not name each module once: {all:?}", root.display()));
            continue;
        }
        for (path, text) in files {
            count += 1;
            let here = stem(path);
            let place = order.iter().position(|word| *word == here).expect("a module in the order");
            for line in text.lines().filter(|line| !line.trim_start().starts_with("//") && !line.starts_with("ghost use")) {
                let words: Vec<&str> = line.split(|c: char| !(c.is_alphanumeric() || c == '_')).filter(|word| !word.is_empty()).collect();
                for pair in words.windows(2) {
                    let used = match (here.as_str(), pair[0]) {
                        ("lib", module) if line.contains(&format!("{module}::")) => module,
                        (_, "super") if all.contains(pair[1]) => pair[1],
                        (_, "super") => "lib",
                        _ => continue,
                    };
                    if used != here && order.iter().position(|word| *word == used).is_some_and(|at| at > place) {
                        bad.push(format!("{}: uses {used}, which comes after it in the order", path.display()));
                    }
                }
            }
        }
    }
    format!("modules: {count}, each uses only those before it")
}

/// A file of specifications opens with the part of the paper that it states, a file of proofs with its argument.
fn heads(bad: &mut Vec<String>) -> String {
    let mut count = 0;
    for path in written("antt") {
        if name_of(&path) == "Lib.antt" {
            continue;
        }
        count += 1;
        if !text(&path).starts_with("-- ") {
            bad.push(format!("{}: its first line does not say what it states", path.display()));
        }
    }
    format!("specs and proofs: {count} files, each opens with what it states")
}

/// No number of the layout stands in code, specifications or proofs but where it is defined.
fn layout_numbers(bad: &mut Vec<String>) -> String {
    let paths = ["rt", "antt"].into_iter().flat_map(written);
    for path in paths.filter(|path| !LAYOUT_FILES.iter().any(|file| path == Path::new(file))) {
        for (number, line) in text(&path).lines().enumerate() {
            let words: Vec<&str> = line.split(|c: char| !(c.is_alphanumeric() || c == '_')).collect();
            if let Some(word) = words.iter().find(|word| LAYOUT_NUMBERS.contains(word)) {
                bad.push(format!("{}:{}: the layout's number {word}, which has a name", path.display(), number + 1));
            }
        }
    }
    "layout: its numbers stand in the definitions alone".into()
}

/// Where the number of the record's layout stands, each with the text before it: the specification, the code, both headers, the Rust package.
const FORMATS: [(&str, &str); 5] = [
    ("crates/spec_rack/specs/RecordLayout.antt", "\nformat_number = "),
    ("crates/spec_rack/src/lib.rt", "\npub const FORMAT_NUMBER: u32 = "),
    ("include/hyaloneth.h", "\n#define HYL_RECORD_FORMAT "),
    ("include/hyaloneth_view.h", "\n#define HYL_VIEW_FORMAT "),
    ("hosts/rust/src/view.rs", "\npub(crate) const FORMAT_NUMBER: u8 = "),
];

/// The number of the record's layout is one number: in each of these places it stands once, with nothing behind it on its line.
fn format(bad: &mut Vec<String>) -> String {
    let mut numbers = BTreeMap::new();
    for (path, before) in FORMATS {
        let text = text(Path::new(path));
        let found: Vec<&str> = text.split(before).skip(1).filter_map(|rest| rest.lines().next()).collect();
        let number = found.first().and_then(|line| line.trim_end_matches(';').parse::<u8>().ok());
        match number {
            Some(number) if found.len() == 1 => numbers.entry(number).or_insert_with(Vec::new).push(path),
            _ => bad.push(format!("{path}: behind {before:?} stands not one number of the record's layout, but {found:?}")),
        }
    }
    if numbers.len() > 1 {
        bad.push(format!("the record's layout has more than one number: {numbers:?}"));
    }
    format!("format: the record's layout has one number in {} places", FORMATS.len())
}

/// A deliver runs no function with an array, and copies the words of a message once, from their offset to the target's.
fn deliver(crates: &Crates, bad: &mut Vec<String>) -> String {
    let (all, holders) = (functions(crates), array_holders(crates));
    let run = reached(&all, DELIVER[0], bad);
    for path in DELIVER.iter().filter(|path| !run.contains_key(*path)) {
        bad.push(format!("deliver: {path} is not found among the functions that it runs"));
    }
    for (path, function) in &run {
        if let Some(array) = array(&function.tokens) {
            bad.push(format!("deliver: {path} has an array: {array}"));
        }
        for word in &function.tokens {
            if WORD_ARRAYS.contains(&word.as_str()) && !path.ends_with(&format!("::{word}")) {
                bad.push(format!("deliver: {path} has {word}, which is for arrays of words"));
            }
            if holders.contains(word) {
                bad.push(format!("deliver: {path} has {word}, which holds an array"));
            }
        }
    }
    let readers: Vec<&str> = run.iter().filter(|(_, function)| function.has(WORDS_OF_MESSAGE)).map(|(path, _)| *path).collect();
    if readers != [COPY_WORDS] {
        bad.push(format!("deliver: {WORDS_OF_MESSAGE} must stand in {COPY_WORDS} alone; it stands in {readers:?}"));
    }
    let callers: Vec<&str> = run.iter().flat_map(|(path, function)| vec![*path; function.calls_of(COPY_WORDS)]).collect();
    if callers.len() != 1 {
        bad.push(format!("deliver: {COPY_WORDS} must be called at one place; it is called in {callers:?}"));
    }
    for (method, path) in BYTE_METHODS {
        let count = run.get(path).map_or(0, |function| function.calls_of(method));
        if count != 1 {
            bad.push(format!("deliver: {path} must call {method} once; it has {count} such calls"));
        }
    }
    format!("deliver: {} functions, no array among them; the words are read by copy_words alone", run.len())
}

/// A function's signature and body as tokens, without comments and contract, and the full paths of what it calls.
struct Function {
    tokens: Vec<String>,
    calls: Vec<String>,
}

impl Function {
    fn has(&self, word: &str) -> bool {
        self.tokens.iter().any(|token| token == word)
    }

    /// At how many places it calls a function.
    fn calls_of(&self, path: &str) -> usize {
        self.calls.iter().filter(|call| *call == path).count()
    }
}

/// The functions that one runs, itself among them: all that it calls, and all that these call. A call that cannot be followed is amiss.
fn reached<'a>(all: &'a BTreeMap<String, Function>, start: &'a str, bad: &mut Vec<String>) -> BTreeMap<&'a str, &'a Function> {
    let mut found = BTreeMap::new();
    let mut open = vec![start];
    while let Some(path) = open.pop() {
        let Some(function) = all.get(path) else { continue };
        if found.insert(path, function).is_some() {
            continue;
        }
        let known = |call: &str| LIBRARY.contains(&call) || BYTE_METHODS.contains(&(call, path));
        for call in function.calls.iter().filter(|call| !known(call)) {
            if !all.contains_key(call) {
                bad.push(format!("deliver: {path} calls {call}, which this check cannot follow"));
            }
            open.push(call);
        }
    }
    found
}

/// The functions of all crates by their full paths: crate::module::function, or crate::function where the root has it.
fn functions(crates: &Crates) -> BTreeMap<String, Function> {
    let mut found = BTreeMap::new();
    for (name, files) in &crates.0 {
        for (path, text) in files {
            let stem = path.file_stem().expect("a file's name").to_string_lossy();
            let module = if ["lib", "main"].contains(&&*stem) { name.clone() } else { format!("{name}::{stem}") };
            let uses = text.lines().filter_map(|line| line.strip_prefix("use ")?.strip_suffix(';'));
            let imports = uses.map(|path| (path.rsplit("::").next().expect("a last part"), full_path(crates, name, path))).collect();
            for tokens in function_tokens(text) {
                let function = tokens.iter().skip_while(|token| *token != "fn").nth(1).expect("a function's name");
                let path = format!("{module}::{function}");
                let calls = calls(&tokens).iter().map(|call| called_path(crates, name, &module, &imports, call)).collect();
                found.insert(path, Function { tokens, calls });
            }
        }
    }
    found
}

/// The full path of an item that a crate names: what starts with no crate's name is in that crate.
fn full_path(crates: &Crates, name: &str, path: &str) -> String {
    match path.split_once("::") {
        Some(("super" | "crate", rest)) => format!("{name}::{rest}"),
        Some((first, _)) if crates.has(first) => path.to_string(),
        _ => format!("{name}::{path}"),
    }
}

/// The full path of a call in a module: by an import, by a path, or to the module itself.
fn called_path(crates: &Crates, name: &str, module: &str, imports: &BTreeMap<&str, String>, call: &str) -> String {
    let (first, rest) = call.find("::").map_or((call, ""), |at| call.split_at(at));
    match imports.get(first) {
        _ if call.contains(['.', '!', '<']) || LIBRARY.contains(&call) => call.to_string(),
        Some(path) => format!("{path}{rest}"),
        None if rest.is_empty() => format!("{module}::{call}"),
        None => full_path(crates, name, call),
    }
}

/// The tokens of each function of a file: its signature up to the contract, and its body.
fn function_tokens(text: &str) -> Vec<Vec<String>> {
    let mut found = Vec::new();
    let code = code(text);
    let mut lines = code.lines();
    while let Some(mut line) = lines.next() {
        if !["fn ", "pub fn ", "pub extern \"C\" fn "].iter().any(|head| line.starts_with(head)) {
            continue;
        }
        let mut function = tokens(line);
        let (mut body, mut contract) = (false, false);
        while line != "}" {
            body |= line.ends_with('{');
            line = lines.next().expect("a function ends with a brace at the start of a line");
            let clause = ["requires ", "ensures "].iter().any(|word| line.trim_start().starts_with(word));
            contract = !body && line != "{" && (contract || clause);
            if !contract {
                function.extend(tokens(line));
            }
        }
        found.push(function);
    }
    found
}

/// The structs, enums and constants with an array in them. Items stand apart by empty lines.
fn array_holders(crates: &Crates) -> BTreeSet<String> {
    let texts = crates.0.values().flat_map(|files| files.values()).map(|text| code(text));
    let items: Vec<Vec<String>> = texts.flat_map(|text| text.split("\n\n").map(tokens).collect::<Vec<_>>()).collect();
    let named = |pair: &[String]| (["struct", "enum", "const", "static"].contains(&pair[0].as_str()) && is_name(&pair[1])).then(|| pair[1].clone());
    items.iter().filter(|item| array(item).is_some()).flat_map(|item| item.windows(2).filter_map(named)).collect()
}

/// A source file without comments, without the lines of the proofs and without attributes.
fn code(text: &str) -> String {
    let lines = text.lines().filter(|line| !line.starts_with("ghost ") && !line.trim_start().starts_with("#"));
    lines.map(|line| line.split("//").next().expect("a first part").trim_end()).collect::<Vec<_>>().join("\n")
}

/// The words and signs of a text. `::` is one sign; every other sign is one character.
fn tokens(text: &str) -> Vec<String> {
    let mut found = Vec::new();
    let mut rest = text.trim_start();
    while let Some(first) = rest.chars().next() {
        let word = rest.find(|c: char| !(c.is_alphanumeric() || c == '_')).unwrap_or(rest.len());
        let sign = if rest.starts_with("::") { 2 } else { first.len_utf8() };
        let (token, behind) = rest.split_at(if word > 0 { word } else { sign });
        found.push(token.to_string());
        rest = behind.trim_start();
    }
    found
}

/// Whether a token is a name: of a variable, a function, a type or a constant.
fn is_name(token: &str) -> bool {
    token.starts_with(|c: char| c.is_alphabetic() || c == '_') && !KEYWORDS.contains(&token)
}

/// The first array type or array value among tokens: a bracket that neither opens an index nor is that of `&[u8]` or `&mut [u8]`.
fn array(tokens: &[String]) -> Option<String> {
    let opens = (0..tokens.len()).filter(|at| tokens[*at] == "[");
    let mut arrays = opens.filter(|at| {
        let before: Vec<&str> = tokens[..*at].iter().rev().take(2).map(String::as_str).collect();
        let index = before.first().is_some_and(|token| is_name(token) || [")", "]"].contains(token));
        let slice = matches!(before[..], ["&", ..] | ["mut", "&"]) && tokens[at + 1..].starts_with(&["u8".into(), "]".into()]);
        !index && !slice
    });
    arrays.next().map(|at| tokens[at..].iter().map(String::as_str).take_while(|token| *token != "]").collect::<Vec<_>>().join(" ") + " ]")
}

/// Tokens without the types and numbers that calls name: `f::<N>(` is `f(`.
fn without_named_types(tokens: &[String]) -> Vec<String> {
    let (mut found, mut depth) = (Vec::new(), 0);
    for (at, token) in tokens.iter().enumerate() {
        let opens = |at: usize| tokens.get(at).is_some_and(|token| token == "<");
        if depth == 0 && !(token == "::" && opens(at + 1)) && !(opens(at) && at > 0 && tokens[at - 1] == "::") {
            found.push(token.clone());
        } else {
            depth += i32::from(token == "<") - i32::from(token == ">");
        }
    }
    found
}

/// The calls among tokens as they are written; methods (`.f`) and macros (`f!`) are left for the caller to refuse, but for those of the library.
fn calls(tokens: &[String]) -> Vec<String> {
    // of what a call names only one word is taken out: in an expression a `<` or a `>` need be no bracket
    let named = tokens.windows(4).filter(|four| four[0] == "::" && four[1] == "<" && four[3] != ">").map(|four| four.concat());
    let named: Vec<String> = named.collect();
    let tokens = &without_named_types(tokens);
    let mut found = Vec::new();
    for at in (1..tokens.len()).filter(|at| tokens[*at] == "(" && is_name(&tokens[at - 1])) {
        let mut start = at - 1;
        while start > 1 && tokens[start - 1] == "::" {
            start -= 2;
        }
        let before = start.checked_sub(1).map_or("", |at| &tokens[at]);
        // what starts with a capital is a case of an enum
        if before != "fn" && !tokens[at - 1].starts_with(char::is_uppercase) {
            let method = if before == "." { "." } else { "" };
            found.push(method.to_string() + &tokens[start..at].concat());
        }
    }
    let unfollowed = |three: &&[String]| three[1] == "!" && is_name(&three[0]) && three[2] != "=";
    found.extend(tokens.windows(3).filter(unfollowed).map(|three| three.concat()));
    found.extend(named);
    found
}

/// Numbers of several bytes, high byte first, are read and written by one trait alone (docs/CONVENTIONS.md).
fn high_first(crates: &Crates, bad: &mut Vec<String>) -> String {
    for (name, files) in &crates.0 {
        for (path, text) in files.iter().filter(|(path, _)| !(name == "base" && name_of(path) == "numbers.rt")) {
            for word in tokens(&code(text)).iter().filter(|word| ["from_be_bytes", "to_be_bytes"].contains(&word.as_str())) {
                bad.push(format!("{}: {word}, which is for base::numbers::BigEndian alone", path.display()));
            }
        }
    }
    "numbers: high byte first by base::numbers::BigEndian alone".into()
}

/// docs/PROOFS.md, "What must be believed": each numbered item names a crate and files of its specs/, and the lines below them files of any. Every file of
/// these crates is named so, and every file that an item names is there.
fn reading_list(bad: &mut Vec<String>) -> String {
    let page = text(Path::new("docs/PROOFS.md"));
    let section = page.split("\n## ").find(|section| section.starts_with("What must be believed")).unwrap_or_default();
    let named = |part: &str| part.split('`').skip(1).step_by(2).map(String::from).collect::<Vec<_>>();
    let (items, other): (Vec<&str>, Vec<&str>) = section.split("\n\n").partition(|part| part.starts_with("1. "));
    let below: Vec<String> = other.iter().flat_map(|part| named(part)).collect();
    let mut listed = BTreeSet::new();
    for item in items.join("\n").split('\n').fold(Vec::new(), |mut found: Vec<String>, line| {
        match found.last_mut() {
            Some(last) if line.starts_with(' ') => last.push_str(line),
            _ => found.push(line.to_string()),
        }
        found
    }) {
        let names = named(&item);
        let Some((name, files)) = names.split_first() else { continue };
        for file in files.iter().filter(|file| file.starts_with(char::is_uppercase)) {
            if !Path::new("crates").join(name).join("specs").join(file).with_extension("antt").is_file() {
                bad.push(format!("docs/PROOFS.md: what must be believed names {file} of {name}, which is not there"));
            }
            listed.insert((name.clone(), file.clone()));
        }
    }
    let mut count = 0;
    for path in written("antt").into_iter().filter(|path| name_of(path) != "Lib.antt") {
        let parts: Vec<&str> = path.iter().filter_map(|part| part.to_str()).collect();
        let [_, name, "specs", .., file] = parts[..] else { continue };
        if !name.starts_with("spec_") || name == "spec_sizes" {
            continue;
        }
        count += 1;
        let file = file.trim_end_matches(".antt").to_string();
        if !below.contains(&file) && !listed.contains(&(name.to_string(), file.clone())) {
            bad.push(format!("docs/PROOFS.md: what must be believed does not name {name}/specs/{file}"));
        }
    }
    format!("reading list: {count} files of specifications, all named")
}

/// What the documents name is there: files of specifications and proofs, edits and how many a crate has, functions and types.
/// docs/LANDINGS.md, docs/PORT.md and docs/DESIGN-PASS.md are left out, since what they name may have moved in a later landing, or stood before it alone.
fn documents(crates: &Crates, bad: &mut Vec<String>) -> String {
    let mut count = 0;
    let documents = files("docs").into_iter().filter(|path| !["LANDINGS.md", "PORT.md", "DESIGN-PASS.md"].contains(&name_of(path).as_str()));
    for path in documents.chain([PathBuf::from("README.md")]) {
        let body = text(&path);
        let words: Vec<&str> = body.split(|c: char| !(c.is_alphanumeric() || "_/:.-".contains(c))).filter(|word| !word.is_empty()).collect();
        let mut need = |there: bool, what: &str| {
            count += 1;
            if !there {
                bad.push(format!("{} names {what}, which is not there", path.display()));
            }
        };
        for (word, next) in words.iter().zip(words.iter().skip(1).chain([&""])) {
            let word = word.trim_end_matches(['.', ':']);
            if let Some((name, rest)) = word.split_once("::").filter(|(name, _)| name.starts_with(char::is_lowercase)) {
                let item = rest.rsplit("::").next().expect("a last part");
                need(crates.has(name) && crates.declares(name, item), word);
                continue;
            }
            let parts: Vec<&str> = word.split('/').collect();
            match parts[..] {
                [name, "specs" | "proofs", file] if !crates.has(name) && !file.is_empty() => need(false, word),
                [name, part @ ("specs" | "proofs"), file] if !file.is_empty() => {
                    let module = file.split('.').next().expect("a first part");
                    let at = Path::new("crates").join(name).join(part);
                    need(at.join(module).is_dir() || at.join(module).with_extension("antt").is_file(), word);
                }
                // a unit such as steps/s is no edit
                [name, edit] if crates.has(name) && edit.len() > 1 && !["specs", "proofs", "src"].contains(&edit) => {
                    need(edit_files(name).iter().any(|path| path.file_stem().is_some_and(|stem| stem == edit)), word);
                }
                // "name: 4 edits"
                [name] if crates.has(name) && name_of(&path) == "PROOFS.md" => {
                    if let Ok(number) = next.parse::<usize>() {
                        need(edit_files(name).len() == number, &format!("{number} edits of {name}"));
                    }
                }
                _ => {}
            }
        }
    }
    for path in files("docs").into_iter().chain([PathBuf::from("README.md")]) {
        for (number, line) in text(&path).lines().enumerate() {
            if line.chars().count() > LINE && !line.starts_with('|') && !line.starts_with("    ") {
                bad.push(format!("{}:{}: longer than {LINE} characters", path.display(), number + 1));
            }
        }
    }
    format!("docs: {count} names of files, edits and items, all there")
}
