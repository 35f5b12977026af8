//! Each must-fail edit of the rules, tried on all that is proved of them: every theorem and every computed example that refuses it, not the first alone.
//! A crate above a wrong rule cannot be checked by itself, since what is below it is not proved. So the six crates of the specification are joined into
//! one, in a folder of its own; the prover then reports every law that fails and every law that stands on one. Of a definition that stands on a refused
//! law it says no more than that, so a theorem that is a record gets, beside its proof, a proof of each field by itself.
//! Called by tests/wrong_rules.sh: `wrong_rules FOLDER`, then the edits to try (CRATE/NAME or NAME; none: all). It writes docs/WRONG-RULES.md where all
//! are tried, and else to standard output. It ends with 1 where the joined crate is not proved without an edit, or an edit is not refused.

use std::collections::{BTreeMap, BTreeSet};
use std::fmt::Write;
use std::fs;
use std::path::{Path, PathBuf};
use std::process::{exit, Command};
use std::sync::atomic::{AtomicUsize, Ordering};
use std::sync::Mutex;

/// The crates of the specification, in their order, and the folders that each has.
const CRATES: [&str; 6] = ["spec_base", "spec_wire", "spec_arbiter", "spec_rack", "spec_requests", "spec_rackrun"];
const PARTS: [&str; 2] = ["specs", "proofs"];

/// The crate that they are joined into, and where the tables go.
const JOINED: &str = "rules";
const TABLES: &str = "docs/WRONG-RULES.md";

/// How many edits a cell of the tables by theorem and by example names.
const NAMED: usize = 6;

/// The three invariants of the field, which rest on one proof.
const INVARIANTS: [&str; 3] = ["SingleWriterMultipleReaders", "DataValue", "TokenConservation"];

fn main() {
    let words: Vec<String> = std::env::args().skip(1).collect();
    let (room, wanted) = words.split_first().unwrap_or_else(|| fail("a folder to work in is missing"));
    let room = Path::new(room);
    let sources = Sources::read();
    let edits: Vec<Edit> = CRATES.iter().flat_map(|name| edits_of(name)).filter(|edit| edit.is_among(wanted)).collect();
    if let Some(word) = wanted.iter().find(|word| !edits.iter().any(|edit| edit.is_among(&[word.to_string()]))) {
        fail(&format!("{word}: no such edit of the rules"));
    }
    let base = room.join("base");
    sources.write_joined(&base);
    let (proved, log) = check(&base);
    if !proved {
        eprint!("{log}");
        fail("the joined crate is not proved, though no rule is changed");
    }
    let logs = try_all(&sources, &edits, &base, room);
    let tried: Vec<Tried> = edits.iter().zip(&logs).map(|(edit, log)| Tried::new(&sources, edit, log)).collect();
    let text = tables(&sources, &tried);
    if wanted.is_empty() {
        fs::write(TABLES, text).expect("the tables can be written");
        println!("wrong rules: {} edits tried, {TABLES} written", tried.len());
    } else {
        print!("{text}");
    }
}

fn fail(what: &str) -> ! {
    eprintln!("wrong_rules: {what}");
    exit(1)
}

fn text(path: &Path) -> String {
    fs::read_to_string(path).unwrap_or_else(|error| fail(&format!("{}: {error}", path.display())))
}

// ---- the sources

/// A file of a specification or of proofs: crate, folder and name.
type Module = (&'static str, &'static str, String);

struct Sources {
    modules: BTreeMap<Module, String>,
    /// in the order of the crates and of their Lib.antt
    order: Vec<Module>,
    statements: Vec<Statement>,
    /// the laws of proofs/, and which of them each names
    laws: BTreeMap<Law, Vec<Use>>,
}

/// A law: its file and its name.
type Law = (Module, String);

/// A law that a proof names, and where, by line and column.
type Use = (Law, (usize, usize));

impl Sources {
    fn read() -> Self {
        let (mut modules, mut order) = (BTreeMap::new(), Vec::new());
        for name in CRATES {
            for part in PARTS {
                let folder = Path::new("crates").join(name).join(part);
                for line in text(&folder.join("Lib.antt")).lines() {
                    let module = line.strip_prefix("pub mod ").unwrap_or_else(|| fail(&format!("{}: {line}", folder.display())));
                    modules.insert((name, part, module.to_string()), text(&folder.join(module).with_extension("antt")));
                    order.push((name, part, module.to_string()));
                }
            }
        }
        let mut sources = Sources { modules, order, statements: Vec::new(), laws: BTreeMap::new() };
        sources.statements = statements(&sources);
        sources.laws = laws(&sources);
        sources
    }

    /// Where a module has a name from, by its `use` lines.
    fn imported(&self, module: &Module, name: &str) -> Option<Module> {
        let mut imports = self.modules[module].lines().filter_map(import);
        imports.find_map(|(of, part, file, list)| list.split(", ").any(|item| item == name).then(|| (of, part, file.to_string())))
    }
}

/// A line that imports names from a module: its crate, its folder, its name, and the list of names.
fn import(line: &str) -> Option<(&'static str, &'static str, &str, &str)> {
    let line = line.strip_prefix("use ")?;
    let (of, part, file, length) = path(line)?;
    Some((of, part, file, line[length..].strip_prefix(".{")?.strip_suffix('}')?))
}

/// The start of a text as a path to a module, `Rattle.CRATE.specs.MODULE`: its crate, its folder, its name, and how many bytes of the text that is.
fn path(text: &str) -> Option<(&'static str, &'static str, &str, usize)> {
    let (name, rest) = text.strip_prefix("Rattle.")?.split_once('.')?;
    let name = *CRATES.iter().find(|known| **known == name)?;
    let (part, rest) = rest.split_once('.')?;
    let part = *PARTS.iter().find(|known| **known == part)?;
    let end = rest.find(|c: char| !c.is_alphanumeric()).unwrap_or(rest.len());
    Some((name, part, &rest[..end], text.len() - rest.len() + end))
}

// ---- what stands on what

/// The laws of the joined crate's proofs/, and which of them each names.
fn laws(sources: &Sources) -> BTreeMap<Law, Vec<Use>> {
    let proofs = sources.order.iter().filter(|module| module.1 == "proofs");
    let texts: Vec<(&Module, String)> = proofs.map(|module| (module, sources.with_split(module, &sources.modules[module]))).collect();
    let declared: Vec<Vec<Declaration>> = texts.iter().map(|(_, text)| declarations(text)).collect();
    let known: BTreeSet<Law> = texts.iter().zip(&declared).flat_map(|((module, _), all)| all.iter().map(|one| ((*module).clone(), one.name.clone()))).collect();
    let mut found: BTreeMap<Law, Vec<Use>> = BTreeMap::new();
    for ((module, text), all) in texts.iter().zip(&declared) {
        let mut named: BTreeMap<String, Law> = BTreeMap::new();
        for (of, part, file, list) in text.lines().filter_map(import) {
            for item in list.split(", ") {
                let (name, here) = item.split_once(" as ").unwrap_or((item, item));
                named.insert(here.to_string(), ((of, part, file.to_string()), name.to_string()));
            }
        }
        for one in all {
            // a law is named after it is declared
            named.insert(one.name.clone(), ((*module).clone(), one.name.clone()));
            let words = one.words.iter().filter(|(word, _)| *word != one.name);
            let laws = words.filter_map(|(word, at)| Some((named.get(word).filter(|law| known.contains(law))?.clone(), (sources.original_line(module, at.0), at.1))));
            found.entry(((*module).clone(), one.name.clone())).or_default().extend(laws);
        }
    }
    found
}

/// A declaration of a file: its name, and the names in its text, but for fields, with where each stands.
struct Declaration {
    name: String,
    words: Vec<(String, (usize, usize))>,
}

fn declarations(text: &str) -> Vec<Declaration> {
    let mut found: Vec<Declaration> = Vec::new();
    let (mut base, mut header, mut open) = (0, false, false);
    for (number, line) in text.lines().enumerate() {
        let code = line.split(" -- ").next().expect("a first part");
        let rest = code.trim_start();
        if rest.is_empty() || rest.starts_with("-- ") {
            continue;
        }
        let indent = code.len() - rest.len();
        base = base.min(indent);
        if header || indent == base && rest.starts_with("module ") {
            header = !rest.ends_with("where");
            (base, open) = (if header { base } else { base + 2 }, false);
            continue;
        }
        if indent == base {
            if let Some(name) = declared_name(rest).filter(|name| !open || found.last().is_some_and(|one| one.name != *name)) {
                found.push(Declaration { name: name.to_string(), words: Vec::new() });
                open = true;
            }
            open &= !rest.starts_with("use ");
        }
        if let Some(one) = found.last_mut().filter(|_| open) {
            one.words.extend(names_of(code).map(|(word, column)| (word.to_string(), (number + 1, column))));
        }
    }
    found
}

/// The name that a line declares: the word before a colon, or behind `record`.
fn declared_name(line: &str) -> Option<&str> {
    let mut rest = line;
    while let Some((_, behind)) = rest.split_once(' ').filter(|(word, _)| ["pub", "abbrev", "unfoldable", "record"].contains(word)) {
        rest = behind;
    }
    let (name, behind) = rest.split_once(' ')?;
    let before = behind.split(" = ").next()?;
    (before.starts_with(": ") || before.contains(" : ")).then_some(name)
}

/// The names that a line uses, and the column of each: not those behind a point, which are fields, nor those before a colon or an equals sign, which it binds.
fn names_of(line: &str) -> impl Iterator<Item = (&str, usize)> {
    let part = |c: char| c.is_alphanumeric() || "_-'".contains(c);
    let mut found = Vec::new();
    let (mut start, mut before) = (None, ' ');
    for (column, (at, c)) in line.char_indices().chain([(line.len(), ' ')]).enumerate() {
        match (start, part(c)) {
            (None, true) => start = Some((at, column + 1, before)),
            (Some((from, column, before)), false) => {
                let binds = [" = ", " : "].iter().any(|sign| line[at..].starts_with(sign)) || line[at..] == *" =";
                found.extend((before != '.' && !binds).then_some((&line[from..at], column)));
                start = None;
            }
            _ => {}
        }
        before = c;
    }
    found.into_iter()
}

// ---- what is stated: the named types of specs/ that have a proof

struct Statement {
    /// the file that states it, and the type's name
    stated: Module,
    name: String,
    /// the file of its proof, and the proof's name
    proved: Module,
    proof: String,
    /// a record's fields, where the proof gives each; none where it does not
    fields: Vec<Field>,
    /// the whole is one equation that is computed
    computed: bool,
    /// the proof's `unfolding` line, and the number of its last line
    unfolding: String,
    ends: usize,
    /// its name in the tables: with its file, or its crate behind it, where two statements share it
    shown: String,
    of: String,
}

struct Field {
    name: String,
    /// as it stands, from its name to the end of its proof
    text: String,
    computed: bool,
    /// where that is, by line and column
    from: (usize, usize),
    to: (usize, usize),
}

impl Statement {
    /// A record with a field that is not computed: its fields are also proved one by one.
    fn is_split(&self) -> bool {
        self.fields.iter().any(|field| !field.computed)
    }

    /// The type and the proof of a field by itself.
    fn split(&self, field: &Field) -> (String, String) {
        (format!("{}-{}", self.name, field.name), format!("{}-{}-alone", self.proof, field.name))
    }

    /// The proofs of the fields one by one.
    fn split_proofs(&self) -> String {
        let unfolding = if self.unfolding.is_empty() { String::new() } else { format!("{}\n", self.unfolding) };
        let proofs = self.fields.iter().map(|field| {
            let (stated, proof) = self.split(field);
            let text = &field.text;
            format!("\npub {proof} : {stated}\n{unfolding}{proof} =\n    record {{\n      {text};\n    }}\n")
        });
        proofs.collect::<String>() + "\n"
    }

    /// What the tables count: the whole as 0, or each field by its place from 1.
    fn parts(&self) -> std::ops::Range<usize> {
        if self.fields.is_empty() {
            0..1
        } else {
            1..self.fields.len() + 1
        }
    }

    fn is_computed(&self, part: usize) -> bool {
        part.checked_sub(1).map_or(self.computed, |at| self.fields[at].computed)
    }
}

/// A statement is a `pub` proof at the left margin whose type is one name of specs/.
fn statements(sources: &Sources) -> Vec<Statement> {
    let mut all = Vec::new();
    for proved in sources.order.iter().filter(|module| module.1 == "proofs") {
        let lines: Vec<&str> = sources.modules[proved].lines().collect();
        for (number, line) in lines.iter().enumerate() {
            let Some((proof, name)) = line.strip_prefix("pub ").and_then(|rest| rest.split_once(" : ")) else { continue };
            let Some(stated) = sources.imported(proved, name).filter(|module| module.1 == "specs" && module.0 == proved.0) else { continue };
            let unfolding = lines.get(number + 1).filter(|line| line.starts_with("unfolding ")).unwrap_or(&"").to_string();
            let given = (number + 1..lines.len()).find(|at| lines[*at].starts_with(&format!("{proof} =")));
            let body = given.map(|at| definition(&lines, at));
            let ends = body.as_ref().and_then(|body| body.last()).map_or(number + 1, |last| last.0);
            let computed = body.as_ref().is_some_and(|body| is_computed(after_equals(&body.iter().map(|one| one.2).collect::<String>())));
            let fields = body.map_or(Vec::new(), |body| fields_of(&body));
            let (name, proof) = (name.to_string(), proof.to_string());
            let (shown, of) = (name.clone(), String::new());
            all.push(Statement { stated, name, proved: proved.clone(), proof, fields, computed, unfolding, ends, shown, of });
        }
    }
    for at in 0..all.len() {
        let same: Vec<&Statement> = all.iter().filter(|other| other.name == all[at].name).collect();
        let files: BTreeSet<&str> = same.iter().map(|other| other.stated.2.as_str()).collect();
        if files.len() == same.len() && same.len() > 1 {
            all[at].shown = format!("{}.{}", all[at].stated.2, all[at].name);
        } else if same.len() > 1 {
            all[at].of = format!(" of {}", all[at].stated.0);
        }
    }
    all
}

/// The characters of a definition, each with its line and column: from its first line to the next one that is indented no more.
fn definition(lines: &[&str], at: usize) -> Vec<(usize, usize, char)> {
    let indent = |line: &str| line.len() - line.trim_start().len();
    let more = lines[at + 1..].iter().take_while(|line| line.is_empty() || indent(line) > indent(lines[at])).count();
    let mut found = Vec::new();
    for (number, line) in lines.iter().enumerate().skip(at).take(more + 1) {
        let code = if line.trim_start().starts_with("--") { "" } else { line };
        found.extend(code.chars().chain(['\n']).enumerate().map(|(column, c)| (number + 1, column + 1, c)));
    }
    found
}

fn after_equals(text: &str) -> &str {
    text.split_once(" =").map_or("", |(_, rest)| rest)
}

/// Whether a proof is `refl`, or several of them: both sides are computed, and nothing else is used.
fn is_computed(proof: &str) -> bool {
    proof.contains("refl") && proof.split(|c: char| c.is_whitespace() || "(,)".contains(c)).all(|word| word.is_empty() || word == "refl")
}

/// The fields of a definition that is `record { a = ..; b = .. }`.
fn fields_of(body: &[(usize, usize, char)]) -> Vec<Field> {
    let text: String = body.iter().map(|one| one.2).collect();
    if after_equals(&text).split_whitespace().take(2).collect::<Vec<_>>() != ["record", "{"] {
        return Vec::new();
    }
    let opens = text[..text.len() - after_equals(&text).len()].chars().count();
    let (mut fields, mut depth, mut field) = (Vec::new(), 0, Vec::new());
    for one in &body[opens..] {
        let before = depth;
        depth += match one.2 {
            '(' | '{' | '[' => 1,
            ')' | '}' | ']' => -1,
            _ => 0,
        };
        if depth == 0 && before == 1 || before == 1 && one.2 == ';' {
            fields.extend(field_of(&field));
            field.clear();
        } else if before > 0 {
            field.push(*one);
        }
        if depth == 0 && before == 1 {
            break;
        }
    }
    fields
}

fn field_of(characters: &[(usize, usize, char)]) -> Option<Field> {
    let text: String = characters.iter().map(|one| one.2).collect();
    let (name, proof) = text.split_once('=')?;
    let first = characters.iter().find(|one| !one.2.is_whitespace())?;
    let last = characters.last()?;
    let (from, to) = ((first.0, first.1), (last.0, last.1));
    Some(Field { name: name.trim().into(), text: text.trim().into(), computed: is_computed(proof), from, to })
}

// ---- the crate that they are joined into

impl Sources {
    /// The joined crate, as a repository of one crate.
    fn write_joined(&self, root: &Path) {
        let at = root.join("crates").join(JOINED);
        for part in PARTS.into_iter().chain(["src"]) {
            fs::create_dir_all(at.join(part)).expect("a folder can be made");
        }
        for part in PARTS {
            let list = self.order.iter().filter(|module| module.1 == part);
            write(&at.join(part).join("Lib.antt"), &list.map(|module| format!("pub mod {}\n", joined(module))).collect::<String>());
        }
        for (module, body) in &self.modules {
            self.write_module(root, module, body);
        }
        let types = CRATES.map(|name| text(&Path::new("crates").join(name).join("src/lib.rt")));
        let lines = types.iter().flat_map(|body| body.lines()).filter(|line| !line.starts_with("use spec_") && !line.starts_with("#!["));
        let lines = ["// The types and constants of the specification.", "#![tactic(auto)]", ""].into_iter().chain(lines);
        write(&at.join("src/lib.rt"), &lines.map(|line| format!("{line}\n")).collect::<String>());
        write(&root.join("crates.txt"), &format!("{JOINED}:\n"));
    }

    fn write_module(&self, root: &Path, module: &Module, body: &str) {
        let path = root.join("crates").join(JOINED).join(module.1).join(joined(module)).with_extension("antt");
        write(&path, &self.renamed(&self.with_split(module, body)));
    }

    /// A file with the fields of its records one by one: in specs/ a type for each, behind the rest; in proofs/ a proof for each, behind that of the
    /// record. Where a proof takes a field of such a record, it takes it from the field's own proof.
    fn with_split(&self, module: &Module, body: &str) -> String {
        let split: Vec<&Statement> = self.statements.iter().filter(|one| one.is_split()).collect();
        let mut out = String::new();
        for (number, line) in body.lines().enumerate() {
            let mut names = String::new();
            if let Some((of, part, file, list)) = import(line) {
                let (from, has) = ((of, part, file.to_string()), |name: &String| list.split(", ").any(|item| item == name));
                for one in &split {
                    if one.stated == from && one.proved == *module && has(&one.name) {
                        names.extend(one.fields.iter().map(|field| format!(", {}", one.split(field).0)));
                    }
                    if one.proved == from && has(&one.proof) {
                        names.extend(one.fields.iter().map(|field| format!(", {}", one.split(field).1)));
                    }
                }
            }
            if names.is_empty() {
                writeln!(out, "{line}").expect("a string");
            } else {
                writeln!(out, "{}{names}}}", &line[..line.len() - 1]).expect("a string");
            }
            for one in split.iter().filter(|one| one.proved == *module && one.ends == number + 1) {
                out.push_str(&one.split_proofs());
            }
        }
        for one in &split {
            if one.stated == *module {
                for field in &one.fields {
                    let stated = stated_field(body, &one.name, &field.name);
                    let stated = stated.unwrap_or_else(|| fail(&format!("{}: no field {} of {}", module.2, field.name, one.name)));
                    write!(out, "\npub record {} : Type 0 where\n{stated}", one.split(field).0).expect("a string");
                }
            }
            if one.proved == *module || self.imported(module, &one.proof).as_ref() == Some(&one.proved) {
                for field in &one.fields {
                    let (taken, alone) = (format!("{}.{}", one.proof, field.name), one.split(field).1);
                    out = with_word(&out, &taken, &format!("{alone}.{}", field.name));
                }
            }
        }
        out
    }

    /// The line of a file that a line of it in the joined crate is, or stands behind.
    fn original_line(&self, module: &Module, mut line: usize) -> usize {
        let mut split: Vec<&Statement> = self.statements.iter().filter(|one| one.is_split() && one.proved == *module).collect();
        split.sort_by_key(|one| one.ends);
        for one in split {
            let more = one.split_proofs().lines().count();
            if line > one.ends + more {
                line -= more;
            } else {
                return line.min(one.ends);
            }
        }
        line
    }

    /// A text with the paths of the joined crate: a file has its crate's name before its own; what the prover makes of declared types has none.
    fn renamed(&self, body: &str) -> String {
        let (mut out, mut rest) = (String::new(), body);
        while let Some(at) = rest.find("Rattle.") {
            out.push_str(&rest[..at]);
            rest = &rest[at..];
            let length = match path(rest) {
                Some((name, part, module, length)) => {
                    let key = (name, part, module.to_string());
                    let module = if self.modules.contains_key(&key) { joined(&key) } else { key.2 };
                    write!(out, "Rattle.{JOINED}.{part}.{module}").expect("a string");
                    length
                }
                None => {
                    out.push_str("Rattle.");
                    "Rattle.".len()
                }
            };
            rest = &rest[length..];
        }
        out + rest
    }
}

/// The name of a file in the joined crate: `Rules` of spec_rack is `RackRules`.
fn joined((name, _, module): &Module) -> String {
    let short = name.strip_prefix("spec_").expect("a crate of the specification");
    short[..1].to_uppercase() + &short[1..] + module
}

/// A text with one name for another, wherever that stands by itself.
fn with_word(text: &str, old: &str, new: &str) -> String {
    let part = |c: char| c.is_alphanumeric() || "-_'".contains(c);
    let (mut out, mut rest) = (String::new(), text);
    while let Some(at) = rest.find(old) {
        let (before, behind) = (&rest[..at], &rest[at + old.len()..]);
        let alone = !before.chars().next_back().or(out.chars().next_back()).is_some_and(part) && !behind.chars().next().is_some_and(part);
        out.push_str(before);
        out.push_str(if alone { new } else { old });
        rest = behind;
    }
    out + rest
}

/// The lines that declare a field of a record.
fn stated_field(body: &str, record: &str, field: &str) -> Option<String> {
    let lines: Vec<&str> = body.lines().skip_while(|line| !line.starts_with(&format!("pub record {record} :"))).collect();
    let at = lines.iter().position(|line| line.starts_with(&format!("  pub {field} :")))?;
    let more = lines[at + 1..].iter().take_while(|line| line.starts_with("   ")).count();
    Some(lines[at..at + 1 + more].iter().map(|line| format!("{line}\n")).collect())
}

fn write(path: &Path, body: &str) {
    fs::write(path, body).unwrap_or_else(|error| fail(&format!("{}: {error}", path.display())));
}

// ---- the edits

struct Edit {
    of: &'static str,
    name: String,
    /// the fact that it breaks
    fact: String,
    /// file, old text, new text
    changes: Vec<(Module, String, String)>,
}

impl Edit {
    fn shown(&self) -> String {
        format!("{}/{}", self.of, self.name)
    }

    fn is_among(&self, wanted: &[String]) -> bool {
        wanted.is_empty() || wanted.iter().any(|word| *word == self.name || *word == self.shown())
    }

    /// The names that the new text brings in and that an example unfolds only where its proof lists them: such an example may fail and not be false.
    fn may_be_stuck(&self, sources: &Sources) -> BTreeSet<String> {
        let words = |text: &str| -> BTreeSet<String> {
            let split = text.split(|c: char| !(c.is_alphanumeric() || "._-'".contains(c)));
            split.filter(|word| !word.is_empty() && !word.contains('.')).map(String::from).collect()
        };
        let mut found = BTreeSet::new();
        for (module, old, new) in &self.changes {
            for word in words(new).difference(&words(old)) {
                let home = sources.imported(module, word).filter(|from| sources.modules.contains_key(from)).unwrap_or(module.clone());
                if sources.modules[&home].contains(&format!("unfoldable pub {word} :")) {
                    found.insert(format!("`{word}`"));
                }
            }
        }
        found
    }
}

fn edits_of(name: &'static str) -> Vec<Edit> {
    let Ok(list) = fs::read_dir(Path::new("crates").join(name).join("must-fail")) else { return Vec::new() };
    let mut paths: Vec<PathBuf> = list.map(|entry| entry.expect("a folder can be listed").path()).collect();
    paths.sort();
    paths.iter().map(|path| edit(name, path)).collect()
}

fn edit(of: &'static str, at: &Path) -> Edit {
    let name = at.file_stem().expect("a file's name").to_string_lossy().into_owned();
    let (mut fact, mut changes) = (String::new(), Vec::new());
    let (mut file, mut old) = (None, "");
    let body = text(at);
    for line in body.lines() {
        if let Some(rest) = line.strip_prefix("# ") {
            fact = rest.to_string();
        } else if let Some(rest) = line.strip_prefix("file: ") {
            let (part, rest) = rest.split_once('/').unwrap_or(("", ""));
            let part = PARTS.iter().find(|known| **known == part).copied();
            let module = part.and_then(|part| Some((of, part, rest.strip_suffix(".antt")?.to_string())));
            file = Some(module.unwrap_or_else(|| fail(&format!("{}: {line}: no file of a specification", at.display()))));
        } else if let Some(rest) = line.strip_prefix("old: ") {
            old = rest;
        } else if let Some(rest) = line.strip_prefix("new:") {
            let file = file.clone().unwrap_or_else(|| fail(&format!("{}: no file", at.display())));
            changes.push((file, old.to_string(), rest.strip_prefix(' ').unwrap_or(rest).to_string()));
        }
    }
    Edit { of, name, fact, changes }
}

// ---- the checks

/// Whether the joined crate of a folder is proved, and what the prover says.
fn check(root: &Path) -> (bool, String) {
    let run = Command::new("rt").arg("check").current_dir(root.join("crates").join(JOINED)).output().unwrap_or_else(|error| fail(&format!("rt: {error}")));
    let said = String::from_utf8_lossy(&run.stdout).into_owned() + &String::from_utf8_lossy(&run.stderr);
    let verdict = |word: &str| said.lines().any(|line| line.split(' ').next() == Some(word));
    match run.status.code() {
        Some(0) if verdict("logic=proved") => (true, said),
        Some(1) if verdict("logic=not-proved") => (false, said),
        _ => fail(&format!("the check gives no verdict:\n{said}")),
    }
}

/// What the prover says of each edit, HYL_JOBS of them at once, each in a copy of the joined crate.
fn try_all(sources: &Sources, edits: &[Edit], base: &Path, room: &Path) -> Vec<String> {
    let jobs = std::env::var("HYL_JOBS").ok().and_then(|jobs| jobs.parse().ok()).unwrap_or(2).max(1);
    let (next, logs) = (AtomicUsize::new(0), Mutex::new(vec![String::new(); edits.len()]));
    std::thread::scope(|scope| {
        for _ in 0..jobs {
            scope.spawn(|| loop {
                let at = next.fetch_add(1, Ordering::SeqCst);
                let Some(edit) = edits.get(at) else { break };
                let log = try_one(sources, edit, base, &room.join(at.to_string()));
                eprintln!("{}", edit.shown());
                logs.lock().expect("no thread failed")[at] = log;
            });
        }
    });
    logs.into_inner().expect("no thread failed")
}

fn try_one(sources: &Sources, edit: &Edit, base: &Path, root: &Path) -> String {
    let copied = Command::new("cp").arg("-a").args([base, root]).status();
    if !copied.is_ok_and(|status| status.success()) {
        fail("the joined crate cannot be copied");
    }
    let mut changed: BTreeMap<&Module, String> = BTreeMap::new();
    for (module, old, new) in &edit.changes {
        let body = changed.entry(module).or_insert_with(|| sources.modules.get(module).cloned().unwrap_or_default());
        if body.matches(old.as_str()).count() != 1 {
            fail(&format!("{}: its old text does not stand once in its file: {old}", edit.shown()));
        }
        *body = body.replacen(old.as_str(), new, 1);
    }
    for (module, body) in changed {
        sources.write_module(root, module, &body);
    }
    let (proved, log) = check(root);
    if proved {
        fail(&format!("{}: no theorem and no example refuses it", edit.shown()));
    }
    fs::remove_dir_all(root).expect("a copy can be removed");
    log
}

// ---- what an edit is refused by

/// A statement, by its place, and a part of it: 0 for the whole, or a field's place from 1.
type Item = (usize, usize);

/// One complaint about a law, and where it is: the prover's, or that it names a law that is refused.
struct Complaint {
    at: (usize, usize),
    below: Option<Law>,
}

struct Tried<'a> {
    edit: &'a Edit,
    /// theorems refused at their own proof
    direct: BTreeSet<Item>,
    /// theorems that stand on a refused law, with the first law refused below each
    standing: BTreeMap<Item, Law>,
    /// computed examples that are false
    examples: BTreeSet<Item>,
    /// the laws that are no statements and are refused at their own proof, as the tables name them
    laws: Vec<String>,
    /// how many laws that are no statements stand on those
    above: usize,
    /// complaints that are not about a law: the edit is no definition
    amiss: Vec<String>,
}

impl<'a> Tried<'a> {
    fn new(sources: &Sources, edit: &'a Edit, log: &str) -> Self {
        let (complaints, order, amiss) = complaints(sources, log);
        let (laws, above) = (Vec::new(), 0);
        let mut tried = Tried { edit, direct: BTreeSet::new(), standing: BTreeMap::new(), examples: BTreeSet::new(), laws, above, amiss };
        for law in &order {
            let items = items(sources, law, &complaints[law]);
            for (item, one) in &items {
                match &one.below {
                    Some(below) => {
                        tried.standing.entry(*item).or_insert_with(|| first_refused(&complaints, below));
                    }
                    None if sources.statements[item.0].is_computed(item.1) => {
                        tried.examples.insert(*item);
                    }
                    None => {
                        tried.direct.insert(*item);
                    }
                }
            }
            if law.0 .1 == "specs" {
                tried.amiss.push(format!("{}.{}", law.0 .2, law.1));
            } else if items.is_empty() && !sources.statements.iter().any(|one| one.proved == law.0 && one.proof == law.1) {
                if complaints[law].iter().any(|one| one.below.is_none()) {
                    tried.laws.push(law_with_fields(sources, law, &complaints[law]));
                } else {
                    tried.above += 1;
                }
            }
        }
        let direct = tried.direct.clone();
        tried.standing.retain(|item, _| !direct.contains(item));
        tried
    }

    fn refuses(&self, item: Item) -> bool {
        self.direct.contains(&item) || self.standing.contains_key(&item) || self.examples.contains(&item)
    }
}

/// The complaints by law, the laws in the order in which they were met, and what is no complaint about a law. Of the laws that stand on a refused one the
/// prover names three and counts the rest, so they are found here by what each law names; there must be as many.
fn complaints(sources: &Sources, log: &str) -> (BTreeMap<Law, Vec<Complaint>>, Vec<Law>, Vec<String>) {
    let by_file: BTreeMap<(String, &str), &Module> = sources.order.iter().map(|module| ((joined(module), module.1), module)).collect();
    let (mut found, mut order, mut amiss): (BTreeMap<Law, Vec<Complaint>>, Vec<Law>, Vec<String>) = Default::default();
    let mut standing = 0;
    for line in log.lines() {
        let Some((place, what)) = line.split_once(": error: ") else { continue };
        if let Some((number, _)) = what.split_once(" declaration").filter(|_| what.contains(" not checked: ")) {
            standing += number.parse::<usize>().unwrap_or_else(|_| fail(&format!("how many laws is this: {what}")));
            continue;
        }
        let parsed = || {
            let mut parts = place.rsplitn(3, ':');
            let (column, number, file) = (parts.next()?.parse().ok()?, parts.next()?.parse().ok()?, Path::new(parts.next()?));
            let key = (file.file_stem()?.to_str()?.to_string(), file.parent()?.file_name()?.to_str()?);
            let (name, _) = what.strip_prefix('`')?.split_once('`')?;
            let module = by_file.get(&key)?.to_owned().clone();
            let at = (sources.original_line(&module, number), column);
            Some(((module, name.to_string()), Complaint { at, below: None }))
        };
        let Some((law, complaint)) = parsed() else {
            amiss.push(what.to_string());
            continue;
        };
        if !found.contains_key(&law) {
            order.push(law.clone());
        }
        found.entry(law).or_default().push(complaint);
    }
    let refused = order.len();
    let mut next = 0;
    while next < order.len() {
        let below = order[next].clone();
        for (law, uses) in &sources.laws {
            let here = uses.iter().filter(|one| one.0 == below).map(|one| Complaint { at: one.1, below: Some(below.clone()) });
            let here: Vec<Complaint> = here.collect();
            if here.is_empty() || order[..refused].contains(law) {
                continue;
            }
            if !found.contains_key(law) {
                order.push(law.clone());
            }
            found.entry(law.clone()).or_default().extend(here);
        }
        next += 1;
    }
    for law in &order[refused..] {
        found.get_mut(law).expect("it has complaints").sort_by_key(|one| one.at);
    }
    if order.len() - refused != standing {
        fail(&format!("{} laws were found that stand on refused ones, where the prover counts {standing}", order.len() - refused));
    }
    (found, order, amiss)
}

/// The items that complaints about a law are about: none where it is no statement, and none for the proof of a record whose fields are proved singly.
fn items<'c>(sources: &Sources, law: &Law, complaints: &'c [Complaint]) -> Vec<(Item, &'c Complaint)> {
    let mut found = Vec::new();
    for (at, one) in sources.statements.iter().enumerate().filter(|(_, one)| one.proved == law.0) {
        if one.is_split() {
            let field = one.fields.iter().position(|field| one.split(field).1 == law.1);
            found.extend(field.iter().flat_map(|field| complaints.iter().map(move |complaint| ((at, field + 1), complaint))));
        } else if one.proof == law.1 {
            for complaint in complaints {
                let within = one.fields.iter().position(|field| field.from <= complaint.at && complaint.at <= field.to);
                match within {
                    Some(field) => found.push(((at, field + 1), complaint)),
                    None => found.extend(one.parts().map(|part| ((at, part), complaint))),
                }
            }
        }
    }
    found
}

/// The law at the bottom: from a law down to what is refused at its own proof.
fn first_refused(complaints: &BTreeMap<Law, Vec<Complaint>>, law: &Law) -> Law {
    complaints.get(law).and_then(|all| all[0].below.as_ref()).map_or(law.clone(), |below| first_refused(complaints, below))
}

/// A law that is refused at its own proof; where that is a record, with the fields that are.
fn law_with_fields(sources: &Sources, law: &Law, complaints: &[Complaint]) -> String {
    let lines: Vec<&str> = sources.modules[&law.0].lines().collect();
    let mut fields = Vec::new();
    for one in complaints.iter().filter(|one| one.below.is_none()) {
        let starts = |line: &str| line.trim_start().starts_with(&format!("{} ", law.1)) && !line.trim_start().starts_with(&format!("{} :", law.1));
        let Some(first) = (0..one.at.0.min(lines.len())).rev().find(|number| starts(lines[*number])) else { continue };
        for field in fields_of(&definition(&lines, first)) {
            if field.from <= one.at && one.at <= field.to && !fields.contains(&field.name) {
                fields.push(field.name);
            }
        }
    }
    let name = law_name(sources, law);
    if fields.is_empty() {
        name
    } else {
        format!("{name} ({})", fields.join(", "))
    }
}

// ---- the tables

/// A law by its file and name; the proof of a statement by the statement.
fn law_name(sources: &Sources, law: &Law) -> String {
    for one in sources.statements.iter().filter(|one| one.proved == law.0) {
        if one.proof == law.1 {
            return format!("{}{}", one.shown, one.of);
        }
        if let Some(field) = one.fields.iter().find(|field| one.split(field).1 == law.1) {
            return format!("{}.{}{}", one.shown, field.name, one.of);
        }
    }
    format!("`{}.{}`", law.0 .2, law.1)
}

/// Items by statement: `Name`, or `Name: field, field`.
fn named(sources: &Sources, items: impl Iterator<Item = Item>) -> String {
    let mut by: BTreeMap<usize, Vec<&str>> = BTreeMap::new();
    for (statement, part) in items {
        let fields = by.entry(statement).or_default();
        fields.extend(part.checked_sub(1).map(|at| sources.statements[statement].fields[at].name.as_str()));
    }
    let shown = by.into_iter().map(|(at, fields)| {
        let one = &sources.statements[at];
        match fields.len() {
            0 => format!("{}{}", one.shown, one.of),
            1 => format!("{}.{}{}", one.shown, fields[0], one.of),
            _ => format!("{}{} ({})", one.shown, one.of, fields.join(", ")),
        }
    });
    cell(shown.collect(), ", ")
}

/// A cell of a table; a dash where there is nothing to say.
fn cell(parts: Vec<String>, between: &str) -> String {
    if parts.is_empty() {
        "–".into()
    } else {
        parts.join(between)
    }
}

/// All edits by name, or how many and the first few.
fn edits_named(edits: Vec<String>) -> String {
    match edits.len().checked_sub(NAMED) {
        Some(more) if more > 0 => format!("{}: {} and {more} more", edits.len(), edits[..NAMED].join(", ")),
        _ => cell(edits, ", "),
    }
}

fn tables(sources: &Sources, tried: &[Tried]) -> String {
    let items: Vec<Item> = (0..sources.statements.len()).flat_map(|at| sources.statements[at].parts().map(move |part| (at, part))).collect();
    let (computed, theorems): (Vec<Item>, Vec<Item>) = items.iter().partition(|(at, part)| sources.statements[*at].is_computed(*part));
    let of = |name: &str| tried.iter().filter(|one| one.edit.of == name).count();
    let counts: Vec<String> = CRATES.iter().filter(|name| of(name) > 0).map(|name| format!("{} of `{name}`", of(name))).collect();
    let mut out = format!(
        "# Wrong rules, and all that refuses each

Made by `tests/wrong_rules.sh`, which is not in the gate; a run replaces this file. It applies each must-fail edit of the rules by itself:
{counts}.
Over each wrong rule it checks these six crates and lists all that is then refused, of {theorems} theorems (each field of a record of theorems is one) and
{computed} computed examples.

- A computed example that is refused is false for certain: its proof is `refl`, and its two sides compute to different values. Where the edit brings in a
  definition that the proof does not unfold, so that they may only not compute, the cell says so.
- A theorem that is refused has lost its proof. That does not show that it is false; it may in principle have another proof.
- *At its own proof*: the prover finds the fault there. *By a law below*: its proof uses a law that is refused, the one that is named, and the prover looks no
  further.
- `Marks.home` is the field `home` of the record `Marks`. A law is named by its file in `proofs/`, and behind it are the fields of its own that are refused.

The gate asks only that each edit is refused by its own crate. These tables say by what.

## By edit

| edit, and the fact that it breaks | theorems refused at their own proof | theorems refused by a law below | computed examples that are false | laws refused at their own proof |
|---|---|---|---|---|
",
        counts = counts.join(", "),
        theorems = theorems.len(),
        computed = computed.len(),
    );
    for one in tried {
        let mut by_law: BTreeMap<String, Vec<Item>> = BTreeMap::new();
        for (item, law) in &one.standing {
            by_law.entry(law_name(sources, law)).or_default().push(*item);
        }
        let standing = by_law.into_iter().map(|(law, items)| format!("by {law}: {}", named(sources, items.into_iter())));
        let mut examples = named(sources, one.examples.iter().copied());
        if one.examples.len() > NAMED {
            examples = format!("{}: {examples}", one.examples.len());
        }
        let stuck = one.edit.may_be_stuck(sources);
        if !stuck.is_empty() && !one.examples.is_empty() {
            let names = Vec::from_iter(stuck).join(", ");
            write!(examples, " (or they are not computed: the edit brings in {names}, which a proof must unfold)").expect("a string");
        }
        let mut laws = one.laws.clone();
        laws.extend((one.above > 0).then(|| format!("and {} laws above", one.above)));
        laws.extend(one.amiss.iter().map(|what| format!("the edit is no definition: {what}")));
        let row = [
            format!("{}: {}", one.edit.shown(), one.edit.fact),
            named(sources, one.direct.iter().copied()),
            cell(standing.collect(), "; "),
            examples,
            cell(laws, ", "),
        ];
        writeln!(out, "| {} |", row.map(|text| text.replace('|', "\\|")).join(" | ")).expect("a string");
    }

    write!(
        out,
        "
## By theorem

Of more than {NAMED} edits the first {NAMED} are named.

| theorem | stated in | edits that it refuses at its own proof | edits that it refuses by a law below |
|---|---|---|---|
"
    )
    .expect("a string");
    for item in &theorems {
        let stated = &sources.statements[item.0].stated;
        let direct = tried.iter().filter(|one| one.direct.contains(item)).map(|one| one.edit.shown()).collect();
        let standing = tried.iter().filter(|one| one.standing.contains_key(item)).map(|one| one.edit.shown()).collect();
        let (direct, standing) = (edits_named(direct), edits_named(standing));
        writeln!(out, "| {} | `{}/specs/{}` | {direct} | {standing} |", named(sources, [*item].into_iter()), stated.0, stated.2).expect("a string");
    }

    out.push_str("\n## By computed example\n\n| example | stated in | edits by which it is false |\n|---|---|---|\n");
    for item in computed.iter().filter(|item| tried.iter().any(|one| one.refuses(**item))) {
        let stated = &sources.statements[item.0].stated;
        let edits = edits_named(tried.iter().filter(|one| one.refuses(*item)).map(|one| one.edit.shown()).collect());
        writeln!(out, "| {} | `{}/specs/{}` | {edits} |", named(sources, [*item].into_iter()), stated.0, stated.2).expect("a string");
    }

    let none = |items: &[Item]| -> Vec<Item> { items.iter().copied().filter(|item| !tried.iter().any(|one| one.refuses(*item))).collect() };
    let (free_theorems, free_examples) = (none(&theorems), none(&computed));
    write!(
        out,
        "
## Refused by none

No edit of the rules refuses these: {} theorems and {} computed examples.

| stated in | theorems | computed examples |
|---|---|---|
",
        free_theorems.len(),
        free_examples.len()
    )
    .expect("a string");
    for module in sources.order.iter().filter(|module| module.1 == "specs") {
        let here = |items: &[Item]| Vec::from_iter(items.iter().copied().filter(|item| sources.statements[item.0].stated == *module));
        let (theorems, examples) = (here(&free_theorems), here(&free_examples));
        if !theorems.is_empty() || !examples.is_empty() {
            let (theorems, examples) = (named(sources, theorems.into_iter()), named(sources, examples.into_iter()));
            writeln!(out, "| `{}/specs/{}` | {theorems} | {examples} |", module.0, module.2).expect("a string");
        }
    }

    out.push_str(
        "
## The three invariants

The proofs of single writer and multiple readers, data value and token conservation use one invariant, which a step keeps as a whole
(`spec_rack/proofs/StepPreservation.step_keeps`). So a wrong rule that breaks any part of it takes the proof of all three, and no cell below says that an
invariant is false. What tells the wrong rules apart are the laws that are refused at their own proof: `held_less` and `held_more` count tokens, `more_has`
and `more_words` are about words, `reader` and `writer` about who may load and store.

| edit | single writer, multiple readers | data value | token conservation | theorems and laws refused at their own proof |
|---|---|---|---|---|
",
    );
    let invariants: Vec<usize> = INVARIANTS.iter().filter_map(|name| sources.statements.iter().position(|one| one.name == *name)).collect();
    for one in tried.iter().filter(|one| invariants.iter().any(|at| one.refuses((*at, 0)))) {
        let marks: Vec<&str> = invariants.iter().map(|at| if one.refuses((*at, 0)) { "no proof" } else { "proved" }).collect();
        let theorems = (!one.direct.is_empty()).then(|| named(sources, one.direct.iter().copied()));
        let laws = cell(theorems.into_iter().chain(one.laws.clone()).collect(), ", ");
        writeln!(out, "| {} | {} | {laws} |", one.edit.shown(), marks.join(" | ")).expect("a string");
    }
    out
}
