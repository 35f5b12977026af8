#!/usr/bin/env python3
"""Brings this repository's own definitions and lemmas to the spelling of today's Rattle: words in snake case, a prime as an apostrophe.

usage: python3 tools/respell.py         at the top, once, after the toolchain's port.py and before any edit by hand
       python3 tools/respell.py --list  prints the names and their new spelling, and writes nothing

Types and modules keep their camel case; names of src/, of the libraries and of generated proofs stay. Where a lemma would get the name of a definition
that it speaks of, the lemma gets `_lem`. Text: .antt files, clauses of .rt files, lines of must-fail edits, and names in backticks of README.md and docs/.
"""
import collections
import os
import re
import sys

TOKEN = re.compile(r"(?<![\w◌'«-])[^\W\d][\w'ʹ′◌-]*")
NAME = r"[^\s(){}\[\],;.:=]+"
SIGNATURE = re.compile(r"^\s*(?:(?:abbrev|unfoldable|pub|ruleset)\s+)*(" + NAME + r"(?:\s+" + NAME + r")*)\s+:(?:\s|$)")
WORDS = {"let", "module", "where", "use", "in", "unfolding", "record", "data", "elim", "abbrev", "pub", "unfoldable", "open", "mod"}


def files(endings):
    for folder, dirs, names in os.walk("crates"):
        dirs[:] = sorted(d for d in dirs if d != "out")
        for name in sorted(names):
            if name.endswith(endings):
                yield os.path.join(folder, name)


def read(path):
    with open(path, encoding="utf-8") as f:
        return f.read()


def snake(name):
    if name[0].isupper():
        return name
    low = re.sub(r"(?<=[a-z0-9ℕ])([A-Z])", lambda m: "_" + m.group(1).lower(), name)
    return low.replace("-", "_").replace("′", "'")


def names():
    """The names that this repository's .antt files define, those of libraries that any file imports, and the fields of records."""
    own, library, fields = collections.Counter(), set(), set()
    for path in files((".antt", ".rt")):
        text = read(path)
        for m in re.finditer(r"use ([\w.]+)\.\{([^}]*)\}", text):
            crate = re.match(r"Rattle\.(\w+)\.", m.group(1))
            if crate and os.path.isdir(os.path.join("crates", crate.group(1))):
                continue
            for part in m.group(2).split(","):
                library.update(x.strip() for x in part.split(" as "))
        body = re.sub(r"(--|//).*", "", text)
        if not path.endswith(".antt"):
            continue
        inside = None
        for line in body.split("\n"):
            indent = len(line) - len(line.lstrip())
            if re.match(r"\s*(pub )?record\b.*\bwhere\s*$", line):
                inside = indent
                continue
            if inside is not None and line.strip() and indent <= inside:
                inside = None
            m = SIGNATURE.match(line)
            if not m or " tie." in line:
                continue
            words = m.group(1).split()
            if not any(w in WORDS for w in words):
                own.update(words)
                if inside is not None:
                    fields.update(words)
    return own, library, fields


def spelling():
    own, library, fields = names()
    new = {}
    for n in own:
        s = snake(n)
        if s != n and n not in library:
            new[n] = s
    by = collections.defaultdict(list)
    for n, s in new.items():
        by[s].append(n)
    out = {}
    for s, ns in sorted(by.items()):
        camel = [n for n in ns if "-" not in n]
        dashed = [n for n in ns if "-" in n]
        taken = s in own or s in library
        for n in camel:
            out[n] = s
            # the name is a lemma's already
            if s in own:
                out[s] = s + "_lem"
        for n in dashed:
            out[n] = s + "_lem" if camel or taken else s
        assert len(camel) <= 1 and len(dashed) <= 1, ns
    return out, fields


def respell(text, new, dashed=True, fields=None):
    def one(m):
        w = m.group(0)
        # behind a point stands a field, or a name of the generated proofs, which stays
        if m.start() and text[m.start() - 1] == "." and fields is not None and "-" in w and w not in fields:
            return w
        return new[w] if w in new and (dashed or "-" not in w) else w

    return TOKEN.sub(one, text)


def antt(text, new, fields):
    lines = []
    for line in text.split("\n"):
        code, dash, comment = line.partition("--")
        if code.rstrip().endswith('"') or '"--' in line:
            code, dash, comment = line, "", ""
        lines.append(respell(code, new, True, fields) + dash + re.sub(r"`[^`]*`", lambda m: respell(m.group(0), new), respell(comment, camel_only(new), False)))
    return "\n".join(lines)


def camel_only(new):
    return {n: s for n, s in new.items() if "-" not in n and re.search(r"[a-z][A-Z]", n)}


def rust(text, new):
    """Clauses and ghost imports; in the rest only names in camel case, which Rust code has none of."""
    out, depth, ghost = [], 0, False
    for line in text.split("\n"):
        if re.match(r"\s*(ghost\b|requires\b|ensures\b|invariant\b)", line) or depth > 0:
            depth += line.count("{") - line.count("}")
            if not re.match(r"\s*ghost use", line) or depth > 0:
                depth = max(depth, 0)
            out.append(respell(line, new))
        else:
            out.append(respell(line, camel_only(new), False))
    return "\n".join(out)


def page(text, new):
    only = {n: s for n, s in new.items() if "-" in n or re.search(r"[a-z][A-Z]", n)}
    return re.sub(r"`[^`\n]*`", lambda m: respell(m.group(0), only), text)


def main(argv):
    new, fields = spelling()
    if argv == ["--list"]:
        for n, s in sorted(new.items()):
            print(n, s)
        return
    done = 0
    for path in list(files((".antt", ".rt", ".edit"))) + ["README.md"] + sorted("docs/" + f for f in os.listdir("docs") if f.endswith(".md")):
        text = read(path)
        if path.endswith(".antt"):
            to = antt(text, new, fields)
        elif path.endswith(".rt"):
            to = rust(text, new)
        elif path.endswith(".edit"):
            rt = re.search(r"(?m)^file: .*\.rt$", text)
            to = "\n".join((respell(l, camel_only(new), False) if rt else respell(l, new)) if re.match(r"(old|new):", l) else l for l in text.split("\n"))
        else:
            to = page(text, new)
        if to != text:
            done += 1
            with open(path, "w", encoding="utf-8") as f:
                f.write(to)
    print(f"{len(new)} names, {done} files")


if __name__ == "__main__":
    main(sys.argv[1:])
