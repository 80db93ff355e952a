#!/usr/bin/env python3
"""Brings the repository's own ghost names to today's spelling: words in snake case, types in upper camel case.

usage: tools/snake_names.py        at the top of the repository, once, after /opt/rattle/port/port.py

It turns, by text: definitions, lemmas and local names of crates/*/specs and crates/*/proofs, what clauses of .rt files and hand-written proofs of functions
cite of them, the lines `old:` and `new:` of must-fail edits and wrong models, and names between backquotes in comments and pages. Names that a file
imports from the kit's libraries stay, and so do names of src/, strings, and names that the toolchain makes. Two names that fall together are an error.
"""
import glob
import re
import sys

BREAK = re.compile(r"([\s(){}\[\].,;`]+)")
DASHED = re.compile(r"^[^\W_]\S*-\S*$")
PATH = re.compile(r"\bRattle(\.[\w+]+)+|\b(pub )?mod \w+")
# The walk's name for a row of the model's entries, which is not the struct `EntryRow`.
APART = {"Entry-row": "TableEntry"}
USE = re.compile(r"^\s*(?:pub )?(?:ghost )?(?:pub )?use (\S+?)(?:\.\{(.*)\}| as (\S+))?;?$")
OWN = re.compile(r"^Rattle\.(\w+)\.")


def snake(name):
    if name in APART:
        return APART[name]
    if name[0].isupper():
        return "".join(part[0].upper() + part[1:] for part in name.split("-") if part)
    return name.replace("-", "_")


def read(path):
    with open(path, encoding="utf-8") as f:
        return f.read()


def crates():
    return {m[1] for m in map(re.compile(r"^(\w+)[^:\n]*:").match, read("crates.txt").splitlines()) if m}


def definitions():
    return sorted(glob.glob("crates/*/specs/**/*.antt", recursive=True) + glob.glob("crates/*/proofs/*.antt"))


def imported(text, own):
    """The names that a file imports from elsewhere than the repository's own definitions."""
    found = set()
    for line in text.splitlines():
        m = USE.match(line)
        if not m or not m[2]:
            continue
        crate = OWN.match(m[1])
        if crate and crate[1] in own and not re.search(r"\.specs\.(declared|contracts)\b", m[1]):
            continue
        found |= {item.strip() for item in m[2].split(",") if " as " not in item}
    return found


def comment_at(line, mark):
    at = line.find(mark)
    while at > 0 and not line[at - 1].isspace():
        at = line.find(mark, at + 1)
    return len(line) if at < 0 else at


def words(text, turn):
    return "".join(part if i % 2 else turn(part) for i, part in enumerate(BREAK.split(text)))


def in_backquotes(text, turn):
    return re.sub(r"`[^`\n]+`", lambda m: words(m[0], turn), text)


def main():
    own = crates()
    names = {}
    for path in definitions():
        text = read(path)
        outside = imported(text, own)
        for line in text.splitlines():
            if USE.match(line):
                continue
            for word in BREAK.split(line[: comment_at(line, "--")])[::2]:
                if DASHED.match(word) and word not in outside and '"' not in word:
                    names[word] = snake(word)
    present = set()
    for path in definitions():
        code = "\n".join(line[: comment_at(line, "--")] for line in read(path).splitlines())
        present |= set(BREAK.split(PATH.sub("", code))[::2])
    # What port.py turned already in crates/ is turned here in edits and pages.
    already = {word for word in present if "_" in word}
    everywhere = lambda word: names.get(word, snake(word) if DASHED.match(word) and snake(word) in already else word)
    fallen = sorted((new, old) for old, new in names.items() if new in present)
    twice = {}
    for old, new in names.items():
        twice.setdefault(new, []).append(old)
    fallen += sorted((new, " ".join(olds)) for new, olds in twice.items() if len(olds) > 1)
    for new, old in fallen:
        print(f"snake_names: {old} would fall together with {new}", file=sys.stderr)
    known = set(names)

    def turned(path, mark, clauses_only):
        text = read(path)
        outside = imported(text, own)
        turn = lambda word: names[word] if word in known and word not in outside else word
        into_own = lambda word: names.get(word, word)
        out, inside = [], False
        for line in text.split("\n"):
            m = USE.match(line)
            if m:
                crate = OWN.match(m[1])
                mine = crate and crate[1] in own and not re.search(r"\.specs\.(declared|contracts)\b", m[1])
                out.append(words(line, into_own) if mine else re.sub(r"(?<= as )[^\s,;}]+", lambda a: into_own(a[0]), line))
                continue
            at = comment_at(line, mark)
            code, said = line[:at], line[at:]
            if clauses_only:
                if re.match(r"\s*(pub )?(requires|ensures|decreases|invariant|ghost|also_owns)\b", code):
                    inside = True
                code = words(code, turn) if inside else code
                if inside and code.rstrip().endswith(("}", "};")):
                    inside = False
            else:
                code = words(code, turn)
            out.append(code + in_backquotes(said, turn))
        return "\n".join(out)

    new_texts = {}
    for path in definitions() + sorted(set(glob.glob("crates/*/proofs/**/*.antt", recursive=True)) - set(definitions())):
        new_texts[path] = turned(path, "--", False)
    for path in sorted(glob.glob("crates/*/src/**/*.rt", recursive=True)):
        new_texts[path] = turned(path, "//", True)
    for path in sorted(glob.glob("crates/*/must-fail/*.edit") + glob.glob("tests/**/*.edit", recursive=True)):
        lines = read(path).split("\n")
        new_texts[path] = "\n".join(words(l, everywhere) if l.startswith(("old:", "new:")) else in_backquotes(l, everywhere) for l in lines)
    for path in ["README.md"] + sorted(glob.glob("docs/*.md")):
        new_texts[path] = in_backquotes(read(path), everywhere)
    if fallen:
        return 1
    for path, text in new_texts.items():
        if text != read(path):
            with open(path, "w", encoding="utf-8") as f:
                f.write(text)
    print(f"snake_names: {len(names)} names turned")
    return 0


sys.exit(main())
