#!/usr/bin/env python3
"""Spells this repository's definitions and lemmas as today's Rattle spells names. Run once, at the top, on files as port.py left them.

Words (definitions, lemmas, fields, constructors) go to snake case, types and statements to upper camel case. Where a lemma would then have the name of
a definition it gets _lem. The crate bytes, whose name a library of the kit has, becomes word_bytes. Functions of src/, exported names, strings and
outputs stay. It rewrites specs/, proofs/, the clauses and imports of src/, must-fail edits and the names that README.md and docs/ put in backticks.
"""

import collections
import os
import re
import subprocess
import sys

NAME = r"[^\s(){}\[\],;.:=]+"
TOP = re.compile(r"^\s*(pub )?(?:abbrev |unfoldable )?(pub )?(%s) :(?=\s|$)" % NAME)
HEAD = re.compile(r"^\s*(?:pub )?(?:record|data) (%s)" % NAME)
TOKEN = re.compile(r"[^\s(){}\[\],;.`]+")
WORDS = {"let", "in", "where", "use", "mod", "infix", "→", "λ", "module", "elim"}

# Two names that would fall together, ours or the library's: the lemma's new name.
LEMMAS = {
    "agenda-from": "agenda_from_lem",
    "block-word": "block_word_lem",
    "choose-from": "choose_from_lem",
    "all-instantiated": "all_instantiated_lem",
    "all-obey": "all_obey_lem",
    "content-from": "content_from_lem",
    "content-part": "content_part_lem",
    "domain-below": "domain_below_lem",
    "lowest-of": "lowest_of_lem",
    "slot-obeys": "slot_obeys_lem",
    "slots-in": "slots_in_lem",
    "smaller-half-of": "smaller_half_of_lem",
    "verdict-of": "verdict_of_lem",
    "whole-list": "whole_list_lem",
    "whole-slots": "whole_slots_lem",
    "bit-and": "bit-bit_and",
    "bit-or": "bit-bit_or",
    "bit-xor": "bit-bit_xor",
}
# The same, of a lemma that port.py has spelled already: by file.
IN_FILE = {
    "crates/problem/proofs/first_checks/Deserved.antt": {"one_way": "one_way_lem"},
    "crates/files/proofs/filling/Mirrors.antt": {"part_in": "part_in_lem"},
    "crates/files/proofs/copying/part/Proof.antt": {"part_in": "part_in_lem"},
}


def files(ending):
    for folder, dirs, names in os.walk("crates"):
        dirs[:] = sorted(d for d in dirs if d != "out")
        for name in sorted(names):
            if name.endswith(ending):
                yield os.path.join(folder, name)


def read(path):
    with open(path, encoding="utf-8") as f:
        return f.read()


def write(path, text):
    with open(path, "w", encoding="utf-8") as f:
        f.write(text)


def snake(name):
    name = name.replace("-", "_")
    name = re.sub(r"([a-z0-9])([A-Z])", r"\1_\2", name)
    return name.lower()


def camel(name):
    parts = [p for p in re.split(r"[-_]", name) if p]
    return "".join(p[:1].upper() + (p[1:].lower() if p.isupper() else p[1:]) for p in parts)


def declared():
    """The names that specs/ and proofs/ declare; of a function's own proof only those that others may cite."""
    names = collections.Counter()
    for path in files(".antt"):
        own = path.endswith("/Proof.antt")
        for line in read(path).split("\n"):
            if line.lstrip().startswith("--"):
                continue
            m = HEAD.match(line)
            if m:
                names[m.group(1)] += 1
                continue
            m = TOP.match(line)
            if m and m.group(3) not in WORDS and (not own or m.group(1) or m.group(2)):
                names[m.group(3)] += 1
        for items in re.findall(r"^(?:pub )?use Rattle\.[\w.'+]+\.\{([^}]*)\}", read(path), re.M):
            names.update(item.split(" as ")[1].strip() for item in items.split(",") if " as " in item)
    return names


def table():
    to = {}
    for name in declared():
        if "◌" in name or not re.match(r"^[A-Za-z]", name):
            continue
        new = LEMMAS.get(name) or (camel(name) if name[0].isupper() else snake(name))
        if new != name:
            to[name] = new
    return to


def turn(text, to):
    return TOKEN.sub(lambda m: to.get(m.group(0), m.group(0)), text)


def turn_comment(text, to):
    """A comment is English: only what no English word can be, and what stands in backticks."""
    text = re.sub(r"`[^`\n]*`", lambda m: turn(m.group(0), to), text)
    return TOKEN.sub(lambda m: to.get(m.group(0), m.group(0)) if re.search(r"[a-z][A-Z]", m.group(0)) else m.group(0), text)


def foreign(text):
    """The names that a file takes from elsewhere: they are not ours to spell."""
    names = set()
    for module, items in re.findall(r"^(?:pub )?use ([\w.'+]+)\.\{([^}]*)\}", text, re.M):
        if not (module.startswith("Rattle.") and os.path.isdir("crates/" + module.split(".")[1])):
            names |= {item.split(" as ")[-1].strip() for item in items.split(",")}
    return names


def turn_antt(text, to):
    for name in foreign(text):
        to = {old: new for old, new in to.items() if old != name}
    out = []
    for line in text.split("\n"):
        at = re.search(r"(^|\s)--(\s|$)", line)
        if at:
            out.append(turn(line[: at.start()], to) + turn_comment(line[at.start() :], to))
        else:
            out.append(turn(line, to))
    return "\n".join(out)


def turn_rt(text, to):
    """Clauses and imports of definitions, which may go over several lines; the code and its strings stay."""
    out, deep = [], 0
    for line in text.split("\n"):
        if deep == 0 and not re.match(r"\s*(ghost use |requires |ensures |ghost )", line):
            at = line.find("//")
            out.append(line if at < 0 else line[:at] + turn_comment(line[at:], to))
            continue
        out.append(turn(line, to))
        deep = max(0, deep + line.count("{") - line.count("}"))
    return "\n".join(out)


def main():
    if not os.path.isfile("crates.txt") or sys.argv[1:]:
        sys.exit(__doc__)
    to = table()
    for path in files(".antt"):
        write(path, turn_antt(read(path), to | IN_FILE.get(path, {})))
    for path in files(".rt"):
        write(path, turn_rt(read(path), to))
    for path in files(".edit"):
        lines = read(path).split("\n")
        write(path, "\n".join(turn(l, to) if l.startswith(("old: ", "new: ")) else l for l in lines))
    for path in ["README.md"] + sorted("docs/" + f for f in os.listdir("docs") if f.endswith(".md") and f != "PORT.md"):
        write(path, re.sub(r"`[^`\n]*`", lambda m: turn(m.group(0), to), read(path)))
    subprocess.run(["git", "mv", "crates/bytes", "crates/word_bytes"], check=True)
    for path in list(files(".antt")) + list(files(".rt")):
        text = read(path)
        write(path, re.sub(r"(?<![\w.])bytes::(?!\w+::)", "word_bytes::", text.replace("Rattle.bytes.", "Rattle.word_bytes.")))
    text = re.sub(r"\bbytes\b", "word_bytes", read("crates.txt"))
    write("crates.txt", re.sub(r" io libc$", "", text, flags=re.M))


main()
