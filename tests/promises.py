"""Holds the papers to the rules, the proofs and the code, by name; proves nothing.

docs/RULES.md has a number in brackets before each sentence; docs/PROMISES.md has one line for each number, which says what holds it.
A name that docs/PROMISES.md cites, as `file:name`, is declared by that file. A place that docs/DECISIONS.md cites, as `file:line word`, has that word.
A file or folder that the papers name in backticks is there, and a law that README.md and these two name, with a _ in it, is declared, or is a crate, a
function or file of src/, or a function of the language's library; a name with a hyphen is none of these.
Every `pub fn` of every library has no `requires`, and an `ensures` that cites one definition; its uniqueness theorem, NAME_one, says of that
definition, in its crate's specs/Promises.antt, that two results are equal, and is proved, as that statement, in its proofs/Promises.antt. Where the
clause reads the result by another definition, `(opened result)` say, a promise says that two results which it reads alike are equal. A crate with no
specs/ exports functions of another: of each there is a `pub fn` of the same name with the same clauses, whose theorem is its own. Every function of an
impl of a library's trait, `from` say, has one statement, `from_gives`, and its uniqueness theorem, named after the repository's type too.
A crate that README.md marks with (t), of theory, has no function. Every promise that a specs/Promises.antt states, of Type 0 or of Type 1, is proved in
its crate's proofs/Promises.antt under its own name (with _lem at the end where specs/ has a definition of that name), and what that proves is the
statement. What mirrors a loop of the code stands in specs/Loops: no other crate cites it, no file of specs outside it does, and no contract of a
`pub fn`.
"""
import pathlib
import re
import sys

TOP = pathlib.Path(__file__).resolve().parent.parent
MARKS = r"(?:(?:unfoldable|abbrev|axiom|pub) )*"
NUMBER = r"\d+|D\d\.\d"
LAWS_NAMED = ("README.md", "docs/DECISIONS.md", "docs/PROMISES.md")
LIBRARY = ("count_ones", "trailing_zeros")
ENSURES = r"ensures (?:\w+ )?\{ (?:(?:told )?result ≡ )?([^\s(){}]+) "
HELD = ("none owed: ", "by the language: ", "run: ", "to be read: ", "as [", "`crates/")


def sources(pattern):
    """The files of every crate, without what the prover keeps in out/."""
    return [path for path in sorted((TOP / "crates").glob(pattern)) if path.relative_to(TOP).parts[2] != "out"]


def camel(name):
    """The statement that a proof of this name has: the same words with capitals and no _."""
    return "".join(word[:1].upper() + word[1:] for word in name.split("_"))


def text_of(path):
    return path.read_text() if path.is_file() else ""


def declares(path, name):
    text = text_of(path)
    if path.suffix == ".rt":
        return re.search(rf"(?m)^\s*(?:pub(?:\(crate\))? )?(?:extern \"C\" )?(?:fn|struct|enum|const) {re.escape(name)}\b", text)
    said = re.escape(name)
    shapes = rf"(?m)^(?:{MARKS}{said}(?: \{{[^}}]*\}})? :|\s+(?:abbrev|unfoldable) (?:pub )?{said} :|\s*(?:pub )?(?:record|data) {said}(?: |$))"
    return re.search(shapes, text)


def cited_names(faults):
    count = 0
    for found in re.finditer(r"`([\w/.]+\.(?:antt|rt)):([^`\s]+)`", (TOP / "docs/PROMISES.md").read_text()):
        count += 1
        path, name = TOP / found.group(1), found.group(2)
        if not path.is_file():
            faults.append(f"docs/PROMISES.md cites {found.group(1)}, which is not there")
        elif not declares(path, name):
            faults.append(f"docs/PROMISES.md cites {name}, which {found.group(1)} does not declare")
    return count


def numbered_lines(faults):
    numbers = set(re.findall(rf"\[({NUMBER})\] ", (TOP / "docs/RULES.md").read_text()))
    lines = re.findall(rf"(?m)^\| ({NUMBER}) \| (.*) \| (.*) \|$", (TOP / "docs/PROMISES.md").read_text())
    count = {number: sum(1 for line in lines if line[0] == number) for number in numbers.union(line[0] for line in lines)}
    for number in sorted(count):
        if number not in numbers:
            faults.append(f"docs/PROMISES.md has a line {number}, and docs/RULES.md has no [{number}]")
        elif count[number] != 1:
            faults.append(f"docs/RULES.md has [{number}], and docs/PROMISES.md has {count[number]} lines for it")
    for number, _, held in lines:
        if not any(words in held for words in HELD):
            faults.append(f"docs/PROMISES.md, line {number}, does not say what holds it")
    return len(numbers)


def cited_places(faults):
    count = 0
    for found in re.finditer(r"`([\w/.]+\.\w+):(\d+) ([^`]+)`", (TOP / "docs/DECISIONS.md").read_text()):
        count += 1
        path, number, word = TOP / found.group(1), int(found.group(2)), found.group(3)
        lines = path.read_text().split("\n") if path.is_file() else []
        if not (0 < number <= len(lines) and word in lines[number - 1]):
            there = [str(k) for k, line in enumerate(lines, 1) if word in line]
            said = f"line {', '.join(there)} has it" if there else "no line has it"
            faults.append(f"docs/DECISIONS.md cites {found.group(1)}:{number} for '{word}', which that line does not have ({said})")
    return count


def named_in_papers(faults):
    """Paths and names with a _ or a hyphen, in backticks, of the papers that a reader is sent by."""
    declared = {"must-fail", *LIBRARY, *(folder.name for folder in (TOP / "crates").iterdir())}
    for path in sources("*/**/*.antt"):
        declared.update(re.findall(rf"(?m)^\s*{MARKS}([^\s:({{]+)(?: \{{[^}}]*\}})? :", path.read_text()))
    for path in sources("*/src/**/*.rt"):
        declared.add(path.stem)
        declared.update(re.findall(r"(?m)^\s*(?:pub(?:\(crate\))? )?(?:extern \"C\" )?fn (\w+)", path.read_text()))
    for paper in ("README.md", "docs/DECISIONS.md", "docs/PROMISES.md", "docs/FORMAT.md", "bench/README.md", "examples/README.md"):
        for word in re.findall(r"`([^`\s]+)`", text_of(TOP / paper)):
            path = word.split(":")[0]
            if re.match(r"(?:crates|docs|tests|bench|examples|include|tools)/", word):
                if "*" not in path and not (TOP / path).exists():
                    faults.append(f"{paper} names {path}, which is not there")
                elif re.search(r"\.(?:antt|rt)$", path) and re.match(r"[^:]*:\s*$", word):
                    faults.append(f"{paper} cites {word} and no name")
            elif paper in LAWS_NAMED and re.fullmatch(r"[a-z]+(?:[-_][a-z0-9]+)+", word) and word not in declared:
                faults.append(f"{paper} names {word}, which no file of specs/, proofs/ or src/ declares")
    if re.search(r"`[\w/.]+\.(?:antt|rt):\s", text_of(TOP / "docs/PROMISES.md")):
        faults.append("docs/PROMISES.md cites a file with a space before the name")


def public_functions():
    """Crate, file, name and header, up to the line that opens the body, of each `pub fn` of each library."""
    for folder in sorted((TOP / "crates").iterdir()):
        if (folder / "src/lib.rt").is_file():
            for source in sorted((folder / "src").rglob("*.rt")):
                for found in re.finditer(r"(?ms)^\s*pub (?:extern \"C\" )?fn (\w+)(.*?)\{$", source.read_text()):
                    yield folder, source.relative_to(TOP), found.group(1), found.group(2)


def body_at(text, start):
    """What stands between a brace and the one that closes it."""
    depth = 0
    for k in range(start, len(text)):
        depth += {"{": 1, "}": -1}.get(text[k], 0)
        if depth == 0:
            return text[start + 1 : k]
    return text[start + 1 :]


def trait_functions():
    """Crate, file, type, name and statement (none where it has none) of each function of an impl of a trait for a type, of each library."""
    for source in sources("*/src/**/*.rt"):
        if (source.parents[1] / "src/lib.rt").is_file():
            text = source.read_text()
            for found in re.finditer(r"(?m)^\s*impl\b([^{;]*?) for ([^{;]*)\{", text):
                body = body_at(text, found.end() - 1)
                own = re.findall(r"\A\s*([A-Z]\w*)", found.group(2)) or re.findall(r"<([A-Z]\w*)>", found.group(1))
                for function in re.findall(r"\bfn (\w+)", re.sub(r"//.*", "", body)):
                    stated = re.search(rf"\bghost {function}_gives = \{{ (.*?) \}};", body)
                    yield source.parents[1], source.relative_to(TOP), "".join(own[:1]), function, stated.group(1) if stated else ""


def read_alike():
    """The definitions that read a result of which a promise says that two results read alike are equal."""
    names = set()
    for specs in sources("*/specs/Promises.antt"):
        text = specs.read_text()
        said = re.findall(r"(?m)^\w+One = \(r s : [^→]*\) → (\S+) r ≡ (\S+) s → r ≡ s$", text)
        own = {a for a, b in said if a == b}
        for names_used in re.findall(r"(?m)^use \S+\.\{([^}]*)\}$", text):
            for word in names_used.split(","):
                taken, _, here = word.strip().partition(" as ")
                if (here or taken) in own:
                    names.add(taken)
    return names


def statement(path, name):
    """What a definition of a file says: from its = to the next empty line."""
    found = re.search(rf"(?ms)^{re.escape(name)} =(.*?)(?:\n\n|\Z)", text_of(path))
    return found.group(1) if found else ""


def clauses(header):
    return sorted(re.findall(r"(?m)^\s*((?:requires|ensures)\b.*)$", header))


def promising(folder, source, function, header):
    """The crate whose promises speak of a public function: its own, or of one that has no specs/ the crate whose function of that name it exports."""
    if (folder / "specs").exists():
        return folder
    ensures = re.search(ENSURES, header)
    module = taken_from((TOP / source).read_text(), ensures.group(1)) if ensures else ""
    for other, _, name, its_header in public_functions():
        if module.startswith(f"Rattle.{other.name}.specs.") and name == function and clauses(its_header) == clauses(header):
            return other
    return folder


def uniqueness(faults):
    count = 0
    alike = read_alike()
    for folder, source, function, header in public_functions():
        count += 1
        folder = promising(folder, source, function, header)
        where, name = f"{source}: {function}", function + "_one"
        stated = camel(name)
        specs, proofs = folder / "specs/Promises.antt", folder / "proofs/Promises.antt"
        if re.search(r"\brequires\b", header):
            faults.append(f"{where} has a requires")
        ensures = re.search(ENSURES, header)
        if not ensures:
            faults.append(f"{where} has no ensures that cites one definition")
        else:
            said = statement(specs, stated)
            mentions = len(re.findall(rf"(?<![^\s(]){re.escape(ensures.group(1))}(?![^\s)])", said))
            if not (mentions == 1 and re.search(r"\bOne(?:Told)? \(", said) or mentions == 2 and "≡" in said.rsplit("→", 1)[-1]):
                faults.append(f"{where} has no {stated} in {specs.relative_to(TOP)} that says of {ensures.group(1)} that two results are equal")
        if not re.search(rf"(?m)^pub {re.escape(name)} : {re.escape(stated)}$", text_of(proofs)):
            faults.append(f"{where} has no {name} : {stated} in {proofs.relative_to(TOP)}")
        for reader in set(re.findall(r"\((\w+) result\)", header)):
            if reader not in alike:
                faults.append(f"{where} reads its result by {reader}, and no promise says that two results which it reads alike are equal")
    for folder, source, own, function, stated in trait_functions():
        count += 1
        where, name = f"{source}: {function} of {own}", f"{own.lower()}_{function}_one"
        specs, proofs = folder / "specs/Promises.antt", folder / "proofs/Promises.antt"
        cited = re.fullmatch(r"(?:λ (\w+) (\w+)\. \2 ≡ )?(\w+)(?: \1)?", stated)
        module = taken_from((TOP / source).read_text(), cited.group(3)) if cited else ""
        here = re.escape(taken_as(text_of(specs), module, cited.group(3))) if ".specs." in module else ""
        one = rf"\((\w+) : [^()]+\) → One \((?:{here} \1|λ \((\w+) : [^()]+\)\. \2 ≡ {here} \1)\)"
        if not (here and re.fullmatch(one, statement(specs, camel(name)).strip())):
            faults.append(f"{where} has no {camel(name)} in {specs.relative_to(TOP)} that says of its statement, of one definition, that two results are equal")
        if not re.search(rf"(?m)^pub {re.escape(name)} : {re.escape(camel(name))}$", text_of(proofs)):
            faults.append(f"{where} has no {name} : {camel(name)} in {proofs.relative_to(TOP)}")
    return count


def promises_proved(faults):
    count = 0
    for specs in sorted(TOP.glob("crates/*/specs/Promises.antt")):
        proofs = specs.parent.parent / "proofs/Promises.antt"
        stated = set(re.findall(r"(?m)^abbrev pub (\S+) : Type [01]$", specs.read_text()))
        proved = dict(re.findall(r"(?m)^pub (\S+) : (\S+)$", text_of(proofs)))
        count += len(proved)
        defined = "\n".join(text_of(path) for path in sources("*/specs/**/*.antt"))
        for name, of in sorted(proved.items()):
            plain = name.removesuffix("_lem")
            if plain != name and not re.search(rf"(?m)^{MARKS}{re.escape(plain)} :", defined):
                faults.append(f"{proofs.relative_to(TOP)} has {name}, and no file of specs/ has a definition {plain}")
            if camel(plain) != of or of not in stated:
                faults.append(f"{proofs.relative_to(TOP)} has {name} : {of}, which is not the promise of that name")
        for name in sorted(stated.difference(proved.values())):
            faults.append(f"{specs.relative_to(TOP)} states {name}, and nothing proves it")
    return count


def taken_from(text, name):
    """The module that a source takes a ghost name from."""
    for module, names in re.findall(r"(?m)^ghost use (\S+?)\.\{([^}]*)\};$", text):
        if name in [word.split(" as ")[-1].strip() for word in names.split(",")]:
            return module
    return ""


def taken_as(text, module, name):
    """The name by which a file of specs/ takes a definition of a module; none if it does not."""
    for names in re.findall(rf"(?m)^use {re.escape(module)}\.\{{([^}}]*)\}}$", text):
        for word in names.split(","):
            taken, _, here = word.strip().partition(" as ")
            if taken == name:
                return here or taken
    return ""


def loops_cited(faults):
    for path in sources("*/**/*"):
        if path.suffix not in (".antt", ".rt"):
            continue
        name, text = path.relative_to(TOP), path.read_text()
        for crate in sorted(set(re.findall(r"\bRattle\.(\w+)\.specs\.Loops\b", text))):
            if crate != name.parts[1]:
                faults.append(f"{name} cites the specs/Loops of {crate}")
            elif name.parts[2] == "specs" and "Loops" not in name.parts:
                faults.append(f"{name} cites specs/Loops")
    for _, source, function, header in public_functions():
        ensures = re.search(ENSURES, header)
        if ensures and ".specs.Loops" in taken_from((TOP / source).read_text(), ensures.group(1)):
            faults.append(f"{source}: {function} has a contract of specs/Loops")


def theory(faults):
    """The crates of theory of README.md, which have no function."""
    marked = re.findall(r"(?m)\bcrates/(\w+) \(t\)", text_of(TOP / "README.md"))
    named = re.findall(r"`(\w+)`", "".join(re.findall(r"(?m)^\| Crates of theory \| (.*?) have ", text_of(TOP / "docs/DECISIONS.md"))))
    for name in marked:
        for source in sources(f"{name}/src/**/*.rt"):
            for function in re.findall(r"(?m)^[^/\n]*\bfn (\w+)", source.read_text()):
                faults.append(f"README.md marks crates/{name} as one of theory, and {source.relative_to(TOP)} has the function {function}")
    if not marked or sorted(marked) != sorted(named):
        faults.append(f"README.md marks as crates of theory {marked}, and docs/DECISIONS.md names {named}")


def main():
    faults = []
    numbers, names, places, functions = numbered_lines(faults), cited_names(faults), cited_places(faults), uniqueness(faults)
    promises = promises_proved(faults)
    named_in_papers(faults)
    loops_cited(faults)
    theory(faults)
    if not (numbers and names and places and functions and promises):
        faults.append("nothing was found to hold: is this the repository?")
    for fault in faults:
        print(fault)
    print(f"{numbers} numbered sentences, {names} cited names, {places} cited places, {functions} public functions with one answer each, {promises} promises proved, {len(faults)} faults")
    sys.exit(1 if faults else 0)


main()
