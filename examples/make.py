#!/usr/bin/env python3
"""Makes saved searches for ./plan from descriptions that people can read and write.

  make.py                 makes NAME.search and NAME.expected for every NAME.txt beside this script
  make.py --check         writes nothing; says whether those files are what the descriptions make
  make.py FILE.txt ...    makes FILE.search beside each FILE.txt

A description says one thing on a line. What stands after a # is a remark. First the problem:

  windows 20:00 20:15 20:30               the windows in their order; the first is number 0
  path north 20:00 20:15                  a path and its list of windows; the first path is number 0
  path south any                          ... or all windows
  rule north and south differ             not the same window; of three paths or more, each two of them
  rule north before south                 north's window stands before south's
  rule north and south only 20:00+20:15 20:15+20:30     these windows together and no others
  rule north and south never 20:00+20:15                any windows together but these

There are 1 to 16 windows and 1 to 32 paths. A name has no + and no comma, and is none of the words any, and, at, before,
differ, only, never. Two paths with several rules may hold what all of them allow, two without a rule anything. Then, if
wanted, what is done to the search before it is saved, in the order of the lines, damage last:

  chooser 5 steps                         runs the house chooser, for just so many steps
  request backtracking north 20:00        one request; forward-checking and idc are written likewise
  request halving north
  request extraction north 20:00, south 20:00 20:15     the target; a path not named keeps its windows
  place north at 20:00, south at 20:00    by hand and against any rule: makes this the one subproblem, these
                                          paths instantiated and the others with their whole lists
  damage byte 100 bit 3                   turns one bit of the saved file round

A line 'like NAME' stands for all lines of NAME.txt, in the same folder.
"""

import os
import sys

HERE = os.path.dirname(os.path.abspath(__file__))
sys.path.insert(0, os.path.join(HERE, "..", "tests"))
sys.dont_write_bytecode = True

import reference as r  # noqa: E402: the rules, save and the chooser are the second implementation's

KINDS = {"backtracking": r.BACKTRACKING, "forward-checking": r.FORWARD_CHECKING, "idc": r.IDC}
WORDS_OF_THE_FORMAT = ("any", "and", "at", "before", "differ", "only", "never")


class Fault(Exception):
    """What is wrong with a description, in words for its writer."""


# ---- The problem ----------------------------------------------------------------------------------

class Description:
    """A description as read so far: the problem, what is done to the search, and the damage."""

    def __init__(self):
        """Nothing said yet."""
        self.windows, self.paths, self.domains = [], [], []
        self.forbidden = set()
        self.doings, self.damages = [], []

    def window(self, name):
        """A window's number."""
        if name not in self.windows:
            raise Fault("no window is called '%s'" % name)
        return self.windows.index(name)

    def path(self, name):
        """A path's number."""
        if name not in self.paths:
            raise Fault("no path is called '%s'" % name)
        return self.paths.index(name)

    def mask(self, names):
        """The mask of a list of windows."""
        if names == ["any"]:
            return (1 << len(self.windows)) - 1
        return sum(1 << window for window in {self.window(name) for name in names})

    def problem(self):
        """The problem, its tables all d bits set but for what a rule forbids, and zeros for a path with itself."""
        n, d = len(self.paths), len(self.windows)
        if n == 0:
            raise Fault("no path")
        tables = [0] * (n * n * d)
        for i in range(n):
            for j in (j for j in range(n) if j != i):
                for a in range(d):
                    allowed = [b for b in range(d) if (i, a, j, b) not in self.forbidden]
                    tables[(i * n + j) * d + a] = sum(1 << b for b in allowed)
        return r.Problem(n, d, tuple(self.domains), tuple(tables))


def new_name(name, taken):
    """A name for a window or path, unless it is taken or reads as something else."""
    if name in taken:
        raise Fault("'%s' is named twice" % name)
    if name in WORDS_OF_THE_FORMAT or "+" in name or "," in name:
        raise Fault("'%s' cannot be a name: it has a + or a comma, or is a word of the format" % name)
    return name


def say_windows(said, words):
    """windows NAME ..."""
    if said.windows:
        raise Fault("the windows are named twice")
    for name in words:
        said.windows.append(new_name(name, said.windows))
    if not 1 <= len(said.windows) <= r.MOST_VALUES:
        raise Fault("there are %d windows, and may be 1 to %d" % (len(said.windows), r.MOST_VALUES))


def say_path(said, words):
    """path NAME WINDOW ..."""
    if not said.windows:
        raise Fault("the line with the windows comes first")
    if len(words) < 2:
        raise Fault("a path has a name and a list of windows, or 'any'")
    if len(said.paths) == r.MOST_VARIABLES:
        raise Fault("more than %d paths" % r.MOST_VARIABLES)
    said.paths.append(new_name(words[0], said.paths))
    said.domains.append(said.mask(words[1:]))


# ---- Rules ----------------------------------------------------------------------------------------

def forbid(said, i, j, unwanted):
    """Forbids every two windows a, b of paths i, j for which unwanted(a, b)."""
    if i == j:
        raise Fault("a rule is about different paths")
    for a in range(len(said.windows)):
        for b in range(len(said.windows)):
            if unwanted(a, b):
                said.forbidden |= {(i, a, j, b), (j, b, i, a)}


def window_pairs(said, words):
    """The pairs of windows in words such as 20:00+20:15."""
    pairs = [word.split("+") for word in words]
    if not pairs or any(len(pair) != 2 for pair in pairs):
        raise Fault("two windows that stand together are written as 20:00+20:15")
    return {(said.window(a), said.window(b)) for a, b in pairs}


def say_rule(said, words):
    """rule PATHS differ, rule PATH before PATH, rule PATH and PATH only or never PAIRS."""
    if words[-1:] == ["differ"]:
        names = [word for word in " ".join(words[:-1]).replace(",", " ").split() if word != "and"]
        numbers = [said.path(name) for name in names]
        if len(numbers) < 2:
            raise Fault("'differ' is about two paths or more")
        for k, i in enumerate(numbers):
            for j in numbers[k + 1:]:
                forbid(said, i, j, lambda a, b: a == b)
    elif len(words) == 3 and words[1] == "before":
        forbid(said, said.path(words[0]), said.path(words[2]), lambda a, b: a >= b)
    elif len(words) > 4 and words[1] == "and" and words[3] in ("only", "never"):
        pairs = window_pairs(said, words[4:])
        wanted = words[3] == "only"
        forbid(said, said.path(words[0]), said.path(words[2]), lambda a, b: ((a, b) in pairs) != wanted)
    else:
        raise Fault("a rule is 'A and B differ', 'A before B', 'A and B only ..' or 'A and B never ..'")


# ---- What is done to the search -------------------------------------------------------------------

class Search:
    """An opened search on 512 slots, as the calls leave it."""

    def __init__(self, problem):
        """Opens it."""
        self.problem = problem
        self.agenda = [0] * (r.MOST_SLOTS * r.slot_words(problem.n))
        opened = r.open_search(*problem, self.agenda)
        if opened.refusal:
            raise Fault("opening is refused %d" % opened.refusal)
        self.state = opened.state

    def top(self):
        """The top subproblem."""
        if not self.state.subproblems:
            raise Fault("the agenda is empty")
        return r.subproblems_of_words(self.problem.n, self.agenda, self.state.subproblems)[-1]

    def leave(self, ran, wanted):
        """Keeps what a run left, if it took all that was wanted."""
        self.state = ran.state
        if ran.refusal:
            raise Fault("refused %d; include/rastwob.h says what the numbers mean" % ran.refusal)
        if ran.taken != wanted:
            raise Fault("the search is %s after %d steps" % (r.VERDICT_WORDS[ran.verdict], ran.state.steps))

    def request(self, kind, V=0, v=0, targets=None):
        """Runs one request."""
        words = [kind, V, v] + list(targets or [0] * self.problem.n)
        self.leave(r.run(*self.problem, self.agenda, words, self.state), 1)

    def choose(self, steps):
        """Runs the house chooser."""
        self.leave(r.choose(*self.problem, self.agenda, steps, self.state), steps)

    def place(self, held):
        """Makes one subproblem the agenda, its paths instantiated as told, whatever the rules say."""
        placed = r.Subproblem(self.problem.domains, frozenset())
        for i, a in held:
            placed = r.instantiate(placed, i, a)
        self.agenda = r.words_of_agenda(self.problem.n, r.MOST_SLOTS, [placed])
        self.state = self.state._replace(subproblems=1)

    def file(self):
        """The saved search. The words are written as they are, so that one placed by hand is written too."""
        return r.file_of(r.content_of(r.search_handed_in(*self.problem, self.agenda, self.state)))


def number_in(word, least=0):
    """A number written in a description."""
    if not word.isdecimal() or int(word) < least:
        raise Fault("'%s' is not a number from %d up" % (word, least))
    return int(word)


def named_parts(words):
    """Words with commas, as lists of words between them."""
    return [part.split() for part in " ".join(words).split(",")]


def paths_of(said, parts):
    """The numbers of the paths that the parts begin with, none of them twice."""
    numbers = [said.path(part[0]) for part in parts]
    for number in numbers:
        if numbers.count(number) > 1:
            raise Fault("'%s' stands here twice" % said.paths[number])
    return numbers


def do_chooser(said, search, words):
    """chooser K steps"""
    if len(words) != 2 or words[1] not in ("step", "steps"):
        raise Fault("it is written 'chooser 5 steps'")
    search.choose(number_in(words[0]))


def do_request(said, search, words):
    """request KIND ..."""
    kind, rest = (words or [""])[0], words[1:]
    if kind in KINDS and len(rest) == 2:
        search.request(KINDS[kind], said.path(rest[0]), said.window(rest[1]))
    elif kind == "halving" and len(rest) == 1:
        search.request(r.HALVING, said.path(rest[0]))
    elif kind == "extraction" and all(len(part) > 1 for part in named_parts(rest)):
        targets, parts = list(search.top().domains), named_parts(rest)
        for path, part in zip(paths_of(said, parts), parts):
            targets[path] = said.mask(part[1:])
        search.request(r.EXTRACTION, targets=targets)
    else:
        raise Fault("a request is backtracking, forward-checking or idc with a path and a window, "
                    "halving with a path, or extraction with paths and their windows")


def do_place(said, search, words):
    """place PATH at WINDOW, ..."""
    parts = named_parts(words)
    if any(len(part) != 3 or part[1] != "at" for part in parts):
        raise Fault("it is written 'place north at 20:00, south at 20:15'")
    search.place([(path, said.window(part[2])) for path, part in zip(paths_of(said, parts), parts)])


DOINGS = {"chooser": do_chooser, "request": do_request, "place": do_place}


# ---- A description, read and made -----------------------------------------------------------------

def say_damage(said, words):
    """damage byte B bit K"""
    if len(words) != 4 or words[0] != "byte" or words[2] != "bit" or number_in(words[3]) > 7:
        raise Fault("it is written 'damage byte 100 bit 3'; bits are 0 to 7")
    said.damages.append((number_in(words[1]), number_in(words[3])))


def say(said, words, where):
    """Takes in one line; what is done to the search is kept for after the problem."""
    first, rest = words[0], words[1:]
    lines = {"windows": say_windows, "path": say_path, "rule": say_rule, "damage": say_damage}
    if first in lines:
        lines[first](said, rest)
    elif first in DOINGS:
        said.doings.append((where, first, rest))
    elif first == "like":
        if len(rest) != 1:
            raise Fault("it is written 'like NAME'")
    else:
        raise Fault("no line starts with '%s'" % first)


def lines_of(file, above=()):
    """The lines of a description with their places; after a line 'like NAME', those of that one."""
    if file in above:
        raise Fault("%s is like itself" % file)
    try:
        with open(file, encoding="utf-8") as text:
            lines = [line.split("#")[0].split() for line in text]
    except (OSError, UnicodeDecodeError) as error:
        raise Fault("%s cannot be read: %s" % (file, error))
    for number, words in enumerate(lines, 1):
        if words:
            yield "%s line %d" % (os.path.relpath(file), number), words
        if words[:1] == ["like"] and len(words) == 2:
            yield from lines_of(os.path.join(os.path.dirname(file), words[1] + ".txt"), above + (file,))


def made(file):
    """The saved search that a description makes."""
    said, where = Description(), os.path.relpath(file)
    try:
        for where, words in lines_of(file):
            say(said, words, where)
        where = os.path.relpath(file)
        search = Search(said.problem())
        for where, first, words in said.doings:
            DOINGS[first](said, search, words)
        saved = bytearray(search.file())
        where = os.path.relpath(file)
        for byte, bit in said.damages:
            if byte >= len(saved):
                raise Fault("the damage is past the end: the file has %d bytes" % len(saved))
            saved[byte] ^= 1 << bit
        return bytes(saved)
    except Fault as fault:
        raise Fault("%s: %s" % (where, fault)) from None


# ---- The command line -----------------------------------------------------------------------------

def made_here():
    """Each file that the descriptions beside this script make, with its bytes."""
    for name in sorted(name[:-4] for name in os.listdir(HERE) if name.endswith(".txt")):
        saved = made(os.path.join(HERE, name + ".txt"))
        yield name + ".search", saved
        yield name + ".expected", r.answer_to(saved).encode()


def write(file, contents):
    """Writes a file and says so."""
    with open(file, "wb") as out:
        out.write(contents)
    print("made %s" % os.path.relpath(file))


def unlike(name, contents):
    """Whether a file beside this script is not there or holds something else."""
    try:
        with open(os.path.join(HERE, name), "rb") as held:
            return held.read() != contents
    except OSError:
        return True


def check():
    """Says of each file whether it is what its description makes; gives the exit status."""
    wanted = dict(made_here())
    wrong = [name for name in wanted if unlike(name, wanted[name])]
    kept = [name for name in os.listdir(HERE) if name.endswith(".search") and name not in wanted]
    for name in wrong:
        print("examples/%s is not what its description makes" % name)
    for name in kept:
        print("examples/%s has no description" % name)
    if not wrong + kept:
        print("examples: %d files are what their descriptions make" % len(wanted))
    return 1 if wrong + kept else 0


def main(words):
    """Makes or checks what the command line names; gives the exit status."""
    if words == ["--check"]:
        return check()
    if words in (["--help"], ["-h"]):
        print(__doc__, end="")
        return 0
    for word in words:
        if word.startswith("-") or not word.endswith(".txt"):
            wrong = "'%s' is no option here" if word.startswith("-") else "'%s' is no .txt file"
            print("make.py: " + wrong % word, file=sys.stderr)
            print("make.py: --help says what is taken", file=sys.stderr)
            return 2
    for file in words:
        write(file[:-4] + ".search", made(file))
    if not words:
        for name, contents in list(made_here()):
            write(os.path.join(HERE, name), contents)
    return 0


if __name__ == "__main__":
    try:
        sys.exit(main(sys.argv[1:]))
    except Fault as fault:
        sys.exit("make.py: %s" % fault)
