"""Seeded faults: faulty copies of reference.py, each of which differential.py must find.

  faults.py            every fault, one after the other
  faults.py NAME ..    only those named
  faults.py --list     their names and what they break

A fault is one edit of reference.py. Faults of the first list stand in for the compiled program and library
(through standin.py) while the comparison keeps the true rules. Faults of the second list stand on both
sides, so that the two agree and only part (c), brute force, can find them.
"""

import os
import shlex
import shutil
import subprocess
import sys
import tempfile
import time

HERE = os.path.dirname(os.path.abspath(__file__))

# name, the part of differential.py that is to find it, what it breaks, the text in reference.py, the text instead
ONE_SIDE = [
    ("kind-3-skips-instantiated", "c", "kind 3 makes no piece for an instantiated variable",
     "    for j in others(problem, V):\n        pieces.append(",
     "    for j in [i for i in others(problem, V) if i not in P.marked]:\n        pieces.append("),
    ("kind-1-looks-at-all", "b", "kind 1 counts every instantiated variable, past the first that forbids v",
     "            return looked, True\n", "            return len(P.marked), True\n"),
    ("halves-rounded-down", "b", "halving gives the odd value to the larger half",
     "half = (len(held) + 1) // 2", "half = max(1, len(held) // 2)"),
    ("7-before-11", "b", "a wrong kind is refused before the step limit",
     "    if steps == MOST_STEPS:\n        return 11\n    if not 1 <= request.kind <= 5:\n        return 7\n",
     "    if not 1 <= request.kind <= 5:\n        return 7\n    if steps == MOST_STEPS:\n        return 11\n"),
    ("chooser-highest-among-equals", "b", "the chooser takes the highest of equally narrow variables",
     "key=lambda i: (count(P.domains[i]), i)", "key=lambda i: (count(P.domains[i]), -i)"),
    ("chooser-room-for-dropped-pieces", "b", "the chooser asks for room for kind 3's empty pieces too",
     "no_room = len(split(problem, P, disjunction)) >",
     "no_room = len(inferred_disjunction(problem, P, V, v)) >"),
    ("ffff-for-0", "a", "a check of FFFF is taken where 0 is right",
     "if words[-1] != check_of(words[:-1]):", "if words[-1] % 0xFFFF != check_of(words[:-1]) % 0xFFFF:"),
    ("checks-at-the-edge", "b", "exactly 496 × steps checks are refused",
     "return checks > CHECKS_IN_A_STEP * steps", "return checks >= max(1, CHECKS_IN_A_STEP * steps)"),
    ("marks-above-n", "a", "a mark at n or above is let through",
     "    if any(i >= problem.n for i in subproblem.marked):\n", "    if any(i >= 32 for i in subproblem.marked):\n"),
    ("table-of-itself-left", "b", "load leaves something at the places for i with itself",
     "    tables = [0] * (n * n * d)\n    place", "    tables = [1] * d + [0] * (n * n * d - d)\n    place"),
    ("nonzero-after", "a", "words after the last are not looked at",
     "    if any(content[in_all:]):\n", "    if any(content[len(content):]):\n"),
    ("refused-run-says-none", "b", "a run stopped by a refused request says none",
     "    return Ran(verdict_of(search.problem, search.agenda), refusal, taken, state)",
     "    return Ran(0 if refusal else verdict_of(search.problem, search.agenda), refusal, taken, state)"),
    ("save-clears-the-rest", "b", "save writes zeros after its blocks",
     "    file[:len(written)] = written\n", "    file[:] = written + bytes(len(file) - len(written))\n"),
    ("only-domains-symmetric", "b", "a pair allowed one way only passes where a value is in no domain",
     "if has(allowed(problem, i, a, j), b) != has(allowed(problem, j, b, i), a):",
     "if has(problem.domains[i], a) and has(problem.domains[j], b) "
     "and has(allowed(problem, i, a, j), b) != has(allowed(problem, j, b, i), a):"),
    ("own-slot-not-free", "c", "P's own slot is not counted free",
     "return search.slots - len(search.agenda) + 1", "return search.slots - len(search.agenda)"),
    ("freed-slots-left", "c", "a freed slot keeps its words",
     "    agenda[:] = words_of_agenda(search.problem.n, search.slots, search.agenda)\n",
     "    written = words_of_agenda(search.problem.n, len(search.agenda), search.agenda)\n"
     "    agenda[:len(written)] = written\n"),
    ("counts-of-this-run", "a", "line 2 shows the steps of this run and not the search's",
     "(VERDICT_WORDS[ran.verdict], ran.state.steps, ran.state.checks)",
     "(VERDICT_WORDS[ran.verdict], ran.taken, ran.state.checks)"),
    ("no-refused-line", "a", "a refusal during the run adds no line",
     "    if ran.refusal:\n        text +=", "    if ran.refusal == 99:\n        text +="),
    ("4-before-3", "b", "domains are looked at before the other lengths",
     "    if reasons_of_3(n, d, domains, tables, agenda, requests):\n",
     "    if domains and len(domains) == n and any(has_bit_at_or_above(mask, d) for mask in domains):\n"
     "        return 4\n    if reasons_of_3(n, d, domains, tables, agenda, requests):\n"),
    ("12-before-10", "b", "the room for kind 5's pieces is looked at before its targets",
     "    if reasons_of_10(problem, P, request):\n        return 10\n    if len(split(problem, P, request)) > free:\n"
     "        return 12\n",
     "    if len(split(problem, P, request)) > free:\n        return 12\n"
     "    if reasons_of_10(problem, P, request):\n        return 10\n"),
    ("12-before-9", "b", "the room for kind 3's pieces is looked at before v",
     "    if reasons_of_9(problem, P, request):\n        return 9\n",
     "    if request.kind == IDC and request.v < problem.d and len(split(problem, P, request)) > free:\n"
     "        return 12\n    if reasons_of_9(problem, P, request):\n        return 9\n"),
    ("load-3-before-15", "b", "load looks at the lent agenda's length before the file's words",
     "    refusal = file_refusal(file)\n    if refusal:\n        return Loaded(refusal",
     "    refusal = file_refusal(file)\n    if refusal == 15 and not agenda:\n        refusal = 3\n"
     "    if refusal:\n        return Loaded(refusal"),
    ("6-before-5", "b", "the counts are looked at before the symmetry of the tables",
     "    refusal = problem_refusal(n, d, domains, tables, agenda, requests)\n"
     "    if refusal:\n        return refusal\n    if reasons_of_6",
     "    refusal = problem_refusal(n, d, domains, tables, agenda, requests)\n"
     "    if refusal == 5 and too_many_checks(state.steps, state.checks):\n        return 6\n"
     "    if refusal:\n        return refusal\n    if reasons_of_6"),
    ("limit-before-verdict", "b", "the chooser at its limit says what the next step would meet",
     "    return 0, limit, search\n",
     "    return 11 if search.steps == MOST_STEPS and verdict_of(search.problem, search.agenda) == RUNNING else 0, "
     "limit, search\n"),
]

BOTH_SIDES = [
    ("both:kind-3-skips-instantiated", "c", "kind 3 skips instantiated variables (document 01's first shortcut)",
     ONE_SIDE[0][3], ONE_SIDE[0][4]),
    ("both:weak-idc-pieces", "c", "kind 3's pieces overlap (its second shortcut)",
     "        if i < j:\n            domains[i] =", "        if i < 0:\n            domains[i] ="),
    ("both:one-value-is-instantiated", "c", "one value is taken as instantiated (its third shortcut)",
     "    return subproblem.marked == frozenset(range(problem.n))",
     "    return all(count(mask) == 1 for mask in subproblem.domains)"),
    ("both:target-dropped", "c", "the extraction target is dropped (its fourth shortcut)",
     "    pieces = [Subproblem(tuple(targets), P.marked)]\n", "    pieces = []\n"),
    ("both:value-lost", "c", "forward checking forgets V without v",
     "    return [precluded(problem, P, V, v), value_removed(P, V, v)]", "    return [precluded(problem, P, V, v)]"),
]


def edited(text, fault):
    """The reference's text with the fault in it; the edited place must stand there exactly once."""
    name, _, _, old, new = fault
    assert text.count(old) == 1, "%s: its text stands %d times in reference.py" % (name, text.count(old))
    return text.replace(old, new)


def command(folder, part, module):
    """The stand-in's command line."""
    return shlex.join([sys.executable, os.path.join(folder, "standin.py"), part, os.path.join(folder, module)])


def outcome(fault, both):
    """Runs the comparison on a copy of this folder with the fault in place; gives its exit and first lines."""
    with tempfile.TemporaryDirectory() as above:
        folder = os.path.join(above, "tests")
        shutil.copytree(HERE, folder, ignore=shutil.ignore_patterns("__pycache__"))
        with open(os.path.join(HERE, "reference.py")) as file:
            text = edited(file.read(), fault)
        faulty = "reference.py" if both else "faulty.py"
        with open(os.path.join(folder, faulty), "w") as file:
            file.write(text)
        done = subprocess.run([sys.executable, os.path.join(folder, "differential.py"),
                               command(folder, "program", faulty), command(folder, "driver", faulty),
                               "--only", fault[1], "--no-million"], capture_output=True, text=True)
        return done.returncode, done.stdout.splitlines()[:3]


def found(fault, both):
    """Whether the comparison ends with a difference; prints what it said."""
    begun = time.time()
    code, lines = outcome(fault, both)
    ok = code == 1 and bool(lines) and lines[0].startswith("DIFFERENCE")
    said = "; ".join(line[:110] for line in lines)
    print("%s  %s (part %s, %.0f s): %s" % ("found" if ok else "MISSED", fault[0], fault[1], time.time() - begun, said))
    sys.stdout.flush()
    return ok


def main():
    """Goes through the faults asked for; exit 1 where one is missed."""
    faults = [(fault, False) for fault in ONE_SIDE] + [(fault, True) for fault in BOTH_SIDES]
    if "-h" in sys.argv or "--help" in sys.argv:
        sys.exit(__doc__)
    if "--list" in sys.argv:
        print("\n".join("%s: %s" % (fault[0], fault[2]) for fault, _ in faults))
        return 0
    names = sys.argv[1:]
    chosen = [(fault, both) for fault, both in faults if not names or fault[0] in names]
    missed = [fault[0] for fault, both in chosen if not found(fault, both)]
    print("%d faults, %d missed %s" % (len(chosen), len(missed), " ".join(missed)))
    return 1 if missed or not chosen else 0


if __name__ == "__main__":
    sys.exit(main())
