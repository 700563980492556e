"""The comparison of the compiled program and the C library with reference.py, from a fixed seed.

  differential.py PROGRAM DRIVER

PROGRAM is a command that reads a saved search from standard input and prints the program's text. DRIVER is
a command that speaks the format of driver.c. Both may have arguments, in quotes. Three parts:

  (a) program: what it prints for many files, fresh, stopped midway and spoiled;
  (b) calls: the five C functions, every number and every lent byte at exit, and the guards around them;
  (c) brute: small searches, the library's own agenda against all plans of the problem.

It prints how often each refusal, reason, kind and verdict was met, and ends with exit 0 only where there is
no difference and each was met often enough. At a difference it prints the input, for --again.
"""

import argparse
import base64
import collections
import os
import random
import select
import shlex
import subprocess
import sys
import time

import call_inputs
import file_inputs
import inputs
import journeys
import reference as r
import wire

LEAST = 20
PATIENCE = 120
REFUSALS = {
    "open": (0, 1, 2, 3, 4, 5),
    "run": (0, 1, 2, 3, 4, 5, 6, 7, 8, 9, 10, 11, 12),
    "choose": (0, 1, 2, 3, 4, 5, 6, 11, 12),
    "save": (0, 1, 2, 3, 4, 5, 6, 13),
    "load": (0, 3, 12, 14, 15),
}
REASONS = {
    3: ("domains", "domains, odd", "tables", "tables, odd", "agenda, no slot", "agenda, over 512 slots",
        "agenda, not whole slots", "agenda, odd", "request list", "request list, odd"),
    4: ("domain bit", "table bit"),
    6: tuple(inputs.SLOT_FAULTS) + ("more subproblems than slots", "nonzero unused slot",
                                    "more than 496 x steps checks"),
    8: ("V is n or more", "V is instantiated"),
    9: ("v is d or more", "v not in V's domain", "kind 4, one value"),
    10: ("target empty", "target not part", "all targets equal"),
    12: ("kind 1", "kind 2", "kind 3", "kind 4", "kind 5"),
    14: tuple(inputs.FILE_FAULTS_14),
    15: tuple(inputs.FAULTS_OF_15),
}
SIGHTS = ("kind 1, v forbidden", "kind 3, piece for an instantiated variable",
          "precluded piece empty at an instantiated variable", "chooser, kind 3",
          "chooser, kind 2 for an empty precluded piece", "chooser, kind 2 for want of room")


# ---- The two commands -----------------------------------------------------------------------------

class Program:
    """The compiled program, started anew for each file."""

    def __init__(self, command):
        """Keeps the command."""
        self.command = shlex.split(command)

    def text_for(self, file):
        """What it prints."""
        try:
            done = subprocess.run(self.command, input=file, capture_output=True, timeout=PATIENCE)
        except subprocess.TimeoutExpired:
            raise wire.Difference("the program does not end within %d s" % PATIENCE)
        if done.returncode < 0:
            raise wire.Difference("the program is ended by signal %d" % -done.returncode)
        return done.stdout.decode("latin-1")


class Driver:
    """The compiled driver, one process for all calls."""

    def __init__(self, command):
        """Starts it."""
        self.process = subprocess.Popen(shlex.split(command), stdin=subprocess.PIPE, stdout=subprocess.PIPE)

    def read(self, length):
        """Reads exactly so many bytes of its answer."""
        parts = b""
        pipe = self.process.stdout.fileno()
        while len(parts) < length:
            if not select.select([pipe], [], [], PATIENCE)[0]:
                raise wire.Difference("the driver does not answer within %d s" % PATIENCE)
            part = os.read(pipe, length - len(parts))
            if not part:
                raise wire.Difference("the driver ends in the middle (exit %s)" % self.process.wait())
            parts += part
        return parts

    def ask(self, call):
        """Makes a call and gives its answer."""
        try:
            self.process.stdin.write(wire.pack_call(call))
            self.process.stdin.flush()
        except BrokenPipeError:
            raise wire.Difference("the driver takes no more calls (exit %s)" % self.process.wait())
        return wire.read_answer(self.read, call)

    def end(self):
        """Ends it by the end of its input."""
        self.process.stdin.close()
        if self.process.wait(PATIENCE) != 0:
            raise wire.Difference("the driver ends with exit %d" % self.process.returncode)


# ---- What a file or call meets --------------------------------------------------------------------

def alone(prefix, reasons):
    """A reason counts as met only where it is the only one."""
    return [prefix + reasons[0]] if len(reasons) == 1 else []


def file_reasons(file, refusal):
    """The reason of 14 or 15 that a file meets alone."""
    if refusal == 14:
        return alone("14: ", r.reasons_of_14(file))
    if refusal == 15:
        return alone("15: ", r.reasons_of_15(r.content_in(file)))
    return []


def met_by_file(label, file, text):
    """What is counted of a file for the program."""
    met = ["program, file: " + label]
    lines = text.splitlines()
    refusals = [int(line.split()[1]) for line in lines if line.startswith("refused")]
    met += ["program, refusal %d" % refusal for refusal in refusals]
    if not lines[0].startswith("refused"):
        large = ["program, n above 16"] if r.content_in(file)[0] > 16 else []
        return met + large + ["program, verdict " + lines[0]]
    return met + ["program, " + reason for reason in file_reasons(file, refusals[0])]


def problem_in(call):
    """The problem of a call whose lengths are right."""
    return r.Problem(call.n, call.d, tuple(r.words_low_first(call.domains)), tuple(r.words_low_first(call.tables)))


def state_in(call):
    """The three numbers handed in."""
    return r.State(call.steps, call.checks, call.subproblems)


def length_reasons(call, n, d):
    """The reason of 3 that a call meets alone, odd lengths and wrong agendas told apart."""
    words = [r.words_low_first(buffer) for buffer in (call.domains, call.tables, call.agenda, call.requests)]
    reasons = r.reasons_of_3(n, d, *words)
    if len(reasons) != 1:
        return []
    lent = {"domains": call.domains, "tables": call.tables, "agenda": call.agenda, "request list": call.requests}
    reason = reasons[0]
    if len(lent[reason]) % 2:
        return [reason + ", odd"]
    if reason != "agenda":
        return [reason]
    if len(call.agenda) == 0:
        return ["agenda, no slot"]
    whole = len(call.agenda) // 2 % r.slot_words(n) == 0
    return ["agenda, over 512 slots" if whole else "agenda, not whole slots"]


def request_reasons(call, answer):
    """The reason for which a run's request is refused: it stands after those taken, its P on top at exit."""
    problem = problem_in(call)
    words = r.words_low_first(answer.buffers[2])
    P = r.subproblems_of_words(call.n, words, answer.subproblems)[-1]
    request = r.requests_of_words(call.n, r.words_low_first(call.requests))[answer.taken]
    if answer.refusal == 12:
        return ["kind %d" % request.kind]
    listed = {8: r.reasons_of_8, 9: r.reasons_of_9, 10: r.reasons_of_10}[answer.refusal]
    return listed(problem, P, request)


def call_reasons(call, answer):
    """The reason, where it is the only one, for which a call is refused."""
    refusal = answer.refusal
    if refusal in (14, 15):
        return file_reasons(bytes(call.file), refusal)
    if refusal == 3:
        said = r.content_in(call.file)[:2] if call.name == wire.LOAD else (call.n, call.d)
        return alone("3: ", length_reasons(call, *said))
    if refusal == 4:
        return alone("4: ", r.reasons_of_4(problem_in(call)))
    if refusal == 6:
        return alone("6: ", r.reasons_of_6(problem_in(call), r.words_low_first(call.agenda), state_in(call)))
    if refusal in (8, 9, 10) or (refusal == 12 and call.name == wire.RUN):
        return alone("%d: " % refusal, request_reasons(call, answer))
    return []


def sights_of_step(search, request):
    """What is worth counting of one accepted request."""
    problem, P = search.problem, search.agenda[-1]
    kind, V, v, _ = request
    seen = ["kind %d accepted" % kind]
    if kind == 1 and r.looked_at(problem, P, V, v)[1]:
        seen.append("kind 1, v forbidden")
    if kind in (2, 3) and any(r.precluded(problem, P, V, v).domains[i] == 0 for i in P.marked):
        seen.append("precluded piece empty at an instantiated variable")
    if kind == 3 and any(not r.is_empty(r.idc_piece(problem, P, V, v, j)) for j in P.marked):
        seen.append("kind 3, piece for an instantiated variable")
    return seen


def sight_of_choice(search, request):
    """Which of the chooser's three ways it went."""
    if request.kind == 3:
        return "chooser, kind 3"
    gone = r.is_empty(r.precluded(search.problem, search.agenda[-1], request.V, request.v))
    return "chooser, kind 2 for an empty precluded piece" if gone else "chooser, kind 2 for want of room"


def sights_of_run(call, taken):
    """What the accepted requests of a run or chooser met, walked through again."""
    search = r.search_handed_in(call.n, call.d, r.words_low_first(call.domains), r.words_low_first(call.tables),
                                r.words_low_first(call.agenda), state_in(call))
    requests = r.requests_of_words(call.n, r.words_low_first(call.requests))
    seen = []
    for k in range(min(taken, 40)):
        request = requests[k] if call.name == wire.RUN else r.chosen_request(search)
        seen += sights_of_step(search, request)
        if call.name == wire.CHOOSE:
            seen.append(sight_of_choice(search, request))
        search = r.step(search, request)[1]
    return seen


def met_by_call(call, answer):
    """What is counted of a call."""
    name = wire.CALL_NAMES[call.name]
    met = ["%s, refusal %d" % (name, answer.refusal)] + call_reasons(call, answer)
    if call.name in (wire.RUN, wire.CHOOSE):
        met.append("%s, verdict %s" % (name, r.VERDICT_WORDS[answer.verdict]))
        met += sights_of_run(call, answer.taken) if answer.taken else []
    return met


def required():
    """Everything that must be met often enough, in the order of printing."""
    verdicts = r.VERDICT_WORDS
    keys = ["program, refusal %d" % number for number in (11, 12, 14, 15)]
    keys += ["program, verdict " + word for word in verdicts[1:]] + ["program, n above 16"]
    keys += ["program, %d: %s" % (number, reason) for number in (14, 15) for reason in REASONS[number]]
    keys += ["program, file: " + label for label in file_inputs.SEARCHES]
    keys += ["program, file: " + label for label in ("check 0", "check FFFF for 0", "bit changed",
                                                     "bit changed, check mended")]
    keys += ["%s, refusal %d" % (name, number) for name, numbers in REFUSALS.items() for number in numbers]
    keys += ["%s, verdict %s" % (name, word) for name in ("run", "choose") for word in verdicts]
    keys += ["%d: %s" % (number, reason) for number, reasons in REASONS.items() for reason in reasons]
    keys += ["kind %d accepted" % kind for kind in range(1, 6)] + list(SIGHTS)
    keys += ["brute: stop, " + word for word in verdicts[1:] + ("at the step limit",)]
    keys += ["brute: saved and loaded", "brute: cut against uncut", "brute: chooser cut against uncut"]
    return keys


# ---- The comparison -------------------------------------------------------------------------------

def first_unlike(expected, got):
    """The first place at which two buffers differ."""
    return [k for k in range(len(expected)) if expected[k] != got[k]][0]


def differences(expected, got):
    """Each number and buffer that differs, in words."""
    found = []
    for name in wire.Answer._fields:
        mine, theirs = getattr(expected, name), getattr(got, name)
        if name != "buffers" and mine != theirs:
            found.append("%s: expected %d, got %d" % (name, mine, theirs))
    for name, mine, theirs in zip(wire.BUFFERS, expected.buffers, got.buffers):
        if mine != theirs:
            k = first_unlike(mine, theirs)
            found.append("%s, byte %d of %d: expected %d, got %d" % (name, k, len(mine), mine[k], theirs[k]))
    return found


class Comparison:
    """Both commands, the counts, and the last input, which is printed at a difference."""

    def __init__(self, program, driver):
        """Starts with nothing met."""
        self.program, self.driver = program, driver
        self.met = collections.Counter()
        self.files = self.calls = 0
        self.last = "nothing"

    def file(self, label, file, text=None):
        """Compares the program's text for a file with the reference's, or with one given."""
        self.last = "program " + base64.b64encode(file).decode()
        expected = r.answer_to(file) if text is None else text
        got = self.program.text_for(file)
        self.files += 1
        if got != expected:
            raise wire.Difference("file (%s)\nexpected %r\ngot      %r" % (label, expected, got))
        self.met.update(met_by_file(label, file, expected))

    def call(self, call):
        """Compares a call's answer with the reference's, and gives it."""
        self.last = "call " + base64.b64encode(wire.pack_call(call)).decode()
        expected = wire.answer_by(r, call)
        got = self.driver.ask(call)
        self.calls += 1
        found = differences(expected, got)
        if found:
            raise wire.Difference("call of %s\n%s" % (wire.CALL_NAMES[call.name], "\n".join(found)))
        self.met.update(met_by_call(call, got))
        return got

    def again(self, line):
        """Compares one input that an earlier difference printed."""
        name, text = line.split()
        data = base64.b64decode(text)
        if name == "program":
            return self.file("again", data)
        place = iter(data)
        return self.call(wire.read_call(lambda length: bytes(next(place) for _ in range(length))))

    def part_a(self, seed, times, million):
        """The program's text on files."""
        for label, file, text in file_inputs.all_files(random.Random(seed), times):
            self.file(label, file, text)
        if million:
            for file, text in file_inputs.files_at_the_limit():
                self.file("at 1,000,000 steps", file, text)

    def part_b(self, seed, times):
        """The five C functions."""
        rng = random.Random(seed + 1)
        for call in call_inputs.directed_calls(rng, 24 * times):
            self.call(call)
        for call in call_inputs.paired_calls(rng, times):
            self.call(call)
        for call in call_inputs.mixed_calls(rng, 2000 * times):
            self.call(call)
        for call in call_inputs.full_calls(rng, times):
            self.call(call)
        for call in call_inputs.long_runs(rng):
            self.call(call)

    def part_c(self, seed, times):
        """Small searches by brute force."""
        met = lambda key: self.met.update([key])
        journeys.travel(random.Random(seed + 2), self.call, met, 400 * times)

    def report(self):
        """Prints the counts; gives what was met too seldom."""
        keys = required()
        for key in keys + sorted(key for key in self.met if key not in keys):
            print("%7d  %s" % (self.met[key], key))
        print("%d files, %d calls, no difference" % (self.files, self.calls))
        return [key for key in keys if self.met[key] < LEAST]


def arguments():
    """The command line."""
    parser = argparse.ArgumentParser(description=__doc__, formatter_class=argparse.RawDescriptionHelpFormatter)
    parser.add_argument("program", help="the command of the compiled program")
    parser.add_argument("driver", help="the command of the compiled driver")
    parser.add_argument("--longer", type=int, default=1, metavar="N", help="N times as many inputs")
    parser.add_argument("--seed", type=int, default=1071, help="another seed than the fixed one")
    parser.add_argument("--only", choices=("a", "b", "c"), help="one part alone; the counts are then not judged")
    parser.add_argument("--no-million", action="store_true", help="leave out the files of 1,000,000 steps")
    parser.add_argument("--again", metavar="FILE", help="compare only the input lines, as printed, in FILE")
    return parser.parse_args()


def compare(comparison, chosen):
    """Goes through what the command line asks for."""
    if chosen.again:
        with open(chosen.again) as lines:
            for line in lines:
                comparison.again(line)
        return
    if chosen.only in (None, "a"):
        comparison.part_a(chosen.seed, chosen.longer, not chosen.no_million)
    if chosen.only in (None, "b"):
        comparison.part_b(chosen.seed, chosen.longer)
    if chosen.only in (None, "c"):
        comparison.part_c(chosen.seed, chosen.longer)


def main():
    """Compares, reports, and says by its exit whether all was well."""
    chosen = arguments()
    begun = time.time()
    comparison = Comparison(Program(chosen.program), Driver(chosen.driver))
    try:
        compare(comparison, chosen)
        comparison.driver.end()
    except wire.Difference as difference:
        print("DIFFERENCE after %d files and %d calls: %s" % (comparison.files, comparison.calls, difference))
        print("To compare it again, put the next line into a file and give that with --again:")
        print(comparison.last)
        return 1
    seldom = comparison.report()
    print("%.0f s, seed %d" % (time.time() - begun, chosen.seed))
    if seldom and not (chosen.only or chosen.again):
        print("FAILED: met fewer than %d times: %s" % (LEAST, "; ".join(seldom)))
        return 1
    return 0


if __name__ == "__main__":
    sys.exit(main())
