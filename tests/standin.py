"""A stand-in for the compiled driver and program: the same input and output, worked out by a reference module.

  standin.py driver MODULE.py     reads calls in the driver's format from standard input and answers them
  standin.py program MODULE.py    reads a file from standard input and prints the program's text

With the true module it shows that differential.py agrees with itself; with a faulty copy, that it finds the fault.
"""

import importlib.util
import sys

import wire


def module_from(path):
    """The reference module in a file, whatever the file is called."""
    spec = importlib.util.spec_from_file_location("stood_in", path)
    module = importlib.util.module_from_spec(spec)
    spec.loader.exec_module(module)
    return module


def be_driver(reference):
    """Answers calls until the input ends."""
    while True:
        call = wire.read_call(sys.stdin.buffer.read)
        if call is None:
            return
        sys.stdout.buffer.write(wire.pack_answer(wire.answer_by(reference, call)))
        sys.stdout.buffer.flush()


def be_program(reference):
    """Prints the text for the file on standard input."""
    sys.stdout.write(reference.answer_to(sys.stdin.buffer.read()))


def main():
    """Takes the part named."""
    if len(sys.argv) != 3 or sys.argv[1] not in ("driver", "program"):
        sys.exit(__doc__)
    part = {"driver": be_driver, "program": be_program}[sys.argv[1]]
    part(module_from(sys.argv[2]))


if __name__ == "__main__":
    main()
