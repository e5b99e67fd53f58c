"""The command line that both scripts share: FILE or standard input, OUT or standard output."""

import argparse
import sys

from .problem import Misfit, Problem


class Fault(Exception):
    """Why the work was not done, as the line for standard error."""


# How an error names a file.
# Without a path it is standard input or output.
def name_of(path, standard):
    return "standard " + standard if path is None else path


# The bytes of a file, or of standard input where the path is None; at most `most`, all if that is -1.
# Standard input is opened by its number, so that a closed one is an error like any other.
def read(path, most):
    try:
        with open(0 if path is None else path, "rb", closefd=path is not None) as source:
            return source.read(most)
    except OSError as error:
        raise Fault("%s: cannot be read: %s." % (name_of(path, "input"), error.strerror)) from None


# Writes bytes to a file, or to standard output where the path is None.
# Opened by its number too: nothing stays behind that Python would write out again at its end.
def write(path, data):
    try:
        with open(1 if path is None else path, "wb", closefd=path is not None) as out:
            out.write(data)
    except OSError as error:
        raise Fault("%s: cannot be written: %s." % (name_of(path, "output"), error.strerror)) from None


# Converts bytes; what is wrong with them is said with the name of their file.
# The line number stands after the name, as compilers write it.
def converted(name, convert, data):
    try:
        return convert(data)
    except Problem as problem:
        raise Fault("%s:%d: %s." % (name, problem.line, problem.text)) from None
    except Misfit as problem:
        raise Fault("%s: %s." % (name, problem)) from None


# Reads, converts and writes; returns the exit status, 2 for anything that went wrong.
# Nothing is written before everything was read and converted.
def run(about, convert, most=-1):
    parser = argparse.ArgumentParser(description=about)
    parser.add_argument("file", nargs="?", metavar="FILE", help="what to read; standard input if left out")
    parser.add_argument("-o", dest="out", metavar="OUT", help="where to write; standard output if left out")
    args = parser.parse_args()
    try:
        write(args.out, converted(name_of(args.file, "input"), convert, read(args.file, most)))
    except Fault as fault:
        print(fault, file=sys.stderr)
        return 2
    return 0
