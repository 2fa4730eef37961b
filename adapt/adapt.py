#!/usr/bin/python3
"""Turns a C program with MPI calls into a program of wiz's language.

adapt.py PROGRAM.c --ranks N [--room K] [--blocking] [--synchronous]
         [--strict] [-I FOLDER] [-D NAME[=VALUE]] [-o OUT]

What was changed is told on the error output, a line each. What cannot be
had is refused there, all of it at once, with status 1; then nothing is
written. README.md beside this file says more.
"""
import sys

try:
    from passes.command import main
except ModuleNotFoundError as missing:
    if not (missing.name or "").startswith("pycparser"):
        raise
    print("adapt: pycparser is not there: run adapt/setup", file=sys.stderr)
    sys.exit(1)

if __name__ == "__main__":
    sys.exit(main(sys.argv[1:]))
