"""The command: its arguments, its limits, its messages."""
import argparse
import json
import os
import resource
import select
import shlex
import signal
import sys
import threading
import time

from .report import Refused, Report
from .translator import Translator

MOST_RANKS = 64
ROOM = 4096
MOST_ROOM = 262144
# Of the processor; and of a clock, where the machine has much other work.
SECONDS = 10
CLOCK_SECONDS = 15
MEMORY = 1 << 30
STACK = 256 << 20
DEPTH = 12000


class Arguments(argparse.ArgumentParser):
    """Arguments whose faults end with status 1."""

    def error(self, message):
        print(f"adapt: {message}", file=sys.stderr)
        sys.exit(1)


def bounded(least, most):
    """A reader of a number between two bounds."""

    def read(text):
        if not text.isdecimal() or len(text) > 9:
            raise argparse.ArgumentTypeError(f"{text} is no number")
        if not least <= int(text) <= most:
            raise argparse.ArgumentTypeError(
                f"{text} is not from {least} to {most}"
            )
        return int(text)

    return read


def read_arguments(words):
    """The options of a command line."""
    parser = Arguments(
        prog="adapt.py",
        description="Turns a C program with MPI calls into a program of "
        "wiz's language.",
    )
    parser.add_argument("file", metavar="PROGRAM.c")
    for name, kind, first, text in (
        ("ranks", MOST_RANKS, None, "the number of ranks that it runs on"),
        ("room", MOST_ROOM, ROOM, "the length of arrays of unknown length"),
    ):
        parser.add_argument(
            f"--{name}",
            type=bounded(1, kind),
            default=first,
            required=first is None,
            help=text,
        )
    for name, text in (
        ("blocking", "do nonblocking collectives at once"),
        ("synchronous", "do each MPI_Send as MPI_Ssend, Isend as Issend"),
        ("strict", "refuse what would be a note"),
    ):
        parser.add_argument(f"--{name}", action="store_true", help=text)
    for letter, name, text in (
        ("-I", "include", "a folder of headers"),
        ("-D", "define", "a name to be defined, NAME or NAME=VALUE"),
    ):
        parser.add_argument(
            letter, dest=name, action="append", default=[], help=text
        )
    parser.add_argument("-o", dest="out", help="where to write the program")
    return parser.parse_args(words)


def heading(words, options):
    """The comment on top of what is written."""
    text = "adapt/adapt.py " + shlex.join(without_out(words))
    text = text.replace("*/", "* /").replace("\n", " ")
    text = text.encode("ascii", "replace").decode("ascii")
    name = os.path.basename(options.file).replace("*/", "* /")
    name = name.encode("ascii", "replace").decode("ascii")
    return (
        f"/* Made from {name} for {options.ranks} ranks, by\n"
        f"   {text} */\n"
    )


def without_out(words):
    """The words of a command without where its output goes."""
    kept, skip = [], False
    for word in words:
        if skip:
            skip = False
        elif word == "-o":
            skip = True
        elif not word.startswith("-o"):
            kept.append(word)
    return kept


def translate(options, report):
    """The adapted text, or None where something was refused."""
    text = None
    try:
        text = Translator(options, report).translate()
    except Refused as refused:
        report.keep(refused)
    except RecursionError:
        report.keep(
            Refused(
                report.here, "nested too deeply", "use variables for parts"
            )
        )
    except MemoryError:
        report.keep(
            Refused(
                report.here,
                "it takes more than the memory of 1 GB",
                "make the program smaller",
            )
        )
    return None if report.refusals else text


def run(options, answer):
    """Translates, and keeps what is to be written and the messages."""
    report = Report(options.file, options.strict)
    try:
        answer["text"] = translate(options, report)
    except Exception as error:
        if os.environ.get("ADAPT_TRACE"):
            raise
        report.keep(
            Refused(
                report.here,
                f"not understood ({type(error).__name__})",
                "write it in another way",
            )
        )
    answer["changes"] = report.change_lines()
    answer["refusals"] = report.refusal_lines()


def serve(options, sink):
    """Translates within the limits, sends what comes of it, and ends."""
    try:
        os.setpgid(0, 0)
        resource.setrlimit(resource.RLIMIT_AS, (MEMORY, MEMORY))
        resource.setrlimit(resource.RLIMIT_CPU, (SECONDS, SECONDS + 1))
        resource.setrlimit(resource.RLIMIT_CORE, (0, 0))
        sys.setrecursionlimit(DEPTH)
        threading.stack_size(STACK)
        answer = {"text": None}
        worker = threading.Thread(target=run, args=(options, answer))
        worker.start()
        worker.join()
        with open(sink, "wb") as file:
            file.write(json.dumps(answer).encode("ascii"))
    finally:
        os._exit(0)


def received(source, seconds):
    """What a pipe brings until its end, or None if that is late."""
    late, parts = time.monotonic() + seconds, []
    while True:
        left = late - time.monotonic()
        if left <= 0 or not select.select([source], [], [], left)[0]:
            return None
        part = os.read(source, 1 << 16)
        if not part:
            return b"".join(parts)
        parts.append(part)


def limited(options, clock_seconds=CLOCK_SECONDS):
    """The text or None, the changes and the refusals.

    The translation is done by a child, so that its limits hold whatever it
    does; it and what it has started are ended with it.
    """
    source, sink = os.pipe()
    child = os.fork()
    if child == 0:
        os.close(source)
        serve(options, sink)
    os.close(sink)
    try:
        content = received(source, clock_seconds)
    finally:
        os.close(source)
        end_group(child)
        status = os.waitstatus_to_exitcode(os.waitpid(child, 0)[1])
    try:
        answer = json.loads(content or b"")
        return answer["text"], answer["changes"], answer["refusals"]
    except (KeyError, ValueError):
        late = clock_seconds if content is None else None
        told = why_ended(late, status)
        return None, [], [f"{options.file}:1: {told}"]


def end_group(child):
    """Ends a child and what it has started."""
    for end in (os.killpg, os.kill):
        try:
            end(child, signal.SIGKILL)
        except ProcessLookupError:
            pass


def why_ended(late, status):
    """What to say of a translation that gave no answer."""
    if late is not None:
        return (
            f"it takes more than {late} seconds: make the program smaller, "
            "or do it again when the machine has less to do"
        )
    if status == -signal.SIGXCPU:
        return (
            f"it takes more than {SECONDS} seconds of the processor: make "
            "the program smaller"
        )
    return "not understood: write it in another way"


def say(lines):
    """Prints messages on the error output, with what it can show."""
    for line in lines:
        shown = line.encode("ascii", "backslashreplace").decode("ascii")
        print(shown.replace("\n", " ").replace("\r", " "), file=sys.stderr)


def write(text, out):
    """Writes the adapted program; answers the status."""
    try:
        if out is None:
            sys.stdout.write(text)
            sys.stdout.flush()
        else:
            with open(out, "w", encoding="ascii", newline="\n") as file:
                file.write(text)
    except OSError as error:
        say(
            [
                f"adapt: {out or 'the output'} is not written "
                f"({error.strerror})"
            ]
        )
        return 1
    return 0


def main(words):
    """The command; answers its status."""
    options = read_arguments(words)
    text, changes, refusals = limited(options)
    say(changes)
    say(refusals)
    if text is None:
        return 1
    return write(heading(words, options) + text, options.out)
