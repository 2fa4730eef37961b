#!/usr/bin/python3
"""Mutated programs: adapt ends each with a status and a message.

adapt_hostile.py [--jobs N] [COUNT (10000)] [SEED (1)] [PROGRAM.c ..]

Mutates programs (those of adapt/tests, and those that are given): bytes,
lines, words and braces are changed, dropped, doubled or taken from another
program; some are only bytes. Each run of adapt has to end within 20 seconds
of the processor and 1 GB, with status 0 and a program, or with status 1, a
message and nothing written, and never with a traceback. The mutations are
drawn from the seed; a failing input is kept and named. Runs are made two at
a time, or N, each by a process that has loaded the tool already. The last
lines say how long the longest runs took, also by the clock, which counts
what else the machine does.
"""
import argparse
import heapq
import importlib
import multiprocessing
import os
import random
import re
import resource
import sys
import tempfile
import time

TOP = os.path.dirname(os.path.dirname(os.path.abspath(__file__)))
sys.path.insert(0, os.path.join(TOP, "adapt"))
command = importlib.import_module("passes.command")
CASES = os.path.join(TOP, "adapt", "tests", "cases")
SECONDS = 20
MEMORY = 1 << 30
SLOWEST = 5
WORDS = (
    "int char long double unsigned static const struct { } ( ) [ ] ; , * & "
    "-> . ++ += << >> ? : if else for while do switch case default break "
    "continue return goto sizeof malloc(4) NULL 0 -1 2147483648 0.5 'a' "
    '"text" MPI_INT MPI_COMM_WORLD MPI_Request MPI_Send MPI_Bcast printf '
    "#define #if #include typedef enum main argc argv \\ \" ' /* */ //"
).split()


def read(path):
    """A file's bytes."""
    with open(path, "rb") as file:
        return file.read()


def mutated(draw, programs):
    """One mutation of one of the programs."""
    kind = draw.randrange(12)
    if kind == 0:
        size = draw.randrange(2000)
        return bytes(draw.randrange(256) for _ in range(size))
    if kind == 1:
        return nested(draw)
    text = draw.choice(programs)
    for _ in range(draw.randrange(1, 6)):
        text = changed(draw, text, programs)
    return text


def nested(draw):
    """A program that is deeply nested in some way."""
    depth = draw.choice([10, 60, 200, 1000, 5000, 30000])
    left, inner, right = draw.choice(
        [
            ("(", "1", ")"),
            ("-", "1", ""),
            ("!", "x", ""),
            ("a[", "0", "]"),
            ("x ? 1 : ", "x", ""),
            ("x + (", "1", ")"),
            ("f(", "x", ")"),
            ("(int)", "x", ""),
            ("x && (", "x", ")"),
            ("*&", "x", ""),
        ]
    )
    if draw.randrange(3) == 0:
        block = draw.choice(
            [
                "{",
                "if (x) {",
                "while (x) {",
                "for (;;) {",
                "if (x) x = 1; else {",
                "switch (x) {case 1: ",
            ]
        )
        body = block * depth + "x = 2;" + "}" * depth
    else:
        body = f"x = {left * depth}{inner}{right * depth};"
    head = "int f(int k) { return k; }\nint main(void) { int x = 1, a[2]; "
    text = head + body + " }"
    return text.encode("ascii")


def changed(draw, text, programs):
    """One change of a text."""
    at = draw.randrange(len(text) + 1)
    end = min(len(text), at + draw.randrange(1, 40))
    kind = draw.randrange(9)
    if kind == 0:
        return text[:at] + bytes([draw.randrange(256)]) + text[end:]
    if kind == 1:
        return text[:at] + text[end:]
    if kind == 2:
        return text[:end] + text[at:end] + text[end:]
    if kind == 3:
        return text[:at]
    if kind == 4:
        word = f" {draw.choice(WORDS)} ".encode("ascii")
        return text[:at] + word + text[at:]
    lines = text.split(b"\n")
    line = draw.randrange(len(lines))
    if kind == 5:
        del lines[line]
    elif kind == 6:
        other = draw.choice(programs).split(b"\n")
        lines.insert(line, draw.choice(other))
    elif kind == 7:
        lines[line] *= draw.choice([2, 3, 50])
    else:
        found = re.findall(rb"\w+", text)
        if found:
            old, new = draw.choice(found), draw.choice(found)
            return text.replace(old, new, draw.choice([1, 1, 1000]))
    return b"\n".join(lines)


def attempt(job):
    """Runs adapt on one input; answers what is wrong or None, and times."""
    number, content, arguments = job
    with tempfile.TemporaryDirectory() as folder:
        path = os.path.join(folder, "input.c")
        with open(path, "wb") as file:
            file.write(content)
        fault, times = run_child(folder, path, arguments)
    return number, content, fault, times


def run_child(folder, path, arguments):
    """Runs adapt in a child; answers what is wrong or None, and times."""
    out, told = os.path.join(folder, "out"), os.path.join(folder, "told")
    began = time.monotonic()
    child = os.fork()
    if child == 0:
        become_adapt([path] + arguments, out, told)
    _, ended, usage = os.wait4(child, 0)
    spent = usage.ru_utime + usage.ru_stime
    times = (spent, time.monotonic() - began)
    status = os.waitstatus_to_exitcode(ended)
    written, messages = read(out), read(told)
    if spent > SECONDS:
        return f"{spent:.0f} seconds of the processor", times
    if usage.ru_maxrss > MEMORY >> 10:
        return f"{usage.ru_maxrss >> 10} MB", times
    if b"Traceback" in messages:
        return "a traceback", times
    if status == 0 and b"int main(void)" in written:
        return None, times
    if status == 1 and not written and messages.strip():
        return None, times
    told = f"status {status}, {len(written)} bytes, {messages[-200:]}"
    return told, times


def become_adapt(words, out, told):
    """Does what adapt.py does with these words, and ends."""
    status = 70
    try:
        for path, number in ((out, 1), (told, 2)):
            file = os.open(path, os.O_WRONLY | os.O_CREAT)
            os.dup2(file, number)
        resource.setrlimit(resource.RLIMIT_CORE, (0, 0))
        status = command.main(words)
        sys.stdout.flush()
        sys.stderr.flush()
    finally:
        os._exit(status)


def jobs_of(count, seed, programs):
    """The mutations of a seed, with arguments."""
    draw = random.Random(seed)
    for number in range(count):
        arguments = ["--ranks", str(draw.choice([1, 2, 4, 64]))]
        for more in ("--blocking", "--synchronous", "--strict"):
            arguments += [more] * (draw.randrange(8) == 0)
        yield number, mutated(draw, programs), arguments


def main():
    """Runs all mutations; the status says whether each ended well."""
    parser = argparse.ArgumentParser(description=__doc__)
    parser.add_argument("--jobs", type=int, default=2)
    parser.add_argument("count", type=int, nargs="?", default=10000)
    parser.add_argument("seed", type=int, nargs="?", default=1)
    parser.add_argument("programs", nargs="*")
    options = parser.parse_args()
    count, seed = options.count, options.seed
    paths = [
        os.path.join(CASES, name, "input.c")
        for name in sorted(os.listdir(CASES))
    ]
    programs = [read(path) for path in paths + options.programs]
    assert command.MEMORY == MEMORY
    faults, late, all_times = 0, 0, []
    with multiprocessing.Pool(options.jobs) as pool:
        todo = jobs_of(count, seed, programs)
        for ended in pool.imap_unordered(attempt, todo, 20):
            number, content, fault, times = ended
            all_times.append((times, number))
            late += times[1] > SECONDS
            if fault is not None:
                faults += 1
                kept = f"adapt-hostile-{seed}-{number}.c"
                with open(kept, "wb") as file:
                    file.write(content)
                print(f"{kept}: {fault}", flush=True)
    for (spent, by_clock), number in heapq.nlargest(SLOWEST, all_times):
        print(f"{number}: {spent:.1f} s, by the clock {by_clock:.1f} s")
    print(
        f"adapt: {count} mutated programs, {faults} faults; by the clock "
        f"{late} took more than {SECONDS} s"
    )
    return 1 if faults else 0


if __name__ == "__main__":
    sys.exit(main())
