#!/usr/bin/env python3
"""Logs of finer and coarser groups, over the programs of the examples.

Each program is recorded with all its ranks in one group, on one thread. Then, for every way to cut its ranks into two groups
(of programs of more than `RANKS` ranks: `WAYS` ways, drawn from a seed), it is recorded again under that plan, by the order file of
the first run. The first log, refined by the plan, has to be the two logs of the second run, byte for byte, and these joined have to be
the first log again. A program that is refused has no cuts. Needs `rt`, and the built program. Argument: the seed (1)."""
import os
import random
import subprocess
import sys
import tempfile

TOP = os.path.dirname(os.path.dirname(os.path.abspath(__file__)))
WIZ = os.path.join(TOP, "crates/wiz/out/wiz")
RANKS = 8
WAYS = 32
HALTED = 7
REFUSED = 5


def wiz(folder, *words):
    """Runs a command in a folder; answers its status."""
    return subprocess.run([WIZ, *words], cwd=folder, stdout=subprocess.DEVNULL, stderr=subprocess.DEVNULL).returncode


def contents(folder, name):
    with open(os.path.join(folder, name), "rb") as file:
        return file.read()


def write(folder, name, text):
    with open(os.path.join(folder, name), "w") as file:
        file.write(text)


def plan_of(groups):
    return "".join(" ".join(str(rank) for rank in group) + "\n" for group in groups)


def ranks_of(example, plan):
    """How many ranks a plan has: one more than its greatest number."""
    lines = contents(example, plan).decode().splitlines()
    return 1 + max(int(word) for line in lines for word in line.partition("#")[0].replace("-", " ").split())


def cuts(draw, ranks):
    """The ways to cut ranks into two groups, the first with rank 0."""
    if ranks <= RANKS:
        marks = range(1, 1 << (ranks - 1))
    else:
        marks = sorted(draw.sample(range(1, 1 << (ranks - 1)), WAYS))
    for mark in marks:
        second = [rank for rank in range(1, ranks) if mark >> (rank - 1) & 1]
        yield [rank for rank in range(ranks) if rank not in second], second


def faults_of(folder, groups):
    """What is wrong with one cut, if anything."""
    write(folder, "cut.plan", plan_of(groups))
    if wiz(folder, "record", "program.c", "cut.plan", "cut", "--order", "all.order") not in (0, HALTED):
        return "record"
    if wiz(folder, "refine", "all.0.srr", "cut.plan", "fine") != 0:
        return "refine"
    if any(contents(folder, f"fine.{k}.srr") != contents(folder, f"cut.{k}.srr") for k in range(2)):
        return "refined logs differ"
    if wiz(folder, "join", "cut.0.srr", "cut.1.srr", "coarse.srr") != 0:
        return "join"
    if contents(folder, "coarse.srr") != contents(folder, "all.0.srr"):
        return "the joined log differs"
    return None


def run(draw, folder, program, ranks):
    """Regroups one program; answers how many cuts were tried and what is wrong with which."""
    with open(os.path.join(folder, "program.c"), "wb") as file:
        file.write(program)
    write(folder, "all.plan", plan_of([range(ranks)]))
    status = wiz(folder, "record", "program.c", "all.plan", "all", "--serial")
    if status not in (0, HALTED):
        return 0, [] if status == REFUSED else ["record"]
    found = [(groups, faults_of(folder, groups)) for groups in cuts(draw, ranks)]
    return len(found), [f"{groups}: {fault}" for groups, fault in found if fault]


def main():
    draw = random.Random(int(sys.argv[1]) if len(sys.argv) > 1 else 1)
    tried, failed = 0, 0
    for name in sorted(os.listdir(os.path.join(TOP, "examples"))):
        example = os.path.join(TOP, "examples", name)
        files = sorted(os.listdir(example)) if os.path.isdir(example) else []
        sizes = [ranks_of(example, file) for file in files if file.endswith(".plan")]
        for file in files:
            if not file.endswith(".c") or not sizes:
                continue
            with tempfile.TemporaryDirectory() as folder:
                count, faults = run(draw, folder, contents(example, file), max(sizes))
            tried += count
            failed += len(faults)
            print(f"{name}/{file}: {count} cuts of {max(sizes)} ranks", *faults, sep="\n  ")
    print(f"{tried} cuts, {failed} failed")
    return 1 if failed or not tried else 0


if __name__ == "__main__":
    sys.exit(main())
