#!/usr/bin/python3
"""Compares adapted programs with their originals under real MPI libraries.

adapt_libraries.py [--folder F] [--wiz PATH] [--jobs N] [--every N]
                   [--first N] [--sources S,S] [--libraries mpich,openmpi]
                   [--seconds N] [--cases | --only PROGRAM.c]

The programs are those of bench/real_programs.py (of the MPI Bugs Initiative
the correct ones), or with --cases those of adapt/tests. An adapted program
that finishes when it is recorded, and whose output is determined (no receive
raced), is compiled with mpicc.mpich and mpicc.openmpi and run on as many
ranks; what each rank prints has to be what the recording says, byte for
byte. A line for each that differs, which says so where the libraries differ
from each other, too; the last lines count. What became of each program is in
compared.json of the folder; a run takes from there what it has already, so
that it can be stopped and continued. Needs the packages mpich, libopenmpi-dev
and openmpi-bin.
"""
import collections
import multiprocessing
import os
import re
import subprocess
import sys
import tempfile

TOP = os.path.dirname(os.path.dirname(os.path.abspath(__file__)))
sys.path.insert(0, os.path.join(TOP, "bench"))
CASES = os.path.join(TOP, "adapt", "tests", "cases")
RANK = {"mpich": "PMI_RANK", "openmpi": "OMPI_COMM_WORLD_RANK"}
OPTIONS = {
    "mpich": [],
    "openmpi": ["--allow-run-as-root", "--oversubscribe"],
}
SECONDS = 300
SECONDS_TO_END = 10
KEPT = "compared.json"
SAME = "same"
APART = "the libraries differ, too; "


def outputs_of(printed, ranks):
    """What each rank printed, by a recording; None if it is no recording."""
    text, at, found = printed.encode("ascii", "replace"), 0, []
    for rank in range(ranks):
        head = re.compile(rb"rank %d output (\d+)\n" % rank).match(text, at)
        if head is None:
            return None
        end = head.end() + int(head[1])
        start = head.end()
        found.append(text[start:end])
        at = end + 1
    return found


def build(library, path, folder, headers):
    """Compiles a program; answers whether that went well."""
    words = [f"mpicc.{library}", "-w", "-std=gnu99", "-I", headers]
    words += ["-o", f"{folder}/{library}", path, "-lm"]
    done = subprocess.run(words, capture_output=True)
    return done.returncode == 0


def run(library, folder, ranks, seconds):
    """What each rank prints with a library, or why it is not known."""
    inner = f'exec "$0" > {folder}/{library}."${RANK[library]}"'
    words = [f"mpirun.{library}"] + OPTIONS[library] + ["-n", str(ranks)]
    words += ["sh", "-c", inner, f"{folder}/{library}"]
    mpirun = subprocess.Popen(
        words,
        cwd=folder,
        stdin=subprocess.DEVNULL,
        stdout=subprocess.DEVNULL,
        stderr=subprocess.DEVNULL,
    )
    try:
        mpirun.wait(seconds)
    except subprocess.TimeoutExpired:
        end(mpirun)
        return f"does not end in {seconds} seconds"
    found = []
    for rank in range(ranks):
        name = f"{folder}/{library}.{rank}"
        if not os.path.exists(name):
            return "does not begin"
        with open(name, "rb") as file:
            found.append(file.read())
    return found


def end(mpirun):
    """Ends mpirun, which ends its ranks if it is asked to end."""
    mpirun.terminate()
    try:
        mpirun.wait(SECONDS_TO_END)
    except subprocess.TimeoutExpired:
        mpirun.kill()
        mpirun.wait()


def printed_by(library, path, ranks, headers, seconds):
    """What each rank of a program prints, or why it is not known."""
    with tempfile.TemporaryDirectory() as folder:
        if not build(library, path, folder, headers):
            return "not compiled"
        return run(library, folder, ranks, seconds)


def compared(found, wanted):
    """How what each rank prints differs from what is wanted."""
    if isinstance(found, str):
        return found
    for rank, (mine, theirs) in enumerate(zip(wanted, found)):
        if mine != theirs:
            difference = first_difference(mine, theirs)
            return f"rank {rank} differs: {difference}"
    return SAME


def all_compared(outputs, wanted):
    """The same for each library; and whether the libraries differ, too."""
    known = [it for it in outputs.values() if not isinstance(it, str)]
    apart = any(it != known[0] for it in known)
    came = {}
    for library, found in outputs.items():
        came[library] = compared(found, wanted)
        if apart and came[library].startswith("rank "):
            came[library] = APART + came[library]
    return came


def first_difference(left, right):
    """The first lines in which two outputs differ."""
    mine, theirs = left.split(b"\n"), right.split(b"\n")
    for number, (one, other) in enumerate(zip(mine, theirs)):
        if one != other:
            return f"line {number + 1}, {one[:60]!r} and {other[:60]!r}"
    return f"{len(mine)} and {len(theirs)} lines"


def cases():
    """The cases of adapt/tests."""
    for name in sorted(os.listdir(CASES)):
        case, words = os.path.join(CASES, name), []
        if os.path.exists(f"{case}/args"):
            with open(f"{case}/args", encoding="ascii") as file:
                words = file.read().split()
        ranks = 2
        if "--ranks" in words:
            ranks = int(words[words.index("--ranks") + 1])
        more = [word for word in words if word == "--blocking"]
        yield "cases", os.path.join(case, "input.c"), ranks, more


def programs(options, measure):
    """What is to be compared, without what is known not to finish."""
    if options.cases:
        yield from cases()
        return
    rows = measure.kept_rows(options)
    for source, path, ranks, _ in measure.programs(options, ("", "OK")):
        row = rows.get(path)
        if options.only not in (None, path):
            continue
        if row is None or row.get("end") == "finished":
            yield source, path, ranks, ["--blocking"]


def examine(job):
    """What became of one program, with each library."""
    import real_programs as measure

    source, path, ranks, more, options = job
    text = measure.adapt(path, ranks, more)[0]
    if text is None:
        return source, path, {}
    printed = measure.record(options.wiz, text, ranks, "record")
    if not printed.endswith("finished"):
        return source, path, {}
    races = measure.record(options.wiz, text, ranks, "races")
    if re.search(r"raced [1-9]", races):
        return source, path, {"with neither": "not determined"}
    outputs = {
        library: printed_by(
            library, path, ranks, measure.HEADERS, options.seconds
        )
        for library in options.libraries.split(",")
    }
    return source, path, all_compared(outputs, outputs_of(printed, ranks))


def kind_of(told):
    """What is counted: the same, not determined, not compiled, .."""
    if told.startswith(APART):
        return "differs, as the libraries do"
    return "differs" if told.startswith("rank ") else told


def read_arguments(measure):
    """The options of a command line."""
    parser = measure.reader(__doc__)
    parser.add_argument("--libraries", default="mpich,openmpi")
    parser.add_argument("--seconds", type=int, default=SECONDS)
    parser.add_argument("--cases", action="store_true")
    parser.add_argument("--only", type=os.path.abspath)
    return parser.parse_args()


def main():
    """Compares, and prints what differs."""
    import real_programs as measure

    options = read_arguments(measure)
    keeps = not (options.cases or options.only)
    kept = measure.kept_rows(options, KEPT) if keeps else {}
    jobs = [(*it, options) for it in programs(options, measure)]
    todo = [it for it in jobs if it[1] not in kept]
    with multiprocessing.Pool(options.jobs) as pool:
        for source, path, came in pool.imap_unordered(examine, todo):
            kept[path] = came
            if keeps:
                measure.keep_rows(options, kept, KEPT)
    tell([(source, path, kept[path]) for source, path, *_ in jobs])


def tell(rows):
    """Prints what differs, and counts."""
    count = collections.Counter()
    for source, path, came in rows:
        for library, told in came.items():
            count[f"{source} {library} {kind_of(told)}"] += 1
            if told not in (SAME, "not determined"):
                print(f"{library} {path}: {told}")
    for name in sorted(count):
        print(f"{count[name]:5} {name}")


if __name__ == "__main__":
    main()
