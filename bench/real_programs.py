#!/usr/bin/python3
"""Adapts the MPI programs that others wrote, and counts what comes of it.

real_programs.py [--folder F] [--wiz PATH] [--jobs N] [--every N] [--first N]
                 [--sources S,S] [--known]

Fetches the source packages of MPICH, Open MPI and SimGrid by apt-get into a
folder of its own, and makes the programs of the MPI Bugs Initiative there
with the generators that SimGrid's package has. Each program is adapted with
--blocking; what has no note of a call that is done at once is the same
without. What is adapted is recorded, and if it finishes its races are
listed; programs of the MPI Bugs Initiative also with --synchronous. Prints
for each source how many are adapted and accepted, the reasons of the rest
and the notes by count, and tables of the MPI Bugs Initiative by label. What
each program came to is in rows.json of the folder; a run takes from there
what it has already. It goes through the rest of a source in an order by
chance, so that what a run that was stopped has done is a sample; --known
tells only that.
"""
import argparse
import collections
import importlib
import json
import multiprocessing
import os
import random
import re
import shutil
import subprocess
import sys
import tempfile

TOP = os.path.dirname(os.path.dirname(os.path.abspath(__file__)))
sys.path.insert(0, os.path.join(TOP, "adapt"))
command = importlib.import_module("passes.command")
HEADERS = os.path.join(TOP, "bench", "real_programs")
PACKAGES = {"mpich": "mpich-", "openmpi": "openmpi-", "simgrid": "simgrid-"}
LINE = "deb-src http://deb.debian.org/debian bookworm main\n"
# Copies of another source's programs.
COPIES = {"openmpi": "/ompi/mca/io", "simgrid": "/mpich3-test"}
GENERATORS = "teshsuite/smpi/MBI"
TEST_LISTS = ("testlist", "testlist.in", "testlist.cvar", "testlist.dtp")
SECONDS = 600
AT_ONCE = "is done at once"
SENDS = re.compile(r"\bMPI_(Send|Isend)\(")
KEPT = "rows.json"


def fetch(folder):
    """The unpacked source packages, fetched where they are missing."""
    found = {}
    lists = os.path.join(folder, "lists")
    os.makedirs(os.path.join(lists, "partial"), exist_ok=True)
    line = os.path.join(folder, "sources.list")
    with open(line, "w", encoding="ascii") as file:
        file.write(LINE)
    options = [
        "-o",
        f"Dir::Etc::sourcelist={line}",
        "-o",
        "Dir::Etc::sourceparts=/dev/null",
        "-o",
        f"Dir::State::lists={lists}",
    ]
    updated = False
    for package, start in PACKAGES.items():
        if not unpacked(folder, start):
            if not updated:
                apt(["update"], options, folder)
                updated = True
            apt(["source", package], options, folder)
        found[package] = os.path.join(folder, unpacked(folder, start)[0])
    return found


def unpacked(folder, start):
    """The folders of unpacked packages whose names begin so."""
    return [
        name
        for name in sorted(os.listdir(folder))
        if name.startswith(start) and os.path.isdir(os.path.join(folder, name))
    ]


def apt(words, options, folder):
    """Runs apt-get in a folder."""
    subprocess.run(
        ["apt-get"] + options + words,
        cwd=folder,
        check=True,
        stdout=subprocess.DEVNULL,
        stderr=subprocess.DEVNULL,
    )


def generate(simgrid, folder):
    """Makes the programs of the MPI Bugs Initiative."""
    made = os.path.join(folder, "mbi")
    if not os.path.isdir(made):
        os.makedirs(made)
        scripts = os.path.join(simgrid, GENERATORS)
        for name in sorted(os.listdir(scripts)):
            if name.endswith("Generator.py"):
                script = os.path.join(os.path.abspath(scripts), name)
                subprocess.run(
                    [sys.executable, script],
                    cwd=made,
                    check=True,
                    stdout=subprocess.DEVNULL,
                )
    return made


def read(path):
    """A file's text."""
    with open(path, encoding="utf-8", errors="replace") as file:
        return file.read()


def programs_of_mbi(folder):
    """(path, ranks, label) of each program of the MPI Bugs Initiative."""
    for name in sorted(os.listdir(folder)):
        if name.endswith(".c"):
            path = os.path.join(folder, name)
            text = read(path)
            ranks = re.search(r"mpirun -np (\d+)", text)
            label = re.search(r"\| (?:ERROR: )?(\w+)", text)
            yield (
                path,
                int(ranks[1]) if ranks else 2,
                label[1] if label else "OK",
            )


def programs_of_package(source, folder):
    """(path, ranks, "") of each file with a main and a call of MPI."""
    listed = {}
    for at, _, names in os.walk(folder):
        for name in set(names) & set(TEST_LISTS):
            for line in read(os.path.join(at, name)).split("\n"):
                words = line.split()
                if len(words) > 1 and words[1].isdigit():
                    program = os.path.join(at, words[0] + ".c")
                    listed.setdefault(program, int(words[1]))
    words = ["grep", "-rlE", "--include=*.c", r"\bmain *\(", folder]
    found = subprocess.run(words, capture_output=True, text=True).stdout
    for path in sorted(found.split("\n")[:-1]):
        copied = COPIES.get(source, "\0") in os.path.dirname(path)
        if not copied and re.search(r"MPI_|MTest_", read(path)):
            yield path, min(64, listed.get(path, 2)), ""


def programs(options, labels=None):
    """(source, path, ranks, label) of what a command asks for."""
    packages = fetch(options.folder)
    for source in options.sources.split(","):
        if source == "mbi":
            made = generate(packages["simgrid"], options.folder)
            found = programs_of_mbi(made)
        else:
            found = programs_of_package(source, packages[source])
        found = [it for it in found if labels is None or it[2] in labels]
        chosen = slice(options.first, None, options.every)
        for path, ranks, label in found[chosen]:
            yield source, path, ranks, label


def adapt(path, ranks, more):
    """The adapted text or None, the changes and the refusals."""
    words = [path, "--ranks", str(ranks), "-I", HEADERS] + more
    options = command.read_arguments(words)
    text, changes, refusals = command.limited(options, SECONDS)
    if text is not None:
        text = command.heading(words, options) + text
    return text, changes, refusals


def record(wiz, text, ranks, verb):
    """What `wiz record` or `wiz races` prints of a text."""
    with tempfile.TemporaryDirectory() as folder:
        with open(f"{folder}/p.c", "w", encoding="ascii") as file:
            file.write(text)
        with open(f"{folder}/p.plan", "w", encoding="ascii") as file:
            file.write("".join(f"{rank}\n" for rank in range(ranks)))
        words = [wiz, verb, "p.c", "p.plan"]
        words += ["out"] if verb == "record" else []
        try:
            done = subprocess.run(
                words + ["--serial"],
                cwd=folder,
                capture_output=True,
                timeout=SECONDS,
            )
        except subprocess.TimeoutExpired:
            return f"more than {SECONDS} seconds"
    return done.stdout.decode("ascii", "replace").rstrip("\n")


def halt_of(printed):
    """The last line of a recording, without its numbers."""
    last = printed.rsplit("\n", 1)[-1]
    last = re.sub(r"^halted ", "", last)
    return re.sub(r" (rank|code|start|over) \d+", "", last)


def end_of(wiz, text, ranks):
    """How a recording ends, and whether it finishes with races."""
    printed = record(wiz, text, ranks, "record")
    end, raced = halt_of(printed), False
    if end == "finished" and "MPI_ANY_SOURCE" in text:
        races = record(wiz, text, ranks, "races")
        raced = bool(re.search(r"raced [1-9]", races))
    accepted = re.search(r"(?m)^(finished|halted )", printed)
    return bool(accepted), end, raced


def measure(job):
    """All that comes of one program."""
    source, path, ranks, label, wiz = job
    text, changes, refusals = adapt(path, ranks, ["--blocking"])
    notes = [it.split(": note: ")[1] for it in changes if ": note: " in it]
    row = {
        "source": source,
        "path": path,
        "label": label,
        "ranks": ranks,
        "notes": notes,
        "blocking": any(AT_ONCE in note for note in notes),
        "rest": refusals[0] if refusals else None,
    }
    if text is None:
        return row
    row["accepted"], row["end"], row["raced"] = end_of(wiz, text, ranks)
    row["synchronous"] = [row["end"], row["raced"]]
    if label and SENDS.search(text):
        text = adapt(path, ranks, ["--blocking", "--synchronous"])[0]
        row["synchronous"] = end_of(wiz, text, ranks)[1:]
    return row


def short(line):
    """A refusal or a note without places, names and numbers."""
    line = re.sub(r"^\S*?:\d+: ", "", line)
    line = re.sub(r"^adapt's \S+:\d+: ", "", line).split(": ")[0]
    line = re.sub(r"'[^']*'|\b\d+\b", "N", line)
    line = re.sub(r"^\w+, of the type", "a variable of the type", line)
    line = re.sub(r"^(.*) near .*", r"\1", line)
    return re.sub(r"^\w+ (is|has|points|moves|means)\b", r"X \1", line)


def counted(title, lines, most):
    """Prints the most frequent lines."""
    print(f"\n{title}")
    for line, count in collections.Counter(lines).most_common(most):
        print(f"  {count:5} {line}")


def tell(rows, most):
    """Prints the tables."""
    sources = list(dict.fromkeys(row["source"] for row in rows))
    print("source programs adapted with--blocking refused-by-wiz")
    for source in sources + ["all"]:
        mine = [it for it in rows if source in (it["source"], "all")]
        made = [it for it in mine if it.get("accepted")]
        plain = [it for it in made if not it["blocking"]]
        bad = [it for it in mine if it.get("accepted") is False]
        print(source, len(mine), len(plain), len(made), len(bad))
        for row in bad:
            print("  ", row["path"], row["end"])
    for source in sources:
        mine = [it for it in rows if it["source"] == source]
        counted(
            f"{source}: first refusals, with --blocking",
            [short(it["rest"]) for it in mine if it.get("rest")],
            most,
        )
        tell_notes(source, [it for it in mine if it.get("accepted")], most)
        counted(
            f"{source}: ends",
            [it["end"] for it in mine if it.get("accepted")],
            most,
        )
    tell_labels([it for it in rows if it["label"] and it.get("accepted")])


def tell_notes(source, rows, most):
    """Prints how many programs have each note, with each choice."""
    plain = [it for it in rows if not it["blocking"]]
    for told, mine in ((" --blocking", rows), ("", plain)):
        kinds = [{short_note(note) for note in it["notes"]} for it in mine]
        counted(
            f"{source}: notes{told}, of {len(mine)} programs",
            [note for found in kinds for note in sorted(found or {"none"})],
            most,
        )


def short_note(note):
    """A note without its names and numbers."""
    note = re.sub(r"\b\d+\b", "N", note)
    note = re.sub(
        r"^\S+ (is|has) (one|room|several|whole|set)", r"X \1 \2", note
    )
    note = re.sub(
        r"^MPI_\w+ (for a buffer|as MPI_INT|is done at once)", r"T \1", note
    )
    return re.sub(r"as MPI_[A-Z][a-z]\w*$", "as its blocking one", note)


def tell_labels(rows):
    """Prints the ends by label, with each choice of switches."""
    for synchronous in (False, True):
        for blocking in (False, True):
            told = " --blocking" * blocking + " --synchronous" * synchronous
            print(f"\nlabels and ends{told}")
            mine = [it for it in rows if blocking or not it["blocking"]]
            for label in sorted({it["label"] for it in mine}):
                same = [it for it in mine if it["label"] == label]
                tell_ends(label, [shown_end(it, synchronous) for it in same])


def shown_end(row, synchronous):
    """The end of a program, with its races."""
    end, raced = row["end"], row["raced"]
    if synchronous:
        end, raced = row["synchronous"]
    return end + " and raced" * raced


def tell_ends(label, ends):
    """Prints the ends of the programs of a label."""
    counts = collections.Counter(ends).most_common()
    shown = ", ".join(f"{end} {count}" for end, count in counts)
    print(f"  {label} {len(ends)}: {shown}")


def reader(description):
    """A reader of the arguments that say which programs are meant."""
    parser = argparse.ArgumentParser(description=description)
    folder, wiz = "/tmp/real_programs", os.path.join(TOP, "crates/wiz/out/wiz")
    parser.add_argument("--folder", type=os.path.abspath, default=folder)
    parser.add_argument("--wiz", default=wiz)
    parser.add_argument("--jobs", type=int, default=2)
    parser.add_argument("--every", type=int, default=1)
    parser.add_argument("--first", type=int, default=0)
    parser.add_argument("--sources", default="mbi,mpich,openmpi,simgrid")
    return parser


def kept_rows(options, name=KEPT):
    """What the programs came to in earlier runs, by their paths."""
    os.makedirs(options.folder, exist_ok=True)
    kept = os.path.join(options.folder, name)
    return json.loads(read(kept)) if os.path.exists(kept) else {}


def keep_rows(options, rows, name=KEPT):
    """Keeps them for later runs."""
    kept = os.path.join(options.folder, name)
    with open(kept + ".new", "w", encoding="ascii") as file:
        json.dump(rows, file)
    os.replace(kept + ".new", kept)


def main():
    """Fetches, measures and prints."""
    parser = reader(__doc__)
    parser.add_argument("--most", type=int, default=25)
    parser.add_argument("--known", action="store_true")
    options = parser.parse_args()
    if not shutil.which(options.wiz):
        sys.exit(f"{options.wiz} is not built")
    rows = kept_rows(options)
    jobs = [(*it, options.wiz) for it in programs(options)]
    todo = [it for it in jobs if it[1] not in rows and not options.known]
    random.Random(1).shuffle(todo)
    todo.sort(key=lambda it: options.sources.index(it[0]))
    with multiprocessing.Pool(options.jobs) as pool:
        for number, row in enumerate(pool.imap_unordered(measure, todo)):
            rows[row["path"]] = row
            if number % 20 == 19 or number + 1 == len(todo):
                keep_rows(options, rows)
    tell([rows[it[1]] for it in jobs if it[1] in rows], options.most)


if __name__ == "__main__":
    main()
