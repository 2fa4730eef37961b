#!/usr/bin/env python3
"""Hostile input: mutations of logs and programs, files of odd bytes, programs and logs at their limits, little memory, a full disk.

Each run of `wiz` has to end within a bounded time and memory, with a status of its command, with nothing on its error output but what a
refusal shows there, and without touching a file that its arguments do not name. The mutations are drawn from a seed, so a failure can be
repeated; the bytes of a failing input are kept. Needs `rt`, and root for the full disk. Arguments: how many mutations (10000), the
seed (1), and the parts to be done (all: mutations odd limits memory disk)."""
import hashlib
import os
import random
import resource
import shutil
import subprocess
import sys
import tempfile
import time

TOP = os.path.dirname(os.path.dirname(os.path.abspath(__file__)))
WIZ = os.path.join(TOP, "crates/wiz/out/wiz")
SECONDS = 20
MEMORY = 2 << 30
READ = {0, 1, 2, 3, 4, 8, 11, 12}
STATUSES = {
    "replay": READ | {5, 9, 10},
    "show": READ,
    "stats": READ,
    "convert": READ,
    "refine": READ | {5, 6, 9, 10, 13},
    "join": READ | {5, 9, 10, 13},
    "demo": {0, 1, 4, 11},
    "record": {0, 1, 2, 3, 4, 5, 6, 7, 11, 12},
    "check": {0, 1, 2, 3, 4, 5, 6, 7, 11, 12},
    "races": {0, 1, 2, 3, 4, 5, 6, 7, 11, 12, 14},
    "advise": {0, 1, 2, 3, 4, 5, 6, 7, 11, 12},
    "diff": READ | {5, 9, 10, 13, 15},
    "waits": {0, 1, 2, 3, 4, 5, 6, 7, 11, 12},
    "watch": READ | {5, 9, 10},
    "at": READ | {5, 9, 10},
    "where": READ | {5, 9, 10},
}


def contents(folder):
    """What is in a folder, by name."""
    found = {}
    for name in sorted(os.listdir(folder)):
        with open(os.path.join(folder, name), "rb") as file:
            found[name] = file.read()
    return found


def is_shown(status, text):
    """Whether this is what a refusal shows on the error output: forms of commands, or a line with a caret under it."""
    return status == 1 and text.startswith(b"wiz ") or status == 5 and text.count(b"\n") == 2 and text.endswith(b"^\n")


def run(words, folder, made=(), memory=MEMORY, seconds=SECONDS):
    """Runs a command in a folder; answers its status and what is wrong, if anything. Files that begin with one of `made` may come."""
    before = contents(folder)
    limit = lambda: resource.setrlimit(resource.RLIMIT_AS, (memory, memory))
    try:
        done = subprocess.run([WIZ] + words, cwd=folder, capture_output=True, timeout=seconds, preexec_fn=limit)
    except subprocess.TimeoutExpired:
        return None, f"more than {seconds} seconds"
    after = contents(folder)
    touched = [name for name in set(before) | set(after) if before.get(name) != after.get(name) and not name.startswith(tuple(made))]
    for name in after:
        if name not in before:
            os.remove(os.path.join(folder, name))
    if done.returncode not in STATUSES.get(words[0] if words else "", {1}):
        return done.returncode, f"status {done.returncode}"
    if touched:
        return done.returncode, f"touched {touched}"
    if done.stderr and not is_shown(done.returncode, done.stderr):
        return done.returncode, f"error output {done.stderr[:80]!r}"
    return done.returncode, None


def mutated(draw, data):
    """One to four changes of bytes: one raised, one drawn, some taken out, some put in again elsewhere, the end cut off."""
    data = bytearray(data)
    for _ in range(draw.randint(1, 4)):
        at = draw.randrange(len(data) + 1)
        size = min(draw.choice([1, 1, 1, 2, 4, 8, 32]), len(data) - at)
        kind = draw.randrange(6)
        if kind == 0 and at < len(data):
            data[at] = (data[at] + 1) % 256
        elif kind == 1 and at < len(data):
            data[at] = draw.randrange(256)
        elif kind == 2:
            del data[at : at + size]
        elif kind == 3:
            to = draw.randrange(len(data) + 1)
            data[to:to] = data[at : at + size]
        elif kind == 4:
            data[at:at] = bytes(draw.choice(b"0123456789 =.,:-\n{}()[];&*") for _ in range(size or 1))
        elif kind == 5 and draw.random() < 0.2:
            del data[at:]
    return bytes(data)


class Table:
    """Counts of statuses, and the failures."""

    def __init__(self):
        self.statuses = {}
        self.failures = 0

    def add(self, words, data, status, wrong):
        key = (words[0] if words else "", status)
        self.statuses[key] = self.statuses.get(key, 0) + 1
        if wrong:
            self.failures += 1
            kept = os.path.join(tempfile.gettempdir(), f"hostile.{self.failures}")
            with open(kept, "wb") as file:
                file.write(data)
            print(f"{str(words)[:80]}: {wrong}; the input is in {kept}")

    def show(self, title):
        rows = ", ".join(f"{name} {status}: {count}" for (name, status), count in sorted(self.statuses.items(), key=str))
        print(f"{title}: {rows}")
        self.statuses = {}


def write(folder, name, data):
    with open(os.path.join(folder, name), "wb") as file:
        file.write(data)


def recorded(work, source, plan, order=None):
    """The logs of a recording, by name."""
    folder = tempfile.mkdtemp(dir=work)
    shutil.copy(os.path.join(TOP, "examples", source), os.path.join(folder, "p.c"))
    write(folder, "plan", plan)
    words = ["record", "p.c", "plan", "run"]
    if order is None:
        words.append("--serial")
    else:
        write(folder, "turns", order)
        words += ["--order", "turns"]
    subprocess.run([WIZ] + words, cwd=folder, check=False, capture_output=True)
    return {name: data for name, data in contents(folder).items() if name.endswith(".srr")}


def converted(work, log):
    """A log in format 1."""
    folder = tempfile.mkdtemp(dir=work)
    write(folder, "log", log)
    subprocess.run([WIZ, "convert", "log", "lines", "--text"], cwd=folder, check=True)
    return contents(folder)["lines"]


def sealed(data):
    """A text in format 2 with the digest of what stands before its last 32 bytes."""
    return data[:-32] + hashlib.sha256(data[:-32]).digest()


def log_mutations(draw, work, count, table):
    """Mutations of three logs in both formats. A digest refuses most of those in format 2, so half of them get a new one."""
    race, split = recorded(work, "race/race.c", b"0 1\n2\n"), recorded(work, "split/split.c", b"0 1\n2\n3\n")
    logs = [
        open(os.path.join(TOP, "examples/first/first.srr"), "rb").read(),
        race["run.0.srr"],
        split["run.0.srr"],
    ]
    logs += [converted(work, log) for log in logs]
    folder = tempfile.mkdtemp(dir=work)
    for name, data in {"two": b"0\n1\n", "three": b"0\n1\n2\n", "four": b"0\n1\n2-3\n"}.items():
        write(folder, name, data)
    write(folder, "same", race["run.0.srr"])
    write(folder, "race", race["run.1.srr"])
    write(folder, "split", split["run.1.srr"])
    for _ in range(count):
        data = mutated(draw, draw.choice(logs))
        if data.startswith(b"srr 2") and draw.random() < 0.5:
            data = sealed(data)
        write(folder, "log", data)
        words = draw.choice([
            ["replay", "log", "--serial"],
            ["replay", "log"],
            ["show", "log"],
            ["stats", "log"],
            ["convert", "log", "new"],
            ["refine", "log", draw.choice(["two", "three", "four"]), "new"],
            ["join", "log", draw.choice(["race", "split"]), "new"],
            ["diff", draw.choice(["same", "race", "split"]), "log"],
            ["watch", "log", str(draw.randrange(4)), draw.choice(["rank", "k", "status"])],
            ["at", "log", f"{draw.randrange(4)}:{draw.randrange(12)}"],
            ["where", "log", f"{draw.randrange(4)}.{draw.randrange(8)}"],
        ])
        table.add(words, data, *run(words, folder, made=("new",)))
    table.show("logs")


# Turns of the programs that are mutated, some of which pick.
TURNS = b"0\n1\n1\n2 from 1\n0 index 1\n3\n0 from 2\n0\n1 from 0\n2\n3 index 0\n"


def program_mutations(draw, work, count, table):
    names = ["race/race.c", "split/split.c", "blocks/blocks.c", "halo/halo.c", "workers/workers.c"]
    texts = [open(os.path.join(TOP, "examples", name), "rb").read() for name in names]
    folder = tempfile.mkdtemp(dir=work)
    write(folder, "plan", b"0 1\n2\n3\n")
    for _ in range(count):
        data = mutated(draw, draw.choice(texts))
        write(folder, "p.c", data)
        words = draw.choice([
            ["record", "p.c", "plan", "run", "--serial"],
            ["record", "p.c", "plan", "run"],
            ["check", "p.c", "plan", "--serial"],
            ["races", "p.c", "plan", "--serial"],
            ["races", "p.c", "plan", "--serial", "--orders", "run"],
            ["advise", "p.c", "plan", "2", "--serial"],
            ["waits", "p.c", "plan", "--serial"],
        ])
        table.add(words, data, *run(words, folder, made=("run.",)))
    table.show("programs")
    for _ in range(count // 10):
        write(folder, "p.c", draw.choice(texts))
        data = mutated(draw, TURNS)
        write(folder, "turns", data)
        words = draw.choice([["record", "p.c", "plan", "run"], ["races", "p.c", "plan"], ["waits", "p.c", "plan"]])
        table.add(words, data, *run(words + ["--order", "turns"], folder, made=("run.",)))
    table.show("orders")


def odd_files(draw, work, table):
    """Files of no bytes, of random bytes, of the greatest length and of one byte more, in the place of each input file."""
    folder = tempfile.mkdtemp(dir=work)
    good = {"p.c": b"int main(void) { return 0; }\n", "plan": b"0 1\n", "turns": b"0\n1\n"}
    good["log"] = open(os.path.join(TOP, "examples/first/first.srr"), "rb").read()
    for name, data in good.items():
        write(folder, name, data)
    text, order, log = 65536, 8388608, 134217728
    for limit, name, words in [
        (log, "log", ["show", "log"]),
        (log, "log", ["stats", "log"]),
        (log, "log", ["convert", "log", "run.new"]),
        (log, "log", ["replay", "log", "--serial"]),
        (log, "log", ["diff", "log", "log"]),
        (log, "log", ["watch", "log", "0", "x"]),
        (log, "log", ["at", "log", "0:1"]),
        (log, "log", ["where", "log", "0.0"]),
        (log, "log", ["replay", "log"]),
        (text, "p.c", ["replay", "log", "--program", "p.c", "--serial"]),
        (text, "p.c", ["record", "p.c", "plan", "run", "--serial"]),
        (text, "p.c", ["check", "p.c", "plan"]),
        (text, "p.c", ["races", "p.c", "plan", "--serial"]),
        (text, "p.c", ["advise", "p.c", "plan", "1", "--serial"]),
        (text, "p.c", ["waits", "p.c", "plan", "--serial"]),
        (text, "plan", ["record", "p.c", "plan", "run", "--serial"]),
        (text, "plan", ["check", "p.c", "plan"]),
        (order, "turns", ["record", "p.c", "plan", "run", "--order", "turns"]),
        (order, "turns", ["races", "p.c", "plan", "--order", "turns"]),
        (order, "turns", ["advise", "p.c", "plan", "1", "--order", "turns"]),
        (order, "turns", ["waits", "p.c", "plan", "--order", "turns"]),
    ]:
        odd = [b"", bytes(1), bytes(limit), bytes(limit + 1), draw.randbytes(min(limit, 1 << 20)), b"\n" * limit, b"(" * limit, b"0\n" * (limit // 2)]
        if name == "turns":
            odd += [b"0 from 1\n" * (limit // 9), b"0 index 999999\n" * (limit // 15), b"0 from " * (limit // 7)]
        if name == "log":
            odd += [b"srr 1\n" + bytes(limit - 6), b"srr 2\n" + bytes(limit - 6), b"srr 2\n" + draw.randbytes(1 << 20)]
        for data in odd:
            write(folder, name, data)
            table.add(words, data[:64], *run(words, folder, made=("run.",)))
        write(folder, name, good[name])
    table.show("odd files")


def odd_words(work, table):
    """Arguments that are no command's, and names of what is no ordinary file."""
    folder = tempfile.mkdtemp(dir=work)
    write(folder, "p.c", b"int main(void) { return 0; }\n")
    write(folder, "plan", b"0 1\n")
    long = "x" * 5000
    for words, wanted in [
        ([], {1}),
        ([""], {1}),
        (["show"] * 1000, {1}),
        (["show", b"\xff"], {1}),
        (["show", ""], {2, 3}),
        (["show", long], {2, 3}),
        (["show", "."], {2, 3}),
        (["show", "p.c/log"], {2, 3}),
        (["show", "/dev/null"], {8}),
        (["show", "/dev/zero"], {3, 12}),
        (["replay", "/dev/zero"], {3, 12}),
        (["diff", "plan", "/dev/zero"], {3, 12}),
        (["diff", "/dev/null", "/dev/null"], {8}),
        (["waits", "p.c", "/dev/zero"], {3, 12}),
        (["record", "/dev/zero", "plan", "run"], {3, 12}),
        (["record", "p.c", "/dev/zero", "run"], {3, 12}),
        (["record", "p.c", "plan", "run", "--order", "/dev/zero"], {3, 12}),
        (["record", "p.c", "plan", "no/run"], {4}),
        (["record", "p.c", "plan", long], {4}),
        (["record", "p.c", "plan", "run", "--order", "plan", "--serial"], {1}),
        (["replay", "plan", "--break", "64:0"], {1}),
        (["replay", "plan", "--break", "99999999999999999999:0"], {1}),
        (["watch", "/dev/zero", "0", "x"], {3, 12}),
        (["watch", "plan", "64", "x"], {1}),
        (["watch", "plan", "0", b"\xff"], {1}),
        (["watch", "plan", "0", long], {8}),
        (["at", "/dev/null", "0:0"], {8}),
        (["at", "plan", "64:0"], {1}),
        (["at", "plan", "0:99999999999999999999"], {1}),
        (["where", "plan", "64.0"], {1}),
        (["where", "plan", "0.99999999999999999999"], {1}),
        (["where", "plan", "0:0"], {1}),
        (["races", "p.c", "plan", "--orders"], {1}),
        (["advise", "p.c", "plan", "0"], {1}),
        (["demo", "0", "1001"], {1}),
        (["demo", "2147483648", "1"], {1}),
    ]:
        status, wrong = run(words, folder, made=("run.",))
        if status is not None and status not in wanted:
            wrong = wrong or f"status {status}"
        table.add(words, b"", status, wrong)
    table.show("odd arguments")


def body(declarations, statements):
    return f"int main(void){{int r,n,i,x=0;{declarations} MPI_Comm_rank(MPI_COMM_WORLD,&r);MPI_Comm_size(MPI_COMM_WORLD,&n);{statements} return 0;}}"


def parentheses(count):
    return "x=" + "(" * count + "x" + ")" * count + ";"


def limit_programs():
    """Programs at a limit and, where there is one more, behind it: name, text, plan, the statuses that may come."""
    one, two, every = b"0\n", b"0 1\n", b"0-63\n"
    alone = "".join(f"{rank}\n" for rank in range(64)).encode()
    recursive = "int f(int n){int x;if(n>1)x=f(n-1);return n;}int main(void){int x;x=f(%d);return 0;}"
    printing = body("", 'for(i=0;i<%d;i++)printf("0123456789abcde\\n");')
    receive = "if(r==1)MPI_Recv(a,65536,MPI_INT,0,1,MPI_COMM_WORLD,MPI_STATUS_IGNORE);"
    sending = body("int a[70000];", "if(r==0)MPI_Send(a,%d,MPI_INT,1,1,MPI_COMM_WORLD);" + receive)
    posting = "for(i=0;i<200000;i++)MPI_Irecv(&x,0,MPI_INT,MPI_PROC_NULL,1,MPI_COMM_WORLD,&q[i]);"
    padded = b"int main(void){return 0;}"
    passing = body("", "MPI_Send(&r,1,MPI_INT,(r+1)%n,1,MPI_COMM_WORLD);MPI_Recv(&x,1,MPI_INT,(r+n-1)%n,1,MPI_COMM_WORLD,MPI_STATUS_IGNORE);")
    return [
        ("parentheses", body("", parentheses(63)), one, {0}),
        ("one more", body("", parentheses(64)), one, {5}),
        ("30,000 parentheses", body("", parentheses(30000)), one, {5}),
        ("blocks", body("", "{" * 64 + "}" * 64), one, {0}),
        ("one more", body("", "{" * 65 + "}" * 65), one, {5}),
        ("30,000 blocks", body("", "{" * 30000 + "}" * 30000), one, {5}),
        ("30,000 signs", body("", "x=" + "-!" * 15000 + "x;"), one, {5}),
        ("else if", body("", "if(x==1);" + "else if(x==1);" * 4000), one, {5}),
        ("30,000 operators", body("", "x=x" + "+1" * 30000 + ";"), one, {0}),
        ("30,000 operators of two kinds", body("", "x=x" + "+1*x" * 15000 + ";"), one, {0}),
        ("16,000 statements", body("", "x++;" * 16000), one, {0}),
        ("values in braces", body("int a[32000]={" + "1," * 31999 + "1};", ""), one, {0}),
        ("names", body("".join(f"int v{number};" for number in range(5500)), ""), one, {0}),
        ("functions", "".join(f"int f{number}(void){{return 0;}}" for number in range(2200)) + "int main(void){return 0;}", one, {0}),
        ("parameters", "int f(" + ",".join(f"int p{number}" for number in range(5500)) + "){return 0;}int main(void){return 0;}", one, {0}),
        ("values of printf", body("", 'printf("' + "%d" * 15000 + '"' + ",x" * 15000 + ");"), one, {0, 7}),
        ("a text of the greatest length", padded + b" " * (65536 - len(padded)), one, {0}),
        ("one byte more", padded + b" " * (65537 - len(padded)), one, {12}),
        ("cells", "int main(void){int a[262144];return 0;}", one, {0}),
        ("one more", "int main(void){int a[262144];int b;return 0;}", one, {7}),
        ("cells of 64 ranks", "int main(void){int a[262144];a[262143]=1;return 0;}", every, {0}),
        ("too long an array", "int main(void){int a[262145];return 0;}", one, {5}),
        ("calls deep", recursive % 99, one, {0}),
        ("one more", recursive % 100, one, {7}),
        ("steps", body("", "while(1);"), two, {7}),
        ("output", printing % 4096, one, {0}),
        ("one more", printing % 4097, one, {7}),
        ("output of 64 ranks", printing % 4096, every, {0}),
        ("ints of a message", sending % 65536, two, {0}),
        ("one more", sending % 65537, two, {7}),
        ("events", body("", "while(1)MPI_Iprobe(0,1,MPI_COMM_WORLD,&x,MPI_STATUS_IGNORE);"), one, {7}),
        ("communicators", body("MPI_Comm c;", "for(i=0;i<200000;i++)MPI_Comm_dup(MPI_COMM_WORLD,&c);"), two, {0}),
        ("splits of 64 ranks", body("MPI_Comm c;", "for(i=0;i<500;i++)MPI_Comm_split(MPI_COMM_WORLD,r%(i%64+1),0-r,&c);"), every, {0, 7}),
        ("a gather of the greatest size", body("int a[262100];", "MPI_Gather(a,4095,MPI_INT,a,4095,MPI_INT,0,MPI_COMM_WORLD);"), every, {0}),
        ("requests", body("MPI_Request q[200000];", posting + "MPI_Waitall(200000,q,MPI_STATUSES_IGNORE);"), one, {0}),
        ("64 ranks", passing, every, {0}),
        ("64 groups", passing, alone, {0}),
        ("65 ranks", passing, b"0-64\n", {6}),
        ("a plan of the greatest length", passing, every + b"#" + b" " * (65536 - len(every) - 2) + b"\n", {0}),
        ("an abort of 64 ranks", body("", "MPI_Abort(MPI_COMM_WORLD,r);"), every, {7}),
        ("64 ranks that wait", body("", "MPI_Recv(&x,1,MPI_INT,MPI_ANY_SOURCE,1,MPI_COMM_WORLD,MPI_STATUS_IGNORE);"), every, {7}),
    ]


def at_limits(work, table):
    """Programs at the limits of the language and of a run, recorded and checked, on one thread and on threads."""
    folder = tempfile.mkdtemp(dir=work)
    longest = 0.0
    for name, text, plan, wanted in limit_programs():
        data = text if isinstance(text, bytes) else text.encode()
        write(folder, "p.c", data)
        write(folder, "plan", plan)
        for words in [command + end for command in [["record", "p.c", "plan", "run"], ["check", "p.c", "plan"]] for end in [["--serial"], []]]:
            begun = time.monotonic()
            # On threads each rank has an arena of its own, of which most is address space alone.
            status, wrong = run(words, folder, made=("run.",), memory=4 * MEMORY)
            longest = max(longest, time.monotonic() - begun)
            if status is not None and status not in wanted:
                wrong = wrong or f"status {status}"
            table.add(words, data, status, wrong and f"{name}: {wrong}")
    for words in [["demo", "2147483647", "1000"], ["demo", "0", "1000"]]:
        begun = time.monotonic()
        table.add(words, b"", *run(words, folder))
        longest = max(longest, time.monotonic() - begun)
    table.show(f"programs at the limits, at most {longest:.1f} s")


def log_of_many(count):
    """The log in format 1 of 64 ranks that tested in vain so often: with the greatest count nearly of the greatest length."""
    ranks = b"".join(b"rank %d %d\n" % (rank, count) + b"n\n" * count for rank in range(64))
    program = b"int main(void){return 0;}"
    group = b" ".join(b"%d" % rank for rank in range(64))
    return b"srr 1\nranks 64\ngroup " + group + b"\nprogram %d\n" % len(program) + program + b"\n" + ranks + b"end\n"


def bytes_of_many(count):
    """The same in format 2: a file of some hundred bytes."""
    program = b"int main(void){return 0;}"
    ranks = (count.to_bytes(4, "big") + b"\6" + count.to_bytes(4, "big")) * 64
    return sealed(b"srr 2\n" + b"\x40" + b"\xff" * 8 + len(program).to_bytes(4, "big") + program + ranks + bytes(32))


def long_logs(work, table):
    """Logs of as many entries as there may be, in both formats, with 2 GB and with 4 GB of address space."""
    folder = tempfile.mkdtemp(dir=work)
    longest = 0.0
    for data in [log_of_many(999064), bytes_of_many(999064), log_of_many(999065), bytes_of_many(999065)]:
        write(folder, "log", data)
        reading = [["stats", "log"], ["show", "log"], ["replay", "log", "--serial"], ["replay", "log"]]
        for words in reading + [["convert", "log", "run.new"], ["convert", "log", "run.new", "--text"]]:
            for memory in [MEMORY, 2 * MEMORY]:
                begun = time.monotonic()
                status, wrong = run(words, folder, made=("run.",), memory=memory, seconds=6 * SECONDS)
                longest = max(longest, time.monotonic() - begun)
                table.add(words, data[:64], status, wrong)
    table.show(f"logs at the limits, at most {longest:.1f} s")


def refused_memory(work, table):
    """The address space in steps, from where the system does not start the program up to where all goes well. Messages take 20 MB."""
    folder = tempfile.mkdtemp(dir=work)
    receive = "MPI_Recv(a,65536,MPI_INT,0,1,MPI_COMM_WORLD,MPI_STATUS_IGNORE);"
    text = body("int a[65536];", "for(i=0;i<20;i++){if(r==0)MPI_Send(a,65536,MPI_INT,1,1,MPI_COMM_WORLD);else " + receive + "}")
    write(folder, "p.c", text.encode())
    write(folder, "plan", b"0\n1\n")
    subprocess.run([WIZ, "record", "p.c", "plan", "old", "--serial"], cwd=folder, check=True, capture_output=True)
    for words in [["record", "p.c", "plan", "run"], ["check", "p.c", "plan"], ["replay", "old.1.srr"]]:
        for words in [words + ["--serial"], words]:
            for megabytes in list(range(4, 128, 2)) + list(range(128, 1025, 32)):
                status, wrong = run(words, folder, made=("run.",), memory=megabytes << 20)
                if status is not None and (status < 0 or status == 127) and megabytes < 16:
                    continue
                table.add(words, b"", status, wrong and f"{megabytes} MB: {wrong}")
    table.show("memory")


def full_disk(work, table):
    """Output to a full device, and files on a file system that is full."""
    folder = tempfile.mkdtemp(dir=work)
    shutil.copy(os.path.join(TOP, "examples/race/race.c"), os.path.join(folder, "p.c"))
    write(folder, "plan", b"0 1\n2\n")
    with open("/dev/full", "wb") as full:
        done = subprocess.run([WIZ, "check", "p.c", "plan", "--serial"], cwd=folder, stdout=full, stderr=subprocess.PIPE)
    table.add(["check"], b"", done.returncode, None if done.returncode == 4 else f"full output: status {done.returncode}")
    small = tempfile.mkdtemp(dir=work)
    if subprocess.run(["mount", "-t", "tmpfs", "-o", "size=16k", "none", small], capture_output=True).returncode != 0:
        print("full disk: no file system could be mounted; not tried")
        return
    try:
        write(small, "fill", bytes(16 << 10))
    except OSError:
        pass
    done = subprocess.run([WIZ, "record", "p.c", "plan", os.path.join(small, "run"), "--serial"], cwd=folder, capture_output=True)
    subprocess.run(["umount", small])
    table.add(["record"], b"", done.returncode, None if done.returncode == 4 else f"full disk: status {done.returncode}")
    table.show("full disk")


def main():
    count = int(sys.argv[1]) if len(sys.argv) > 1 else 10000
    draw = random.Random(int(sys.argv[2]) if len(sys.argv) > 2 else 1)
    parts = sys.argv[3:] or ["mutations", "odd", "limits", "memory", "disk"]
    subprocess.run([os.path.join(TOP, "wiz"), "show", os.path.join(TOP, "examples/first/first.srr")], check=True, stdout=subprocess.DEVNULL)
    table = Table()
    with tempfile.TemporaryDirectory() as work:
        if "mutations" in parts:
            log_mutations(draw, work, count // 2, table)
            program_mutations(draw, work, count - count // 2, table)
        if "odd" in parts:
            odd_files(draw, work, table)
            odd_words(work, table)
        if "limits" in parts:
            at_limits(work, table)
            long_logs(work, table)
        if "memory" in parts:
            refused_memory(work, table)
        if "disk" in parts:
            full_disk(work, table)
    print(f"{table.failures} failures")
    return 1 if table.failures else 0


if __name__ == "__main__":
    sys.exit(main())
