#!/usr/bin/env python3
"""Random small programs, recorded and recorded again by the order that was written: the files have to be the same.

Each program has 2 to 4 ranks that send, receive from a rank or from any, probe, and complete one of two receives. It is recorded on threads,
and then by an order of random turns, a third of which pick a sender or an index. Each recording is recorded again by its `PREFIX.order`: its
logs and its order have to be the same bytes, unless a rank was stuck. The programs are drawn from a seed, so a failure can be repeated; its
folder is kept. Needs `rt`. Arguments: how many programs (1000), the seed (1)."""
import collections
import os
import random
import shutil
import subprocess
import sys
import tempfile

TOP = os.path.dirname(os.path.dirname(os.path.abspath(__file__)))
WIZ = os.path.join(TOP, "crates/wiz/out/wiz")
SECONDS = 20
WORLD = "MPI_COMM_WORLD"


def receive(draw, source, tag):
    """A receive of this message, from its sender or from any."""
    source = draw.choice([str(source), "MPI_ANY_SOURCE"])
    tag = draw.choice([str(tag), str(tag), "MPI_ANY_TAG"])
    return f"{source},{tag},{WORLD}"


def receives(draw, messages):
    """The statements of a rank that receives these messages."""
    found = []
    while messages:
        if len(messages) > 1 and draw.random() < 0.3:
            one, other = messages.pop(), messages.pop()
            wait = "MPI_Waitany(2,q,&i,MPI_STATUS_IGNORE);x=x*5+i;"
            starts = f"MPI_Irecv(&y,1,MPI_INT,{receive(draw, *one)},&q[0]);MPI_Irecv(&z,1,MPI_INT,{receive(draw, *other)},&q[1]);"
            found.append(starts + wait + wait + "x=x*7+y*3+z;")
        elif draw.random() < 0.2:
            message = receive(draw, *messages[-1])
            found.append(f"MPI_Iprobe({message},&i,MPI_STATUS_IGNORE);x=x*2+i;")
            messages.pop() if draw.random() < 0.1 else None
        else:
            found.append(f"MPI_Recv(&y,1,MPI_INT,{receive(draw, *messages.pop())},MPI_STATUS_IGNORE);x=x*3+y;")
    return found


def program(draw, ranks):
    """A program of so many ranks: its text."""
    messages = [(draw.randrange(ranks), draw.randrange(ranks), draw.choice([1, 2])) for _ in range(draw.randint(2, 8))]
    parts = []
    for rank in range(ranks):
        sends = [f"MPI_Send(&x,1,MPI_INT,{to},{tag},{WORLD});x++;" for sender, to, tag in messages if sender == rank]
        wanted = [(sender, tag) for sender, to, tag in messages if to == rank]
        draw.shuffle(wanted)
        calls = receives(draw, wanted)
        for send in sends:
            calls.insert(draw.randint(0, len(calls)) if draw.random() < 0.15 else 0, send)
        parts.append(f"if(r=={rank}){{{''.join(calls)}}}")
    body = "".join(parts)
    return f'int main(void){{int r,i,x,y=0,z=0;MPI_Request q[2];MPI_Comm_rank({WORLD},&r);x=r*100;{body}printf("%d\\n",x);return 0;}}'


def turn(draw, ranks):
    """A line of an order."""
    rank = draw.randrange(ranks)
    pick = draw.choice(["", "", "", "", f" from {draw.randrange(ranks)}", f" index {draw.randrange(2)}"])
    return f"{rank}{pick}\n"


def record(folder, prefix, words):
    """Records; answers the last line and the files by their names without the prefix."""
    done = subprocess.run([WIZ, "record", "p.c", "plan", prefix] + words, cwd=folder, capture_output=True, timeout=SECONDS, check=False)
    files = {}
    for name in os.listdir(folder):
        if name.startswith(prefix + "."):
            with open(os.path.join(folder, name), "rb") as file:
                files[name[len(prefix) :]] = file.read()
    return done.stdout.decode().splitlines()[-1:], files


def write(folder, name, text):
    with open(os.path.join(folder, name), "w", encoding="ascii") as file:
        file.write(text)


def tried(draw, folder, counts):
    """Records one program twice and each recording again; answers what is wrong, if anything."""
    ranks = draw.randint(2, 4)
    write(folder, "p.c", program(draw, ranks))
    write(folder, "plan", draw.choice([f"0-{ranks - 1}\n", "".join(f"{rank}\n" for rank in range(ranks))]))
    write(folder, "turns", "".join(turn(draw, ranks) for _ in range(draw.randint(0, 40))))
    for prefix, words in [("threads", []), ("turns.run", ["--order", "turns"])]:
        ending, files = record(folder, prefix, words)
        counts[" ".join(ending) if ending else "nothing"] += 1
        if not files:
            return f"{prefix}: no files: {ending}"
        counts["with picks"] += b" " in files[".order"]
        if ending == ["halted stuck"]:
            continue
        again, others = record(folder, "again", ["--order", f"{prefix}.order"])
        if again != ending or others != files:
            return f"{prefix}: {ending} and {again}, or other files"
        for name in others:
            os.remove(os.path.join(folder, "again" + name))
    return None


def main():
    count = int(sys.argv[1]) if len(sys.argv) > 1 else 1000
    draw = random.Random(int(sys.argv[2]) if len(sys.argv) > 2 else 1)
    subprocess.run([os.path.join(TOP, "wiz"), "show", os.path.join(TOP, "examples/first/first.srr")], check=True, capture_output=True)
    counts, failures = collections.Counter(), 0
    for number in range(count):
        folder = tempfile.mkdtemp(prefix=f"orders.{number}.")
        wrong = tried(draw, folder, counts)
        if wrong:
            failures += 1
            print(f"program {number}: {wrong}; its folder is {folder}")
        else:
            shutil.rmtree(folder)
    print(f"{count} programs, each recorded twice and again: {dict(counts)}; {failures} failed")
    sys.exit(1 if failures else 0)


main()
