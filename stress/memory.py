#!/usr/bin/env python3
"""Memory that is refused: one allocation after another, and from one allocation on.

A program of three ranks in two groups is recorded, each of its logs replayed, and `check` and `waits` made of it, on one thread and on
threads; on one thread `watch`, `at` and `where` are asked of a log, and by an order that picks it is recorded, and a log of that recording compared with
one of the first. For N = 1, 2, 3 .. the N-th allocation of a run is refused, until a run makes fewer; then the same with all allocations from the N-th on; then once all threads.
Each run has to end within a bounded time, either as it does without a refusal or with status 11, and then what it printed and wrote has
to be a prefix of that. A library that is loaded before the C library counts and refuses calls of malloc, calloc, realloc, the aligned
forms, and pthread_create, since a thread's stack is memory too. Needs `rt` and gcc. Arguments: the greatest N that is tried (all)."""
import os
import subprocess
import sys
import tempfile

TOP = os.path.dirname(os.path.dirname(os.path.abspath(__file__)))
WIZ = os.path.join(TOP, "crates/wiz/out/wiz")
SECONDS = 20
# On threads the number of allocations differs from run to run: so many runs in a row have to make fewer.
ROUNDS = 10

SHIM = r"""
#define _GNU_SOURCE
#include <dlfcn.h>
#include <errno.h>
#include <pthread.h>
#include <stdlib.h>
#include <unistd.h>

extern void *__libc_malloc(size_t), *__libc_calloc(size_t, size_t), *__libc_realloc(void *, size_t), *__libc_memalign(size_t, size_t);

static unsigned long number(const char *name) {
  const char *text = getenv(name);
  return text ? strtoul(text, NULL, 10) : 0;
}

/* Whether this allocation is refused: it is the one of the number REFUSED, or also one after it where REFUSE_ALL is not 0. */
static int refused(void) {
  static unsigned long made;
  unsigned long wanted = number("REFUSED"), now = __atomic_add_fetch(&made, 1, __ATOMIC_SEQ_CST);
  if (now != wanted && !(number("REFUSE_ALL") && now > wanted)) return 0;
  if (now == wanted && write(number("REFUSED_TO"), "x", 1) != 1) abort();
  errno = ENOMEM;
  return 1;
}

void *malloc(size_t size) { return refused() ? NULL : __libc_malloc(size); }
void *calloc(size_t count, size_t size) { return refused() ? NULL : __libc_calloc(count, size); }
void *realloc(void *old, size_t size) { return refused() ? NULL : __libc_realloc(old, size); }
void *aligned_alloc(size_t to, size_t size) { return refused() ? NULL : __libc_memalign(to, size); }
void *memalign(size_t to, size_t size) { return refused() ? NULL : __libc_memalign(to, size); }
int posix_memalign(void **at, size_t to, size_t size) {
  if (refused()) return ENOMEM;
  *at = __libc_memalign(to, size);
  return *at ? 0 : ENOMEM;
}

typedef int (*create)(pthread_t *, const pthread_attr_t *, void *(*)(void *), void *);
int pthread_create(pthread_t *thread, const pthread_attr_t *how, void *(*start)(void *), void *with) {
  static create real;
  if (number("NO_THREADS") || refused()) return EAGAIN;
  if (!real) real = (create)dlsym(RTLD_NEXT, "pthread_create");
  return real(thread, how, start, with);
}
"""

FRONT = "int main(void){int r,x=0;MPI_Comm_rank(MPI_COMM_WORLD,&r);"
RECEIVE = 'MPI_Recv(&x,1,MPI_INT,MPI_ANY_SOURCE,9,MPI_COMM_WORLD,MPI_STATUS_IGNORE);printf("%d\\n",x);'
PROGRAM = FRONT + "if(r<2)MPI_Send(&r,1,MPI_INT,2,9,MPI_COMM_WORLD);if(r==2){" + 2 * RECEIVE + "}return 0;}"
FILES = ["new.0.srr", "new.1.srr", "new.order"]
RECORD = ["record", "program", "plan", "new"]
# Without it rank 0's message, which was sent first, comes first.
PICKED = b"0\n1\n2 from 1\n"
# The commands whose work is done with another status than 0: here two runs part.
DONE = {"diff": 15}


class Folder:
    """A folder with the inputs, in which `wiz` runs."""

    def __init__(self, path):
        self.path = path
        self.inputs = {"program": PROGRAM.encode(), "plan": b"0 2\n1\n"}
        for name, data in self.inputs.items():
            self.write(name, data)

    def write(self, name, data):
        with open(os.path.join(self.path, name), "wb") as file:
            file.write(data)

    def take(self):
        """The bytes of the files that a run left, which are removed; an input that changed is among them."""
        left = {}
        for name in os.listdir(self.path):
            with open(os.path.join(self.path, name), "rb") as file:
                data = file.read()
            if self.inputs.get(name) != data:
                left[name] = data
                os.remove(os.path.join(self.path, name))
        for name, data in self.inputs.items():
            if name in left:
                self.write(name, data)
        return left

    def keep(self, name, data):
        self.inputs[name] = data
        self.write(name, data)

    def run(self, words, environment=None, descriptors=()):
        """Status (none: no end), output, error output and files of a run."""
        try:
            done = subprocess.run([WIZ] + words, cwd=self.path, capture_output=True, timeout=SECONDS, env=environment, pass_fds=descriptors)
        except subprocess.TimeoutExpired:
            return None, b"", b"", self.take()
        return done.returncode, done.stdout, done.stderr, self.take()


def refused_run(folder, shim, words, number, all_from):
    """A run with this allocation refused, and whether it came to it."""
    reader, writer = os.pipe()
    environment = {"LD_PRELOAD": shim, "REFUSED": str(number), "REFUSE_ALL": str(int(all_from)), "REFUSED_TO": str(writer)}
    result = folder.run(words, environment, (writer,))
    os.close(writer)
    was_refused = os.read(reader, 1) != b""
    os.close(reader)
    return result, was_refused


def is_whole(folder, words, result):
    """Whether a recording on threads is the one of its own order: the order determines the run."""
    _, printed, _, files = result
    if sorted(files) != FILES:
        return False
    folder.keep("turns", files["new.order"])
    again = folder.run(words + ["--order", "turns"])
    del folder.inputs["turns"]
    folder.take()
    return again == (0, printed, b"", files)


def is_beginning(folder, result, usual):
    """Whether a run that ended with status 11 printed and wrote a beginning. `usual` has the outcomes of the whole run that were seen."""
    _, printed, _, files = result
    count = len(files)
    if sorted(files) != FILES[:count] or not any(whole.startswith(printed) for _, whole, _, _ in usual):
        return False
    for name in FILES[: max(count - 1, 0)]:
        folder.keep("log", files[name])
        status = folder.run(["replay", "log", "--serial"])[0]
        del folder.inputs["log"]
        folder.take()
        if status != 0:
            return False
    return True


def what_is_wrong(folder, words, result, was_refused, usual):
    status, _, error, _ = result
    if status is None:
        return f"more than {SECONDS} seconds"
    if error:
        return f"error output {error[:80]!r}"
    if status == 11 and was_refused:
        return None if is_beginning(folder, result, usual) else "no beginning of the usual result"
    if result in usual:
        return None
    if words == RECORD and status == 0:
        return None if is_whole(folder, words, result) else "no recording"
    return f"status {status}, or other output or files"


def refuse_in_turn(folder, shim, words, all_from, most):
    """Refuses each allocation of a command in turn; how many runs there were, how many ended with status 11, and the failures."""
    usual = []
    for _ in range(ROUNDS):
        result = folder.run(words)
        if result not in usual:
            usual.append(result)
    if any(status != DONE.get(words[0], 0) for status, *_ in usual):
        return 0, 0, ["without a refusal: " + str(usual)]
    rounds = ROUNDS if "--serial" not in words and "--order" not in words else 1
    number, made_fewer, eleven, failures = 0, 0, 0, []
    while made_fewer < rounds and number < most:
        number += 1
        result, was_refused = refused_run(folder, shim, words, number, all_from)
        made_fewer = 0 if was_refused else made_fewer + 1
        eleven += result[0] == 11
        wrong = what_is_wrong(folder, words, result, was_refused, usual)
        if wrong:
            failures.append(f"allocation {number}: {wrong}")
    return number - made_fewer, eleven, failures


def refuse_threads(folder, shim, words):
    """Refuses all threads: the ranks then run one after the other, with the usual result."""
    result = folder.run(words, {"LD_PRELOAD": shim, "NO_THREADS": "1"})
    usual = [folder.run(words + ["--serial"])]
    wrong = what_is_wrong(folder, words, result, False, usual)
    return 1, int(result[0] == 11), [wrong] if wrong else []


def show(words, refused, count, eleven, failures):
    print(f"{' '.join(words):40} {refused:8} {count:6} {eleven:10} {len(failures):9}")
    for failure in failures[:5]:
        print(f"  {failure}")
    return len(failures)


def main():
    most = int(sys.argv[1]) if len(sys.argv) > 1 else 1 << 62
    subprocess.run([os.path.join(TOP, "wiz"), "show", os.path.join(TOP, "examples/first/first.srr")], check=True, stdout=subprocess.DEVNULL)
    failed = 0
    with tempfile.TemporaryDirectory() as work:
        shim = os.path.join(work, "refuse.so")
        subprocess.run(["gcc", "-O2", "-shared", "-fPIC", "-x", "c", "-", "-o", shim, "-ldl"], input=SHIM.encode(), check=True)
        path = os.path.join(work, "run")
        os.mkdir(path)
        folder = Folder(path)
        recorded = folder.run(RECORD + ["--serial"])[3]
        for name in FILES[:2]:
            folder.keep(name.replace("new", "old"), recorded[name])
        folder.keep("picks", PICKED)
        picking = RECORD + ["--order", "picks"]
        folder.keep("picked.0.srr", folder.run(picking)[3]["new.0.srr"])
        commands = [RECORD, ["replay", "old.0.srr"], ["replay", "old.1.srr"], ["check", "program", "plan"], ["waits", "program", "plan"]]
        on_one = [picking, ["diff", "old.0.srr", "picked.0.srr"]]
        on_one += [words + ["--serial"] for words in (["watch", "old.0.srr", "2", "x"], ["at", "old.0.srr", "2:2"], ["where", "old.0.srr", "0.0"])]
        print(f"{'command':40} {'refused':8} {'runs':>6} {'status 11':>10} {'failures':>9}")
        for words in [command + end for command in commands for end in [["--serial"], []]] + on_one:
            for all_from in [False, True]:
                failed += show(words, "all from" if all_from else "one", *refuse_in_turn(folder, shim, words, all_from, most))
            if "--serial" not in words and words not in on_one:
                failed += show(words, "threads", *refuse_threads(folder, shim, words))
    print(f"{failed} failures")
    return 1 if failed else 0


if __name__ == "__main__":
    sys.exit(main())
