"""The text after the system's preprocessor, with headers of our own."""
import os
import re
import resource
import subprocess
import tempfile
import threading

from .report import STUBS

MOST_BYTES = 4 << 20
MOST_OUTPUT = 16 << 20
MOST_TOLD = 1 << 20
MOST_HEADERS = 40
SECONDS = 4
MEMORY = 512 << 20
CPP = [
    "cpp",
    "-w",
    "-fmax-errors=5",
    "-nostdinc",
    "-undef",
    "-std=gnu99",
    "-D__extension__=",
    "-D__attribute__(x)=",
    "-D__inline=inline",
    "-D__inline__=inline",
    "-D__restrict=",
    "-D__restrict__=",
    "-D__const=const",
    "-D__volatile__=",
    "-D__signed__=signed",
    "-D__STDC__=1",
]
ABSENT = re.compile(r"fatal error: (\S+): No such file")
CONDITION = re.compile(r"^[ \t]*#[ \t]*(if|ifdef|ifndef|elif)\b(.*)$", re.M)
DEFINED = re.compile(r"^[ \t]*#[ \t]*define[ \t]+([A-Za-z_]\w*)", re.M)
NAME = re.compile(r"\b[A-Za-z_]\w*")
# Names in conditions that say nothing of how a library was built.
HARMLESS = {"defined", "__cplusplus", "MPI_VERSION", "MPI_SUBVERSION"}


def preprocess(options, report):
    """The program's text, preprocessed; `#` lines keep its lines.

    A header that is nowhere is taken as empty, with a note.
    """
    source = read_source(options.file, report)
    tell_conditions(source, options, report)
    command = CPP + ["-I", STUBS]
    for name in options.define:
        command.append("-D" + name)
    for folder in options.include:
        command += ["-I", folder]
    command.append(options.file)
    status, text, told = run(command, report)
    if status and ABSENT.search(told):
        status, text, told = run_with_empty(command, told, report)
    if status:
        refuse_told(told, report)
    return re.sub(r"^\s*#\s*pragma.*$", "", text, flags=re.M)


def read_source(path, report):
    """The program's text, or a refusal of what is no text."""
    try:
        with open(path, "rb") as file:
            content = file.read(MOST_BYTES + 1)
    except OSError as error:
        report.refuse(None, f"not read ({error.strerror})", "check the path")
    if len(content) > MOST_BYTES:
        report.refuse(
            None, f"more than {MOST_BYTES} bytes", "give a smaller program"
        )
    if b"\0" in content:
        report.refuse(None, "not a text", "give a program in C")
    return content.decode("utf-8", "replace")


def tell_conditions(source, options, report):
    """Notes each condition on a name that nothing here defines."""
    known = set(DEFINED.findall(source)) | HARMLESS
    known |= {name.split("=")[0] for name in options.define}
    for found in CONDITION.finditer(source):
        words = re.sub(r"/\*.*|//.*", "", found[2])
        if found[1] == "ifndef":
            guard = NAME.search(words)
            if guard and guard[0] in known:
                continue
        for name in NAME.findall(words):
            if name in known or name.startswith("MPI_"):
                continue
            line = source.count("\n", 0, found.start()) + 1
            report.note_at(
                (report.path, line),
                f"{name} is not defined here: a build may choose otherwise",
            )


def run_with_empty(command, told, report):
    """Runs the preprocessor with an empty header for each that lacks."""
    status, text = 1, ""
    with tempfile.TemporaryDirectory() as folder:
        command = command[:-1] + ["-idirafter", folder, command[-1]]
        for _ in range(MOST_HEADERS):
            missing = ABSENT.search(told)
            if not missing or not take_empty(missing[1], folder):
                break
            report.note(
                None, f"the header {missing[1]} is not there: taken as empty"
            )
            status, text, told = run(command, report)
    return status, text, told


def run(command, report):
    """Runs the preprocessor: its status, output and messages."""
    try:
        tool = subprocess.Popen(
            command,
            stdin=subprocess.DEVNULL,
            stdout=subprocess.PIPE,
            stderr=subprocess.PIPE,
            preexec_fn=limit,
        )
    except OSError:
        report.refuse(None, "no preprocessor is there", "run adapt/setup")
    told = []
    reader = threading.Thread(
        target=lambda: told.append(tool.stderr.read(MOST_TOLD))
    )
    reader.start()
    text = tool.stdout.read(MOST_OUTPUT + 1)
    if len(text) > MOST_OUTPUT:
        tool.kill()
    reader.join()
    if len(told[0]) == MOST_TOLD:
        tool.kill()
    status = tool.wait()
    if status < 0:
        report.refuse(
            None,
            "the preprocessor takes too long, or writes too much",
            "simplify its macros and headers",
        )
    text = text.decode("utf-8", "replace")
    return status, text, told[0].decode("utf-8", "replace")


def limit():
    """The limits of the preprocessor."""
    resource.setrlimit(resource.RLIMIT_AS, (MEMORY, MEMORY))
    resource.setrlimit(resource.RLIMIT_CPU, (SECONDS, SECONDS + 1))


def take_empty(name, folder):
    """Makes an empty header; answers whether that can help."""
    if name.startswith("/") or ".." in name:
        return False
    path = os.path.join(folder, name)
    if os.path.exists(path):
        return False
    try:
        os.makedirs(os.path.dirname(path), exist_ok=True)
        with open(path, "w", encoding="utf-8"):
            return True
    except OSError:
        return False


def refuse_told(told, report):
    """Refuses with the preprocessor's first error and its place."""
    for line in told.split("\n"):
        found = re.match(r"(.*?):(\d+):(?:\d+:)? (?:fatal )?error: (.*)", line)
        if found:
            report.here = (found[1], int(found[2]))
            report.refuse(
                None, f"the preprocessor says: {found[3]}", "mend this line"
            )
    report.refuse(
        None, "the preprocessor stops", "look whether cpp reads the program"
    )
