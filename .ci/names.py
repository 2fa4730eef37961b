#!/usr/bin/env python3
"""One name for one thing: the names that stand in two crates or more, the constants of one name that have two values, the definitions
that take seven arguments or more, the limits that stand as bare numbers where their constants should, the definitions that no line says
anything of, and the names in documents that the tree does not have.

    .ci/names.py             prints them
    .ci/names.py --check     compares them with the list .ci/names.txt; status 1 where one is new, or one that is listed is gone
    .ci/names.py --write     writes the list; it is to grow shorter

A definition is one of `specs/`, whether private or not; a type is a struct, enum, trait or alias of `src/`, or a type that a trait asks
for (what an implementation gives for it is no name of its own). A limit is a constant of `src/` of at least 1,000, and it stands bare
in `specs/` where its number does, which another constant may have too; the page that tells a reader the numbers of all limits is the
place for them. What a definition is stands in a line above it, or above the `mutual` that it begins. Crates of tests and benchmarks
do not count: nobody reads them to learn a word.

A document is README.md, a page of docs/ or a README of a crate. A name in it stands between backticks and is spelled as a definition or
as code, with `_` or with a capital and a small letter, or it is a path. The tree has it if a file of a crate declares it, if code imports
or calls it or has it in a text, if a program, a row or a script has the word, or if a file is called so. Where the document says in which
crate or file a name is, as in "`X` of `crate`", "`X` in `crate/specs/File`", "`X` (`File`)" or `crate::file::x`, it has to be there. The
programs that the page on programs of others names are not of the tree, and what stands in a block of three backticks is not looked at.
"""
import importlib.util
import re
import sys
from collections import defaultdict
from pathlib import Path

TOP = Path(__file__).resolve().parent.parent
LIST = TOP / ".ci" / "names.txt"
MOST_ARGUMENTS = 6
LEAST_LIMIT = 1000
LIMITS_TOLD = "crates/wiz_cli/specs/Limits.antt"
DOCUMENTS = ("README.md", "docs/*.md", "crates/*/README.md")
PROGRAMS_OF_OTHERS = "docs/REAL_PROGRAMS.md"

TYPE = re.compile(r"^\s*(?:pub(?:\([a-z]+\))? )?(?:struct|enum|trait) (\w+)|^(?:pub(?:\([a-z]+\))? )?type (\w+)|^\s+type (\w+)[;:]", re.M)
LIMIT = re.compile(r"^\s*(?:pub(?:\([a-z]+\))? )?const (\w+): [ui]\w+ = ([\d_]+);", re.M)
NUMBER = re.compile(r"(?<![\w.'])\d+(?![\w'])")
TEXT = re.compile(r'"(?:[^"\\\n]|\\.)*"|--.*')
PARAMETERS = re.compile(r"\(([^():]+):")
DEFINITION = re.compile(r"^(?:(?:abbrev|unfoldable) (?:pub )?(\S+) : |(?:pub )?(?:record|data) (\S+))")
DEFINITION_IN_MUTUAL = re.compile(r"^  (?:pub )?(?:(?:record|data) (\S+)|([^\s:()]+) : )")
MUTUAL = re.compile(r"^(?:(?:abbrev|unfoldable) )?mutual$")
BRACKETS = re.compile(r"[({\[][^(){}\[\]]*[)}\]]")
CONSTANT = re.compile(r"^\s*(?:pub(?:\([a-z]+\))? )?const (\w+): [^=;]+ = ([^;]+);", re.M)

SPAN = re.compile(r"`([^`\n]+)`")
BLOCK = re.compile(r"^```.*?^```", re.M | re.S)
NAMED = re.compile(r"[A-Z]\w*[a-z]\w*|\w*[A-Za-z0-9]_[A-Za-z0-9]\w*")
WORD = re.compile(r"\w+")
FILE = re.compile(r"\.?[a-z][\w-]*(?:/[\w.-]*[a-z][\w.-]*)+/?|[\w-]+\.(?:md|rt|antt|py|toml)")
PLACE = re.compile(r"(`[^`\n]+`(?:(?:,| and)\s`[^`\n]+`)*)\s(?:(?:of|in)\s(`[^`\n]+`)|\((`[^()\n]+`)\))")
MODULES = re.compile(r"(\w+)::(?:\w+::)*(\w+)")
IN_PROOFS = re.compile(r"^\s*(?:(?:abbrev|unfoldable|pub) )*(?:(?:record|data|module) (\w+)|([\w-]+)(?= .*:|\n))", re.M)
IN_CODE = re.compile(
    r"\b(?:fn|struct|enum|trait|type|const|static|mod|ensures|requires|invariant|ghost)\s(\w+)|^\s*(?:pub )?(\w+)(?:,$|:|\s\{|\()", re.M)
IN_USE = re.compile(r'^(?:pub )?(?:ghost )?use [^;]*;|"[^"\n]*"|\b[A-Z]\w*(?:::|<)|derive\([^)]*\)|\w+\(', re.M)


def statement():
    """The reader of definitions, which is the script beside this one."""
    spec = importlib.util.spec_from_file_location("statement", TOP / ".ci" / "statement.py")
    made = importlib.util.module_from_spec(spec)
    spec.loader.exec_module(made)
    return made


def is_read(crate):
    return not crate.startswith(("tests_", "bench_"))


def in_two_crates(found):
    """Of pairs of a name and a crate: the names that stand in two crates or more, with these."""
    crates = defaultdict(set)
    for name, crate in found:
        if is_read(crate):
            crates[name].add(crate)
    return [f"{name}: {' '.join(sorted(stand))}" for name, stand in sorted(crates.items()) if len(stand) > 1]


def types():
    for path in (TOP / "crates").glob("*/src/**/*.rt"):
        crate = path.relative_to(TOP / "crates").parts[0]
        for found in TYPE.finditer(path.read_text()):
            yield found[found.lastindex], crate


def limits():
    """The names of each limit's number."""
    names = defaultdict(set)
    for path in (TOP / "crates").glob("*/src/**/*.rt"):
        if not is_read(path.relative_to(TOP / "crates").parts[0]):
            continue
        for name, digits in LIMIT.findall(path.read_text()):
            if int(digits) >= LEAST_LIMIT:
                names[int(digits)].add(name)
    return names


def bare_limits():
    """The limits that stand as numbers in definitions."""
    names = limits()
    for path in sorted((TOP / "crates").glob("*/specs/**/*.antt")):
        place = str(path.relative_to(TOP))
        if place == LIMITS_TOLD or not is_read(path.relative_to(TOP / "crates").parts[0]):
            continue
        for number in NUMBER.findall(TEXT.sub("", path.read_text())):
            if int(number) in names:
                yield f"{place}: {number}, the number of {' or '.join(sorted(names[int(number)]))}"


def arguments_of(head):
    """How many arguments a definition takes, by its first line: the names in its brackets, or the arrows of its type outside them."""
    named = sum(len(names.split()) for names in PARAMETERS.findall(head))
    while BRACKETS.search(head):
        head = BRACKETS.sub("", head)
    return max(named, head.count("→"))


def definitions_unsaid(lines):
    """The names of the definitions that no comment stands above."""
    in_mutual = False
    for at, line in enumerate(lines):
        if line and not line.startswith(" "):
            in_mutual = bool(MUTUAL.match(line))
        found = (DEFINITION_IN_MUTUAL if in_mutual else DEFINITION).match(line)
        above = at - 2 if found and MUTUAL.match(lines[at - 1]) else at - 1
        if found and not lines[above].lstrip().startswith("-- "):
            yield next(name for name in found.groups() if name)


def unsaid():
    """The definitions that no comment stands above, by their files."""
    for path in sorted((TOP / "crates").glob("*/specs/**/*.antt")):
        if is_read(path.relative_to(TOP / "crates").parts[0]):
            for name in definitions_unsaid(path.read_text().splitlines()):
                yield f"{path.relative_to(TOP)}: {name}"


def values_of_constants():
    """The constants of one name that have two values or more, with these."""
    values = defaultdict(lambda: defaultdict(set))
    for path in sorted((TOP / "crates").glob("*/src/**/*.rt")):
        crate = path.relative_to(TOP / "crates").parts[0]
        if is_read(crate):
            for name, value in CONSTANT.findall(path.read_text()):
                values[name][re.sub(r"(?<=\d)_(?=\d)", "", value)].add(crate)
    for name, crates in sorted(values.items()):
        if len(crates) > 1:
            yield f"{name}: " + ", ".join(f"{value} in {' '.join(sorted(crates[value]))}" for value in sorted(crates))


class Tree:
    """What the tree has: what each file of a crate declares, by the file's crate, its path and its name; all words; all paths."""

    def __init__(self):
        self.declared = {}
        self.files = defaultdict(set)
        self.crates = {path.name for path in (TOP / "crates").iterdir()}
        self.words = set()
        self.paths = set()
        for path in TOP.glob("**/*"):
            inside = path.relative_to(TOP)
            if inside.parts[0] != ".git" and "out" not in inside.parts:
                self.add_path(inside)
                if path.is_file():
                    self.add_words(path, inside)

    def add_path(self, inside):
        """Adds a path of the tree, from each of its folders on, with its ending and without."""
        for at in range(len(inside.parts)):
            tail = "/".join(inside.parts[at:])
            self.paths.update((tail, tail.removesuffix(inside.suffix)))
        self.words.update((inside.name, inside.stem))

    def add_words(self, path, inside):
        """Adds what a file declares or, of programs, rows and scripts but those of this folder, its words."""
        if path.suffix in (".antt", ".rt") and inside.parts[0] == "crates":
            text = re.sub(r"--.*|//.*", "", path.read_text())
            found = (IN_PROOFS if path.suffix == ".antt" else IN_CODE).findall(text)
            self.declared[inside] = {path.stem}.union(first or second for first, second in found)
            self.words |= self.declared[inside]
            self.files[inside.parts[1]].add(inside)
            self.files["/".join(inside.with_suffix("").parts[1:])].add(inside)
            if path.suffix == ".antt" and path.stem[0].isupper():
                self.files[path.stem].add(inside)
        if path.suffix == ".rt":
            self.words.update(word for used in IN_USE.findall(path.read_text()) for word in re.findall(r"\w+", used))
        if path.suffix in (".c", ".h", ".toml", ".py", ".sh") and inside.parts[0] != ".ci":
            self.words.update(re.findall(r"\w+", path.read_text(errors="replace")))

    def is_in(self, name, place):
        """Whether a crate declares this name, or whether a file of definitions has it."""
        if place in self.crates:
            return any(name in self.declared[file] for file in self.files[place])
        return any(re.search(rf"\b{name}\b", re.sub(r"--.*", "", (TOP / file).read_text())) for file in self.files[place])


def places_in(text):
    """The names of a text of which it says where they are, each with the places."""
    for names, one, more in PLACE.findall(text):
        yield from ((name, [place.removesuffix(".antt") for place in SPAN.findall(one or more)]) for name in SPAN.findall(names))
    for span in SPAN.findall(text):
        yield from ((name, [f"{crate}::"]) for crate, name in MODULES.findall(span))


def gone_in(tree, text):
    """The names in a text that the tree does not have, or not where the text says."""
    for span in SPAN.findall(text):
        if FILE.fullmatch(span):
            yield from [] if span.rstrip("/") in tree.paths else [span]
        else:
            yield from (name for name in NAMED.findall(span) if name not in tree.words)
    for name, places in places_in(text):
        known = [place for place in places if place in tree.files]
        known += [crate for crate in tree.crates if f"{crate}::" in places]
        if known and WORD.fullmatch(name) and name not in tree.crates and not any(tree.is_in(name, place) for place in known):
            yield f"{name} of {' '.join(known)}"


def gone():
    """A line a name that documents have and the tree has not, with these documents."""
    tree, documents = Tree(), defaultdict(set)
    for document in sorted(path for pattern in DOCUMENTS for path in TOP.glob(pattern)):
        place, text = str(document.relative_to(TOP)), BLOCK.sub("", document.read_text())
        if place == PROGRAMS_OF_OTHERS:
            text = re.sub(r"`[^`\n]+\.c`", "", text)
        for name in gone_in(tree, text):
            documents[name].add(place)
    return [f"{name}: {' '.join(sorted(stand))}" for name, stand in sorted(documents.items())]


def sections():
    sources = statement().read_sources()
    twins = in_two_crates((name, crate) for (crate, _), source in sources.items() for name in source.definitions)
    long = [
        f"{crate}.{file}.{name}"
        for (crate, file), source in sorted(sources.items())
        for name, lines in sorted(source.definitions.items())
        if is_read(crate) and name not in source.lemmas and arguments_of(lines[0]) > MOST_ARGUMENTS
    ]
    return {
        "definitions that stand in two crates or more": twins,
        "types that stand in two crates or more": in_two_crates(types()),
        "constants of one name with two values": list(values_of_constants()),
        f"definitions of more than {MOST_ARGUMENTS} arguments": long,
        "limits that stand as bare numbers": sorted(set(bare_limits())),
        "definitions that no line says anything of": list(unsaid()),
        "names in documents that the tree does not have": gone(),
    }


def written(found):
    return "".join(f"# {title}\n" + "".join(f"{line}\n" for line in lines) + "\n" for title, lines in found.items())


def main():
    found = written(sections())
    if sys.argv[1:] == ["--write"]:
        LIST.write_text(found)
        return 0
    if sys.argv[1:] == ["--check"]:
        now, listed = set(found.splitlines()), set(LIST.read_text().splitlines())
        for line in sorted(now - listed):
            print(f"names: new: {line}")
        for line in sorted(listed - now):
            print(f"names: gone, so strike it from .ci/names.txt: {line}")
        return 1 if now != listed else 0
    print(found, end="")
    return 0


sys.exit(main())
