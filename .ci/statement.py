#!/usr/bin/env python3
"""What one has to read to believe the promises of `wiz_cli::top::wiz`: the definitions that its clauses rest on.

    .ci/statement.py                 prints the figures
    .ci/statement.py --list WHAT     the definitions that this rests on, with file, line and length: a clause of `wiz`, or a
                                     definition, as in `--list headline` or `--list run_model.Run.IsRun`
    .ci/statement.py --check         compares the page docs/STATEMENT.md with what is found; status 1 where they differ
    .ci/statement.py --write         writes what is found into the page

A definition rests on those that its text names, in the same file or by an import, and on what these rest on. Comments, blank lines
and imports are not counted. A local name that is spelled as a definition in sight counts as that definition, so the figures are
rather too great than too small. Types and constants that the code declares, and definitions of the toolchain's libraries, are
named apart.
"""
import difflib
import re
import sys
import textwrap
from collections import namedtuple
from pathlib import Path

TOP = Path(__file__).resolve().parent.parent
PAGE = TOP / "docs" / "STATEMENT.md"
CLAUSES_FILE = "crates/wiz_cli/src/top.rt"
CLAUSES_OF = "wiz"

# The headline for any program, and the parts that a C program adds to it, in the order of the page.
CORE = ["replay_model.Laws.IsRunWith", "replay_model.Laws.ShowsInEveryOrder"]
# What the law over all programs asks of a program: three of the laws of the trait `Program`. A program of C keeps them.
ASKED = ["run_model.Program.EndsExactly", "run_model.Program.PrintsOn", "run_model.Program.EntersInForm"]
PARTS = [
    ("what MPI allows: the runs of any program", ["run_model.Run.IsRun"]),
    ("the headline for any program: a run with this log, and what is shown of it in every order", CORE),
    ("the same with what it asks of a program: the laws of one that C's keep", CORE + ASKED),
    ("what a C program does and prints", ["c_program.Program.next_of", "c_program.Program.output_of"]),
    ("which texts are programs, and which program a text is", ["c_types.Checks.IsProgramOf"]),
    ("which texts are logs", ["wiz_logs.Logs.IsLogOf"]),
    ("which arguments ask for what", ["wiz_words.Words.AskFor"]),
]

Definition = namedtuple("Definition", "crate file name")
Source = namedtuple("Source", "path imports aliases definitions lines lemmas")

NAME = r"[^\s(){}\[\],;:.]+"
HEADER = re.compile(rf"^(?:abbrev |unfoldable )?(?:pub )?(?:(?:record|data) )?({NAME})(?= |:|$)")
KEYWORD = re.compile(r"^(?:(?:abbrev|unfoldable)\s+pub|abbrev|unfoldable|pub\s+(?:record|data)|record|data)\s")
IMPORT = re.compile(r"use Rattle\.(\w+)\.(?:specs|proofs)\.([\w.]+)\.\{([^}]*)\}")
ALIAS = re.compile(r"use Rattle\.(\w+)\.specs\.([\w.]+?)(?: as (\w+))?\s*$", re.M)
WORD = re.compile(r"(?<![\w'.])([A-Za-z_][\w'-]*)(?:\.([A-Za-z_][\w'-]*))?")


def imports_of(text):
    """The imported names: local name -> (crate, file, name); and the modules that stand for a name."""
    names, modules = {}, {}
    for crate, file, listed in IMPORT.findall(text):
        for item in re.split(r",\s*", listed.strip()):
            if item:
                source, _, local = item.partition(" as ")
                names[(local or source).strip()] = (crate, file, source.strip())
    for crate, file, local in ALIAS.findall(text):
        modules[local or file.split(".")[-1]] = (crate, file)
    return names, modules


def header_in(line, inside):
    """The name that a line begins to define, if it does. `inside` says of what the line is a part: a mutual group, a module."""
    if inside:
        if not line.startswith("  ") or line.startswith("   "):
            return None
        line = line[2:]
    if line.startswith(" "):
        return None
    if KEYWORD.match(line) and not re.match(r"^(?:abbrev|unfoldable)?\s*mutual\b", line):
        return HEADER.match(re.sub(r"^(abbrev|unfoldable) ", "", line)).group(1)
    unmarked = re.match(rf"^(?:pub )?({NAME}) :", line)
    return unmarked.group(1) if unmarked else None


def read_source(path):
    """The definitions of a file with their lines, and the constructors of its data types as names of these."""
    text = path.read_text()
    imports, aliases = imports_of(text)
    text = re.sub(r"^(?:pub )?use [^\n{]*(?:\{[^}]*\})?[^\n]*", lambda m: "\n" * m.group(0).count("\n"), text, flags=re.M)
    definitions, lines, lemmas, current, inside, data = {}, {}, set(), None, False, None
    for number, line in enumerate(text.split("\n"), 1):
        bare = line.strip()
        if not bare or bare.startswith("--"):
            continue
        if not line.startswith(" "):
            inside = bool(re.match(r"^(?:(?:abbrev|unfoldable) )?mutual\b|^module\b", line))
            if inside or re.match(r"^(?:infix|pub mod|pub use)", line):
                current = None
                continue
        name = header_in(line, inside)
        if name:
            current = name
            definitions.setdefault(name, []).append(line)
            lines.setdefault(name, number)
            data = name if re.match(r"^\s*(?:pub )?data\s", line) else None
            if not inside and not KEYWORD.match(line):
                lemmas.add(name)
            continue
        if current:
            definitions[current].append(line)
            constructor = re.match(rf"^\s+(?:pub )?({NAME}) :", line)
            if data == current and constructor:
                imports.setdefault(constructor.group(1), None)
                imports[constructor.group(1)] = ("", "", data)
    return Source(path, imports, aliases, definitions, lines, lemmas)


def read_sources():
    sources = {}
    for path in sorted((TOP / "crates").glob("*/specs/**/*.antt")):
        inside = path.relative_to(TOP / "crates")
        file = ".".join(inside.with_suffix("").parts[2:])
        sources[(inside.parts[0], file)] = read_source(path)
    return sources


class House:
    """All definitions of the house, and what each rests on."""

    def __init__(self):
        self.sources = read_sources()
        self.outside = {}

    def text_of(self, definition):
        return self.sources[(definition.crate, definition.file)].definitions[definition.name]

    def path_of(self, definition):
        return self.sources[(definition.crate, definition.file)].path.relative_to(TOP)

    def find(self, crate, file, name):
        """The definition that an imported name is, through files that hand names on; or the type, constant or library definition."""
        for _ in range(8):
            source = self.sources.get((crate, file))
            if source is None:
                return ("outside", crate, file, name)
            if name in source.definitions:
                return Definition(crate, file, name)
            if name not in source.imports:
                return None
            target = source.imports[name]
            crate, file, name = (crate, file, target[2]) if target[0] == "" else target
        return None

    def named_in(self, definition):
        """What the text of a definition names."""
        source = self.sources[(definition.crate, definition.file)]
        text = "\n".join(re.sub(r" -- .*$", "", line) for line in self.text_of(definition))
        found = set()
        for word, field in WORD.findall(text):
            if word in source.aliases and field:
                found.add(self.find(*source.aliases[word], field))
            else:
                found.add(self.find(definition.crate, definition.file, word))
        for name in list(source.imports) + list(source.definitions):
            if "◌" in name and all(part in text.split() for part in name.split("◌") if part):
                found.add(self.find(definition.crate, definition.file, name))
        return found - {None, definition}

    def closure(self, roots):
        """All definitions that these rest on, themselves among them; and what is named beside them."""
        seen, outside, open_ones = set(), set(), list(roots)
        while open_ones:
            one = open_ones.pop()
            if one in seen:
                continue
            if not isinstance(one, Definition):
                outside.add(one)
                continue
            seen.add(one)
            open_ones.extend(self.named_in(one))
        self.outside[frozenset(seen)] = outside
        return frozenset(seen)

    def lines(self, definitions):
        return sum(len(self.text_of(one)) for one in definitions)

    def clauses(self):
        """The clauses of the top call: the name of each, and the definitions that its text names."""
        text = (TOP / CLAUSES_FILE).read_text()
        names, _ = imports_of(text.replace("ghost use", "use"))
        head = re.search(rf"^pub fn {CLAUSES_OF}[<(].*?^\{{", text, re.M | re.S).group(0)
        found = {}
        for clause, body in re.findall(r"ensures (\w+) \{ (.*?) \}$", head, re.M):
            roots = {self.find(*names[word]) for word, _ in WORD.findall(body) if word in names}
            found[clause] = {one for one in roots if isinstance(one, Definition)}
        return found

    def named(self, path):
        crate, file, name = path.split(".")
        one = Definition(crate, file, name)
        if name not in self.sources.get((crate, file), Source("", {}, {}, {}, {}, set())).definitions:
            sys.exit(f"statement: there is no definition {path}")
        return one


def files_of(definitions):
    return {(one.crate, one.file) for one in definitions}


def count(number):
    return f"{number:,}"


def figures(house, definitions):
    return f"{count(len(definitions))} | {count(house.lines(definitions))} | {count(len(files_of(definitions)))}"


def wrapped(text, indent=""):
    return textwrap.wrap(text, 140, subsequent_indent=indent, break_long_words=False, break_on_hyphens=False)


def answer_block(house, core, clauses):
    """The answer in a paragraph."""
    headline, everything = clauses["headline"], frozenset().union(*clauses.values())
    asked = house.closure([house.named(path) for path in CORE + ASKED])
    text = (f"The headline, for any program, rests on **{count(len(core))} definitions, {count(house.lines(core))} lines in"
            f" {len(files_of(core))} files**, and with the three laws that it asks of a program on {count(len(asked))},"
            f" {count(house.lines(asked))} lines in {len(files_of(asked))} files. With the C language, the texts of logs and the arguments it rests on"
            f" {count(len(headline))} definitions, {count(house.lines(headline))} lines in {len(files_of(headline))} files; all clauses"
            f" of the top call together on {count(len(everything))}, {count(house.lines(everything))} lines in"
            f" {len(files_of(everything))} files.")
    return wrapped(text)


def parts_block(house, clauses):
    """A row for each part, and one for each clause: what it rests on, and how many of these no row above has."""
    rows = ["| what is said | definitions | lines | files | not in the rows above |", "|---|---|---|---|---|"]
    before = frozenset()
    parts = [(what, house.closure([house.named(path) for path in paths])) for what, paths in PARTS]
    parts += [(f"the clause `{name}`", clauses[name]) for name in sorted(clauses, key=lambda name: name != "headline")]
    for what, found in parts:
        rows.append(f"| {what} | {figures(house, found)} | {count(len(found - before))} |")
        before |= found
    rows.append(f"| all of these | {figures(house, before)} | |")
    return rows


def gloss_of(old, key, cell):
    """What the page says in this cell of the row that begins with this key."""
    for line in old:
        cells = [cell.strip() for cell in line.strip().strip("|").split("|")]
        if cells[0] == key and len(cells) > cell:
            return cells[cell]
    return "?"


def keys_of(old):
    """The keys of a block's rows, each once."""
    return list(dict.fromkeys(line.strip().strip("|").split("|")[0].strip() for line in old if line.startswith("| `")))


def reading_block(house, core, old):
    """The files of the headline for any program, in the page's order, each with what it adds."""
    rows = ["| file | definitions | lines | what it adds |", "|---|---|---|---|"]
    by_key = {}
    for one in core:
        by_key.setdefault(f"`{one.crate}/specs/{one.file}`", set()).add(one)
    order = [key for key in keys_of(old) if key in by_key]
    order += sorted(key for key in by_key if key not in order)
    for key in order:
        found = by_key[key]
        rows.append(f"| {key} | {len(found)} | {house.lines(found)} | {gloss_of(old, key, 3)} |")
    return rows


def names_block(house, core, old):
    """The names of these definitions, by file, and how many of the toolchain's library they use."""
    order = keys_of(old)
    by_key = {}
    for one in core:
        by_key.setdefault(f"`{one.crate}/specs/{one.file}`", []).append(one.name)
    order = [key for key in order if key in by_key] + sorted(key for key in by_key if key not in order)
    rows = []
    for key in order:
        rows += wrapped(f"- {key}: " + ", ".join(f"`{name}`" for name in sorted(by_key[key])), "  ")
    words = {(crate, file, name) for _, crate, file, name in house.outside[core] if not file.startswith("declared.")}
    return rows + [""] + wrapped(f"They use {len(words)} definitions of the toolchain's standard library: lists, numbers, choices.")


def types_block(house, core, old):
    """The types and constants of the code that these definitions speak of, by the file that declares them."""
    declared = {}
    for _, crate, file, name in house.outside[core]:
        parts = file.split(".")
        if parts[0] == "declared":
            of_crate = parts[1:-1] if parts[-1] == "TheConstants" else parts[1:-2] if parts[-1] == "TheVariants" else parts[1:-1]
            shown = name if parts[-1] == "TheConstants" else parts[-2] if parts[-1] == "TheVariants" else parts[-1]
            declared.setdefault(f"`{crate}/src/{'/'.join(of_crate)}.rt`", set()).add(shown)
    order = [key for key in keys_of(old) if key in declared]
    order += sorted(key for key in declared if key not in order)
    rows = ["| file | types and constants | what they are |", "|---|---|---|"]
    for key in order:
        if not (TOP / "crates" / key.strip("`")).exists():
            sys.exit(f"statement: there is no file {key}")
        names = ", ".join(f"`{name}`" for name in sorted(declared[key]))
        rows.append(f"| {key} | {names} | {gloss_of(old, key, 2)} |")
    return rows


def crates_block(house, core, headline, old):
    """What the rest of the headline rests on, a crate a row."""
    rows = ["| crate | definitions | lines | files | what it adds |", "|---|---|---|---|---|"]
    by_crate = {}
    for one in headline - core:
        by_crate.setdefault(one.crate, set()).add(one)
    order = [key.strip("`") for key in keys_of(old)]
    order = [crate for crate in order if crate in by_crate] + sorted(crate for crate in by_crate if crate not in order)
    for crate in order:
        key = f"`{crate}`"
        rows.append(f"| {key} | {figures(house, by_crate[crate])} | {gloss_of(old, key, 4)} |")
    rows.append(f"| together | {figures(house, headline - core)} | |")
    return rows


def misplaced(house, core, rows):
    """The files of the reading order that stand before one that they rest on."""
    place = {key: at for at, key in enumerate(keys_of(rows))}
    found = set()
    for one in core:
        here = f"`{one.crate}/specs/{one.file}`"
        for other in house.named_in(one):
            if isinstance(other, Definition):
                there = f"`{other.crate}/specs/{other.file}`"
                if place.get(there, -1) > place.get(here, -1):
                    found.add(f"{here} stands before {there}, which it rests on")
    return sorted(found)


def unknown_names(page, headline):
    """The names of the page's formula, left of the glosses, that are no definition under the headline."""
    formula = re.search(r"^```\n(.*?)^```", page, re.M | re.S).group(1)
    words = {word for line in formula.split("\n") for word in re.findall(r"\w*[a-z]\w*[A-Z_]\w*", re.sub(r"(?<=\S) {3,}.*", "", line))}
    return sorted(f"the formula names {word}, which the headline does not rest on" for word in words - {one.name for one in headline})


def make_page(house, page):
    """The page with each block between its markers as it should be, and what else is wrong."""
    core = house.closure([house.named(path) for path in CORE])
    clauses = {name: house.closure(roots) for name, roots in house.clauses().items()}
    reading = []

    def block(match):
        begin, name, old, end = match.groups()
        old = old.split("\n")
        if name == "answer":
            new = answer_block(house, core, clauses)
        elif name == "parts":
            new = parts_block(house, clauses)
        elif name == "reading":
            new = reading_block(house, core, old)
            reading.extend(new)
        elif name == "types":
            new = types_block(house, core, old)
        elif name == "names":
            new = names_block(house, core, reading)
        elif name == "crates":
            new = crates_block(house, core, clauses["headline"], old)
        else:
            sys.exit(f"statement: docs/STATEMENT.md has a block {name} that nothing fills")
        return begin + "\n" + "\n".join(new) + "\n" + end

    new = re.sub(r"(<!-- found: (\w+) -->)\n(.*?)(<!-- end -->)", block, page, flags=re.S)
    wrong = misplaced(house, core, reading) + unknown_names(page, clauses["headline"])
    wrong += [f"the page does not say what it adds: {line}" for line in new.split("\n") if line.endswith("| ? |")]
    return new, wrong


def list_part(house, what):
    clauses = house.clauses()
    if what in clauses:
        roots = clauses[what]
    elif what.count(".") == 2:
        roots = [house.named(what)]
    else:
        roots = [Definition(crate, file, what) for (crate, file), source in house.sources.items() if what in source.definitions]
    found = house.closure(roots)
    if not found:
        sys.exit(f"statement: no clause of {CLAUSES_OF} and no definition is called {what}")
    for one in sorted(found, key=lambda one: (one.crate, one.file, house.sources[(one.crate, one.file)].lines[one.name])):
        line = house.sources[(one.crate, one.file)].lines[one.name]
        print(f"{house.path_of(one)}:{line}: {one.name} ({len(house.text_of(one))})")
    print(f"{len(found)} definitions, {house.lines(found)} lines, {len(files_of(found))} files")


def main(arguments):
    house = House()
    if arguments[:1] == ["--list"] and len(arguments) == 2:
        list_part(house, arguments[1])
        return 0
    if not arguments:
        clauses = {name: house.closure(roots) for name, roots in house.clauses().items()}
        print("\n".join(parts_block(house, clauses)))
        all_of_them = sum(len(source.definitions) - len(source.lemmas) for source in house.sources.values())
        print(f"all definitions of the repository: {count(all_of_them)}")
        return 0
    page = PAGE.read_text()
    new, wrong = make_page(house, page)
    for line in wrong:
        print(f"statement: {line}")
    if arguments == ["--write"]:
        PAGE.write_text(new)
        return 1 if wrong else 0
    if arguments != ["--check"]:
        print(__doc__)
        return 1
    for line in difflib.unified_diff(page.split("\n"), new.split("\n"), "docs/STATEMENT.md", "what is found", lineterm="", n=0):
        print(line)
    if page != new:
        print("statement: docs/STATEMENT.md is not what the definitions are; `.ci/statement.py --write` renews it")
    return 1 if wrong or page != new else 0


if __name__ == "__main__":
    sys.exit(main(sys.argv[1:]))
