"""All passes together."""
import re

from .constants import Constants
from .expressions import Expressions
from .functions import Functions
from .handles import Handles
from .library import Library
from .mpi_calls import HELPERS, MpiCalls
from .names import Names
from .output import MOST_BYTES, MOST_DEPTHS, Output, depths, layout
from .parsing import parse
from .persistent import Persistent
from .places import Places
from .pointers import Pointers
from .preprocess import preprocess
from .printing import Printing
from .statements import Statements
from .types import Types

SELF_LINES = [
    "int adapt_rank;",
    "MPI_Comm_rank(MPI_COMM_WORLD, &adapt_rank);",
    "MPI_Comm_split(MPI_COMM_WORLD, adapt_rank, 0, &adapt_self);",
]
START = re.compile(r"@start (\d+)$")


class Translator(
    Types,
    Names,
    Constants,
    Handles,
    Pointers,
    Places,
    Expressions,
    Statements,
    Functions,
    Library,
    Printing,
    MpiCalls,
    Persistent,
    Output,
):
    """A program in translation.

    Of the tree: `typedefs`, `enums`, `functions`, `parameters`, `globals`,
    `symbol_of` (a variable for each name's occurrence) and `parent`. Of the
    text: `lines`, the names that are `taken` and those that are `visible`.
    """

    def __init__(self, options, report):
        self.options, self.report = options, report
        self.typedefs, self.enums = {}, {}
        self.functions, self.parameters, self.variadic = {}, {}, {}
        self.globals, self.calls, self.unknown_in = [], [], {}
        self.symbol_of, self.parent, self.live = {}, {}, set()
        self.function = self.current = None
        self.computing, self.planning = set(), set()
        self.with_ranks = self.folding = self.at_top = self.trying = False
        self.below_of, self.plain, self.acting = {}, {}, set()
        self.lines, self.loops, self.returns = [], [], []
        self.written_out, self.visible, self.taken = [], [set()], set()
        self.top_lines, self.kept, self.starts = [], {}, []
        self.helpers, self.needs_self = set(), False

    def translate(self):
        """The text of the adapted program."""
        text = preprocess(self.options, self.report)
        self.resolve(parse(text, self.report))
        symbols = {id(it): it for it in self.symbol_of.values()}
        self.all_symbols = list(symbols.values())
        self.acting = self.find_acting()
        self.find_shared()
        parts = []
        for name in self.functions:
            if name in self.live and name != "main" and self.is_plain(name):
                parts.append(self.function_lines(name))
            elif name not in self.live:
                self.report.say(
                    self.functions[name], f"{name} is not called: dropped"
                )
        parts.append(self.function_lines("main"))
        lines = []
        for name in sorted(self.helpers):
            ranks = str(self.options.ranks)
            helper = HELPERS[name][1].replace("RANKS", ranks)
            lines += helper.strip().split("\n") + [""]
        for part in parts:
            lines += self.finished(part) + [""]
        return self.checked_text(lines[:-1])

    def finished(self, lines):
        """The lines of a function, with what was left open in them."""
        is_main = lines[0].startswith("int main(")
        text = []
        for line in lines:
            found = START.match(line)
            if found:
                text += self.start_lines(int(found[1]))
            elif line == "@self":
                text += SELF_LINES if self.needs_self else []
            else:
                text.append(line)
        if is_main:
            top = list(self.top_lines)
            if self.needs_self:
                top.append("MPI_Comm adapt_self;")
            text[2:2] = top
        return text

    def checked_text(self, lines):
        """The laid out text, if the language can have it."""
        if depths(lines) > MOST_DEPTHS and not self.report.refusals:
            self.report.refuse(
                None,
                "nested too deeply: the language has 64 depths",
                "use functions, or variables for parts",
            )
        text = layout(lines)
        if len(text) > MOST_BYTES and not self.report.refusals:
            self.report.refuse(
                None,
                f"the adapted text has {len(text)} bytes: the language has "
                f"{MOST_BYTES}",
                "make the program shorter",
            )
        return text + "\n"
