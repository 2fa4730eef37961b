"""Lines, names and the layout of the text that is written."""
from .handles import OPERATIONS, TYPES
from .mpi_table import SIGNATURES
from .values import Value

KEYWORDS = set(
    """int void char if else while do for break continue return MPI_Status
    MPI_Request MPI_Comm printf fflush stdout NULL main MPI_Init MPI_Finalize
    MPI_STATUS_IGNORE MPI_STATUSES_IGNORE MPI_REQUEST_NULL MPI_COMM_WORLD
    MPI_COMM_NULL auto case const default double enum extern float goto
    inline long register restrict short signed sizeof static struct switch
    typedef union unsigned volatile""".split()
)
INTS = {
    "MPI_ANY_TAG",
    "MPI_PROC_NULL",
    "MPI_ANY_SOURCE",
    "MPI_UNDEFINED",
    "INT_MAX",
    "INT_MIN",
}
TAKEN = KEYWORDS | INTS | set(SIGNATURES) | set(OPERATIONS) | set(TYPES)
WORDS = {"comm": "MPI_Comm", "status": "MPI_Status", "request": "MPI_Request"}
MOST_DEPTHS = 64
MOST_BYTES = 65536
INDENT = "    "


class Output:
    """The lines of the function that is being written."""

    def emit(self, line):
        """One line; a block's scope begins and ends with its braces."""
        self.lines.append(line)
        if line.startswith("}"):
            self.visible.pop()
        if line.endswith("{"):
            self.visible.append(set())

    def caught(self, work):
        """The lines that some work emits, and what it answers."""
        old, self.lines = self.lines, []
        try:
            answer = work()
            return self.lines, answer
        finally:
            self.lines = old

    def fresh(self, base="w"):
        """A name that the text has not yet."""
        number = 1
        while f"{base}{number}" in self.taken:
            number += 1
        return self.take(f"{base}{number}")

    def take(self, name):
        """Takes a name for good, visible in the current block."""
        self.taken.add(name)
        self.visible[-1].add(name)
        return name

    def name_for(self, symbol):
        """The name that a variable gets in the text."""
        name = symbol.name
        if name in self.taken or name in TAKEN:
            name = self.fresh(name + "_")
        symbol.name_now = self.take(name)
        return name

    def check_visible(self, name, said, node):
        """Refuses a name that is not declared where it is used."""
        if name is None or not any(name in it for it in self.visible):
            self.report.refuse(
                node,
                f"{said} means a variable that is not known here",
                "declare it outside of this block or function",
            )

    def temporary(self, value):
        """A new variable with this value."""
        if value.number is not None:
            return value
        name = self.fresh()
        self.emit(f"{WORDS.get(value.type, 'int')} {name} = {value.text};")
        return Value(name, type=value.type)


def layout(lines):
    """The text of lines, indented by their braces."""
    text, depth = [], 0
    for line in lines:
        if line.startswith("}"):
            depth -= 1
        text.append(INDENT * depth + line if line else "")
        if line.endswith("{"):
            depth += 1
    return "\n".join(text)


def depths(lines):
    """At least as many depths as the language counts in these lines."""
    most, blocks = 0, 0
    for line in lines:
        if line.startswith("}"):
            blocks -= 1
        most = max(most, 2 * blocks + 1 + nested(line))
        if line.endswith("{"):
            blocks += 1
    return most


def nested(line):
    """How deep a line's parentheses, brackets and signs are nested."""
    most = depth = signs = choices = 0
    text, previous = False, ""
    for mark in line:
        if text:
            text = mark != '"' or previous == "\\"
        elif mark == '"':
            text = True
        elif mark in "([":
            depth += 1
        elif mark in ")]":
            depth -= 1
        elif mark == "?":
            choices += 1
        elif mark in "-!~+":
            signs += 1
        elif mark != " ":
            signs = 0
        most = max(most, depth + signs + choices)
        previous = "" if previous == "\\" else mark
    return most
