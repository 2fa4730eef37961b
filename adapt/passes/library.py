"""Functions of the C library."""
from pycparser import c_ast

from .parsing import arguments, bare
from .types import NUMBERS, element
from .values import BINDS, CHOICE, SIGN, Place, Value, literal, operation

# Calls that do nothing that a run of the language could see.
DROPPED = set(
    """free xbt_free sleep usleep nanosleep srand srandom setbuf setvbuf
    setlinebuf fclose sched_yield setlocale""".split()
)
# Calls whose work is not done, with a note.
NOT_DONE = {"alarm", "signal", "fopen", "gettimeofday", "clock_gettime"}
TIMES = ("MPI_Wtime", "MPI_Wtick", "time", "clock", "getpid")
ABORTED = 134


class Library:
    """Calls of functions that are not the program's own."""

    def call(self, node, wanted):
        """A call; its value is used only if `wanted`."""
        self.report.here = self.report.place_of(node)
        if not isinstance(node.name, c_ast.ID) or (
            id(node.name) in self.symbol_of
        ):
            self.report.refuse(
                node, "a call through a pointer", "call the function itself"
            )
        name = node.name.name
        if name in self.functions:
            return self.own_call(node, name, wanted)
        if name.startswith("PMPI_"):
            name = name[1:]
        if name in TIMES:
            return self.call_of_time(node, name)
        if name.startswith("MPI_"):
            self.mpi_call(node, name)
            return literal(0)
        rule = getattr(self, "call_of_" + name.lstrip("_"), None)
        if rule is not None:
            return rule(node, arguments(node)) or literal(0)
        if name in DROPPED or name in NOT_DONE:
            return self.drop_call(node, name)
        self.report.refuse(
            node,
            f"the function {name}",
            "write it in this file, or leave its call out",
        )

    def drop_call(self, node, name):
        """Leaves a call out; what its arguments do is kept."""
        for item in arguments(node):
            if self.has_effects(item):
                self.effect(item)
        if name in NOT_DONE:
            self.report.note(node, f"{name} dropped: its work is not done")
        elif name != "free":
            self.report.say(node, f"{name} dropped")
        return literal(0)

    def call_of_time(self, node, name):
        """The time, and what else differs from run to run."""
        self.report.note(node, f"{name} is 0")
        return literal(0, "double" if name.startswith("MPI") else "long")

    def call_of_fflush(self, node, given):
        self.emit("fflush(stdout);")

    def call_of_adapt_assert(self, node, given):
        value = self.truth(given[0])
        self.check_number(value, node)
        if value.number is None or not value.number:
            self.emit(f"if (!{value.at(SIGN)}) {{")
            self.emit(f"MPI_Abort(MPI_COMM_WORLD, {ABORTED});")
            self.emit("}")
        self.report.say(node, "assert stops the run by MPI_Abort")

    def call_of_exit(self, node, given):
        value = self.value(given[0]) if given else literal(0)
        at_once = self.current == "main" and not self.written_out
        if at_once:
            if value.number != 0:
                self.report.note(
                    node,
                    "exit ends this rank only: mpirun may stop the " "others",
                )
            self.emit(f"return {value.text};")
            return
        self.report.note(node, "exit stops all ranks, by MPI_Abort")
        self.emit(f"MPI_Abort(MPI_COMM_WORLD, {value.text});")

    def call_of_abort(self, node, given):
        self.report.say(node, "abort stops all ranks, by MPI_Abort")
        self.emit(f"MPI_Abort(MPI_COMM_WORLD, {ABORTED});")

    def call_of_abs(self, node, given):
        value = self.temporary(self.value(given[0]))
        self.check_number(value, node)
        if value.number is not None:
            return literal(abs(value.number))
        return Value(
            f"{value.text} < 0 ? -{value.text} : {value.text}", CHOICE
        )

    def call_of_labs(self, node, given):
        return self.call_of_abs(node, given)

    def call_of_getopt(self, node, given):
        self.report.say(node, "getopt finds nothing: argc is 1")
        return literal(-1)

    def call_of_strlen(self, node, given):
        text = self.text_of(given[0])
        codes = None if text is None else self.codes_of(text)
        if codes is None:
            self.report.refuse(
                node,
                "the length of a text that is not known",
                "use a number",
            )
        return literal(len(codes), "ulong")

    def call_of_strcmp(self, node, given):
        texts = [self.text_of(item) for item in given]
        if None in texts:
            self.report.refuse(
                node,
                "a comparison of texts that are not known",
                "compare numbers",
            )
        left, right = (self.codes_of(text) for text in texts)
        return literal((left > right) - (left < right))

    def call_of_perror(self, node, given):
        self.report.note(node, "what goes to the error output is not printed")

    def call_of_bzero(self, node, given):
        zero = c_ast.Constant("int", "0")
        self.fill(node, given[0], zero, given[1])

    def call_of_memset(self, node, given):
        self.fill(node, *given)

    def fill(self, node, target, filler, length):
        """memset as a loop."""
        place = self.address(target)
        size = self.size_of_type(element(place.type))
        number = self.constant(filler)
        if (
            size not in (1, 2, 4, 8)
            or number is None
            or (size > 1 and number not in (0, 255, -1))
            or element(place.type) not in NUMBERS - {"float", "double"}
            and (number != 0)
        ):
            self.report.refuse(
                node,
                "memset by what is not one value for each element",
                "use a loop",
            )
        if number == 255 and size > 1:
            number = -1
        value = self.fitted(literal(number), element(place.type), node)
        self.repeat(node, place, size, length, lambda index: value)

    def call_of_memcpy(self, node, given):
        self.copy(node, *given)

    def copy(self, node, target, origin, length):
        """memcpy as a loop."""
        place, source = self.address(target), self.address(origin)
        mine, theirs = element(place.type), element(source.type)
        size = self.size_of_type(mine)
        if mine != theirs or mine not in NUMBERS:
            self.report.refuse(
                node,
                "memcpy between things of different types",
                "use a loop",
            )
        self.repeat(
            node,
            place,
            size,
            length,
            lambda index: Value(self.shifted_place(source, index).text()),
        )

    def shifted_place(self, place, index):
        """The place some cells after another one."""
        if place.offset is None:
            return place
        offset = operation("+", place.offset, index)
        return Place(place.base, offset, element(place.type))

    def repeat(self, node, place, size, length, value_at):
        """A loop that sets the cells of a place, so many bytes of them."""
        bytes = self.constant(length)
        if bytes is not None:
            if bytes % size:
                self.report.refuse(
                    node, "a part of an element", "use whole elements"
                )
            count = literal(bytes // size)
        else:
            count = self.count_of_bytes(length, size)
            if count is None:
                self.report.refuse(
                    node,
                    "a number of bytes that is not known",
                    "write it as a number times sizeof",
                )
        if place.offset is None:
            if count.number != 1:
                self.report.refuse(
                    node, "more than one element of a variable", "mend it"
                )
            self.emit(f"{place.base} = {value_at(literal(0)).text};")
            return
        index = self.fresh()
        limit = count.at(BINDS["<"] + 1)
        self.emit(f"for (int {index} = 0; {index} < {limit}; {index}++) {{")
        target = self.shifted_place(place, Value(index))
        self.emit(f"{target.text()} = {value_at(Value(index)).text};")
        self.emit("}")
        self.report.say(node, f"{node.name.name} is a loop")

    def count_of_bytes(self, node, size):
        """A product with an element's size as the other factor, or None."""
        node = bare(node)
        if size == 1:
            return self.value(node)
        if isinstance(node, c_ast.BinaryOp) and node.op == "*":
            for factor, other in (
                (node.left, node.right),
                (node.right, node.left),
            ):
                if self.constant(factor) == size:
                    return self.value(other)
                inner = self.count_of_bytes(factor, size)
                if inner is not None:
                    return operation("*", inner, self.value(other))
        return None
