"""Calls of MPI: as they are, or by what the language has in their place."""
from pycparser import c_ast

from .handles import TYPES
from .mpi_table import (
    DROPPED,
    ERROR_HANDLERS,
    NONBLOCKING,
    NOT_GIVEN,
    PERSISTENT,
    SAME,
    SIGNATURES,
    SYNCHRONOUS,
)
from .parsing import arguments, bare, names_in
from .types import INTS, NUMBERS, REALS, element
from .values import Place, Value, literal, operation

NEEDED = {"k": "comm", "r": "request", "i": "int"}
BLOCK = 64
TOO_LONG = 77
REDUCTIONS = ("MPI_Allreduce", "MPI_Reduce", "MPI_Scan")
GATHERS = ("MPI_Allgather", "MPI_Gather", "MPI_Scatter")
INVERSE = {"MPI_SUM": "-", "MPI_BXOR": "^"}
ALLGATHERV = """
void adapt_allgatherv(int s[], int n, int r[], int counts[], int at[], \
MPI_Comm comm)
{
int own[65];
int all[65 * RANKS];
int size;
MPI_Comm_size(comm, &size);
if (n > 64) {
MPI_Abort(comm, 77);
}
for (int j = 0; j < n; j++) {
own[j] = s[j];
}
MPI_Allgather(own, 65, MPI_INT, all, 65, MPI_INT, comm);
for (int i = 0; i < size; i++) {
for (int j = 0; j < counts[i]; j++) {
r[at[i] + j] = all[i * 65 + j];
}
}
}
"""
ALLTOALLV = """
void adapt_alltoallv(int s[], int sends[], int from[], int r[], int counts[], \
int at[], MPI_Comm comm)
{
int own[65 * RANKS];
int all[65 * RANKS];
int size;
MPI_Comm_size(comm, &size);
for (int i = 0; i < size; i++) {
if (sends[i] > 64) {
MPI_Abort(comm, 77);
}
for (int j = 0; j < sends[i]; j++) {
own[i * 65 + j] = s[from[i] + j];
}
}
MPI_Alltoall(own, 65, MPI_INT, all, 65, MPI_INT, comm);
for (int i = 0; i < size; i++) {
for (int j = 0; j < counts[i]; j++) {
r[at[i] + j] = all[i * 65 + j];
}
}
}
"""
HELPERS = {
    "MPI_Allgatherv": ("adapt_allgatherv", ALLGATHERV),
    "MPI_Alltoallv": ("adapt_alltoallv", ALLTOALLV),
}


class MpiCalls:
    """Calls of MPI."""

    def mpi_call(self, node, name):
        """One call of MPI, as a statement."""
        given = arguments(node)
        rule = getattr(self, "mpi_of_" + name[4:], None)
        if rule is not None:
            rule(node, given)
        elif name in DROPPED:
            self.report.say(node, f"{name} dropped")
        elif name in NOT_GIVEN:
            self.report.note(node, f"{name} dropped: what it gives is not set")
        elif name in ERROR_HANDLERS:
            self.report.note(
                node, f"{name} dropped: every error stops the run"
            )
        elif name in PERSISTENT:
            self.init_request(node, name, given)
        else:
            self.plain_call(node, name, given)

    def mpi_of_Init(self, node, given):
        self.emit("MPI_Init(NULL, NULL);")
        self.emit("@self")

    def mpi_of_Init_thread(self, node, given):
        if len(given) == 4 and not self.is_null(given[3]):
            place, value = self.address(given[3]), self.value(given[2])
            self.emit(f"{place.text()} = {value.text};")
        self.mpi_of_Init(node, given)

    def mpi_of_Finalize(self, node, given):
        self.emit("MPI_Finalize();")

    def mpi_of_Get_processor_name(self, node, given):
        self.report.note(node, "the processor has the name ?")
        place = self.address(given[1])
        self.emit(f"{place.text()} = 1;")

    def mpi_of_Type_contiguous(self, node, given):
        self.set_type(
            node,
            given[2],
            lambda: operation(
                "*", self.value(given[0]), literal(self.multiple(given[1]))
            ),
        )

    def mpi_of_Type_dup(self, node, given):
        self.set_type(node, given[1], lambda: literal(self.multiple(given[0])))

    def mpi_of_Type_free(self, node, given):
        self.set_type(node, given[0], lambda: literal(-1))

    def multiple(self, node):
        """How many elements a datatype has."""
        number = self.handle(node, "dtype")[1]
        if not isinstance(number, int):
            self.report.refuse(
                node,
                "a datatype of one with several values",
                "use a variable for each",
            )
        return number

    def set_type(self, node, target, work):
        """A call that makes or frees a datatype."""
        target = bare(target)
        symbol = None
        if isinstance(target, c_ast.UnaryOp) and target.op == "&":
            symbol = self.symbol_of.get(id(target.expr))
        if symbol is None or symbol.type != "dtype":
            self.report.refuse(
                node, "a datatype that is no variable", "use a variable"
            )
        if symbol.many:
            self.emit(f"{symbol.name_now} = {work().text};")
        else:
            self.report.say(node, f"{symbol.name} is written where it is used")

    def mpi_of_Type_size(self, node, given):
        name, number = self.handle(given[0], "dtype")
        if not isinstance(number, int) or number < 0:
            self.report.refuse(
                node,
                "the size of a datatype with several values",
                "use a number",
            )
        place = self.address(given[1])
        self.emit(f"{place.text()} = {TYPES[name][1] * number};")

    def mpi_of_Request_free(self, node, given):
        self.free_request(node, given)

    def mpi_of_Start(self, node, given):
        self.start_request(node, self.request_place(given[0]))

    def mpi_of_Startall(self, node, given):
        self.start_all(node, given)

    def mpi_of_Comm_rank(self, node, given):
        self.ask_comm(node, "MPI_Comm_rank", given)

    def mpi_of_Comm_size(self, node, given):
        self.ask_comm(node, "MPI_Comm_size", given)

    def ask_comm(self, node, name, given):
        """MPI_Comm_rank and MPI_Comm_size, into any int type."""
        if len(given) != 2:
            self.report.refuse(node, f"{name} without 2 arguments", "mend it")
        comm = self.comm_text(given[0])
        place = self.address(given[1])
        self.check_answer(place, given[1], name)
        self.emit(f"{name}({comm}, {place.reference()});")

    def comm_text(self, node):
        """The text of a communicator."""
        value = self.value(node)
        if value.type != "comm":
            self.report.refuse(
                node, "what is no communicator", "give a communicator"
            )
        return value.text

    def comm_self(self, node):
        """MPI_COMM_SELF, which is made at MPI_Init."""
        if self.current != "main":
            self.report.refuse(
                node, "MPI_COMM_SELF in a function", "make one in main"
            )
        self.needs_self = True
        self.report.note(
            node,
            "MPI_COMM_SELF is made by MPI_Comm_split at MPI_Init: one "
            "collective more",
        )
        return Value("adapt_self", type="comm")

    def chosen_mode(self, node, name):
        """A send in the mode that it gets here."""
        if self.options.synchronous and name in SYNCHRONOUS:
            name = SYNCHRONOUS[name]
            self.report.say(node, f"the send is {name} (--synchronous)")
        if name in SAME:
            same = SAME[name]
            if "rsend" in name.lower():
                self.report.note(
                    node,
                    f"{name} as {same}: that a receive is there is "
                    "not checked",
                )
            else:
                self.report.say(node, f"{name} as {same}")
            return same
        return name

    def plain_call(self, node, name, given):
        """A call that the language has, or one that is done by it."""
        name = self.chosen_mode(node, name)
        request = None
        if name in NONBLOCKING:
            if not self.options.blocking:
                self.no_such_call(node, name, "--blocking does it at once")
            self.report.note(
                node, f"{name} is done at once, as {NONBLOCKING[name]}"
            )
            name = NONBLOCKING[name]
            request = given.pop() if given else None
        if name == "MPI_Exscan":
            self.exscan(node, given)
        elif name in HELPERS:
            self.vector(node, name, given)
        elif name == "MPI_Sendrecv_replace":
            self.replace(node, given)
        else:
            self.signed_call(node, name, given)
        if request is not None:
            place = self.address(request)
            self.emit(f"{place.text()} = MPI_REQUEST_NULL;")

    def no_such_call(self, node, name, how):
        """Refuses a call that the language has not."""
        why = f"{name}: the language has no such call"
        self.report.refuse(node, why, how)

    def signed_call(self, node, name, given):
        """A call of the table."""
        letters = SIGNATURES.get(name)
        if letters is None:
            how = "do without it, or use one of docs/LANGUAGE.md"
            self.no_such_call(node, name, how)
        if len(given) != len(letters):
            self.report.refuse(
                node,
                f"{name} with {len(given)} arguments",
                f"give it {len(letters)}",
            )
        given = self.in_place(node, name, given)
        types = self.buffer_types(letters, given)
        works = []
        for at, (letter, item) in enumerate(zip(letters, given)):
            works.append(
                self.argument_of(
                    node, name, letters, given, types, at, letter, item
                )
            )
        values = self.in_order(node, works)
        texts = [value.text for value in values]
        self.emit_reduction(node, name, letters, given, texts)

    def emit_reduction(self, node, name, letters, given, texts):
        """Emits a call, for each operation that it may have."""
        if "o" not in letters:
            self.emit(f"{name}({', '.join(texts)});")
            return
        at, count = letters.index("o"), letters.index("n")
        meaning = self.handle(given[at], "op")
        choices = [meaning]
        if not isinstance(meaning, str):
            choices = meaning.many
        for number, operation_name in enumerate(choices):
            line = list(texts)
            line[at] = operation_name
            if operation_name == "MPI_OP_NULL":
                line[at], line[count] = "MPI_SUM", "-1"
            text = f"{name}({', '.join(line)});"
            if isinstance(meaning, str):
                self.emit(text)
                continue
            word = "if" if number == 0 else "} else if"
            self.emit(f"{word} ({meaning.name_now} == {number}) {{")
            self.emit(text)
        if not isinstance(meaning, str):
            self.emit("}")

    def argument_of(self, node, name, letters, given, types, at, letter, item):
        """What finds the text of one argument, as a value."""
        if isinstance(item, Value):
            return lambda: item
        if letter == "b":
            return lambda: Value(self.buffer(item), type="reference")
        if letter == "n":
            counts = at + 1 < len(letters) and letters[at + 1] == "T"
            if counts and not isinstance(given[at + 1], Value):
                return lambda: self.scaled_count(
                    node, item, given[at + 1], types.get(at)
                )
            return lambda: self.int_argument(item)
        if letter == "T":
            return lambda: self.type_argument(node, name, item)
        if letter == "o":
            return lambda: Value("o", type="reference")
        if letter == "c":
            return lambda: Value(self.comm_text(item), type="comm")
        if letter in "sS":
            return lambda: Value(
                self.status_text(item, letter == "S"), type="reference"
            )
        return lambda: self.reference_argument(name, letter, item)

    def int_argument(self, node):
        """An argument that is an int."""
        value = self.value(node)
        if value.type not in NUMBERS:
            self.report.refuse(node, "no int", "give an int")
        return value

    def type_argument(self, node, name, item):
        """A datatype; all are MPI_INT, as counts are scaled."""
        meaning = self.handle(item, "dtype")
        if name == "MPI_Get_count" and meaning[1] != 1:
            self.report.refuse(
                node,
                "MPI_Get_count of a datatype of several ints",
                "count ints",
            )
        return Value("MPI_INT", type="reference")

    def reference_argument(self, name, letter, item):
        """An argument that gets an answer."""
        if self.is_null(item):
            self.report.refuse(
                item, "NULL where an answer goes", "give a variable"
            )
        place = self.address(item)
        if letter == "i":
            self.check_answer(place, item, name)
        elif element(place.type) != NEEDED[letter]:
            self.report.refuse(
                item, f"an argument of {name}", "give it the right type"
            )
        return Value(place.reference(), type="reference")

    def check_answer(self, place, node, name):
        """Refuses an answer that would not fit."""
        if element(place.type) not in ("int", "uint", "long", "ulong"):
            self.report.refuse(
                node, f"an answer of {name} that is no int", "use an int"
            )

    def status_text(self, node, many):
        """A status or several, or that none is wanted."""
        ignored = ("MPI_STATUS_IGNORE", "MPI_STATUSES_IGNORE")
        name = getattr(bare(node), "name", None)
        if self.is_null(node) or (
            name in ignored and id(bare(node)) not in self.symbol_of
        ):
            return ignored[1] if many else ignored[0]
        place = self.address(node)
        if element(place.type) != "status":
            self.report.refuse(node, "no status", "give a status")
        return place.reference()

    def buffer(self, node):
        """A buffer's reference."""
        place, _ = self.buffer_place(node)
        return "NULL" if place is None else place.reference()

    def buffer_place(self, node):
        """A buffer's place and its type; (None, None) for NULL."""
        while isinstance(node, c_ast.Cast) and not self.is_null(node):
            node = node.expr
        if self.is_null(node):
            return None, None
        if isinstance(node, c_ast.Constant) and node.type == "string":
            return self.text_buffer(node), "char"
        place = self.address(node)
        type = element(place.type)
        if type not in NUMBERS and type != "void":
            self.report.refuse(node, "a buffer of no numbers", "send ints")
        return place, type

    def text_buffer(self, node):
        """A text that is sent, as an array of its bytes."""
        codes = self.bytes_of_text(node)
        if codes is None:
            self.report.refuse(node, "this text", "use plain letters")
        cells = [str(code) for code in codes] + ["0"]
        name = self.fresh()
        self.emit(f"int {name}[{len(cells)}] = {{{', '.join(cells)}}};")
        return Place(name, literal(0), "char")

    def buffer_types(self, letters, given):
        """The types of the buffers that counts are of, by the counts."""
        types, last = {}, None
        for at, letter in enumerate(letters):
            if letter == "b" and not isinstance(given[at], Value):
                node = given[at]
                while isinstance(node, c_ast.Cast):
                    node = node.expr
                last = self.buffer_type(node)
            elif letter == "n":
                types[at] = last
        return types

    def buffer_type(self, node):
        """The type of a buffer's elements, or None."""
        names = [n for n in [bare(node)] if isinstance(n, c_ast.ID)]
        for name in names:
            symbol = self.symbol_of.get(id(name))
            if symbol is not None and isinstance(symbol.bound, Place):
                return element(symbol.bound.type)
        type = self.type_of(node)
        inner = element(type)
        return inner if inner in NUMBERS else None

    def scaled_count(self, node, count, datatype, type):
        """A count of elements of a datatype as a count of ints."""
        name, number = self.handle(datatype, "dtype")
        if not isinstance(number, int):
            value = self.int_argument(count)
            return operation("*", value, Value(number.name_now))
        word, width = TYPES[name]
        size = None if type is None else self.size_of_type(type)
        if word == "byte" and size not in (None, 1):
            return self.count_of_cells(node, name, count, size, number)
        self.note_type(node, name, word, width, type, size)
        value = self.int_argument(count)
        return operation("*", value, literal(number))

    def note_type(self, node, name, word, width, type, size):
        """Says what becomes of a datatype."""
        if name == "MPI_INT" and type in ("int", None):
            return
        if size is not None and size != width:
            self.report.note(
                node, f"{name} for a buffer of {type}: each as an int"
            )
        elif width != 4:
            self.report.note(
                node, f"{name} as MPI_INT: a {word} is sent as an int"
            )
        elif (word in REALS) != (type in REALS) and type is not None:
            self.report.note(
                node, f"{name} as MPI_INT: an error of types is not seen"
            )
        elif name != "MPI_INT":
            self.report.note(
                node, f"{name} as MPI_INT: an error of types is not seen"
            )

    def count_of_cells(self, node, name, count, size, number):
        """A count of bytes of a buffer of wider elements."""
        bytes = self.constant(count)
        if bytes is not None and bytes % size == 0:
            value = literal(bytes // size)
        else:
            value = self.count_of_bytes(count, size)
        if value is None:
            self.report.refuse(
                node,
                "a count of bytes that is not known",
                "write it as a number times sizeof",
            )
        self.report.note(
            node, f"{name} for elements of {size} bytes: each as an int"
        )
        return operation("*", value, literal(number))

    def in_place(self, node, name, given):
        """Arguments with MPI_IN_PLACE, as the buffer itself."""
        found = [
            at
            for at, item in enumerate(given)
            if names_in(item) == "MPI_IN_PLACE"
        ]
        if not found:
            return given
        given, at = list(given), found[0]
        if name in REDUCTIONS:
            given[0] = given[1]
        elif name == "MPI_Alltoall":
            given[0:3] = given[3:6]
        elif name in GATHERS:
            other = 0 if at == 3 else 3
            given[at] = self.own_block(node, given, other)
            given[at + 1], given[at + 2] = given[other + 1], given[other + 2]
        else:
            self.report.refuse(
                node, f"MPI_IN_PLACE in {name}", "use a buffer of its own"
            )
        self.report.say(node, "MPI_IN_PLACE is the buffer itself")
        return given

    def own_block(self, node, given, other):
        """The reference to this rank's block of a buffer."""
        rank = self.fresh()
        self.emit(f"int {rank};")
        comm = self.comm_text(given[-1])
        self.emit(f"MPI_Comm_rank({comm}, &{rank});")
        place, type = self.buffer_place(given[other])
        if place is None:
            self.report.refuse(node, "MPI_IN_PLACE of NULL", "mend it")
        count = self.scaled_count(
            node, given[other + 1], given[other + 2], type
        )
        offset = operation("*", Value(rank), count)
        if place.offset is None:
            return Value(place.reference())
        offset = operation("+", place.offset, offset)
        return Value(Place(place.base, offset, place.type).reference())

    def exscan(self, node, given):
        """MPI_Exscan by MPI_Scan, less what this rank gave.

        One int more than asked goes along, so that it matches no plain scan.
        """
        if len(given) != 6:
            self.report.refuse(
                node, "MPI_Exscan without 6 arguments", "give it 6"
            )
        name, count = self.handle(given[4], "op"), self.constant(given[2])
        if not isinstance(name, str) or name not in INVERSE:
            if name != "MPI_OP_NULL":
                self.report.refuse(
                    node,
                    "MPI_Exscan of this operation",
                    "use MPI_SUM or MPI_BXOR",
                )
        comm = self.comm_text(given[5])
        meaning = self.handle(given[3], "dtype")
        if name == "MPI_OP_NULL" or meaning[1] == -1:
            self.emit(f"MPI_Scan(NULL, NULL, -1, MPI_INT, MPI_SUM, {comm});")
            return
        self.exscan_lines(node, given, name, count, comm)

    def exscan_lines(self, node, given, name, count, comm):
        """The lines of an exclusive scan."""
        source, type = self.buffer_place(given[0])
        target, _ = self.buffer_place(given[1])
        if count is None or count < 0 or None in (source, target):
            self.report.refuse(
                node,
                "MPI_Exscan of an unknown count or of NULL",
                "give its count by a number",
            )
        if type in REALS:
            self.report.refuse(node, "MPI_Exscan of doubles", "use ints")
        limit = self.scaled_count(node, given[2], given[3], type)
        cells = 1 + (count if limit.number is None else limit.number)
        self.write_exscan(name, source, target, limit, cells, comm)
        self.report.say(node, "MPI_Exscan is an MPI_Scan with one int more")

    def write_exscan(self, name, source, target, limit, cells, comm):
        """The lines of an exclusive scan whose places are known."""
        own, sums, rank, index = (self.fresh() for _ in range(4))
        head = f"for (int {index} = 0; {index} < {limit.at(8)}; {index}++) {{"
        self.emit(f"int {own}[{cells}];")
        self.emit(f"int {sums}[{cells}];")
        self.emit(f"int {rank};")
        self.emit(head)
        cell = self.shifted_place(source, Value(index))
        self.emit(f"{own}[{index}] = {cell.text()};")
        self.emit("}")
        more = operation("+", limit, literal(1))
        self.emit(
            f"MPI_Scan({own}, {sums}, {more.text}, MPI_INT, {name}, {comm});"
        )
        self.emit(f"MPI_Comm_rank({comm}, &{rank});")
        self.emit(f"if ({rank} > 0) {{")
        self.emit(head)
        cell = self.shifted_place(target, Value(index))
        less = f"{sums}[{index}] {INVERSE[name]} {own}[{index}]"
        self.emit(f"{cell.text()} = {less};")
        self.emit("}")
        self.emit("}")

    def vector(self, node, name, given):
        """The collectives with counts, by the plain ones with blocks."""
        gather = name == "MPI_Allgatherv"
        if len(given) != (8 if gather else 9):
            self.report.refuse(
                node, f"{name} with {len(given)} arguments", "mend it"
            )
        if any(names_in(item) == "MPI_IN_PLACE" for item in given):
            self.report.refuse(
                node, f"MPI_IN_PLACE in {name}", "use a buffer of its own"
            )
        for at in (2, 6) if gather else (3, 7):
            if self.handle(given[at], "dtype")[1] != 1:
                self.report.refuse(
                    node,
                    f"{name} of a datatype of several ints",
                    "use MPI_INT",
                )
            buffer = 0 if at in (2, 3) else 3 if gather else 4
            _, type = self.buffer_place(given[buffer])
            word, width = TYPES[self.handle(given[at], "dtype")[0]]
            if type not in (None, "void") and width != self.size_of_type(type):
                self.report.refuse(
                    node,
                    f"{name} of another type than its buffer's",
                    "use the buffer's type",
                )
        order = "bnTbbbTc" if gather else "bbbTbbbTc"
        works = []
        for letter, item in zip(order, given):
            if letter != "T":
                works.append(self.vector_work(letter, item))
        texts = [value.text for value in self.in_order(node, works)]
        helper = HELPERS[name][0]
        self.helpers.add(name)
        self.emit(f"{helper}({', '.join(texts)});")
        self.report.note(
            node,
            f"{name} is an {name[:-1]} with blocks of {BLOCK + 1} ints: more "
            f"than {BLOCK} for a rank abort with code {TOO_LONG}",
        )

    def vector_work(self, letter, item):
        """What finds an argument of a collective with counts."""
        if letter == "b":
            return lambda: Value(self.buffer(item), type="reference")
        if letter == "n":
            return lambda: self.int_argument(item)
        return lambda: Value(self.comm_text(item), type="comm")

    def replace(self, node, given):
        """MPI_Sendrecv_replace by a copy of the buffer."""
        if len(given) != 9:
            self.report.refuse(
                node, "MPI_Sendrecv_replace without 9 arguments", "mend it"
            )
        place, type = self.buffer_place(given[0])
        count = self.scaled_count(node, given[1], given[2], type)
        if count.number is None or count.number < 0 or place is None:
            self.report.refuse(
                node,
                "MPI_Sendrecv_replace of an unknown count",
                "give its count by a number",
            )
        copy, index = self.fresh(), self.fresh()
        self.emit(f"int {copy}[{max(1, count.number)}];")
        self.emit(
            f"for (int {index} = 0; {index} < {count.number}; "
            f"{index}++) {{"
        )
        cell = self.shifted_place(place, Value(index))
        self.emit(f"{copy}[{index}] = {cell.text()};")
        self.emit("}")
        works = [
            lambda at=at: self.int_argument(given[at]) for at in (3, 4, 5, 6)
        ]
        to, tag, source, tag_of = (
            value.text for value in self.in_order(node, works)
        )
        comm = self.comm_text(given[7])
        status = self.status_text(given[8], False)
        self.emit(
            f"MPI_Sendrecv({copy}, {count.number}, MPI_INT, {to}, {tag}, "
            f"{place.reference()}, {count.number}, MPI_INT, {source}, "
            f"{tag_of}, {comm}, {status});"
        )
        self.report.say(node, "MPI_Sendrecv_replace sends a copy")

    def mpi_of_Abort(self, node, given):
        self.signed_call(node, "MPI_Abort", given)

    def check_ints(self, types):
        """Whether all types are ints."""
        return all(type in INTS for type in types)
