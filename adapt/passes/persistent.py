"""Persistent requests.

What an init call says is kept in arrays beside the request, one cell for
each of its elements; `kind` has the number of the init that was the last
one in the run. The start makes the call of that init with what was kept.
"""
from pycparser import c_ast

from .mpi_table import PERSISTENT, SAME
from .parsing import called, names_in, nodes
from .values import Place, Value, literal, operation

FIELDS = ("kind", "at", "count", "peer", "tag", "comm")
NO_INIT = 79


class Kept:
    """The arrays of one request variable, and the inits of it."""

    def __init__(self, names):
        self.names, self.inits = names, []


class Persistent:
    """Inits and starts."""

    def kept_for(self, place, node):
        """The arrays beside the request variable of a place."""
        if place.base not in self.kept:
            cells = self.request_cells(place, node)
            names = {}
            for field in FIELDS:
                names[field] = self.fresh(f"{place.base}_{field}")
                word = "MPI_Comm" if field == "comm" else "int"
                self.top_lines.append(f"{word} {names[field]}[{cells}];")
                self.visible[0].add(names[field])
            self.kept[place.base] = Kept(names)
        return self.kept[place.base]

    def request_cells(self, place, node):
        """How many requests a variable has."""
        if place.offset is None:
            return 1
        for symbol in self.all_symbols:
            if symbol.name_now == place.base:
                cells = self.cells(symbol.type)
                if symbol.type[0] == "ptr" and symbol.plan is not None:
                    cells = symbol.plan.length
                return cells or self.options.room
        self.report.refuse(
            node,
            "a persistent request that is not in sight",
            "declare it in main",
        )

    def uses_persistent(self):
        """Whether an init call is in a function that main reaches."""
        return any(
            caller in self.live and name in PERSISTENT
            for caller, name, _ in self.calls
        )

    def cell(self, kept, field, index):
        """The cell of an array beside a request."""
        return f"{kept.names[field]}[{index.text}]"

    def init_request(self, node, name, given):
        """MPI_Send_init and the like: keeps what the start will need."""
        if len(given) != 7:
            self.report.refuse(node, f"{name} without 7 arguments", "mend it")
        place = self.request_place(given[6])
        kept = self.kept_for(place, node)
        index = place.offset or literal(0)
        buffer, type = self.buffer_place(given[0])
        count = self.scaled_count(node, given[1], given[2], type)
        works = [
            lambda: self.value(given[3]),
            lambda: self.value(given[4]),
            lambda: self.value(given[5]),
        ]
        peer, tag, comm = self.in_order(node, works)
        call = SAME.get(PERSISTENT[name], PERSISTENT[name])
        call = self.chosen_mode(node, call)
        kept.inits.append((call, buffer))
        offset = literal(0)
        if buffer is not None and buffer.offset is not None:
            offset = buffer.offset
        values = {
            "kind": literal(len(kept.inits)),
            "at": offset,
            "count": count,
            "peer": peer,
            "tag": tag,
            "comm": comm,
        }
        for field in FIELDS:
            self.emit(
                f"{self.cell(kept, field, index)} = " f"{values[field].text};"
            )
        self.report.say(node, f"{name} keeps what its start will need")

    def request_place(self, node):
        """The place of a request, whose index is not read again."""
        place = self.address(node)
        if place.type != "request":
            self.report.refuse(node, "no request", "give a request")
        if place.offset is None:
            return place
        return Place(place.base, self.temporary(place.offset), place.type)

    def start_request(self, node, place):
        """MPI_Start: the call of the last init of this request."""
        kept = self.kept_for(place, node)
        index = place.offset or literal(0)
        mark = f"@start {len(self.starts)}"
        self.starts.append((kept, index, place, set().union(*self.visible)))
        self.emit(mark)
        self.report.say(node, "MPI_Start makes the call of its init")

    def start_lines(self, number):
        """The lines of a start, when all inits are known."""
        kept, index, place, visible = self.starts[number]
        lines, kind = [], self.cell(kept, "kind", index)
        word = "if"
        for at, (call, buffer) in enumerate(kept.inits):
            lines.append(f"{word} ({kind} == {at + 1}) {{")
            word = "} else if"
            lines.append(self.start_call(kept, index, place, call, buffer))
            if buffer is not None and buffer.base not in visible:
                self.report.refuse(
                    None,
                    f"the buffer {buffer.base} of a persistent request"
                    " is not known where it is started",
                    "declare it outside of this block",
                )
        if lines:
            lines.append("} else {")
        lines.append(f"MPI_Abort(MPI_COMM_WORLD, {NO_INIT});")
        if len(lines) > 1:
            lines.append("}")
        return lines

    def start_call(self, kept, index, place, call, buffer):
        """The call that a start makes for one init."""
        text = "NULL"
        if buffer is not None:
            if buffer.offset is not None:
                offset = Value(self.cell(kept, "at", index))
                text = Place(buffer.base, offset, buffer.type).reference()
            else:
                text = buffer.reference()
        fields = [
            self.cell(kept, field, index)
            for field in ("count", "peer", "tag", "comm")
        ]
        count, peer, tag, comm = fields
        return (
            f"{call}({text}, {count}, MPI_INT, {peer}, {tag}, {comm}, "
            f"{place.reference()});"
        )

    def start_all(self, node, given):
        """MPI_Startall as a loop."""
        place, count = self.address(given[1]), self.value(given[0])
        if place.offset is None:
            self.start_request(node, place)
            return
        first = self.temporary(place.offset)
        index, limit = self.fresh(), self.temporary(count)
        self.emit(
            f"for (int {index} = 0; {index} < {limit.text}; " f"{index}++) {{"
        )
        offset = operation("+", first, Value(index))
        offset = self.temporary(offset)
        self.start_request(node, Place(place.base, offset, place.type))
        self.emit("}")

    def free_request(self, node, given):
        """MPI_Request_free"""
        place = self.request_place(given[0])
        if self.uses_persistent():
            kept = self.kept_for(place, node)
            index = place.offset or literal(0)
            self.emit(f"{self.cell(kept, 'kind', index)} = 0;")
        self.emit(f"{place.text()} = MPI_REQUEST_NULL;")
        if self.may_receive(given[0]):
            self.report.note(
                node,
                "MPI_Request_free makes the handle null: a receive that is "
                "not complete then never fills its buffer",
            )
        else:
            self.report.say(node, "MPI_Request_free makes the handle null")

    def may_receive(self, node):
        """Whether a request may be that of a receive."""
        for name in named(node):
            symbol = self.symbol_of.get(id(name))
            if symbol is None or symbol.kind == "parameter":
                return True
            for write in symbol.writes:
                if write.kind == "given":
                    call = called(write.node)
                    if call in ("MPI_Irecv", "MPI_Recv_init") or (
                        call in self.functions
                    ):
                        return True
                elif write.kind not in ("start", "="):
                    return True
        return False

    def compare_requests(self, node, left, right):
        """== and != of a request and the null request."""
        null = "MPI_REQUEST_NULL"
        if left.text == null:
            left, right = right, left
        if right.text != null:
            self.report.refuse(
                node, "a comparison of two requests", "compare with null"
            )
        if left.text == null:
            return literal(int(node.op == "=="))
        text = f"{left.text} {node.op} {null}"
        if not self.uses_persistent():
            return Value(text, 6)
        operand = node.left
        if names_in(operand) == null:
            operand = node.right
        place = self.place(operand)
        kept = self.kept_for(place, node)
        kind = self.cell(kept, "kind", place.offset or literal(0))
        if node.op == "!=":
            return Value(f"{text} || {kind} != 0", 1)
        return Value(f"{text} && {kind} == 0", 2)


def named(node):
    """The occurrences of names in an expression."""
    return [it for it in nodes(node) if isinstance(it, c_ast.ID)]
