"""What an assignment or a reference means: a variable, and where in it."""
from pycparser import c_ast

from .parsing import bare
from .types import NUMBERS, element, is_pointer
from .values import Place, Value, literal, negated, operation

WITH_CELLS = NUMBERS | {"comm", "request", "status"}


class Places:
    """Places of the target for C's places, arrays and pointers."""

    def place_of_symbol(self, symbol, node):
        """The place of a variable that is no array."""
        if isinstance(symbol.bound, Place):
            return symbol.bound
        if symbol.type not in WITH_CELLS or symbol.name_now is None:
            self.refuse_use(symbol, node)
        self.check_visible(symbol.name_now, symbol.name, node)
        if symbol.shared and symbol.type != "comm":
            return Place(symbol.name_now, literal(0), symbol.type)
        return Place(symbol.name_now, None, symbol.type)

    def refuse_use(self, symbol, node):
        """Refuses a variable of a type that the language has not."""
        if symbol.broken:
            self.report.follow(node)
        type = symbol.type
        name = (
            type
            if isinstance(type, str)
            else " ".join(word for word in type if isinstance(word, str))
        )
        self.report.refuse(
            node,
            f"{symbol.name}, of the type {name}",
            "use ints, arrays of ints, communicators, requests or statuses",
        )

    def place(self, node):
        """The place that an expression means."""
        if isinstance(node, c_ast.ID):
            symbol = self.known(node)
            return self.place_of_symbol(symbol, node)
        if isinstance(node, c_ast.ArrayRef):
            base, index = self.indexed(node)
            return self.moved(self.address(base), index, node)
        if isinstance(node, c_ast.UnaryOp) and node.op == "*":
            return self.address(node.expr)
        if isinstance(node, c_ast.UnaryOp) and node.op in ("++", "--"):
            self.change_by_one(node)
            return self.place(node.expr)
        self.report.refuse(
            node, "what is set here is no variable", "use a variable"
        )

    def indexed(self, node):
        """The array and the index of an element; C lets them change seats."""
        if is_pointer(self.type_of(node.name)):
            return node.name, node.subscript
        return node.subscript, node.name

    def known(self, node):
        """The variable of a name, which has to have one."""
        symbol = self.symbol_of.get(id(node))
        if symbol is None:
            self.report.refuse(
                node, f"the name {node.name}", "declare it in this file"
            )
        return symbol

    def moved(self, place, index, node):
        """The place some elements after another one."""
        if isinstance(index, c_ast.Node):
            index = self.index_value(index)
        inner = place.type
        if is_pointer(inner) and inner[0] == "arr":
            count = self.cells(inner)
            if count is None:
                self.report.refuse(
                    node,
                    "a row of unknown length",
                    "give its lengths by numbers",
                )
            index = operation("*", index, literal(count))
        if index.number == 0:
            return place
        if place.offset is None:
            self.report.refuse(
                node,
                f"an offset from {place.base}, which is no array",
                "use an array",
            )
        offset = self.ordered(
            lambda: place.offset,
            lambda: index,
            lambda a, b: operation("+", a, b),
        )
        return Place(place.base, offset, place.type)

    def index_value(self, node):
        """The value of an index; a double is none."""
        value = self.value(node)
        if value.type not in NUMBERS:
            self.report.refuse(node, "an index that is no int", "use an int")
        return value

    def cells(self, type):
        """How many ints a thing of this type has, or None."""
        if isinstance(type, tuple) and type[0] == "arr":
            if type[2] is None:
                return None
            length, inner = self.length(type[2]), self.cells(type[1])
            if length is None or inner is None or length < 0:
                return None
            return length * inner
        return 1

    def address(self, node):
        """The place that a pointer or an array points to.

        Its type is that of what is there: for an array of arrays a row.
        """
        if isinstance(node, c_ast.Cast):
            return self.cast_address(node)
        if isinstance(node, c_ast.ID):
            return self.address_of_symbol(self.known(node), node)
        if isinstance(node, c_ast.UnaryOp):
            return self.address_of_operation(node)
        if isinstance(node, c_ast.BinaryOp) and node.op in "+-":
            return self.address_of_sum(node)
        if isinstance(node, c_ast.ArrayRef):
            return self.address_of_row(node)
        if isinstance(node, c_ast.Assignment) and node.op == "=":
            self.assign(node)
            return self.address(node.lvalue)
        if isinstance(node, c_ast.TernaryOp):
            known = self.constant(node.cond)
            if known is not None:
                return self.address(node.iftrue if known else node.iffalse)
        self.report.refuse(
            node, "a pointer that is computed here", "use an array"
        )

    def cast_address(self, node):
        """A pointer as one of another type, if that has the same size."""
        place, wanted = self.address(node.expr), self.type_of(node)
        if not is_pointer(wanted):
            self.report.refuse(node, "an address as an int", "use an index")
        mine, theirs = element(place.type), element(wanted)
        if "void" in (mine, theirs) or mine == theirs:
            return place
        if self.size_of_type(mine) != self.size_of_type(theirs):
            self.report.refuse(
                node,
                "a pointer as one to things of another size",
                "use one type",
            )
        if mine in NUMBERS and theirs in NUMBERS:
            self.report.note(
                node, "a pointer as one to another type of the same size"
            )
            return place
        self.report.refuse(
            node, "a pointer as one to another type", "use one type"
        )

    def address_of_symbol(self, symbol, node):
        """Where an array or pointer variable points to."""
        if not is_pointer(symbol.type):
            self.report.refuse(
                node, f"{symbol.name} as an address", "use an array"
            )
        inner = symbol.type[1]
        if isinstance(symbol.bound, Place):
            place = symbol.bound
            self.check_visible(place.base, symbol.name, node)
            if symbol.index_name:
                offset = Value(symbol.index_name)
                return Place(place.base, offset, self.seen(place, inner))
            return Place(place.base, place.offset, self.seen(place, inner))
        if symbol.type[0] == "ptr":
            return self.address_by_plan(symbol, inner, node)
        if symbol.name_now is None:
            self.refuse_use(symbol, node)
        self.check_visible(symbol.name_now, symbol.name, node)
        return Place(symbol.name_now, literal(0), inner)

    def seen(self, place, inner):
        """The type of what a pointer of a type sees at a place."""
        return place.type if inner == "void" else inner

    def address_by_plan(self, symbol, inner, node):
        """Where a pointer variable points to, by its plan."""
        plan = self.plan_of(symbol, node)
        if plan.kind == "null":
            self.report.refuse(
                node,
                f"the pointer {symbol.name} is NULL here",
                "set it, or leave its use out",
            )
        if plan.kind == "place":
            old, self.folding = self.folding, True
            try:
                place = self.address(plan.target)
            finally:
                self.folding = old
            self.check_visible(place.base, symbol.name, node)
            return Place(place.base, place.offset, self.seen(place, inner))
        if plan.kind == "index":
            base = self.root_of(plan.base, node)
            self.check_visible(plan.index, symbol.name, node)
            return Place(base.base, Value(plan.index), self.seen(base, inner))
        if symbol.name_now is None:
            self.refuse_use(symbol, node)
        self.check_visible(symbol.name_now, symbol.name, node)
        return Place(symbol.name_now, literal(0), inner)

    def root_of(self, symbol, node):
        """The beginning of the variable that a pointer points into."""
        if isinstance(symbol.bound, Place):
            return symbol.bound
        if not is_pointer(symbol.type):
            return self.place_of_symbol(symbol, node)
        if symbol.name_now is None:
            self.refuse_use(symbol, node)
        self.check_visible(symbol.name_now, symbol.name, node)
        return Place(symbol.name_now, literal(0), element(symbol.type))

    def address_of_operation(self, node):
        """`&place`, `*row` and pointers that step."""
        if node.op == "&":
            inner = node.expr
            if is_pointer(self.type_of(inner)):
                if self.type_of(inner)[0] == "arr":
                    place = self.address(inner)
                    return Place(place.base, place.offset, self.type_of(inner))
                self.report.refuse(
                    node, "the address of a pointer", "use an array"
                )
            return self.place(inner)
        if node.op == "*":
            return self.row(self.address(node.expr), node)
        if node.op in ("++", "--"):
            self.move_pointer(node)
            return self.address(node.expr)
        if node.op in ("p++", "p--"):
            place = self.address(node.expr)
            old = self.temporary(place.offset)
            self.move_pointer(node)
            return Place(place.base, old, place.type)
        self.report.refuse(node, "an address by an operation", "use an array")

    def address_of_sum(self, node):
        """pointer + int, int + pointer, pointer - int"""
        left, right = node.left, node.right
        if not is_pointer(self.type_of(left)):
            left, right = right, left
            if node.op == "-":
                self.report.refuse(node, "an int less a pointer", "mend it")
        if is_pointer(self.type_of(right)):
            self.report.refuse(
                node, "the distance of two pointers", "use two indices"
            )
        place = self.address(left)
        index = self.index_value(right)
        if node.op == "-":
            index = negated(index)
        return self.moved(place, index, node)

    def address_of_row(self, node):
        """An element that is an array itself."""
        base, index = self.indexed(node)
        return self.row(self.moved(self.address(base), index, node), node)

    def row(self, place, node):
        """The beginning of the array that is at a place."""
        if is_pointer(place.type) and place.type[0] == "arr":
            return Place(place.base, place.offset, place.type[1])
        self.report.refuse(node, "a pointer in an array", "use an index")

    def assign_pointer(self, node):
        """An assignment to a pointer, by its plan."""
        target = node.lvalue
        if not isinstance(target, c_ast.ID):
            self.report.refuse(node, "a pointer in an array", "use an index")
        symbol = self.known(target)
        if node.op != "=":
            self.step_pointer(symbol, node)
            return
        if isinstance(bare(node.rvalue), c_ast.Assignment):
            self.assign(bare(node.rvalue))
        self.set_pointer(symbol, self.pointed(node.rvalue), node)

    def step_pointer(self, symbol, node):
        """`p += n` and `p -= n`"""
        if node.op not in ("+=", "-="):
            self.report.refuse(node, "this step of a pointer", "use an index")
        place = self.address(node.lvalue)
        step = self.index_value(node.rvalue)
        if place.offset is None or self.cells(place.type) != 1:
            self.report.refuse(node, f"{symbol.name} moves", "use an index")
        self.emit(f"{place.offset.text} {node.op} {step.text};")

    def move_pointer(self, node):
        """`p++`, `p--` and the like, as a statement."""
        place = self.address(node.expr)
        if place.offset is None or self.cells(place.type) != 1:
            self.report.refuse(node, "a pointer that moves", "use an index")
        self.emit(f"{place.offset.text}{node.op[-2:]};")

    def set_pointer(self, symbol, value, node):
        """Gives a pointer variable a value."""
        if isinstance(symbol.bound, Place):
            place = self.address(value)
            if symbol.index_name is None or place.base != symbol.bound.base:
                self.report.refuse(
                    node,
                    f"{symbol.name} is set to another array",
                    "use an index",
                )
            self.emit(f"{symbol.index_name} = {place.offset.text};")
            return
        plan = self.plan_of(symbol, node)
        null = self.is_null(value)
        if plan.kind == "null" and not null:
            self.report.refuse(node, f"{symbol.name} is set", "use an array")
        if plan.tested:
            self.check_visible(plan.state, symbol.name, node)
            self.emit(f"{plan.state} = {int(not null)};")
        if null or plan.kind in ("null", "place"):
            return
        if plan.base is symbol and self.is_heap(value):
            self.clear(symbol, value)
            if plan.kind == "index":
                self.emit(f"{plan.index} = 0;")
            return
        place = self.address(value)
        self.emit(f"{plan.index} = {place.offset.text};")
