"""Values of expressions, with calls and assignments pulled out before them.

What is pulled out is emitted in C's order; where C leaves the order of two
operands open, the left one comes first, and a note says so if the order may
be seen. An operand that was read before something that may change it is
kept in a variable.
"""
import re

from pycparser import c_ast

from .constants import compare
from .parsing import bare, called
from .types import (
    INTS,
    LONGS,
    NARROW,
    NUMBERS,
    REALS,
    RELATIONS,
    UNSIGNED,
    as_type,
    common,
    holds,
    is_pointer,
    promoted,
)
from .values import (
    ATOM,
    BINDS,
    CHOICE,
    LEAST,
    MOST,
    SIGN,
    Place,
    Value,
    literal,
    negated,
    operation,
    wrapped,
)

WORD = re.compile(r"[A-Za-z_]\w*")
STEPS = ("++", "--", "p++", "p--")
ORDERS = ("<", ">", "<=", ">=")
# Operations whose 32 lowest bits depend on those of the operands only.
RING = ("+", "-", "*", "&", "|", "^")
EFFECTS = (c_ast.FuncCall, c_ast.Assignment)
BITS_OF_NARROW = {"char": 8, "uchar": 8, "short": 16, "ushort": 16}
HANDLE_NAMES = {
    "MPI_COMM_WORLD": "comm",
    "MPI_COMM_NULL": "comm",
    "MPI_REQUEST_NULL": "request",
}
INT_NAMES = {
    "MPI_ANY_TAG",
    "MPI_PROC_NULL",
    "MPI_ANY_SOURCE",
    "MPI_UNDEFINED",
}


class Expressions:
    """Values, effects and assignments."""

    def ordered(self, first, second, join):
        """Evaluates two operands, the first one first, and joins them."""
        values = self.in_order(None, [first, second])
        return join(*values)

    def in_order(self, node, works):
        """The values of operands that C evaluates in any order."""
        values, active = [], False
        for work in works:
            before, value = self.caught(work)
            if before:
                acts = self.acts(before)
                changes = self.keep_values(values, before)
                if node is not None and acts and (active or changes):
                    self.report.note(
                        node,
                        "C leaves open which operand comes first: here the "
                        "left one",
                    )
                active = active or acts
            self.lines += before
            values.append(value)
        return values

    def keep_values(self, values, lines):
        """Keeps the values that lines after them may change."""
        words = set()
        for line in lines:
            words.update(WORD.findall(line))
        changed = False
        for at, value in enumerate(values):
            if not isinstance(value, Value) or value.number is not None:
                continue
            if words & set(WORD.findall(value.text)):
                changed = True
                if value.type in NUMBERS | {"comm"}:
                    values[at] = self.temporary(value)
        return changed

    def acts(self, lines):
        """Whether lines do what can be seen elsewhere."""
        for line in lines:
            for name in re.findall(r"([A-Za-z_]\w*)\(", line):
                if name in self.acting or name == "printf":
                    return True
                if name.startswith("MPI_") and name not in (
                    "MPI_Comm_rank",
                    "MPI_Comm_size",
                ):
                    return True
        return any(line in ("{", "do {") for line in lines)

    def value(self, node):
        """The value of an expression."""
        if node is None:
            return literal(0)
        rule = getattr(self, "value_of_" + type(node).__name__, None)
        if rule is None:
            self.report.refuse(
                node, "this expression", "write it in another way"
            )
        return rule(node)

    def truth(self, node):
        """The value of a condition, which may be a pointer."""
        if is_pointer(self.type_of(node)):
            return self.pointer_test(node)
        value = self.value(node)
        self.check_wide(value, node)
        return value

    def check_wide(self, value, node):
        """Notes a use of more than the 32 lowest bits of a long."""
        if value.wide:
            self.note_long(node)

    def value_of_Constant(self, node):
        if node.type == "string":
            self.report.refuse(node, "a text as a value", "use a number")
        number, type = self.constant(node), self.type_of(node)
        shown = f"the number {node.value[:40]}"
        if number is None:
            why = f"{shown}, which is not whole"
            self.report.refuse(node, why, "use whole numbers")
        if type in REALS:
            type = "double"
        most = MOST if type in LONGS else 2**32 - 1
        if not LEAST <= number <= most:
            why = f"{shown} has more than 32 bits"
            self.report.refuse(node, why, "use a smaller one")
        return literal(number, type)

    def value_of_ID(self, node):
        symbol = self.symbol_of.get(id(node))
        if symbol is None:
            return self.value_of_name(node)
        if is_pointer(symbol.type):
            self.report.refuse(
                node, f"the pointer {node.name} as a value", "use an index"
            )
        if symbol.type in ("dtype", "op"):
            self.report.refuse(
                node, f"{node.name} as a value", "use it in MPI calls only"
            )
        known = self.constant_to_write(symbol)
        if known is not None:
            return literal(known, symbol.type)
        if isinstance(symbol.bound, Value):
            return symbol.bound
        return self.value_at(self.place_of_symbol(symbol, node), node)

    def constant_to_write(self, symbol):
        """The number that is written in place of a variable, or None."""
        if symbol.type not in INTS:
            return None
        argument = symbol.kind == "parameter" and symbol.function == "main"
        if not (self.folding or argument or self.is_folded(symbol)):
            return None
        number = self.constant_symbol(symbol)
        if number is None or not LEAST <= number <= MOST:
            return None
        return number

    def value_at(self, place, node):
        """The value that is in a place."""
        if place.type not in NUMBERS | {"comm", "request"}:
            self.report.refuse(node, "a value that is no number", "use ints")
        return Value(place.text(), ATOM, place.type)

    def value_of_name(self, node):
        """The value of a name that the program does not declare."""
        name = node.name
        if name in self.enums:
            return literal(self.enums[name])
        if name in INT_NAMES:
            return Value(name)
        if name in HANDLE_NAMES:
            return Value(name, type=HANDLE_NAMES[name])
        if name == "MPI_COMM_SELF":
            return self.comm_self(node)
        if name.startswith("MPI_ERR_"):
            self.report.note(
                node, f"{name} is 1: an error stops the run, no call gives it"
            )
            return literal(1)
        self.report.refuse(node, f"the name {name}", "declare it in this file")

    def value_of_Cast(self, node):
        type = self.type_of(node)
        if type == "void":
            return self.value(node.expr)
        if type not in NUMBERS:
            self.report.refuse(
                node, "a cast to what is no number", "leave it out"
            )
        value = self.fitted(self.value(node.expr), type, node)
        if type in INTS and type not in NARROW:
            self.report.say(node, f"the cast to {type} dropped")
        return value

    def value_of_ArrayRef(self, node):
        return self.value_at(self.place(node), node)

    def value_of_StructRef(self, node):
        if node.type == "->":
            place = self.address(node.name)
        else:
            place = self.place(node.name)
        if place.type != "status":
            self.report.refuse(
                node, "a field of a struct", "use a variable for each field"
            )
        name = node.field.name
        if name == "MPI_ERROR":
            self.report.say(node, "MPI_ERROR of a status is 0")
            return literal(0)
        if name not in ("MPI_SOURCE", "MPI_TAG"):
            self.report.refuse(
                node,
                f"the field {name} of a status",
                "use MPI_SOURCE, MPI_TAG or MPI_Get_count",
            )
        return Value(f"{place.text()}.{name}")

    def value_of_UnaryOp(self, node):
        if node.op == "*":
            return self.value_at(self.place(node), node)
        if node.op in STEPS:
            return self.value_of_step(node)
        if node.op == "sizeof":
            size = self.size_of(node.expr)
            if size is None or size > MOST:
                self.report.refuse(
                    node, "a size that is not known", "use a number"
                )
            return literal(size, "ulong")
        if node.op == "&":
            self.report.refuse(node, "an address as a value", "use an index")
        if node.op == "!":
            value = self.truth(node.expr)
            if value.number is not None:
                return literal(int(not value.number))
            self.check_number(value, node)
            return Value("!" + value.at(SIGN), SIGN)
        return self.signed(node, self.value(node.expr))

    def signed(self, node, value):
        """The value of -x, +x and ~x."""
        self.check_number(value, node)
        type = promoted(value.type)
        if node.op == "+":
            return value.typed(type)
        if node.op == "-":
            result = negated(value)
        elif value.number is not None:
            result = literal(~value.number)
        else:
            result = Value("~" + value.at(SIGN), SIGN)
        result = result.typed(type)
        result.wide = type in LONGS and value.number is None
        return result

    def check_number(self, value, node):
        """Refuses a handle where a number is wanted."""
        if value.type not in NUMBERS:
            self.report.refuse(
                node, "an operation on a handle", "compare by == or !="
            )

    def note_long(self, node):
        """Says that only 32 bits of a long are kept."""
        self.report.note(
            node, "a long has 32 bits here: other where it goes beyond"
        )

    def value_of_step(self, node):
        """The value of x++ and the like."""
        if is_pointer(self.type_of(node.expr)):
            self.report.refuse(node, "a pointer as a value", "use an index")
        place = self.stable(self.place(node.expr))
        self.check_number(Value("", type=place.type), node)
        old = None
        if node.op[0] == "p":
            old = self.temporary(Value(place.text(), type=place.type))
        self.step(place, node)
        return old or Value(place.text(), ATOM, place.type)

    def step(self, place, node):
        """x++ or x--, as a statement."""
        if place.type == "bool":
            self.report.refuse(node, "a step of a bool", "use an int")
        if place.type in LONGS:
            self.note_long(node)
        self.emit(f"{place.text()}{node.op[-2:]};")
        self.cut(place, node)

    def cut(self, place, node):
        """Cuts what is in a place of a narrow type to its bits."""
        if place.type in BITS_OF_NARROW:
            value = Value(place.text(), ATOM, "int")
            value = self.fitted(value, place.type, node)
            self.emit(f"{place.text()} = {value.text};")

    def change_by_one(self, node):
        """++x or --x, where the place is wanted afterwards."""
        self.step(self.place(node.expr), node)

    def stable(self, place):
        """The same place, whose index later lines do not change."""
        if place.offset is None or place.offset.binds == ATOM:
            return place
        return Place(place.base, self.temporary(place.offset), place.type)

    def value_of_BinaryOp(self, node):
        if not self.has_names(node):
            number = self.constant(node)
            if number is not None and LEAST <= wrapped(number) <= MOST:
                type = self.type_of(node)
                if type not in REALS and LEAST <= number < 2**32:
                    return literal(number, type)
        if node.op in ("&&", "||"):
            return self.value_of_logic(node)
        for pointer in (node.left, node.right):
            if is_pointer(self.type_of(pointer)):
                return self.compare_pointers(node)
        left, right = self.in_order(
            node,
            [lambda: self.value(node.left), lambda: self.value(node.right)],
        )
        if left.type not in NUMBERS or right.type not in NUMBERS:
            return self.compare_handles(node, left, right)
        return self.arithmetic(node, left, right)

    def has_names(self, node):
        """Whether variables, or calls, occur in an expression."""
        if isinstance(node, EFFECTS):
            return True
        if isinstance(node, c_ast.ID):
            return node.name not in self.enums
        if isinstance(node, c_ast.UnaryOp) and node.op == "sizeof":
            return False
        return any(self.has_names(child) for _, child in node.children())

    def arithmetic(self, node, left, right):
        """left SIGN right on numbers."""
        sign = node.op
        if sign in ("<<", ">>"):
            type = promoted(left.type)
        else:
            type = common(left.type, right.type)
        if type in REALS:
            self.check_real(node, sign)
        elif type in LONGS:
            self.check_long(node, left, right)
            if sign in ("<<", ">>"):
                self.note_long(node)
        if sign not in RING:
            self.check_wide(left, node)
            self.check_wide(right, node)
        if sign in ORDERS and type in UNSIGNED:
            left, right = self.turned(left), self.turned(right)
        elif sign in ("/", "%", ">>") and type in UNSIGNED:
            return self.unsigned(node, left, right, type)
        if sign in RELATIONS and None not in (left.number, right.number):
            return literal(int(compare(sign, left.number, right.number)))
        result = operation(
            sign, left, right, "int" if sign in RELATIONS else type
        )
        result.wide = (
            sign in RING
            and (left.wide or right.wide or type in LONGS)
            and result.number is None
        )
        return result

    def check_real(self, node, sign):
        """Refuses what needs numbers that are not whole."""
        if sign == "/":
            self.report.refuse(
                node, "a division of doubles", "use whole numbers"
            )
        if sign not in RELATIONS and sign not in "+-*":
            self.report.refuse(node, f"{sign} on doubles", "use ints")

    def check_long(self, node, left, right):
        """Notes what may differ as a long has 32 bits."""
        if "uint" in (left.type, right.type):
            for value in (left, right):
                if value.type == "uint" and value.number is None:
                    self.note_long(node)

    def turned(self, value):
        """A value whose order as an int is its order without a sign."""
        if value.number is not None:
            return literal(value.number ^ LEAST)
        binds = BINDS["^"]
        return Value(f"{value.at(binds)} ^ INT_MIN", binds)

    def unsigned(self, node, left, right, type):
        """/, % and >> of numbers without a sign."""
        sign = node.op
        if sign == ">>" and type == "uint" and right.number is not None:
            if not 0 <= right.number < 32:
                self.report.refuse(node, "a shift by too much", "mend it")
            if right.number == 0:
                return left.typed(type)
            mask = 2 ** (32 - right.number) - 1
            text = f"{left.at(BINDS['>>'])} >> {right.number} & {mask}"
            return Value(text, BINDS["&"], type)
        self.report.note(
            node, f"{sign} as of ints with a sign: other above 2147483647"
        )
        return operation(sign, left, right, type)

    def compare_handles(self, node, left, right):
        """== and != of communicators and requests."""
        types = {left.type, right.type}
        if node.op not in ("==", "!=") or len(types) != 1:
            self.report.refuse(
                node, "an operation on handles", "compare by == or !="
            )
        if types == {"request"}:
            return self.compare_requests(node, left, right)
        binds = BINDS[node.op]
        text = f"{left.at(binds)} {node.op} {right.at(binds + 1)}"
        return Value(text, binds)

    def compare_pointers(self, node):
        """A comparison of a pointer with NULL."""
        for pointer, null in (
            (node.left, node.right),
            (node.right, node.left),
        ):
            if node.op in ("==", "!=") and self.is_null(null):
                value = self.pointer_test(pointer)
                if value.number is not None:
                    return literal(
                        int(bool(value.number) == (node.op == "!="))
                    )
                if node.op == "!=":
                    return value
                return Value("!" + value.at(SIGN), SIGN)
        if node.op in RELATIONS or node.op == "-":
            return self.compare_addresses(node)
        self.report.refuse(
            node, "an operation on pointers as a value", "use indices"
        )

    def compare_addresses(self, node):
        """A comparison, or the distance, of pointers into one array."""
        left, right = self.address(node.left), self.address(node.right)
        same = left.base == right.base and self.cells(left.type) == 1
        if not same or None in (left.offset, right.offset):
            self.report.refuse(
                node, "two pointers that may be into two arrays", "use indices"
            )
        return operation(node.op, left.offset, right.offset)

    def pointer_test(self, node):
        """Whether a pointer is set, as a value."""
        node = bare(node)
        if isinstance(node, c_ast.Assignment):
            self.assign(node)
            return self.pointer_test(node.lvalue)
        if self.is_null(node):
            return literal(0)
        if isinstance(node, c_ast.ID):
            return self.symbol_test(self.known(node), node)
        if isinstance(node, c_ast.Constant):
            return literal(1)
        if isinstance(node, c_ast.UnaryOp) and node.op == "&":
            return literal(1)
        self.report.refuse(
            node, "whether this pointer is set", "test a variable"
        )

    def symbol_test(self, symbol, node):
        """Whether a pointer variable is set, as a value."""
        if symbol.type[0] == "arr" or isinstance(symbol.bound, Place):
            return literal(1)
        if symbol.kind == "parameter":
            given = [w for w in symbol.writes if w.kind == "argument"]
            for write in given:
                if self.is_null(write.node):
                    break
                if self.pointer_test(write.node).number != 1:
                    break
            else:
                return literal(1)
            self.report.refuse(
                node,
                f"{symbol.name} may be NULL in some call",
                "give a number beside it",
            )
        plan = self.plan_of(symbol, node)
        if plan.kind == "null":
            return literal(0)
        if not plan.tested:
            self.report.say(node, f"{symbol.name} is not NULL here")
            return literal(1)
        self.check_visible(plan.state, symbol.name, node)
        return Value(plan.state)

    def value_of_logic(self, node):
        """left && right, left || right"""
        left = self.truth(node.left)
        self.check_number(left, node)
        stops = 0 if node.op == "&&" else 1
        if left.number is not None and int(bool(left.number)) == stops:
            return literal(stops)
        before, right = self.caught(lambda: self.truth(node.right))
        self.check_number(right, node)
        if left.number is not None:
            self.lines += before
            if right.number is not None:
                return literal(int(bool(right.number)))
            return operation("!=", right, literal(0))
        if before:
            return self.logic_by_branch(node, left, before, right)
        binds = BINDS[node.op]
        text = f"{left.at(binds)} {node.op} {right.at(binds + 1)}"
        return Value(text, binds)

    def logic_by_branch(self, node, left, before, right):
        """The same, where the right side needs lines of its own."""
        test = operation("!=", left, literal(0))
        name = self.temporary(test).text
        self.emit(f"if ({'' if node.op == '&&' else '!'}{name}) {{")
        self.lines += before
        test = operation("!=", right, literal(0))
        if right.number is not None:
            test = literal(int(bool(right.number)))
        self.emit(f"{name} = {test.text};")
        self.emit("}")
        return Value(name)

    def value_of_TernaryOp(self, node):
        known = self.constant(node.cond)
        if known is not None:
            return self.value(node.iftrue if known else node.iffalse)
        condition = self.truth(node.cond)
        self.check_number(condition, node)
        before, left = self.caught(lambda: self.value(node.iftrue))
        after, right = self.caught(lambda: self.value(node.iffalse))
        if left.type not in NUMBERS or right.type not in NUMBERS:
            self.report.refuse(
                node, "a choice of handles in an expression", "use an if"
            )
        type = common(left.type, right.type)
        self.check_wide(left, node)
        self.check_wide(right, node)
        if not before and not after:
            text = f"{condition.at(1)} ? {left.at(1)} : {right.at(1)}"
            return Value(text, CHOICE, type)
        name = self.fresh()
        self.emit(f"int {name};")
        self.emit(f"if ({condition.text}) {{")
        self.lines += before
        self.emit(f"{name} = {left.text};")
        self.emit("} else {")
        self.lines += after
        self.emit(f"{name} = {right.text};")
        self.emit("}")
        return Value(name, type=type)

    def value_of_Assignment(self, node):
        place = self.assign(node)
        if place is None:
            self.report.refuse(
                node, "this assignment as a value", "assign before"
            )
        return Value(place.text(), ATOM, place.type)

    def value_of_ExprList(self, node):
        for item in node.exprs[:-1]:
            self.effect(item)
        return self.value(node.exprs[-1])

    def value_of_FuncCall(self, node):
        return self.call(node, True)

    def fitted(self, value, type, node):
        """A value as it is kept in a variable of this type."""
        if type in ("comm", "request"):
            if value.type != type:
                self.report.refuse(node, "another kind of handle", "mend it")
            return value
        self.check_number(value, node)
        if type == "bool":
            self.check_wide(value, node)
            if value.number is not None:
                return literal(int(bool(value.number)), type)
            return operation("!=", value, literal(0)).typed(type)
        if type in BITS_OF_NARROW and value.type != type:
            return self.narrowed(value, type)
        if type in LONGS and value.type == "uint" and value.number is None:
            self.note_long(node)
        if type in LONGS or type in REALS:
            self.check_wide(value, node)
        value = value.typed(type)
        value.wide = False
        return value

    def narrowed(self, value, type):
        """A value cut to the bits of a char or short."""
        bits = BITS_OF_NARROW[type]
        if value.number is not None:
            return literal(as_type(value.number, type), type)
        if value.type == "char" and type == "short":
            return value.typed(type)
        if value.type == "uchar" and bits == 16:
            return value.typed(type)
        if type in UNSIGNED:
            text = f"{value.at(BINDS['&'])} & {2**bits - 1}"
            return Value(text, BINDS["&"], type)
        shift = BINDS["<<"]
        text = f"{value.at(shift)} << {32 - bits} >> {32 - bits}"
        return Value(text, shift, type)

    def assign(self, node):
        """An assignment; answers its place, or None if it has none."""
        target = node.lvalue
        type = self.type_of(target)
        if is_pointer(type):
            self.assign_pointer(node)
            return None
        if type in ("dtype", "op"):
            self.assign_handle(node, type)
            return None
        if isinstance(target, c_ast.StructRef):
            return self.assign_field(node)
        if node.op == "=":
            return self.assign_plain(node, target)
        return self.assign_step(node, target)

    def assign_plain(self, node, target):
        """place = value"""
        start = len(self.lines)
        value, place = self.in_order(
            node,
            [lambda: self.value(node.rvalue), lambda: self.place(target)],
        )
        self.check_open_order(place, self.lines[start:], node)
        value = self.fitted(value, place.type, node)
        if place.type == "request" and value.text != "MPI_REQUEST_NULL":
            self.report.refuse(
                node, "a copy of a request", "use one variable for it"
            )
        place = self.stable_for_value(place, node)
        self.emit(f"{place.text()} = {value.text};")
        return place

    def check_open_order(self, place, lines, node):
        """Notes an index that the right side's calls may change."""
        if place.offset is None or not self.acts(lines):
            return
        words = set(WORD.findall(place.offset.text))
        if any(words & set(WORD.findall(line)) for line in lines):
            self.report.note(
                node, "C leaves open which side comes first: here the right"
            )

    def stable_for_value(self, place, node):
        """A place that means the same after the statement, if it is used."""
        parent = self.parent.get(id(node))
        if isinstance(
            parent,
            (
                c_ast.Compound,
                c_ast.If,
                c_ast.For,
                c_ast.While,
                c_ast.Case,
                c_ast.Default,
            ),
        ):
            return place
        return self.stable(place)

    def assign_step(self, node, target):
        """place += value and the like"""
        sign = node.op[:-1]
        value, place = self.in_order(
            node,
            [lambda: self.value(node.rvalue), lambda: self.place(target)],
        )
        self.check_number(value, node)
        self.check_number(Value("", type=place.type), node)
        place = self.stable_for_value(place, node)
        old = Value(place.text(), ATOM, place.type)
        plain = place.type in ("int", "uint") and value.type in INTS
        if (
            plain
            and not (
                sign in ("/", "%", ">>")
                and "uint" in (place.type, promoted(value.type))
            )
            and value.type not in LONGS
        ):
            self.emit(f"{place.text()} {node.op} {value.text};")
            return place
        result = self.arithmetic(
            c_ast.BinaryOp(sign, node.lvalue, node.rvalue, node.coord),
            old,
            value,
        )
        result = self.fitted(result, place.type, node)
        self.emit(f"{place.text()} = {result.text};")
        return place

    def assign_field(self, node):
        """An assignment to a field of a status."""
        target = node.lvalue
        if target.type == "->":
            place = self.address(target.name)
        else:
            place = self.place(target.name)
        if place.type != "status":
            self.report.refuse(
                node, "a field of a struct", "use a variable for each field"
            )
        self.effect(node.rvalue)
        self.report.note(
            node, f"an assignment to {target.field.name} of a status dropped"
        )

    def assign_handle(self, node, kind):
        """An assignment to a datatype or an operation."""
        symbol = self.symbol_of.get(id(node.lvalue))
        if symbol is None:
            self.report.refuse(
                node,
                "an array of datatypes or operations",
                "use variables",
            )
        self.handle(node.lvalue, kind)
        if symbol.many:
            number = self.handle_number(symbol, node.rvalue, kind)
            self.emit(f"{symbol.name_now} = {number};")
        else:
            self.report.say(node, f"{symbol.name} is written where it is used")

    def handle_number(self, symbol, node, kind):
        """The int that stands for a handle in a variable of several."""
        meaning = self.handle(node, kind)
        if kind == "op":
            return symbol.many.index(meaning)
        return meaning[1]

    def effect(self, node):
        """An expression whose value is not wanted."""
        if isinstance(node, c_ast.Cast):
            self.effect(node.expr)
        elif isinstance(node, c_ast.Assignment):
            self.assign(node)
        elif isinstance(node, c_ast.UnaryOp) and node.op in STEPS:
            if is_pointer(self.type_of(node.expr)):
                self.move_pointer(node)
            else:
                self.step(self.place(node.expr), node)
        elif isinstance(node, c_ast.ExprList):
            for item in node.exprs:
                self.effect(item)
        elif isinstance(node, c_ast.FuncCall):
            self.call(node, False)
        elif isinstance(node, c_ast.TernaryOp):
            self.branch(node.cond, node.iftrue, node.iffalse, node)
        elif isinstance(node, c_ast.BinaryOp) and node.op in ("&&", "||"):
            self.value(node)
        elif not isinstance(node, (c_ast.Constant, c_ast.ID)):
            self.value(node)

    def has_effects(self, node):
        """Whether evaluating an expression may do something."""
        if isinstance(node, EFFECTS):
            return True
        if isinstance(node, c_ast.UnaryOp) and node.op in STEPS:
            return True
        return any(self.has_effects(child) for _, child in node.children())

    def is_heap(self, node):
        """Whether an expression asks for memory; its length is not run."""
        from .pointers import HEAP

        if called(node) not in HEAP:
            return False
        if node.args is not None and self.has_effects(node.args):
            self.report.refuse(
                node,
                "a call or a change in what memory is asked for",
                "compute the length before",
            )
        return True


def fits(type, number):
    """Whether a number needs no cutting in this type."""
    return holds(type, number)
