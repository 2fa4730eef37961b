"""The program's own functions.

A function becomes one of the language if its parameters and the globals that
it uses are ints, arrays of ints and communicators; the globals become
parameters. Any other is written out at each call.
"""
from pycparser import c_ast

from .parsing import arguments, bare, called, nodes
from .report import Refused
from .types import NUMBERS, element, is_pointer
from .values import Place, Value, literal

PERSISTENT = (
    "MPI_Send_init",
    "MPI_Ssend_init",
    "MPI_Bsend_init",
    "MPI_Rsend_init",
    "MPI_Recv_init",
    "MPI_Start",
    "MPI_Startall",
)
QUIET = {
    "MPI_Comm_rank",
    "MPI_Comm_size",
    "abs",
    "labs",
    "free",
    "sizeof",
    "strlen",
    "strcmp",
}
MOST_WRITTEN_OUT = 12
MOST_LINES = 20000


class Functions:
    """Calls and heads of the program's own functions."""

    def result_type(self, name):
        """The type of what a function gives back."""
        return self.type_of_declaration(self.functions[name].decl.type.type)

    def below(self, name):
        """A function and all that it calls, directly or not."""
        if name not in self.below_of:
            found, todo = set(), [name]
            while todo:
                at = todo.pop()
                if at not in found:
                    found.add(at)
                    todo.extend(self.calls_below.get(at, ()))
            self.below_of[name] = found
        return self.below_of[name]

    def find_acting(self):
        """The functions whose call may be seen outside of them."""
        own = set()
        for caller, name, _ in self.calls:
            if name not in self.functions and name not in QUIET:
                own.add(caller)
        for symbol in self.all_symbols:
            for write in symbol.writes:
                outer = symbol.kind == "global"
                through = symbol.kind == "parameter" and write.kind in (
                    "part",
                    "given",
                    "address",
                )
                if (outer or through) and write.function:
                    own.add(write.function)
        return {it for it in self.functions if self.below(it) & own}

    def globals_of(self, name):
        """The globals that a function needs, with those that it calls."""
        below = self.below(name)
        return [
            symbol
            for symbol in self.globals
            if symbol.functions & below
            and not self.is_written_in_place(symbol)
        ]

    def is_written_in_place(self, symbol):
        """Whether a global needs no variable."""
        if symbol.type in ("dtype", "op") or symbol.type == ("func",):
            return True
        if self.text_of_symbol(symbol) is not None:
            return True
        return self.is_folded(symbol) and (
            self.constant_symbol(symbol) is not None
        )

    def is_folded(self, symbol):
        """Whether a variable is a global with one value that none changes."""
        if symbol.kind != "global" or symbol.type not in NUMBERS:
            return False
        return not any(
            write.kind != "start" for write in symbol.writes
        ) and not self.is_addressed(symbol)

    def is_addressed(self, symbol):
        """Whether the address of a variable is taken."""
        for use in symbol.uses:
            parent = self.parent.get(id(use))
            if isinstance(parent, c_ast.UnaryOp) and parent.op == "&":
                return True
        return False

    def is_plain(self, name):
        """Whether a function can be one of the language."""
        if name not in self.plain:
            self.plain[name] = False
            self.plain[name] = self.can_be_plain(name)
        return self.plain[name]

    def can_be_plain(self, name):
        """The rules of `is_plain`."""
        result = self.result_type(name)
        if result != "void" and result not in NUMBERS:
            return False
        if self.variadic[name]:
            return False
        below = self.below(name)
        for caller, callee, _ in self.calls:
            if caller in below and callee in PERSISTENT:
                return False
        if any(
            n.name == "MPI_COMM_SELF"
            for n in nodes(self.functions[name])
            if isinstance(n, c_ast.ID)
        ):
            return False
        if not all(self.plain_parameter(it) for it in self.parameters[name]):
            return False
        return all(
            self.plain_global(it, below) for it in self.globals_of(name)
        )

    def plain_parameter(self, symbol):
        """Whether a parameter can be one of the language."""
        type = symbol.type
        if type in NUMBERS or type == "comm":
            return True
        given = [w.node for w in symbol.writes if w.kind == "argument"]
        if type in ("dtype", "op"):
            try:
                return len(self.handles_written(symbol, type)) == 1
            except Refused:
                return False
        if not is_pointer(type) or type[1] not in NUMBERS:
            return False
        for node in given:
            if self.text_of(node) is not None:
                return False
            if not self.is_null(node):
                inner = self.type_of(bare(node))
                if not is_pointer(inner) or element(inner) != type[1]:
                    return False
        return True

    def plain_global(self, symbol, below):
        """Whether a global can be a parameter of a function."""
        if symbol.type in NUMBERS:
            return True
        if symbol.type == "comm":
            return not any(w.function in below for w in symbol.writes)
        if symbol.type[0] == "ptr" and is_pointer(symbol.type):
            self.trying = True
            try:
                plan = self.plan_of(symbol, symbol.node)
            except Refused:
                return False
            finally:
                self.trying = False
            return (
                plan.kind == "array"
                and not plan.tested
                and element(symbol.type) in NUMBERS
            )
        return is_pointer(symbol.type) and element(symbol.type) in NUMBERS

    def head_of(self, name):
        """The head of a plain function; its parameters get their names."""
        heads = []
        for symbol in self.parameters[name]:
            if symbol.type in ("dtype", "op"):
                continue
            heads.append(self.parameter_text(symbol))
        for symbol in self.globals_of(name):
            heads.append(self.global_text(symbol))
        word = "void" if self.result_type(name) == "void" else "int"
        return f"{word} {name}({', '.join(heads) or 'void'})"

    def parameter_text(self, symbol):
        """A parameter in a function's head."""
        name = self.name_for(symbol)
        if symbol.type == "comm":
            return f"MPI_Comm {name}"
        if is_pointer(symbol.type):
            return f"int {name}[]"
        return f"int {name}"

    def global_text(self, symbol):
        """A global as a parameter in a function's head."""
        name = self.name_for(symbol)
        return (
            f"MPI_Comm {name}" if symbol.type == "comm" else (f"int {name}[]")
        )

    def open_parameters(self, name):
        """The index variables of parameters that are pointers that move."""
        for symbol in self.parameters[name]:
            if is_pointer(symbol.type) and not isinstance(symbol.bound, Place):
                plan = self.plan_of(symbol, symbol.node)
                if plan.kind == "index":
                    plan.index = self.fresh(symbol.name + "_at")
                    self.emit(f"int {plan.index} = 0;")

    def own_call(self, node, name, wanted):
        """A call of one of the program's functions."""
        given, parameters = arguments(node), self.parameters[name]
        if name == "main":
            self.report.refuse(node, "a call of main", "use a loop")
        if len(given) != len(parameters):
            self.report.refuse(
                node,
                f"{name} with another number of arguments",
                "give it as many as it has parameters",
            )
        if not self.is_plain(name):
            return self.write_out(node, name, given, wanted)
        works = []
        for symbol, value in zip(parameters, given):
            if symbol.type not in ("dtype", "op"):
                works.append(self.argument_work(symbol, value))
        values = [it.text for it in self.in_order(node, works)]
        for symbol in self.globals_of(name):
            self.check_visible(symbol.name_now, symbol.name, node)
            values.append(symbol.name_now)
        text = f"{name}({', '.join(values)})"
        result = self.result_type(name)
        if result == "void" or not wanted:
            self.emit(text + ";")
            return literal(0)
        answer = self.fresh()
        self.emit(f"int {answer} = {text};")
        return Value(answer, type=result)

    def argument_work(self, symbol, node):
        """What evaluates an argument."""
        if is_pointer(symbol.type):
            return lambda: self.array_argument(node)
        return lambda: self.fitted(self.value(node), symbol.type, node)

    def array_argument(self, node):
        """An argument that is an array, as a value in the making."""
        if self.is_null(node):
            return Value("NULL", type="reference")
        return Value(self.address(node).reference(), type="reference")

    def write_out(self, node, name, given, wanted):
        """A call by the function's statements."""
        if name in self.written_out or (
            len(self.written_out) >= MOST_WRITTEN_OUT
        ):
            self.report.refuse(
                node,
                f"{name} has to be written out, and calls itself or is deep",
                "give it ints, arrays and communicators only",
            )
        if len(self.lines) > MOST_LINES:
            self.report.refuse(
                node, "the adapted text is too long", "use fewer calls"
            )
        result = self.result_type(name)
        if self.variadic[name] or (result != "void" and result not in NUMBERS):
            self.report.refuse(
                node,
                f"the function {name}, by what it takes or gives",
                "let it take and give ints, arrays or communicators",
            )
        parameters = self.parameters[name]
        old = [(it.bound, it.index_name, it.name_now) for it in parameters]
        bound = self.bound_arguments(node, parameters, given)
        answer = None
        if result != "void" and wanted:
            answer = self.fresh()
            self.emit(f"int {answer} = 0;")
        body = self.functions[name].body
        last_only = self.returns_last(body)
        self.emit("{" if last_only else "do {")
        self.bind(parameters, bound)
        self.write_body(name, body, answer, last_only)
        self.emit("}" if last_only else "} while (0);")
        for symbol, (was, index, name_now) in zip(parameters, old):
            symbol.bound, symbol.index_name = was, index
            symbol.name_now = name_now
        self.report.say(node, f"{name} is written out where it is called")
        return Value(answer, type=result) if answer else literal(0)

    def write_body(self, name, body, answer, last_only):
        """The statements of a function that is written out."""
        from .statements import Loop

        self.written_out.append(name)
        self.returns.append((answer, last_only))
        self.loops.append(Loop("function"))
        for item in body.block_items or []:
            self.statement(item)
        self.loops.pop()
        self.returns.pop()
        self.written_out.pop()

    def returns_last(self, body):
        """Whether a function returns at its end only."""
        found = [n for n in nodes(body) if isinstance(n, c_ast.Return)]
        items = body.block_items or []
        return not found or (len(found) == 1 and items[-1] is found[0])

    def bound_arguments(self, node, parameters, given):
        """What the parameters of a function mean, for one call."""
        works = [
            self.bound_work(symbol, value)
            for symbol, value in zip(parameters, given)
        ]
        return self.in_order(node, works)

    def bound_work(self, symbol, node):
        """What finds the meaning of one argument."""
        if symbol.type in ("dtype", "op"):
            return lambda: self.handle(node, symbol.type)
        if is_pointer(symbol.type):
            text = self.text_of(node)
            if text is not None:
                return lambda: text
            return lambda: self.bound_place(symbol, node)
        return lambda: self.fitted(self.value(node), symbol.type, node)

    def bound_place(self, symbol, node):
        """The place that a parameter means."""
        if self.is_null(node):
            self.report.refuse(
                node, f"NULL for {symbol.name}", "give an array"
            )
        place = self.address(node)
        mine, theirs = element(symbol.type), element(place.type)
        if mine != theirs and "void" not in (mine, theirs):
            if self.size_of_type(mine) != self.size_of_type(theirs):
                self.report.refuse(
                    node, f"another type for {symbol.name}", "use one type"
                )
        if place.offset is None:
            return place
        return Place(place.base, self.temporary(place.offset), place.type)

    def bind(self, parameters, bound):
        """Gives parameters their meanings; values get variables."""
        for symbol, meaning in zip(parameters, bound):
            symbol.bound = symbol.index_name = None
            if symbol.type in ("dtype", "op") or not isinstance(
                meaning, Value
            ):
                symbol.bound = meaning
                if isinstance(meaning, Place) and self.parameter_moves(symbol):
                    self.bind_index(symbol, meaning)
            else:
                from .output import WORDS

                name = self.name_for(symbol)
                word = WORDS.get(symbol.type, "int")
                self.emit(f"{word} {name} = {meaning.text};")

    def parameter_moves(self, symbol):
        """Whether a pointer parameter is changed by its function."""
        return any(w.kind in ("step", "=") for w in symbol.writes)

    def bind_index(self, symbol, place):
        """A pointer parameter that moves: its index is a variable."""
        if place.offset is None:
            self.report.refuse(
                symbol.node, f"{symbol.name} moves", "use an index"
            )
        symbol.index_name = self.fresh(symbol.name + "_at")
        self.emit(f"int {symbol.index_name} = {place.offset.text};")

    def return_from_text(self, node):
        """A return in a function that is written out."""
        answer, last_only = self.returns[-1]
        if node.expr is not None:
            result = self.result_type(self.written_out[-1])
            if answer:
                value = self.fitted(self.value(node.expr), result, node)
                self.emit(f"{answer} = {value.text};")
            else:
                self.effect(node.expr)
        if last_only:
            return
        if self.loops[-1].kind != "function":
            self.report.refuse(
                node,
                f"a return in a loop of {self.written_out[-1]}, which has to "
                "be written out",
                "return at its end",
            )
        self.emit("break;")

    def function_lines(self, name):
        """The lines of a plain function, or of main."""
        self.current, self.lines = name, []
        self.taken = set(self.functions)
        self.visible = [set()]
        if name == "main":
            head = "int main(void)"
        else:
            head = self.head_of(name)
        self.lines = [head]
        self.emit("{")
        if name == "main":
            self.declare_globals()
        else:
            self.open_parameters(name)
        for item in self.functions[name].body.block_items or []:
            self.statement(item)
        self.emit("}")
        return self.lines

    def declare_globals(self):
        """The globals that anything uses, as variables of main."""
        self.at_top = True
        for symbol in self.globals:
            if symbol.functions & self.live:
                try:
                    self.declare_variable(symbol)
                except Refused as refused:
                    symbol.broken = True
                    self.report.keep(refused)
        self.at_top = False

    def find_shared(self):
        """Marks the globals that are parameters of functions."""
        for symbol in self.globals:
            if symbol.functions & self.live:
                symbol.shared = self.is_shared(symbol)

    def is_shared(self, symbol):
        """Whether a function other than main has a global as parameter."""
        return (
            symbol.type in NUMBERS
            and any(
                self.is_plain(name)
                for name in self.live - {"main"}
                if symbol.functions & self.below(name)
            )
            and not self.is_written_in_place(symbol)
        )

    def is_called(self, node):
        """Whether a name is that of a function that is called there."""
        parent = self.parent.get(id(node))
        return called(parent) is not None and parent.name is node
