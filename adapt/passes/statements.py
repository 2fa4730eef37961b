"""Blocks, branches, loops and switches."""
from pycparser import c_ast

from .handles import NO_TYPE
from .parsing import names_in
from .report import Refused
from .types import element, is_pointer
from .values import SIGN, Value, literal

LOOPS = (c_ast.For, c_ast.While, c_ast.DoWhile)


class Loop:
    """What encloses a statement: a loop, a switch or a function's text.

    `skip` is the variable that tells the loop around a switch to go on.
    """

    def __init__(self, kind):
        self.kind, self.skip = kind, None


class Statements:
    """Statements of the target for C's statements."""

    def statement(self, node):
        """One statement; what is refused in it is kept for later."""
        if node is None:
            return
        if getattr(node, "coord", None) is not None:
            self.report.here = self.report.place_of(node)
        rule = getattr(self, "write_" + type(node).__name__, self.effect)
        depth = len(self.visible)
        try:
            rule(node)
        except Refused as refused:
            self.report.keep(refused)
            del self.visible[depth:]

    def write_Compound(self, node):
        self.emit("{")
        for item in node.block_items or []:
            self.statement(item)
        self.emit("}")

    def write_EmptyStatement(self, node):
        return

    def write_Typedef(self, node):
        return

    def write_Pragma(self, node):
        return

    def write_Decl(self, node):
        if not isinstance(node.type, c_ast.FuncDecl):
            self.declaration(node)

    def write_DeclList(self, node):
        for item in node.decls:
            self.declaration(item)

    def write_If(self, node):
        self.branch(node.cond, node.iftrue, node.iffalse, node)

    def branch(self, condition, first, second, node):
        """if (condition) first else second"""
        known = self.constant(condition)
        by_argc = known is not None and "argc" in names_in(condition).split()
        if known is None:
            value = self.truth(condition)
            self.check_number(value, node)
            known = value.number
        if known is not None:
            why = "argc is 1" if by_argc else "its condition is known"
            dropped = second if known else first
            if dropped is not None:
                self.report.say(dropped, f"never done, dropped: {why}")
            self.statement(first if known else second)
            return
        self.emit(f"if ({value.text}) {{")
        self.body(first)
        if second is not None:
            self.emit("} else {")
            self.body(second)
        self.emit("}")

    def body(self, node):
        """The statements of a block whose braces are there already."""
        if isinstance(node, c_ast.Compound):
            for item in node.block_items or []:
                self.statement(item)
        else:
            self.statement(node)

    def write_While(self, node):
        if self.constant(node.cond) == 0:
            self.report.say(node, "never done, dropped: its condition is 0")
            return
        self.loop(node.cond, None, node.stmt, node)

    def write_For(self, node):
        if self.starts_false(node):
            self.report.say(node, "never done, dropped: it begins false")
            if isinstance(node.init, c_ast.Assignment):
                self.effect(node.init)
            return
        first, _ = self.caught(lambda: self.statement_of_head(node.init))
        simple = (
            len(first) == 1
            and first[0].endswith(";")
            and ("(" not in first[0] and "{" not in first[0])
        )
        if not first or simple:
            head = first[0].rstrip(";") if first else ""
            self.loop(node.cond, node.next, node.stmt, node, head)
            return
        self.emit("{")
        self.lines += first
        self.loop(node.cond, node.next, node.stmt, node)
        self.emit("}")

    def statement_of_head(self, init):
        """The first part of a for's head."""
        if isinstance(init, c_ast.DeclList):
            self.write_DeclList(init)
        elif init is not None:
            self.effect(init)

    def starts_false(self, node):
        """Whether a loop over main's arguments has no turn."""
        if node.cond is None or "argc" not in names_in(node.cond).split():
            return False
        condition, init = node.cond, node.init
        value = None
        if isinstance(init, c_ast.Assignment) and init.op == "=":
            value = init.rvalue
        elif isinstance(init, c_ast.DeclList):
            value = init.decls[0].init
        if value is None or not isinstance(condition, c_ast.BinaryOp):
            return False
        left = condition.left
        target = getattr(init, "lvalue", None) or init.decls[0]
        if self.symbol_of.get(id(left)) is not self.symbol_of.get(id(target)):
            return False
        test = c_ast.BinaryOp(condition.op, value, condition.right)
        return self.constant(test) == 0

    def loop(self, condition, step, inside, node, head=""):
        """while or for, with the lines that its condition and step need."""
        test = literal(1)
        before = []
        if condition is not None:
            before, test = self.caught(lambda: self.truth(condition))
            self.check_number(test, node)
        after = []
        if step is not None:
            after, _ = self.caught(lambda: self.effect(step))
        plain = (
            not before
            and len(after) <= 1
            and not any(
                "{" in line or line.startswith(("int ", "MPI_Comm "))
                for line in after
            )
        )
        self.loops.append(Loop("loop"))
        if plain:
            self.plain_loop(test, after, inside, head)
        elif not self.has_continue(inside) or not after:
            self.long_loop(before, test, after, inside, head)
        else:
            self.flagged_loop(before, test, after, inside, head)
        self.loops.pop()

    def plain_loop(self, test, after, inside, head):
        """A loop whose condition and step are as in C."""
        if after or head:
            step = after[0].rstrip(";") if after else ""
            text = "" if test.number else f" {test.text}"
            self.emit(f"for ({head};{text}; {step}) {{")
        else:
            self.emit(f"while ({test.text}) {{")
        self.body(inside)
        self.emit("}")

    def leave_unless(self, test):
        """Leaves the loop where its condition fails."""
        if test.number is not None:
            if not test.number:
                self.emit("break;")
            return
        self.emit(f"if (!{test.at(SIGN)}) {{")
        self.emit("break;")
        self.emit("}")

    def long_loop(self, before, test, after, inside, head):
        """A loop whose condition or step needs several lines."""
        if head:
            self.emit("{")
            self.emit(head + ";")
        self.emit("while (1) {")
        self.lines += before
        self.leave_unless(test)
        self.body(inside)
        self.lines += after
        self.emit("}")
        if head:
            self.emit("}")

    def flagged_loop(self, before, test, after, inside, head):
        """The same, where `continue` has to come to the step."""
        self.emit("{")
        if head:
            self.emit(head + ";")
        first = self.fresh()
        self.emit(f"int {first} = 1;")
        self.emit("while (1) {")
        self.emit(f"if (!{first}) {{")
        self.lines += after
        self.emit("}")
        self.emit(f"{first} = 0;")
        self.lines += before
        self.leave_unless(test)
        self.body(inside)
        self.emit("}")
        self.emit("}")

    def has_continue(self, node):
        """Whether a continue of this loop is in its body."""
        if isinstance(node, c_ast.Continue):
            return True
        if node is None or isinstance(node, LOOPS):
            return False
        return any(self.has_continue(child) for _, child in node.children())

    def write_DoWhile(self, node):
        before, test = self.caught(lambda: self.truth(node.cond))
        self.check_number(test, node)
        if before:
            self.loops.append(Loop("loop"))
            self.flagged_loop(
                [],
                literal(1),
                before + self.caught(lambda: self.leave_unless(test))[0],
                node.stmt,
                "",
            )
            self.loops.pop()
            return
        self.loops.append(Loop("loop"))
        self.emit("do {")
        self.body(node.stmt)
        self.emit(f"}} while ({test.text});")
        self.loops.pop()

    def write_Break(self, node):
        if not self.loops or self.loops[-1].kind == "function":
            self.report.refuse(node, "a break outside of a loop", "mend it")
        self.emit("break;")

    def write_Continue(self, node):
        at = len(self.loops) - 1
        while at >= 0 and self.loops[at].kind == "switch":
            at -= 1
        if at < 0 or self.loops[at].kind == "function":
            self.report.refuse(node, "a continue outside of a loop", "mend it")
        if at == len(self.loops) - 1:
            self.emit("continue;")
            return
        inner = at + 1
        for switch in self.loops[inner:]:
            switch.skip = switch.skip or self.fresh("go_on_")
            self.emit(f"{switch.skip} = 1;")
        self.emit("break;")

    def write_Return(self, node):
        if self.written_out:
            self.return_from_text(node)
            return
        if node.expr is None:
            self.emit("return;")
            return
        result = self.result_type(self.current)
        if result == "void":
            self.effect(node.expr)
            self.emit("return;")
            return
        value = self.value(node.expr)
        if self.current == "main" and value.number != 0:
            self.report.note(
                node, "main's status is dropped: mpirun may stop the others"
            )
        value = self.fitted(value, result, node)
        self.emit(f"return {value.text};")

    def write_Goto(self, node):
        self.report.refuse(node, "goto", "use a loop or a function")

    def write_Label(self, node):
        self.statement(node.stmt)

    def write_Switch(self, node):
        """A loop of one turn, with an if for each case."""
        value = self.value(node.cond)
        if value.type not in (
            "int",
            "uint",
            "char",
            "uchar",
            "short",
            "ushort",
            "bool",
            "long",
            "ulong",
        ):
            self.report.refuse(node, "a switch on no int", "use ifs")
        chosen = self.fresh()
        self.emit(f"int {chosen} = {value.text};")
        cases = self.cases_of(node)
        numbers = [number for number, _ in cases if number is not None]
        through = self.fresh()
        self.emit(f"int {through} = 0;")
        switch = Loop("switch")
        self.loops.append(switch)
        lines, _ = self.caught(
            lambda: self.write_cases(cases, chosen, through, numbers)
        )
        self.loops.pop()
        if switch.skip:
            self.emit(f"int {switch.skip} = 0;")
        self.lines += lines
        if switch.skip:
            self.emit(f"if ({switch.skip}) {{")
            outer = self.loops[-1] if self.loops else None
            self.emit(
                "break;" if outer and outer.kind == "switch" else "continue;"
            )
            self.emit("}")

    def write_cases(self, cases, chosen, through, numbers):
        """The ifs of a switch; `through` says that a case was entered."""
        self.emit("do {")
        for at, (number, inside) in enumerate(cases):
            if number is not None:
                test = f"{through} || {chosen} == {number}"
            elif at + 1 == len(cases):
                test = "1"
            else:
                others = " && ".join(f"{chosen} != {it}" for it in numbers)
                test = f"{through} || {others}" if others else "1"
            self.emit(f"if ({test}) {{")
            self.emit(f"{through} = 1;")
            for item in inside:
                self.statement(item)
            self.emit("}")
        self.emit("} while (0);")

    def cases_of(self, node):
        """Pairs of a case's number (None: default) and its statements."""
        inside = node.stmt
        items = (
            inside.block_items or []
            if isinstance(inside, c_ast.Compound)
            else [inside]
        )
        cases = []
        for item in items:
            if not isinstance(item, (c_ast.Case, c_ast.Default)):
                self.report.refuse(
                    item, "a statement before the first case", "move it"
                )
            self.add_case(item, cases)
        for _, statements in cases:
            for statement in statements:
                self.check_no_case(statement)
        return cases

    def add_case(self, item, cases):
        """Adds a case, and those that stand directly in it."""
        number = None
        if isinstance(item, c_ast.Case):
            number = self.constant(item.expr)
            if number is None:
                self.report.refuse(
                    item, "a case that is not known", "give it a number"
                )
            number = literal(number).text
        statements = list(item.stmts or [])
        if statements and isinstance(
            statements[0], (c_ast.Case, c_ast.Default)
        ):
            cases.append((number, []))
            self.add_case(statements[0], cases)
            last = cases[-1]
            cases[-1] = (last[0], last[1] + statements[1:])
        else:
            cases.append((number, statements))

    def check_no_case(self, node):
        """Refuses a case inside another statement."""
        if isinstance(node, (c_ast.Case, c_ast.Default)):
            self.report.refuse(
                node, "a case inside another statement", "use ifs"
            )
        if not isinstance(node, c_ast.Switch):
            for _, child in node.children():
                self.check_no_case(child)

    def declaration(self, node):
        """Declares a variable of the target, if it needs one."""
        self.report.here = self.report.place_of(node)
        symbol = self.symbol_of.get(id(node))
        if symbol is None:
            return
        if symbol.kind == "global" and not self.at_top:
            self.report.say(node, f"the static {symbol.name} is in main")
            return
        try:
            self.declare_variable(symbol)
        except Refused:
            symbol.broken = True
            raise

    def declare_variable(self, symbol):
        """The declaration of one variable, with its first value."""
        node, type = symbol.node, symbol.type
        if not symbol.uses:
            self.report.say(node, f"{symbol.name} is not used: dropped")
            if node.init is not None and self.has_effects(node.init):
                self.effect(node.init)
            return
        self.say_words(symbol, node)
        if type in ("dtype", "op"):
            self.declare_handle(symbol)
        elif is_pointer(type):
            if self.text_of_symbol(symbol) is not None:
                self.report.say(
                    node, f"the text {symbol.name} is written where it is used"
                )
            elif type[0] == "ptr":
                self.declare_pointer(symbol)
            else:
                self.declare_array(symbol)
        elif self.is_folded(symbol) and self.constant_symbol(symbol) is not (
            None
        ):
            self.report.say(node, f"{symbol.name} is written as its number")
        else:
            self.declare_scalar(symbol)

    def say_words(self, symbol, node):
        """Says which words of a declaration are dropped."""
        words = [it for it in node.storage if it != "extern"] + node.quals
        inner = node.type
        while inner is not None and not isinstance(inner, c_ast.TypeDecl):
            inner = getattr(inner, "type", None)
        words += list(getattr(inner, "quals", None) or [])
        for word in sorted(set(words)):
            self.report.say(node, f"{word} dropped")
        if symbol.kind == "global" and not symbol.static:
            self.report.say(node, f"the global {symbol.name} is in main")

    def declare_handle(self, symbol):
        """A datatype or operation: an int, if it has several values."""
        try:
            self.handle_of_symbol(symbol, symbol.node, symbol.type)
        except Refused:
            return
        if not symbol.many:
            self.report.say(
                symbol.node, f"{symbol.name} is written where it is used"
            )
            return
        self.report.note(
            symbol.node,
            f"{symbol.name} has several values: an int "
            + (
                "that multiplies counts"
                if symbol.type == "dtype"
                else "that chooses the operation"
            ),
        )
        number = NO_TYPE[1] if symbol.type == "dtype" else 0
        if symbol.node.init is not None:
            number = self.handle_number(symbol, symbol.node.init, symbol.type)
        self.emit(f"int {self.name_for(symbol)} = {number};")

    def declare_pointer(self, symbol):
        """A pointer: an array, an index, or nothing."""
        node, plan = symbol.node, self.plan_of(symbol, symbol.node)
        init = None if node.init is None else self.pointed(node.init)
        if plan.base is symbol:
            name = self.name_for(symbol)
            length = self.checked_length(plan.length, node)
            self.emit(f"{self.heap_word(symbol)} {name}[{length}];")
            self.report.say(node, f"{symbol.name} is an array of {length}")
        elif plan.kind != "null":
            self.report.say(node, f"{symbol.name} is written as its place")
        if plan.kind == "index":
            plan.index = self.fresh(symbol.name + "_at")
            self.emit(f"int {plan.index} = 0;")
        if plan.tested:
            plan.state = self.fresh(symbol.name + "_set")
            self.emit(f"int {plan.state} = 0;")
        if init is None:
            return
        fresh = plan.base is symbol and plan.kind == "array"
        if fresh and self.is_heap(init):
            if plan.tested:
                self.emit(f"{plan.state} = 1;")
            return
        if isinstance(node.init, c_ast.Assignment):
            self.assign(node.init)
        self.set_pointer(symbol, init, node)

    def heap_word(self, symbol):
        """The word of the language for what a pointer's memory holds."""
        inner = element(symbol.type)
        return "int" if inner == "void" else self.word_of(inner, symbol)

    def clear(self, symbol, call):
        """Sets an array to 0, where calloc gives it."""
        from .parsing import called

        if called(call) != "calloc":
            return
        if self.heap_word(symbol) != "int":
            self.report.refuse(
                call, "handles that are cleared again", "set them in a loop"
            )
        index = self.fresh()
        length = symbol.plan.length
        name = symbol.name_now
        self.emit(f"for (int {index} = 0; {index} < {length}; {index}++) {{")
        self.emit(f"{name}[{index}] = 0;")
        self.emit("}")

    def checked_length(self, length, node):
        """The length of an array, if the language has room for it."""
        if length > 262144:
            self.report.refuse(
                node,
                f"an array of {length} ints",
                "make it smaller: the language has 262144 for each rank",
            )
        return max(length, 1)

    def declare_array(self, symbol):
        """An array, with one index in place of several."""
        node, type = symbol.node, symbol.type
        inner = type
        while is_pointer(inner):
            if inner[0] == "ptr":
                self.report.refuse(
                    node,
                    f"{symbol.name} is an array of pointers",
                    "use an array of ints",
                )
            inner = inner[1]
        word = self.word_of(inner, symbol)
        values = None
        if node.init is not None:
            values = self.cells_of(node.init, type, node)
        length = self.array_length(symbol, values)
        if isinstance(type[1], tuple):
            self.report.say(
                node, f"{symbol.name} has one index in place of several"
            )
        if values is not None and len(values) > length:
            values = values[:length]
        length = self.checked_length(length, node)
        name = self.name_for(symbol)
        first = ""
        if values and word == "int":
            while len(values) > 1 and values[-1] == "0":
                values.pop()
            first = f" = {{{', '.join(values)}}}"
        elif values:
            self.report.refuse(
                node, "the first values of handles", "assign them"
            )
        self.emit(f"{word} {name}[{length}]{first};")

    def array_length(self, symbol, values):
        """How many cells an array needs."""
        type, node = symbol.type, symbol.node
        if type[2] is None and values is not None:
            inner = self.cells(type[1]) or 1
            rows = -(-len(values) // inner)
            length = c_ast.Constant("int", str(rows))
            symbol.type = ("arr", type[1], length)
            return rows * inner
        cells = self.cells(type)
        if cells is not None:
            return cells
        if isinstance(type[1], tuple) and self.cells(type[1]) is None:
            self.report.refuse(
                node, "rows of unknown length", "give them by numbers"
            )
        self.report.note(
            node,
            f"{symbol.name} has room for {self.options.room} elements "
            "(--room), as its length is not known",
        )
        return self.options.room * (self.cells(type[1]) or 1)

    def cells_of(self, init, type, node):
        """The texts of an array's first values."""
        if isinstance(init, c_ast.Constant) and init.type == "string":
            codes = self.bytes_of_text(init)
            if codes is None:
                self.report.refuse(node, "this text", "use plain letters")
            return [str(code) for code in codes] + ["0"]
        if not isinstance(init, c_ast.InitList):
            value = self.fitted(self.value(init), self.inner_type(type), node)
            return [value.text]
        inner = type[1] if is_pointer(type) and type[0] == "arr" else None
        found = []
        for item in init.exprs:
            if isinstance(item, c_ast.NamedInitializer):
                self.report.refuse(
                    node, "first values with names", "give all in order"
                )
            if isinstance(inner, tuple) and (
                isinstance(item, c_ast.InitList)
                or getattr(item, "type", None) == "string"
            ):
                count = self.cells(inner)
                if count is None or len(found) % count:
                    self.report.refuse(
                        node, "these first values", "give all in order"
                    )
                row = self.cells_of(item, inner, node)[:count]
                found += row + ["0"] * (count - len(row))
            else:
                found += self.cells_of(item, inner or type, node)
        return found

    def inner_type(self, type):
        """The type of one cell."""
        while is_pointer(type):
            type = type[1]
        return type

    def declare_scalar(self, symbol):
        """An int, a communicator, a request or a status."""
        node, type = symbol.node, symbol.type
        word = self.word_of(type, symbol)
        if type in ("double", "float"):
            self.report.note(
                node, f"{symbol.name} has whole numbers of 32 bits only"
            )
        elif word == "int" and type != "int":
            self.report.say(node, f"{symbol.name}, of the type {type}: an int")
        shared = symbol.shared and type != "comm"
        first = ""
        if node.init is not None:
            first = self.first_value(symbol, node, shared)
        name = self.name_for(symbol)
        cells = "[1]" if shared else ""
        self.emit(f"{word} {name}{cells}{first};")

    def first_value(self, symbol, node, shared):
        """The text of a variable's first value."""
        if symbol.type == "status":
            self.report.say(node, "the first value of a status is dropped")
            return ""
        init = node.init
        if isinstance(init, c_ast.InitList):
            init = init.exprs[0]
        value = self.fitted(self.value(init), symbol.type, node)
        if value.text == "MPI_REQUEST_NULL":
            return ""
        return f" = {{{value.text}}}" if shared else f" = {value.text}"

    def word_of(self, type, symbol):
        """The word of the language for a type."""
        from .output import WORDS
        from .types import NUMBERS

        if type in NUMBERS:
            return "int"
        if type in WORDS:
            return WORDS[type]
        self.refuse_use(symbol, symbol.node)

    def constant_or(self, node, value):
        """The number of an expression if it is known, else a value."""
        number = self.constant(node)
        return literal(number) if number is not None else Value(value)
