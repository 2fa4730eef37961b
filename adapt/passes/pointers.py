"""What each pointer is.

The language has no pointers. A pointer variable is planned from all its
writes, as one of

- `null`: never set, or only to NULL;
- `array`: what one or several calls of malloc gave it, as an array;
- `place`: another name of one place, which is the same whenever it is used;
- `index`: an int variable, the index into the one array that it points to;
- `parameter`: a parameter of a function, which is an array there.

Where it may be NULL and is compared with it, an int variable says whether
it is set. What fits none of these is refused.
"""
from pycparser import c_ast

from .mpi_table import DROPPED, NOT_GIVEN
from .parsing import arguments, bare, called, nodes
from .report import Refused
from .types import element, is_pointer

HEAP = ("malloc", "calloc", "realloc", "alloca", "xbt_malloc", "xbt_new")
ADVICE = "use an array and an index"


class Plan:
    """What a pointer is.

    `base` is the variable that it points into, `target` the expression of
    a fixed place. If it is `tested`, the variable `state` says whether it
    is set; `index` is the variable that is its index. Both have names only
    once its declaration is written.
    """

    def __init__(self, kind, length=0, target=None):
        self.kind, self.length, self.target = kind, length, target
        self.state = self.index = self.base = None
        self.tested = False


class Pointers:
    """Plans of pointer variables."""

    def plan_of(self, symbol, node):
        """The plan of a pointer variable."""
        if symbol.plan is None:
            if symbol.broken:
                self.report.follow(node)
            if symbol in self.planning:
                self.report.refuse(
                    node, f"{symbol.name} points by itself", ADVICE
                )
            self.planning.add(symbol)
            try:
                symbol.plan = self.make_plan(symbol, node)
            except Refused:
                symbol.broken = not self.trying
                raise
            finally:
                self.planning.discard(symbol)
        return symbol.plan

    def make_plan(self, symbol, node):
        """Decides a plan by all writes of the variable."""
        if is_pointer(symbol.type[1]) and symbol.type[1][0] == "ptr":
            self.report.refuse(
                node, f"{symbol.name} points to pointers", ADVICE
            )
        heap, targets, moves, null = [], [], False, False
        for write in symbol.writes:
            if write.kind in ("part", "argument"):
                continue
            if write.kind == "step":
                moves = True
            elif write.kind in ("start", "="):
                value = self.pointed(write.node)
                if self.is_null(value):
                    null = True
                elif called(value) in HEAP:
                    heap.append(value)
                else:
                    targets.append(value)
            elif self.gives_address(symbol, write):
                self.report.refuse(
                    write.node,
                    f"the address of the pointer {symbol.name}",
                    ADVICE,
                )
        return self.choose_plan(symbol, node, heap, targets, moves, null)

    def pointed(self, node):
        """A pointer expression without casts and inner assignments."""
        node = bare(node)
        while isinstance(node, c_ast.Assignment) and node.op == "=":
            node = bare(node.rvalue)
        return node

    def gives_address(self, symbol, write):
        """Whether a write gives the address of the pointer itself away."""
        node = write.node
        if write.kind == "given":
            if called(node) in DROPPED | NOT_GIVEN:
                return False
            node = bare(arguments(node)[write.index])
        return (
            isinstance(node, c_ast.UnaryOp)
            and node.op == "&"
            and (self.symbol_of.get(id(node.expr)) is symbol)
        )

    def choose_plan(self, symbol, node, heap, targets, moves, null):
        """The plan for what the writes of a pointer are."""
        inner = [it for it in targets if self.base_of(it, node) is symbol]
        if symbol.kind == "parameter":
            if heap or null or len(inner) < len(targets):
                self.report.refuse(
                    node, f"{symbol.name} is set to another array", ADVICE
                )
            plan = Plan("index" if moves or inner else "parameter")
            plan.base = symbol
            return plan
        targets = [it for it in targets if it not in inner]
        moves = moves or bool(inner)
        if heap and targets:
            self.report.refuse(
                node,
                f"{symbol.name} is set to memory of its own and not",
                ADVICE,
            )
        if heap:
            return self.plan_heap(symbol, heap, moves, null)
        if not targets:
            if moves:
                self.report.refuse(
                    node, f"{symbol.name} moves, but points nowhere", ADVICE
                )
            return Plan("null")
        return self.plan_target(symbol, node, targets, moves, null)

    def plan_heap(self, symbol, heap, moves, null):
        """A pointer to memory of its own."""
        plan = Plan("index" if moves else "array")
        plan.length = max(self.heap_length(symbol, call) for call in heap)
        plan.base = symbol
        plan.tested = self.is_tested(symbol) and (
            null or symbol.kind == "global"
        )
        again = [self.enclosing_loop(call) for call in heap]
        if len(heap) > 1 or any(again):
            if self.is_copied(symbol):
                self.report.refuse(
                    symbol.node,
                    f"{symbol.name} is copied, and gets memory again",
                    "use an array for each",
                )
            self.report.note(
                symbol.node,
                f"{symbol.name} is one array for all memory that it gets",
            )
        return plan

    def heap_length(self, symbol, call):
        """How many ints an array needs for what a call of malloc gives."""
        given = arguments(call)
        size = self.size_of_type(element(symbol.type)) or 1
        name = called(call)
        if name == "calloc" and len(given) == 2:
            lengths = [self.length(item) for item in given]
            bytes = None if None in lengths else lengths[0] * lengths[1]
        else:
            bytes = self.length(given[-1]) if given else None
        if bytes is None or bytes < 0:
            self.report.note(
                call,
                f"{symbol.name} has room for {self.options.room} elements "
                "(--room), as its length is not known",
            )
            return self.options.room
        return max(1, -(-bytes // size))

    def plan_target(self, symbol, node, targets, moves, null):
        """A pointer into other variables."""
        bases = {self.base_of(target, node) for target in targets}
        if len(bases) != 1 or None in bases:
            self.report.refuse(
                node, f"{symbol.name} points to several things", ADVICE
            )
        base = bases.pop()
        self.check_same_element(symbol, base, node)
        plan = Plan("index")
        plan.base = base
        if not moves and len(targets) == 1 and self.is_fixed(targets[0]):
            plan.kind, plan.target = "place", targets[0]
        elif not is_pointer(base.type):
            if moves or any(not self.is_fixed(it) for it in targets):
                self.report.refuse(node, f"{symbol.name} moves", ADVICE)
            plan.kind, plan.target = "place", targets[0]
        plan.tested = self.is_tested(symbol) and (
            null or symbol.kind == "global"
        )
        if plan.kind == "index" and symbol.kind == "global":
            if symbol.functions - {"main", None}:
                self.report.refuse(
                    node, f"{symbol.name} moves in several functions", ADVICE
                )
        return plan

    def check_same_element(self, symbol, base, node):
        """Refuses a pointer of one type to things of another."""
        mine, theirs = element(symbol.type), element(base.type)
        if mine != theirs and "void" not in (mine, theirs):
            if self.size_of_type(mine) != self.size_of_type(theirs):
                self.report.refuse(
                    node,
                    f"{symbol.name} points to things of another type",
                    "use one type",
                )

    def base_of(self, node, where):
        """The variable that a pointer expression points into."""
        node = self.pointed(node)
        if isinstance(node, c_ast.ID):
            symbol = self.symbol_of.get(id(node))
            if symbol is not None and is_pointer(symbol.type):
                return self.base_of_symbol(symbol, where)
        elif isinstance(node, c_ast.UnaryOp) and node.op == "&":
            return self.base_of_place(node.expr, where)
        elif isinstance(node, c_ast.UnaryOp) and node.op in (
            "++",
            "--",
            "p++",
            "p--",
        ):
            return self.base_of(node.expr, where)
        elif isinstance(node, c_ast.BinaryOp) and node.op in "+-":
            if is_pointer(self.type_of(node.left)):
                return self.base_of(node.left, where)
            return self.base_of(node.right, where)
        elif isinstance(node, c_ast.ArrayRef):
            return self.base_of_place(node, where)
        self.report.refuse(
            node,
            "a pointer that is not known to point into one array",
            ADVICE,
        )

    def base_of_symbol(self, symbol, where):
        """What a variable that is used as a pointer points into."""
        if symbol.type[0] == "arr" or symbol.kind == "parameter":
            return symbol
        if symbol in self.planning:
            return symbol
        plan = self.plan_of(symbol, where)
        if plan.kind == "null":
            self.report.refuse(where, f"{symbol.name} is NULL", ADVICE)
        return plan.base

    def base_of_place(self, node, where):
        """The variable that a place is in."""
        if isinstance(node, c_ast.ID):
            symbol = self.symbol_of.get(id(node))
            if symbol is not None:
                return symbol
        if isinstance(node, c_ast.ArrayRef):
            return self.base_of(node.name, where)
        if isinstance(node, c_ast.UnaryOp) and node.op == "*":
            return self.base_of(node.expr, where)
        self.report.refuse(node, "the address of what is no variable", ADVICE)

    def is_fixed(self, target):
        """Whether a pointer expression is the same whenever it is used."""
        for node in nodes(target):
            if isinstance(node, c_ast.ID):
                symbol = self.symbol_of.get(id(node))
                if symbol is None:
                    continue
                if not is_pointer(symbol.type):
                    if self.constant(node) is None and not (
                        self.is_operand_of_address(node)
                    ):
                        return False
                elif symbol.type[0] == "ptr":
                    plan = self.plan_of(symbol, node)
                    if plan.kind == "index":
                        return False
            elif isinstance(node, (c_ast.FuncCall, c_ast.Assignment)):
                return False
            elif isinstance(node, c_ast.UnaryOp) and node.op in (
                "++",
                "--",
                "p++",
                "p--",
            ):
                return False
        return True

    def is_operand_of_address(self, node):
        """Whether a name is the variable whose address is taken."""
        parent = self.parent.get(id(node))
        return isinstance(parent, c_ast.UnaryOp) and parent.op == "&"

    def is_tested(self, symbol):
        """Whether a pointer is compared with NULL or asked if it is set."""
        for use in symbol.uses:
            node, parent = use, self.parent[id(use)]
            while isinstance(parent, c_ast.Cast):
                node, parent = parent, self.parent[id(parent)]
            if isinstance(parent, c_ast.BinaryOp):
                if parent.op in ("==", "!=", "&&", "||"):
                    return True
            elif isinstance(parent, c_ast.UnaryOp) and parent.op == "!":
                return True
            elif getattr(parent, "cond", None) is node:
                return True
            elif called(self.parent.get(id(parent))) in (
                "assert",
                "adapt_assert",
            ):
                return True
        return False

    def is_copied(self, symbol):
        """Whether another pointer is set to this one."""
        for use in symbol.uses:
            node, parent = use, self.parent[id(use)]
            while isinstance(
                parent,
                (c_ast.Cast, c_ast.BinaryOp, c_ast.UnaryOp, c_ast.TernaryOp),
            ):
                if isinstance(parent, c_ast.UnaryOp) and parent.op == "*":
                    break
                node, parent = parent, self.parent[id(parent)]
            if isinstance(parent, c_ast.Assignment):
                if parent.rvalue is node and is_pointer(
                    self.type_of(parent.lvalue)
                ):
                    return True
            if isinstance(parent, c_ast.Decl):
                return True
        return False

    def is_null(self, node):
        """Whether an expression is written as the null pointer."""
        node = bare(node)
        if isinstance(node, c_ast.ID):
            symbol = self.symbol_of.get(id(node))
            if symbol is None:
                return node.name in ("NULL", "MPI_BOTTOM")
            return symbol.plan is not None and symbol.plan.kind == "null"
        return (
            isinstance(node, c_ast.Constant)
            and node.type == "int"
            and self.constant(node) == 0
        )
