"""Which variable each name means, and every place that sets it."""
from pycparser import c_ast

from .parsing import arguments, called, nodes
from .types import is_pointer

LOOPS = (c_ast.For, c_ast.While, c_ast.DoWhile)


class Write:
    """A place where a variable may be set.

    `kind` is one of: `start` (its declaration), `=`, `step` (`+=`, `++`),
    `part` (a cell of it), `given` (its address, or an array, is argument
    `index` of a call; `node` is the call), `address` (its address goes
    elsewhere) and `argument` (a parameter gets `node`). `function` is where.
    """

    def __init__(self, kind, node, function, index=None):
        self.kind, self.node = kind, node
        self.function, self.index = function, index


class Symbol:
    """A variable: what is declared, and all that is said of it.

    `kind` is `global` (also for a static in a function), `local` or
    `parameter`. `name_now` is its name in the text being written; `bound`
    is what a parameter of a function that is written out means. Of a
    `broken` one the declaration was refused: its uses are refused silently.
    """

    def __init__(self, name, type, node, function, kind):
        self.name, self.type, self.node = name, type, node
        self.function, self.kind = function, kind
        self.writes, self.functions, self.uses = [], set(), []
        self.name_now = self.bound = self.plan = self.index_name = None
        self.static = self.many = self.shared = self.broken = False


class Names:
    """Resolves the names of a tree."""

    def resolve(self, tree):
        """Finds functions and variables, and what `main` reaches."""
        self.scopes = [{}]
        for node in tree.ext:
            if isinstance(node, c_ast.FuncDef):
                self.resolve_function(node)
            else:
                self.resolve_node(node)
        for caller, name, call in self.calls:
            given = arguments(call)
            for symbol, value in zip(self.parameters.get(name, []), given):
                symbol.writes.append(Write("argument", value, caller))
        if "main" not in self.functions:
            self.report.refuse(
                None, "no main in this file", "give the file that has it"
            )
        self.find_live()

    def resolve_function(self, node):
        """Resolves a function's parameters and its body."""
        name = node.decl.name
        self.function = name
        self.functions[name] = node
        self.scopes.append({})
        head = node.decl.type
        self.parameters[name] = []
        self.variadic[name] = False
        for item in head.args.params if head.args else []:
            self.set_parent(item, node)
            if isinstance(item, c_ast.Decl) and item.name:
                symbol = self.declare(item, "parameter")
                self.parameters[name].append(symbol)
            elif isinstance(item, c_ast.EllipsisParam):
                self.variadic[name] = True
            elif self.type_of_declaration(item) != "void":
                self.parameters[name].append(
                    Symbol("", "int", item, name, "parameter")
                )
        self.scopes.append({})
        self.parent[id(node.body)] = node
        for item in node.body.block_items or []:
            self.parent[id(item)] = node.body
            self.resolve_node(item)
        self.scopes.pop()
        self.scopes.pop()
        self.function = None

    def set_parent(self, node, parent):
        """Notes whose child a node is."""
        self.parent[id(node)] = parent

    def declare(self, node, kind):
        """A new variable of the innermost scope."""
        type = self.type_of_declaration(node.type)
        if kind == "parameter" and is_pointer(type) and type[0] == "arr":
            type = ("ptr", type[1])
        symbol = Symbol(node.name, type, node, self.function, kind)
        self.scopes[-1][node.name] = symbol
        self.symbol_of[id(node)] = symbol
        return symbol

    def find(self, name):
        """The variable that a name means here, or None."""
        for scope in reversed(self.scopes):
            if name in scope:
                return scope[name]
        return None

    def resolve_node(self, node):
        """Resolves the names in a node and below it."""
        if isinstance(node, c_ast.Typedef):
            self.declare_type(node)
            return
        if isinstance(node, c_ast.Decl):
            self.resolve_declaration(node)
            return
        if isinstance(node, c_ast.ID):
            self.resolve_name(node)
            return
        scoped = isinstance(node, (c_ast.Compound, c_ast.For))
        if scoped:
            self.scopes.append({})
        if called(node):
            self.calls.append((self.function, called(node), node))
        for _, child in node.children():
            self.set_parent(child, node)
            if isinstance(node, c_ast.StructRef) and child is node.field:
                continue
            self.resolve_node(child)
        if scoped:
            self.scopes.pop()

    def declare_type(self, node):
        """Keeps what a typedef says; a name has one meaning in a text."""
        type = self.type_of_declaration(node.type)
        if repr(self.typedefs.get(node.name, type)) != repr(type):
            self.report.refuse(
                node, f"the type {node.name} has two meanings", "rename one"
            )
        self.typedefs[node.name] = type

    def resolve_name(self, node):
        """Gives an occurrence of a name its variable."""
        symbol = self.find(node.name)
        if symbol is None:
            self.unknown_in.setdefault(node.name, set()).add(self.function)
            return
        self.symbol_of[id(node)] = symbol
        symbol.functions.add(self.function)
        symbol.uses.append(node)
        write = self.write_at(node)
        if write:
            symbol.writes.append(write)

    def resolve_declaration(self, node):
        """Declares a variable, and resolves its lengths and its start."""
        inner = node.type
        while not isinstance(inner, (c_ast.TypeDecl, c_ast.FuncDecl)):
            if not hasattr(inner, "type"):
                break
            if isinstance(inner, c_ast.ArrayDecl) and inner.dim is not None:
                self.set_parent(inner.dim, inner)
                self.resolve_node(inner.dim)
            inner = inner.type
        for part in nodes(node.type):
            if isinstance(part, c_ast.Enum):
                self.declare_enum(part)
        if isinstance(node.type, c_ast.FuncDecl) or node.name is None:
            return
        if "extern" in node.storage and node.init is None:
            if self.find(node.name):
                return
            if self.function is not None:
                self.report.refuse(
                    node, f"{node.name} is not declared before", "move it"
                )
        symbol = self.new_variable(node)
        if node.init is not None:
            symbol.writes.append(Write("start", node.init, self.function))
            self.set_parent(node.init, node)
            self.resolve_node(node.init)

    def new_variable(self, node):
        """The variable of a declaration; a global may have several."""
        static = "static" in node.storage
        known = self.scopes[-1].get(node.name)
        if self.function is None and known is not None:
            if node.init is not None:
                known.node = node
                known.type = self.type_of_declaration(node.type)
            self.symbol_of[id(node)] = known
            return known
        outer = self.function is None or static
        symbol = self.declare(node, "global" if outer else "local")
        symbol.static = static
        if outer:
            self.globals.append(symbol)
        return symbol

    def write_at(self, name):
        """The write that an occurrence of a name is, or None."""
        node, parent, part = name, self.parent[id(name)], False
        while True:
            into = isinstance(parent, c_ast.ArrayRef) and parent.name is node
            field = isinstance(parent, c_ast.StructRef)
            if not into and not field:
                break
            node, parent, part = parent, self.parent[id(parent)], True
        if isinstance(parent, c_ast.UnaryOp) and parent.op == "*":
            node, parent, part = parent, self.parent[id(parent)], True
        if isinstance(parent, c_ast.Assignment) and parent.lvalue is node:
            kind = "=" if parent.op == "=" else "step"
            return Write(
                "part" if part else kind,
                parent.rvalue if kind == "=" else parent,
                self.function,
            )
        if isinstance(parent, c_ast.UnaryOp):
            if parent.op in ("++", "--", "p++", "p--"):
                return Write("part" if part else "step", parent, self.function)
            if parent.op == "&":
                return self.address_at(parent)
        symbol = self.symbol_of[id(name)]
        if not part and is_pointer(symbol.type):
            return self.address_at(name)
        return None

    def address_at(self, node):
        """An address, or an array as a whole: where it goes."""
        parent = self.parent[id(node)]
        while isinstance(parent, c_ast.Cast):
            node, parent = parent, self.parent[id(parent)]
        if isinstance(parent, c_ast.ExprList):
            call = self.parent[id(parent)]
            if called(call):
                index = [it is node for it in parent.exprs].index(True)
                return Write("given", call, self.function, index)
        return Write("address", node, self.function)

    def find_live(self):
        """The functions that main reaches, by calls or by their names."""
        below = {name: set() for name in self.functions}
        for caller, name, _ in self.calls:
            if caller in below and name in below:
                below[caller].add(name)
        for name in self.functions:
            for function in self.unknown_in.get(name, ()):
                if function in below:
                    below[function].add(name)
        todo = ["main"]
        while todo:
            name = todo.pop()
            if name not in self.live:
                self.live.add(name)
                todo.extend(below[name])
        self.calls_below = below

    def enclosing_loop(self, node):
        """Whether a node stands in a loop of its function."""
        while id(node) in self.parent:
            node = self.parent[id(node)]
            if isinstance(node, LOOPS):
                return True
        return False
