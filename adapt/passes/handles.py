"""Datatypes and operations, which the language has not.

A datatype is the type that it is made of and how many there are of it; an
operation is its name. A variable that is set to several of them becomes an
int: the number that multiplies a count (-1 for a null or freed datatype, so
that the call traps), or the number of an operation in a list.
"""
from pycparser import c_ast

from .parsing import arguments, bare, called

TYPES = {
    "MPI_INT": ("int", 4),
    "MPI_UNSIGNED": ("uint", 4),
    "MPI_INT32_T": ("int", 4),
    "MPI_UINT32_T": ("uint", 4),
    "MPI_INTEGER": ("int", 4),
    "MPI_LONG": ("long", 8),
    "MPI_UNSIGNED_LONG": ("ulong", 8),
    "MPI_LONG_LONG": ("long", 8),
    "MPI_LONG_LONG_INT": ("long", 8),
    "MPI_INT64_T": ("long", 8),
    "MPI_UNSIGNED_LONG_LONG": ("ulong", 8),
    "MPI_UINT64_T": ("ulong", 8),
    "MPI_AINT": ("long", 8),
    "MPI_COUNT": ("long", 8),
    "MPI_OFFSET": ("long", 8),
    "MPI_CHAR": ("char", 1),
    "MPI_SIGNED_CHAR": ("char", 1),
    "MPI_UNSIGNED_CHAR": ("uchar", 1),
    "MPI_BYTE": ("byte", 1),
    "MPI_PACKED": ("byte", 1),
    "MPI_INT8_T": ("char", 1),
    "MPI_UINT8_T": ("uchar", 1),
    "MPI_C_BOOL": ("bool", 1),
    "MPI_SHORT": ("short", 2),
    "MPI_UNSIGNED_SHORT": ("ushort", 2),
    "MPI_INT16_T": ("short", 2),
    "MPI_UINT16_T": ("ushort", 2),
    "MPI_FLOAT": ("float", 4),
    "MPI_DOUBLE": ("double", 8),
}
OPERATIONS = (
    "MPI_MAX MPI_MIN MPI_SUM MPI_PROD MPI_LAND MPI_BAND MPI_LOR MPI_BOR "
    "MPI_LXOR MPI_BXOR"
).split()
NO_TYPE = ("MPI_INT", -1)
KINDS = {"dtype": "datatype", "op": "operation"}


class Handles:
    """What datatype or operation an expression means."""

    def handle(self, node, kind):
        """The meaning of an expression of the kind `dtype` or `op`.

        A datatype is (name, number), or ("MPI_INT", symbol) if the number
        is an int variable; an operation is a name, or a symbol.
        """
        node = bare(node)
        if not isinstance(node, c_ast.ID):
            self.refuse_handle(node, kind, "is an expression")
        symbol = self.symbol_of.get(id(node))
        if symbol is None:
            return self.named_handle(node, kind)
        if symbol.bound is not None:
            return symbol.bound
        if symbol.type != kind:
            self.refuse_handle(node, kind, "is none")
        return self.handle_of_symbol(symbol, node, kind)

    def refuse_handle(self, node, kind, why):
        """Refuses a datatype or operation."""
        self.report.refuse(
            node, f"a {KINDS[kind]} that {why}", "use MPI's own by its name"
        )

    def named_handle(self, node, kind):
        """The meaning of one of MPI's names."""
        if kind == "dtype" and node.name in TYPES:
            return (node.name, 1)
        if kind == "op" and node.name in OPERATIONS:
            return node.name
        if node.name == "MPI_DATATYPE_NULL" and kind == "dtype":
            self.note_null(node)
            return NO_TYPE
        if node.name == "MPI_OP_NULL" and kind == "op":
            self.note_null(node)
            return node.name
        self.report.refuse(
            node,
            f"the {KINDS[kind]} {node.name}",
            "send ints, or use one of MAX MIN SUM PROD and the logical ones",
        )

    def note_null(self, node):
        """Says what a null handle becomes."""
        self.report.note(
            node,
            f"{node.name} as a count below 0: the call traps as bad count",
        )

    def handle_of_symbol(self, symbol, node, kind):
        """The meaning of a variable: all its values, joined."""
        if symbol in self.computing:
            self.refuse_handle(node, kind, "depends on itself")
        self.computing.add(symbol)
        try:
            found = self.handles_written(symbol, kind)
        finally:
            self.computing.discard(symbol)
        if len(found) == 1:
            return found[0]
        if not found:
            self.refuse_handle(node, kind, "is never set")
        return self.handle_of_many(symbol, node, kind, found)

    def handles_written(self, symbol, kind):
        """All meanings that the writes of a variable give it."""
        found = []
        for write in symbol.writes:
            meaning = None
            if write.kind in ("start", "=", "argument"):
                meaning = self.handle(write.node, kind)
            elif write.kind == "given":
                meaning = self.handle_made(symbol, write, kind)
            else:
                self.refuse_handle(write.node, kind, "is set here")
            if meaning is not None and meaning not in found:
                found.append(meaning)
        return found

    def handle_made(self, symbol, write, kind):
        """The meaning that a call gives a variable; None if it gives none."""
        name, given = called(write.node), arguments(write.node)
        if name in ("MPI_Type_commit", "MPI_Type_size", "MPI_Op_free"):
            return None
        if name == "MPI_Type_free":
            return NO_TYPE if self.used_after(symbol, write.node) else None
        if name == "MPI_Type_dup":
            return self.handle(given[0], kind)
        if name == "MPI_Type_contiguous" and len(given) == 3:
            count = self.constant(given[0])
            base, number = self.handle(given[1], kind)
            if count is not None and isinstance(number, int):
                return (base, number * count if number > 0 else -1)
        self.report.refuse(
            write.node,
            f"a {KINDS[kind]} made by {name}",
            "send ints, each as one MPI_INT",
        )

    def used_after(self, symbol, call):
        """Whether a variable may be used after a call that frees it."""
        if self.enclosing_loop(call) or symbol.kind == "global":
            return True
        seen = False
        for use in symbol.uses:
            if seen:
                return True
            inner = [bare(item) for item in arguments(call)]
            seen = any(getattr(item, "expr", None) is use for item in inner)
        return False

    def handle_of_many(self, symbol, node, kind, found):
        """The meaning of a variable with several values."""
        if symbol.kind != "local" or symbol.function != "main":
            self.report.refuse(
                node,
                f"{symbol.name} is set to several {KINDS[kind]}s",
                "use a variable for each",
            )
        if kind == "dtype":
            if any(not isinstance(number, int) for _, number in found):
                self.refuse_handle(node, kind, "is a copy of such a one")
            widths = {(TYPES[name][1], number) for name, number in found}
            if len(widths) == 1:
                self.report.note(
                    symbol.node,
                    f"{symbol.name} is set to several datatypes: as MPI_INT",
                )
                return found[0]
            symbol.many = True
            return ("MPI_INT", symbol)
        symbol.many = sorted(found)
        return symbol
