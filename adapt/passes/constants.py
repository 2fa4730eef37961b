"""What is known before the run.

`constant` is exact: the value that an expression has whenever the run comes
to it. `length` may also use the number of ranks: it is what an expression
has once its variables are set, which is enough for the length of an array,
as C gives no meaning to an array whose length was not set yet.
"""
import re

from pycparser import c_ast

from .parsing import arguments, bare, called
from .types import (
    INTS,
    NUMBERS,
    RELATIONS,
    UNSIGNED,
    as_type,
    common,
    holds,
    promoted,
)

ESCAPES = {
    "n": 10,
    "t": 9,
    "r": 13,
    "a": 7,
    "b": 8,
    "f": 12,
    "v": 11,
    "0": 0,
}
# The arguments of MPI calls that are buffers that the call only reads.
READ_ONLY = {
    name: (0,)
    for name in """MPI_Send MPI_Ssend MPI_Bsend MPI_Rsend MPI_Isend
    MPI_Issend MPI_Ibsend MPI_Irsend MPI_Reduce MPI_Allreduce MPI_Scan
    MPI_Exscan MPI_Gather MPI_Allgather MPI_Scatter MPI_Alltoall MPI_Init
    MPI_Sendrecv MPI_Init_thread""".split()
}
MOST_DIGITS = 400


class Constants:
    """Constant expressions, by C's types."""

    def length(self, node):
        """Like `constant`, where the number of ranks may be used."""
        old, self.with_ranks = self.with_ranks, True
        try:
            return self.constant(node)
        finally:
            self.with_ranks = old

    def constant(self, node):
        """The number that an expression always has, or None."""
        if node is None or id(node) in self.computing:
            return None
        self.computing.add(id(node))
        try:
            rule = getattr(self, "constant_" + type(node).__name__, None)
            return rule(node) if rule else None
        finally:
            self.computing.discard(id(node))

    def constant_Constant(self, node):
        if node.type == "string":
            return None
        if node.type == "char":
            return self.number_of_character(node)
        if len(node.value) > MOST_DIGITS:
            return None
        if "float" in node.type or "double" in node.type:
            return whole(node.value)
        return number_of_digits(node.value)

    def type_of_number(self, node):
        """The type of an integer constant (C11, 6.4.4.1)."""
        if len(node.value) > MOST_DIGITS:
            return "ulong"
        number, suffix = number_of_digits(node.value), node.value.lower()
        suffix = suffix.lstrip("0123456789abcdefx")
        decimal = node.value[0] != "0"
        for type in ("int", "uint", "long", "ulong"):
            if "l" in suffix and type in ("int", "uint"):
                continue
            if "u" in suffix and type not in UNSIGNED:
                continue
            if type in UNSIGNED and decimal and "u" not in suffix:
                continue
            if holds(type, number):
                return type
        return "ulong"

    def number_of_character(self, node):
        """The value of a character constant; a char has a sign here."""
        start = node.value.index("'") + 1
        codes = text_bytes(node.value[start:-1])
        if codes is None or len(codes) != 1:
            return None
        return as_type(codes[0], "char")

    def bytes_of_text(self, node):
        """The bytes of a text without its end, or None."""
        return text_bytes(self.inside_of_text(node))

    def inside_of_text(self, node):
        """What stands between a text's quotes."""
        start = node.value.index('"') + 1
        return node.value[start:-1]

    def constant_Cast(self, node):
        type, number = self.type_of(node), self.constant(node.expr)
        if number is None or type not in NUMBERS:
            return None
        return as_type(number, type)

    def constant_ID(self, node):
        if node.name in self.enums and id(node) not in self.symbol_of:
            return self.enums[node.name]
        symbol = self.symbol_of.get(id(node))
        return None if symbol is None else self.constant_symbol(symbol)

    def constant_symbol(self, symbol):
        """The only number that a variable ever has, or None."""
        if symbol.function == "main" and symbol.kind == "parameter":
            main_parameters = self.parameters["main"]
            if main_parameters and symbol is main_parameters[0]:
                return 1 if not self.set_again(symbol) else None
        if symbol.type not in INTS or symbol in self.computing:
            return None
        self.computing.add(symbol)
        try:
            return self.constant_writes(symbol)
        finally:
            self.computing.discard(symbol)

    def set_again(self, symbol):
        """Whether main's argc may be changed by the program."""
        return any(
            not (write.kind == "given" and called(write.node) in READ_ONLY)
            for write in symbol.writes
        )

    def constant_writes(self, symbol):
        """The only number that the writes of a variable give it."""
        found, sizes = set(), 0
        for write in symbol.writes:
            if write.kind in ("start", "=", "argument"):
                value = write.node
                if isinstance(value, c_ast.InitList):
                    return None
                number = self.constant(value)
                if number is None:
                    return None
                found.add(as_type(number, symbol.type))
            elif write.kind == "given" and self.reads_only(write):
                continue
            elif self.with_ranks and self.asks_for_ranks(write):
                sizes += 1
            else:
                return None
        kinds = {write.kind for write in symbol.writes}
        if sizes:
            return self.options.ranks if kinds <= {"start", "given"} else None
        if symbol.kind == "global" and "start" not in kinds:
            if not self.with_ranks:
                found.add(0)
        return found.pop() if len(found) == 1 else None

    def reads_only(self, write):
        """Whether an address is given to a call that only reads there."""
        return write.index in READ_ONLY.get(called(write.node), ())

    def asks_for_ranks(self, write):
        """Whether a write is MPI_Comm_size of all ranks."""
        if write.kind != "given" or called(write.node) != "MPI_Comm_size":
            return False
        return self.is_world(arguments(write.node)[0])

    def is_world(self, node):
        """Whether a communicator is always MPI_COMM_WORLD."""
        node = bare(node)
        if not isinstance(node, c_ast.ID):
            return False
        symbol = self.symbol_of.get(id(node))
        if symbol is None:
            return node.name == "MPI_COMM_WORLD"
        if symbol.kind == "global" or symbol in self.computing:
            return False
        self.computing.add(symbol)
        try:
            return bool(symbol.writes) and all(
                write.kind in ("start", "=", "argument")
                and self.is_world(write.node)
                for write in symbol.writes
            )
        finally:
            self.computing.discard(symbol)

    def constant_UnaryOp(self, node):
        if node.op == "sizeof":
            return self.size_of(node.expr)
        number = self.constant(node.expr)
        if number is None or node.op not in "-+!~":
            return None
        if node.op == "!":
            return int(not number)
        value = {"-": -number, "+": number, "~": ~number}[node.op]
        return self.fitting(value, promoted(self.type_of(node.expr)))

    def fitting(self, number, type):
        """A result as its type has it; None where C gives it no meaning."""
        if type in UNSIGNED:
            return as_type(number, type)
        return number if holds(type, number) else None

    def constant_BinaryOp(self, node):
        left = self.constant(node.left)
        if node.op == "&&" and left == 0:
            return 0
        if node.op == "||" and left:
            return 1
        right = self.constant(node.right)
        if left is None or right is None:
            return None
        if node.op in ("&&", "||"):
            return int(bool(right))
        types = [self.type_of(node.left), self.type_of(node.right)]
        if not set(types) <= NUMBERS:
            return None
        if node.op in ("<<", ">>"):
            return self.shifted(node.op, left, right, promoted(types[0]))
        type = common(*types)
        left, right = as_type(left, type), as_type(right, type)
        if node.op in RELATIONS:
            return int(compare(node.op, left, right))
        if node.op in "/%" and type not in INTS:
            return None
        number = compute(node.op, left, right)
        return None if number is None else self.fitting(number, type)

    def shifted(self, sign, left, right, type):
        """left << right or left >> right, where C gives it a meaning."""
        if not 0 <= right < (64 if type in ("long", "ulong") else 32):
            return None
        if sign == ">>":
            return left >> right
        return self.fitting(left << right, type)

    def constant_TernaryOp(self, node):
        condition = self.constant(node.cond)
        if condition is None:
            return None
        return self.constant(node.iftrue if condition else node.iffalse)


def whole(text):
    """The number of a floating constant, if it is whole."""
    try:
        number = float(text.rstrip("fFlL"))
    except ValueError:
        return None
    if number != number or abs(number) > 2**53 or number != int(number):
        return None
    return int(number)


def number_of_digits(text):
    """The number of an integer constant."""
    digits = text.rstrip("uUlL")
    if digits.lower().startswith("0x"):
        return int(digits, 16)
    if digits.lower().startswith("0b"):
        return int(digits, 2)
    if len(digits) > 1 and digits[0] == "0":
        return int(digits, 8)
    return int(digits)


def text_bytes(text):
    """The bytes that a text or character constant stands for, or None."""
    found, at = [], 0
    for part in re.finditer(
        r"\\x[0-9a-fA-F]+|\\[0-7]{1,3}|\\.|[^\\]", text, re.S
    ):
        if part.start() != at:
            return None
        at, piece = part.end(), part[0]
        if piece[0] != "\\":
            found.extend(piece.encode("utf-8", "replace"))
        elif piece[1] == "x":
            found.append(int(piece[2:], 16) & 255)
        elif piece[1] in "01234567":
            found.append(int(piece[1:], 8) & 255)
        else:
            found.append(ESCAPES.get(piece[1], ord(piece[1]) & 255))
    return found if at == len(text) else None


def compare(sign, left, right):
    """Whether left SIGN right holds."""
    return {
        "<": left < right,
        ">": left > right,
        "==": left == right,
        "<=": left <= right,
        ">=": left >= right,
        "!=": left != right,
    }[sign]


def compute(sign, left, right):
    """left SIGN right on numbers without a bound, or None."""
    if sign in "/%":
        if right == 0:
            return None
        quotient = abs(left) // abs(right)
        if (left < 0) != (right < 0):
            quotient = -quotient
        return quotient if sign == "/" else left - quotient * right
    return {
        "+": left + right,
        "-": left - right,
        "*": left * right,
        "&": left & right,
        "|": left | right,
        "^": left ^ right,
    }[sign]
