"""C's types and their sizes, on a machine of 64 bits.

A type is a word for a scalar (`int`, `uchar`, `comm`, ..), `void`, or a
tuple: ("ptr", T), ("arr", T, length), ("func",), ("struct", name), and
("other", name) for what the language has no word for.
"""
from pycparser import c_ast

HANDLES = {
    "MPI_Comm": "comm",
    "MPI_Datatype": "dtype",
    "MPI_Op": "op",
    "MPI_Status": "status",
    "MPI_Request": "request",
}
SIZES = {
    "char": 1,
    "uchar": 1,
    "bool": 1,
    "short": 2,
    "ushort": 2,
    "int": 4,
    "uint": 4,
    "long": 8,
    "ulong": 8,
    "float": 4,
    "double": 8,
    "comm": 4,
    "request": 4,
    "dtype": 4,
    "op": 4,
    "status": 24,
    "void": 1,
}
POINTER_SIZE = 8
BITS = {
    "char": 8,
    "short": 16,
    "int": 32,
    "long": 64,
    "uchar": 8,
    "ushort": 16,
    "uint": 32,
    "ulong": 64,
}
INTS = set(BITS) | {"bool"}
REALS = {"float", "double"}
NUMBERS = INTS | REALS
NARROW = {"char", "uchar", "short", "ushort"}
LONGS = {"long", "ulong"}
UNSIGNED = {"uchar", "ushort", "uint", "ulong"}
RELATIONS = {"==", "!=", "<", ">", "<=", ">=", "&&", "||"}


def is_pointer(type):
    """Whether it is a pointer or an array."""
    return isinstance(type, tuple) and type[0] in ("ptr", "arr")


def element(type):
    """What an array or pointer is made of, through all its indices."""
    while is_pointer(type):
        type = type[1]
    return type


def promoted(type):
    """A type after C's integer promotions."""
    return "int" if type in NARROW or type == "bool" else type


def common(left, right):
    """The type of an operation on two numbers (C's usual conversions)."""
    left, right = promoted(left), promoted(right)
    for type in ("double", "float", "ulong", "long", "uint"):
        if type in (left, right):
            return type
    return "int"


def as_type(number, type):
    """A number as it is kept in an integer type."""
    if type == "bool":
        return int(number != 0)
    if type not in BITS:
        return number
    bits = BITS[type]
    number %= 2**bits
    if type not in UNSIGNED and number >= 2 ** (bits - 1):
        number -= 2**bits
    return number


def holds(type, number):
    """Whether an integer type has this number."""
    return type not in INTS or as_type(number, type) == number


class Types:
    """The types of declarations and expressions."""

    def type_of_declaration(self, node):
        """The type that a declarator gives."""
        if isinstance(node, (c_ast.TypeDecl, c_ast.Typename, c_ast.Decl)):
            return self.type_of_declaration(node.type)
        if isinstance(node, c_ast.PtrDecl):
            return ("ptr", self.type_of_declaration(node.type))
        if isinstance(node, c_ast.ArrayDecl):
            return ("arr", self.type_of_declaration(node.type), node.dim)
        if isinstance(node, c_ast.FuncDecl):
            return ("func",)
        if isinstance(node, c_ast.Enum):
            self.declare_enum(node)
            return "int"
        if isinstance(node, (c_ast.Struct, c_ast.Union)):
            return ("struct", node.name or "without a name")
        if isinstance(node, c_ast.IdentifierType):
            return self.type_of_words(list(node.names))
        return ("other", type(node).__name__)

    def type_of_words(self, words):
        """The type of the words of a declaration."""
        first = words[0]
        if first in HANDLES:
            return HANDLES[first]
        if first in self.typedefs:
            return self.typedefs[first]
        if "void" in words:
            return "void"
        if "_Bool" in words:
            return "bool"
        for real in ("double", "float"):
            if real in words:
                return real
        sign = "u" if "unsigned" in words else ""
        for size in ("char", "short", "long"):
            if size in words:
                return sign + size
        if set(words) <= {"int", "signed", "unsigned"}:
            return sign + "int"
        return ("other", first)

    def declare_enum(self, node):
        """Gives the names of an enum their numbers."""
        if node.values is None:
            return
        number = 0
        for item in node.values.enumerators:
            if item.value is not None:
                number = self.constant(item.value)
            if number is None:
                self.report.refuse(
                    item,
                    f"the value of {item.name} is not known",
                    "give it a number",
                )
            if self.enums.get(item.name, number) != number:
                self.report.refuse(
                    item, f"{item.name} has two values", "rename one of them"
                )
            self.enums[item.name] = number
            number += 1

    def size_of_type(self, type):
        """C's size of a type in bytes, or None."""
        if not isinstance(type, tuple):
            return SIZES.get(type)
        if type[0] == "ptr":
            return POINTER_SIZE
        if type[0] != "arr" or type[2] is None:
            return None
        length, size = self.constant(type[2]), self.size_of_type(type[1])
        if length is None or size is None or length < 0:
            return None
        return length * size

    def size_of(self, node):
        """The value of a sizeof, or None."""
        if isinstance(node, c_ast.Typename):
            return self.size_of_type(self.type_of_declaration(node))
        if isinstance(node, c_ast.Constant) and node.type == "string":
            text = self.bytes_of_text(node)
            return None if text is None else len(text) + 1
        type = self.type_of(node)
        return None if type is None else self.size_of_type(type)

    def type_of(self, node):
        """The type of an expression, or None."""
        rule = getattr(self, "type_of_" + type(node).__name__, None)
        return rule(node) if rule else None

    def type_of_ID(self, node):
        symbol = self.symbol_of.get(id(node))
        if symbol is not None:
            return symbol.type
        if node.name in ("MPI_COMM_WORLD", "MPI_COMM_NULL", "MPI_COMM_SELF"):
            return "comm"
        return "int"

    def type_of_Constant(self, node):
        if node.type == "string":
            return ("ptr", "char")
        if "float" in node.type or "double" in node.type:
            return "double"
        return "int" if node.type == "char" else self.type_of_number(node)

    def type_of_Cast(self, node):
        return self.type_of_declaration(node.to_type)

    def type_of_ArrayRef(self, node):
        type = self.type_of(node.name)
        return type[1] if is_pointer(type) else None

    def type_of_StructRef(self, node):
        return "int"

    def type_of_UnaryOp(self, node):
        if node.op == "sizeof":
            return "ulong"
        if node.op == "!":
            return "int"
        type = self.type_of(node.expr)
        if node.op == "*":
            return type[1] if is_pointer(type) else None
        if node.op == "&":
            return ("ptr", type)
        return promoted(type) if node.op in "-+~" else type

    def type_of_BinaryOp(self, node):
        if node.op in RELATIONS:
            return "int"
        left, right = self.type_of(node.left), self.type_of(node.right)
        if isinstance(left, tuple):
            return left
        if isinstance(right, tuple):
            return right
        if node.op in ("<<", ">>"):
            return promoted(left)
        return common(left, right)

    def type_of_TernaryOp(self, node):
        left, right = self.type_of(node.iftrue), self.type_of(node.iffalse)
        if left in NUMBERS and right in NUMBERS:
            return common(left, right)
        return right if self.is_null(node.iftrue) else left

    def type_of_Assignment(self, node):
        return self.type_of(node.lvalue)

    def type_of_ExprList(self, node):
        return self.type_of(node.exprs[-1])

    def type_of_FuncCall(self, node):
        name = getattr(node.name, "name", "")
        if name in self.functions:
            return self.result_type(name)
        return "double" if name in ("MPI_Wtime", "MPI_Wtick") else "int"
