"""Values and places in the making, as texts of the target."""

# How tightly C's operators bind, from the loosest.
BINDS = {
    "||": 1,
    "&&": 2,
    "|": 3,
    "^": 4,
    "&": 5,
    "==": 6,
    "!=": 6,
    "<": 7,
    "<=": 7,
    ">": 7,
    ">=": 7,
    "<<": 8,
    ">>": 8,
    "+": 9,
    "-": 9,
    "*": 10,
    "/": 10,
    "%": 10,
}
CHOICE, SIGN, ATOM = 0, 15, 20
LEAST, MOST = -(2**31), 2**31 - 1


class Value:
    """A text, how tightly it binds, its C type, its number if known.

    A `wide` value was computed as a long: only its 32 lowest bits are sure
    to be C's.
    """

    def __init__(self, text, binds=ATOM, type="int", number=None):
        self.text, self.binds = text, binds
        self.type, self.number = type, number
        self.wide = False

    def at(self, binds):
        """The text, in parentheses where it binds less than asked."""
        return self.text if self.binds >= binds else f"({self.text})"

    def typed(self, type):
        """The same value as one of another type."""
        same = Value(self.text, self.binds, type, self.number)
        same.wide = self.wide
        return same


class Place:
    """A variable of the target, or a cell of an array of it.

    `offset` is a Value, or None for a variable that is no array. `type` is
    the C type of what is there.
    """

    def __init__(self, base, offset, type):
        self.base, self.offset, self.type = base, offset, type

    def text(self):
        """As the left side of an assignment."""
        if self.offset is None:
            return self.base
        return f"{self.base}[{self.offset.text}]"

    def reference(self):
        """As an argument that is a reference."""
        if self.offset is None:
            return "&" + self.base
        if self.offset.number == 0:
            return self.base
        return f"{self.base} + {self.offset.at(BINDS['*'])}"


def wrapped(number):
    """A number as the int of its 32 lowest bits."""
    return (number + 2**31) % 2**32 - 2**31


def literal(number, type="int"):
    """The value of a number, which is cut to 32 bits."""
    number = wrapped(number)
    text = "INT_MIN" if number == LEAST else str(number)
    return Value(text, ATOM if number >= 0 else SIGN, type, number)


def operation(sign, left, right, type="int"):
    """left SIGN right; sums and products of numbers are computed."""
    if left.number is not None and right.number is not None:
        known = {
            "+": left.number + right.number,
            "-": left.number - right.number,
            "*": left.number * right.number,
        }
        if sign in known:
            return literal(known[sign], type)
    if sign == "+" and left.number == 0:
        return right.typed(type)
    if sign in "+-" and right.number == 0:
        return left.typed(type)
    if sign == "*" and right.number == 1:
        return left.typed(type)
    if sign == "*" and left.number == 1:
        return right.typed(type)
    binds = BINDS[sign]
    text = f"{left.at(binds)} {sign} {right.at(binds + 1)}"
    return Value(text, binds, type)


def negated(value):
    """-value"""
    if value.number is not None:
        return literal(-value.number, value.type)
    return Value("-" + value.at(SIGN), SIGN, value.type)
