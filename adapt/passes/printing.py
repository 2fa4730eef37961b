"""printf and its kin, and texts that are known."""
import re

from pycparser import c_ast

from .constants import text_bytes
from .parsing import bare, called, names_in
from .types import INTS, REALS, UNSIGNED, is_pointer
from .values import literal

PIECES = re.compile(
    r"%(?P<flags>[-+ #0]*)(?P<width>\d+|\*)?(?:\.(?P<digits>\d*|\*))?"
    r"(?P<size>hh|h|ll|l|z|t|j|L)?(?P<kind>[a-zA-Z%])"
    r"|\\x[0-9a-fA-F]+|\\[0-7]{1,3}|\\.|[^\\%]|%",
    re.S,
)
PRINTERS = {
    "printf",
    "fprintf",
    "puts",
    "fputs",
    "putchar",
    "fputc",
    "strlen",
    "strcmp",
    "putc",
}
MOST_WIDTH = 99
PROGRAM_NAME = "a.out"
DOUBLE_DIGITS = 6
ONE_OF_MANY = "?"


class Printing:
    """Prints by the language's printf."""

    def text_of(self, node, seen=()):
        """A text that is known, as it stands between C's quotes, or None."""
        node = bare(node)
        if isinstance(node, c_ast.Constant) and node.type == "string":
            return self.inside_of_text(node)
        if isinstance(node, c_ast.ID):
            if node.name in ("__func__", "__FUNCTION__"):
                names = self.written_out or [self.current]
                return names[-1]
            symbol = self.symbol_of.get(id(node))
            return None if symbol is None else self.text_of_symbol(symbol)
        if isinstance(node, c_ast.TernaryOp):
            known = self.constant(node.cond)
            if known is not None:
                return self.text_of(node.iftrue if known else node.iffalse)
        if isinstance(node, c_ast.ArrayRef):
            if names_in(node.name) == "argv":
                if self.constant(node.subscript) == 0:
                    return PROGRAM_NAME
        return None

    def text_of_symbol(self, symbol):
        """The text that a variable always is, or None."""
        if isinstance(symbol.bound, str):
            return symbol.bound
        if not is_pointer(symbol.type) or symbol.type[1] != "char":
            return None
        if symbol in self.computing or symbol.bound is not None:
            return None
        values = []
        for write in symbol.writes:
            if write.kind in ("start", "=", "argument"):
                values.append(write.node)
            elif write.kind == "given":
                if called(write.node) not in PRINTERS:
                    if not self.keeps_text(write):
                        return None
            else:
                return None
        if len(values) != 1 or isinstance(values[0], c_ast.InitList):
            return None
        if symbol.kind == "global" and symbol.writes[0].kind != "start":
            return None
        self.computing.add(symbol)
        try:
            return self.text_of(values[0])
        finally:
            self.computing.discard(symbol)

    def keeps_text(self, write):
        """Whether a function that gets a text leaves it as it is."""
        name = called(write.node)
        parameters = self.parameters.get(name)
        if not parameters or write.index >= len(parameters):
            return False
        symbol = parameters[write.index]
        if symbol in self.computing:
            return True
        self.computing.add(symbol)
        try:
            return all(
                it.kind == "argument"
                or (
                    it.kind == "given"
                    and (called(it.node) in PRINTERS or self.keeps_text(it))
                )
                for it in symbol.writes
            )
        finally:
            self.computing.discard(symbol)

    def codes_of(self, text):
        """The bytes of a text, or None."""
        return text_bytes(text)

    def call_of_printf(self, node, given):
        self.print_format(node, given)

    def call_of_fprintf(self, node, given):
        if self.goes_out(node, given[0], given[1:]):
            self.print_format(node, given[1:])

    def call_of_fputs(self, node, given):
        if self.goes_out(node, given[1], given[:1]):
            self.print_text(node, given[0], "")

    def call_of_puts(self, node, given):
        self.print_text(node, given[0], "\\n")

    def call_of_putchar(self, node, given):
        number = self.constant(given[0])
        if number is None:
            self.report.refuse(
                node, "a character that is not known", "print its number"
            )
        self.emit(f'printf("{printed(number & 255)}");')

    def call_of_putc(self, node, given):
        if self.goes_out(node, given[1], given[:1]):
            self.call_of_putchar(node, given)

    def call_of_fputc(self, node, given):
        self.call_of_putc(node, given)

    def goes_out(self, node, stream, rest):
        """Whether a stream is the output; nothing else is printed."""
        name = names_in(stream)
        if name == "stdout":
            return True
        if name != "stderr":
            self.report.refuse(
                node, "printing to a file", "print to the output"
            )
        self.report.note(node, "what goes to the error output is not printed")
        for item in rest:
            if self.has_effects(item):
                self.effect(item)
        return False

    def print_text(self, node, item, end):
        """Prints a text as it is."""
        text = self.text_of(item)
        if text is None:
            self.report.refuse(
                node, "a text that is not known", "print it by printf"
            )
        text = "".join(printed(code) for code in self.codes_of(text) or [])
        self.emit(f'printf("{text}{end}");')

    def print_format(self, node, given):
        """printf, with the directives that the language has."""
        text = self.text_of(given[0]) if given else None
        if text is None:
            self.report.refuse(
                node, "a format that is not known", "write it in the call"
            )
        pieces, works, left = [], [], list(given[1:])
        for found in PIECES.finditer(text):
            kind = found["kind"]
            if found[0] == "%":
                self.report.refuse(node, "a lone % in a format", "mend it")
            if kind is None or kind == "%":
                pieces.append(self.plain_piece(node, found[0]))
                continue
            if not left:
                self.report.refuse(
                    node, "more directives than values", "mend the format"
                )
            self.directive(node, found, left.pop(0), pieces, works)
        for item in left:
            if self.has_effects(item):
                self.effect(item)
        values = self.in_order(node, works)
        text = "".join(pieces)
        more = "".join(", " + value.text for value in values)
        if text:
            self.emit(f'printf("{text}"{more});')

    def plain_piece(self, node, piece):
        """A piece of a format that is no directive."""
        if piece == "%%":
            return piece
        text = "".join(printed(code) for code in text_bytes(piece) or [])
        if ONE_OF_MANY in text and "?" not in piece:
            self.report.note(
                node, "a character that the language has not is printed as ?"
            )
        return text

    def directive(self, node, found, item, pieces, works):
        """One directive and its value."""
        kind, flags = found["kind"], found["flags"]
        width, digits = found["width"], found["digits"]
        if kind in "sc" and self.print_known(node, found, item, pieces):
            return
        if kind == "p":
            self.report.note(node, "an address is printed as ?")
            pieces.append(ONE_OF_MANY)
            return
        reals = kind in "fFgGeE"
        bad = (
            kind not in "diuxXfFgGeE"
            or kind == "X"
            or set(flags) & {"+", " ", "#"}
        )
        bad = bad or width == "*" or (digits is not None and not reals)
        if bad or (width and int(width) > MOST_WIDTH):
            self.report.refuse(
                node, f"the directive {found[0]}", "print it by %d or %x"
            )
        if reals:
            pieces.append(self.real_directive(node, found))
            works.append(lambda: self.real_value(node, item, found[0]))
            return
        works.append(lambda: self.int_value(node, item, found))
        flag = "-" if "-" in flags else ""
        if "0" in flags and width and not flag:
            flag = "0"
        letter = "d" if kind == "u" else kind
        pieces.append(f"%{flag}{width or ''}{letter}")

    def print_known(self, node, found, item, pieces):
        """%s and %c; a text that is not known is printed as `?`."""
        text = None
        if found["kind"] == "s":
            known = self.text_of(item)
            codes = None if known is None else self.codes_of(known)
        else:
            number = self.constant(item)
            codes = None if number is None else [number & 255]
        if codes is None:
            self.report.note(node, "a text that is not known is printed as ?")
            if self.has_effects(item):
                self.effect(item)
            codes = [ord(ONE_OF_MANY)]
        width, digits = found["width"], found["digits"]
        if width == "*" or digits is not None:
            self.report.refuse(
                node, f"the directive {found[0]}", "print it by %s"
            )
        if width:
            blanks = [32] * (int(width) - len(codes))
            codes = (
                codes + blanks if "-" in found["flags"] else (blanks + codes)
            )
        text = "".join(printed(code) for code in codes)
        pieces.append(text)
        return True

    def int_value(self, node, item, found):
        """The value of an int directive."""
        value = self.value(item)
        if value.type not in INTS:
            self.report.refuse(node, f"no int for {found[0]}", "print an int")
        size, kind = found["size"], found["kind"]
        if size not in (None, "h", "hh"):
            self.check_wide(value, node)
        unknown = value.number is None or value.number < 0
        if size in ("hh", "h"):
            letter = "u" if kind in "ux" else ""
            word = "char" if size == "hh" else "short"
            return self.fitted(value, letter + word, node)
        if kind == "u" and unknown:
            self.report.note(node, f"{found[0]} as %d: other above 2147483647")
        if kind == "x" and unknown and size in ("l", "ll", "z", "j", "t"):
            self.report.note(
                node, f"{found[0]} as %x: other below 0 and above 32 bits"
            )
        if kind in "di" and value.type in UNSIGNED and unknown and size:
            self.report.note(node, f"{found[0]} as %d: other above 2147483647")
        return value

    def real_directive(self, node, found):
        """A directive for doubles, which have whole values."""
        kind, width = found["kind"], found["width"]
        if kind in "eEG" or (width and kind != "g") or found["flags"]:
            self.report.refuse(
                node, f"the directive {found[0]}", "print an int by %d"
            )
        if width and kind == "g":
            return f"%{width}d"
        digits = found["digits"]
        places = DOUBLE_DIGITS if digits is None else int(digits or "0")
        if kind in "fF" and 0 < places <= MOST_WIDTH:
            return "%d." + "0" * places
        return "%d"

    def real_value(self, node, item, directive):
        """The value of a double's directive."""
        value = self.value(item)
        if value.type not in REALS:
            self.report.refuse(
                node, f"an int for {directive}", "print it by %d"
            )
        self.report.note(node, "a double is printed as a whole number")
        return value

    def call_of_vprintf(self, node, given):
        self.report.refuse(node, "vprintf", "print by printf")

    def call_of_vfprintf(self, node, given):
        if self.goes_out(node, given[0], ()):
            self.report.refuse(node, "vfprintf", "print by printf")

    def call_of_va_start(self, node, given):
        return literal(0)

    def call_of_va_end(self, node, given):
        return literal(0)


def printed(code):
    """A byte as it stands in a text of the language."""
    known = {10: "\\n", 9: "\\t", 13: "\\r", 34: '\\"', 92: "\\\\", 37: "%%"}
    if code in known:
        return known[code]
    return chr(code) if 32 <= code < 127 else ONE_OF_MANY
