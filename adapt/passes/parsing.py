"""The syntax tree, by pycparser."""
import re

from pycparser import c_ast, c_parser
from pycparser.plyparser import ParseError

# Made once, before a translation begins: its tables take time to read.
PARSER = c_parser.CParser()
# More than any program has that the language could have.
MOST_DEPTHS = 500
TEXT = r'"(?:\\.|[^"\\\n])*"|\'(?:\\.|[^\'\\\n])*\''
MARK = re.compile(TEXT + r"|[(){}\[\]]")


def check_depths(text, report):
    """Refuses early what would take the parser long."""
    depth = 0
    for found in MARK.finditer(text):
        if found[0] in ("(", "{", "["):
            depth += 1
        elif found[0] in (")", "}", "]"):
            depth -= 1
        if depth > MOST_DEPTHS:
            report.refuse(
                None, "nested too deeply", "use variables for parts"
            )


def parse(text, report):
    """The tree of a preprocessed text."""
    check_depths(text, report)
    try:
        return PARSER.parse(text, report.path)
    except ParseError as error:
        found = re.match(r"(.*?):(\d+):(?:\d+:)? ?(.*)", str(error))
        if found:
            report.here = (found[1], int(found[2]))
        told = found[3] if found else str(error)
    except (AttributeError, AssertionError, TypeError, ValueError, KeyError):
        told = "what stands here"
    near = re.match(r"before: (.*)", told)
    what = f"not understood near {near[1]}" if near else "not understood"
    report.refuse(
        None, what, "write it in C99, and see that its types are declared"
    )


def nodes(tree):
    """All nodes of a tree, from the left, each before those in it."""
    todo = [tree]
    while todo:
        node = todo.pop()
        yield node
        todo.extend(child for _, child in reversed(node.children()))


def names_in(tree):
    """The names that occur in a tree, joined by blanks."""
    found = [n.name for n in nodes(tree) if isinstance(n, c_ast.ID)]
    return " ".join(found)


def bare(expression):
    """An expression without the casts around it."""
    while isinstance(expression, c_ast.Cast):
        expression = expression.expr
    return expression


def called(expression):
    """The name of the function that a call calls, or None."""
    if isinstance(expression, c_ast.FuncCall):
        if isinstance(expression.name, c_ast.ID):
            return expression.name.name
    return None


def arguments(call):
    """The arguments of a call."""
    return list(call.args.exprs) if call.args is not None else []
