"""What is told to the user: changes, notes and refusals."""
import os

STUBS = os.path.join(
    os.path.dirname(os.path.dirname(os.path.abspath(__file__))), "stubs"
)


class Refused(Exception):
    """Something that cannot be had: where, what, and how to go on."""

    def __init__(self, place, what, how):
        super().__init__(what)
        self.place, self.what, self.how = place, what, how


class Report:
    """Collects messages. A place is a pair of a file and a line.

    `path` is the program's path as the user wrote it. With `strict` a
    change that may alter the meaning is refused.
    """

    def __init__(self, path, strict=False):
        self.path, self.strict = path, strict
        self.changes, self.refusals = {}, {}
        self.here = (path, 1)

    def place_of(self, node):
        """The place of a node of the syntax tree, or the last one known."""
        where = getattr(node, "coord", None)
        if where is None or not where.line:
            return self.here
        return (where.file or self.path, where.line)

    def say(self, node, text):
        """A change that keeps the meaning."""
        self.changes[(self.place_of(node), text)] = False

    def note(self, node, text):
        """A change that may alter the meaning for some input."""
        self.note_at(self.place_of(node), text)

    def note_at(self, place, text):
        """The same, where the place is known."""
        if self.strict:
            raise Refused(place, text, "leave out --strict to accept it")
        self.changes[(place, text)] = True

    def refuse(self, node, what, how):
        """Gives up on what is being translated."""
        raise Refused(self.place_of(node), what, how)

    def follow(self, node):
        """Gives up on what follows from something that was refused."""
        raise Refused(self.place_of(node), None, None)

    def keep(self, refused):
        """Keeps a refusal, so that all can be told at once."""
        if refused.what is None:
            return
        place, what, how = refused.place, refused.what, refused.how
        self.refusals[(place, what, how)] = True

    def change_lines(self):
        """The messages of changes, in the order of their lines."""
        lines = []
        for (place, text), altering in sorted(self.changes.items()):
            mark = "note: " if altering else ""
            lines.append(f"{self.line_name(place)}: {mark}{text}")
        return lines

    def refusal_lines(self):
        """The messages of refusals, in the order of their lines."""
        lines = []
        for place, what, how in sorted(self.refusals):
            lines.append(f"{self.file_name(place)}:{place[1]}: {what}: {how}")
        return lines

    def line_name(self, place):
        """`line 12`, with the file where it is not the program's."""
        if place[0] == self.path:
            return f"line {place[1]}"
        return f"{self.file_name(place)} line {place[1]}"

    def file_name(self, place):
        """The file of a place, a header of ours by its short name."""
        if place[0].startswith(STUBS):
            return "adapt's " + os.path.relpath(place[0], STUBS)
        return place[0]
