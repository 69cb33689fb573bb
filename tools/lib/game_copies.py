"""Copies the games of PGN texts to two files: the good ones, and those with a fault.

The file of the good games has all of a text but the spans of games with a fault, and the white space after each; what
else lies between games stays. The other file has these spans: each from its game's first byte to where reading goes on,
or to the end of its piece. Bytes are copied as they are. A line end is added where two copied parts would share a line,
and a line with an empty comment where the second part would else not begin a piece: so the good games have the pieces
that they had, and no fault. A comment or variation that belonged to no game, before one with a fault, then belongs to
the next good one; if that has no move before it, `--variations` reports the variation."""

from pgn_files import MARK, TAG_LINE, front, is_empty, line_start

WHITE = b" \t\r\n"
CUT = b"{}\n"  # a line of moves, after which a tag line begins a piece


class Copy:
    """A file to which parts of texts are copied, one after another; each part begins a line of its text."""

    def __init__(self, name):
        """Opens the file for writing; what it had is lost."""
        self.file = open(name, "wb")
        self.last, self.is_after_moves = b"", False  # the last byte, and whether a tag line would begin a piece

    def add(self, part, follows):
        """Adds a part of a text. `follows`: it comes right after what was added last."""
        if not part:
            return
        if self.last and not follows:
            if self.last != b"\n":
                self.write(b"\n")
            if TAG_LINE.match(front(part, 0)) and not self.is_after_moves:
                self.write(CUT)
        self.write(part)

    def write(self, part):
        """Writes a part, and keeps what must be known of it before the next one."""
        self.file.write(part)
        self.last = part[-1:]
        self.is_after_moves = self.ends_after_moves(part)

    def ends_after_moves(self, part):
        """Returns whether the last line so far that is not empty is a line of moves, after a part.

        It is false for a tag line, though that may be a line of moves too."""
        end = len(part)
        while end > 0:
            start = line_start(part, end)
            if not is_empty(part, start):
                return not TAG_LINE.match(front(part, start))
            end = start
        return self.is_after_moves


def after_white(text, at):
    """Returns the offset after the white space that a text has at an offset."""
    while at < len(text) and text[at] in WHITE:
        at += 1
    return at


class Copies:
    """The files of the good games and of those with a fault; either may be None, and is then not written."""

    def __init__(self, good, bad):
        """Opens the files for writing."""
        self.good, self.bad = (Copy(name) if name else None for name in (good, bad))
        self.follows = False  # whether what comes next is right after what the file of good games has

    def begin_text(self):
        """Begins with the games of another text."""
        self.follows = False

    def add(self, text, spans):
        """Copies the games of the next part of a text; `spans` are those of its games with a fault."""
        at = 0
        for begin, end in spans:
            self.add_good(bytes(text[at:begin]).removesuffix(MARK))
            at, self.follows = after_white(text, end), False
            if self.bad:
                self.bad.add(bytes(text[begin:at]), False)
        self.add_good(bytes(text[at:]))

    def add_good(self, part):
        """Copies a part without a fault. After a game with a fault a part that is only white space is left out."""
        if not self.follows and not part.removeprefix(MARK).strip(WHITE):
            return
        if self.good:
            begins_piece = self.follows or not self.good.last or TAG_LINE.match(front(part, 0))
            self.good.add(part if begins_piece else part.removeprefix(MARK), self.follows)
        self.follows = True

    def close(self):
        """Closes both files."""
        for copy in (self.good, self.bad):
            if copy:
                copy.file.close()
