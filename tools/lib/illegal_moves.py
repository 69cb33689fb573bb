"""Says why a move is illegal, in words: from the position's FEN and the move's text, in coordinates or SAN."""

import re

from boards import FILES, board_of

NAMES = {"p": "pawn", "n": "knight", "b": "bishop", "r": "rook", "q": "queen", "k": "king"}
SIDES = {"w": "White", "b": "Black"}
OTHER = {"w": "b", "b": "w"}
# Steps as (files, ranks).
STRAIGHT = [(1, 0), (-1, 0), (0, 1), (0, -1)]
DIAGONAL = [(1, 1), (1, -1), (-1, 1), (-1, -1)]
# The pieces that go one step, and those that go along lines, with their steps.
JUMPS = {"k": STRAIGHT + DIAGONAL, "n": [(i * f, j * r) for f, r in ((1, 2), (2, 1)) for i in (1, -1) for j in (1, -1)]}
LINES = {"r": STRAIGHT, "b": DIAGONAL, "q": STRAIGHT + DIAGONAL}
COORDINATES = re.compile(r"([a-h][1-8])([a-h][1-8])([nbrq]?)")
SAN = re.compile(r"([KQRBN]?)([a-h]?)([1-8]?)x?([a-h][1-8])(?:=?([QRBN]))?[+#]?[!?]*")
CASTLING = re.compile(r"(O-O(?:-O)?)[+#]?[!?]*")


# Squares


def shifted(square, files, ranks):
    """Returns the square that is so many files and ranks away; None off the board."""
    file, rank = FILES.index(square[0]) + files, int(square[1]) + ranks
    return f"{FILES[file]}{rank}" if file in range(8) and rank in range(1, 9) else None


def distance(start, end):
    """Returns how many files and ranks one square is away from another."""
    return FILES.index(end[0]) - FILES.index(start[0]), int(end[1]) - int(start[1])


def between(start, end):
    """Returns the squares between two of a rank, file or diagonal."""
    files, ranks = distance(start, end)
    steps = max(abs(files), abs(ranks))
    return [shifted(start, files // steps * it, ranks // steps * it) for it in range(1, steps)]


# Positions


def colour_of(piece):
    """Returns the colour of a piece, by its letter: `w` or `b`."""
    return "w" if piece.isupper() else "b"


class Position:
    """A position of normal chess or Chess960 by its FEN: the pieces by square, the side to move, the castling rights,
    and the square on which a pawn may be captured en passant, or `-`."""

    def __init__(self, fen, is_chess960=False):
        self.pieces, self.is_chess960 = board_of(fen), is_chess960
        self.side, self.rights, self.passant = fen.split()[1:4]

    @property
    def name(self):
        """The name of the side to move."""
        return SIDES[self.side]

    def is_own(self, square):
        """Says whether a piece of the side to move is on a square."""
        return square in self.pieces and colour_of(self.pieces[square]) == self.side

    def at(self, square):
        """Returns the words for a piece."""
        return f"{NAMES[self.pieces[square].lower()]} on {square}"

    def king(self):
        """Returns the square of its king."""
        return next(square for square, piece in self.pieces.items() if piece.lower() == "k" and self.is_own(square))

    def rook_of(self, wing):
        """Returns the square of the rook with which the side may castle on a wing (`O-O` or `O-O-O`); None if it has no
        right to. A right is K or Q for the rook on the file h or a, or the letter of the rook's file."""
        rank, king = self.king()[1], self.king()
        for letter in self.rights.strip("-"):
            file = {"K": "H", "Q": "A"}.get(letter.upper(), letter.upper()).lower()
            if colour_of(letter) == self.side and (file > king[0]) == (wing == "O-O"):
                return file + rank
        return None


def attacked(pieces, start):
    """Yields the squares that the piece on a square attacks."""
    kind = pieces[start].lower()
    jumps = [(-1, forward(pieces[start])), (1, forward(pieces[start]))] if kind == "p" else JUMPS.get(kind, [])
    yield from filter(None, (shifted(start, *jump) for jump in jumps))
    for line in LINES.get(kind, []):
        square = shifted(start, *line)
        while square:
            yield square
            square = None if square in pieces else shifted(square, *line)


def forward(pawn):
    """Returns how many ranks a pawn's single step goes up the board: 1 or -1."""
    return 1 if pawn.isupper() else -1


def attackers(pieces, square, colour):
    """Returns the squares from which pieces of a colour attack a square."""
    own = (start for start, piece in pieces.items() if colour_of(piece) == colour)
    return [start for start in own if square in attacked(pieces, start)]


# Moves


def why_not(position, start, end, promotion=""):
    """Says why a move in coordinates is illegal; returns None if it is legal."""
    if start not in position.pieces:
        return f"{start} is empty"
    if not position.is_own(start):
        return f"the {position.at(start)} is {SIDES[OTHER[position.side]]}'s, and {position.name} is to move"
    wing = castling_of(position, start, end)
    if wing:
        return why_not_castling(position, wing)
    return why_not_there(position, start, end, promotion) or leaves_in_check(position, start, end)


def castling_of(position, start, end):
    """Returns the castling that a king's move stands for, or None: in Chess960 the king goes to the rook's square."""
    if start != position.king():
        return None
    if position.is_chess960:
        return next((wing for wing in ("O-O", "O-O-O") if position.rook_of(wing) == end), None)
    return {("e", "g"): "O-O", ("e", "c"): "O-O-O"}.get((start[0], end[0])) if start[1] == end[1] else None


def why_not_there(position, start, end, promotion):
    """Says why an own piece can't go to a square, whether its king is then in check or not; None if it can."""
    if position.is_own(end):
        return f"{position.name}'s own {position.at(end)} is there" if start != end else f"{end} is where it is"
    kind = position.pieces[start].lower()
    wrong = why_not_pawn(position, start, end) if kind == "p" else why_not_piece(position, start, end)
    if wrong:
        return wrong
    is_promoted = kind == "p" and end[1] in "18"
    if is_promoted and not promotion:
        return f"a pawn that comes to {end} is promoted, as in {start}{end}q"
    return "only a pawn on the last rank is promoted" if promotion and not is_promoted else None


def why_not_piece(position, start, end):
    """Says why a piece that is no pawn can't go to a square of the other side or an empty one."""
    if end in attacked(position.pieces, start):
        return None
    kind = position.pieces[start].lower()
    if end in attacked({start: position.pieces[start]}, start):
        return in_the_way(position, between(start, end))
    return f"a {NAMES[kind]} doesn't go from {start} to {end}"


def why_not_pawn(position, start, end):
    """Says why a pawn can't go to a square of the other side or an empty one."""
    pawn = position.pieces[start]
    files, ranks = distance(start, end)
    ranks *= forward(pawn)
    if abs(files) == 1 and ranks == 1:
        captures = end in position.pieces or end == position.passant
        return None if captures else f"a pawn goes from {start} to {end} only if it captures"
    if files or not (ranks == 1 or ranks == 2 and start[1] == ("2" if pawn.isupper() else "7")):
        return f"a pawn doesn't go from {start} to {end}"
    return in_the_way(position, [*between(start, end), end])


def in_the_way(position, squares):
    """Says which piece is on one of these squares; None if they are empty."""
    return next((f"the {position.at(square)} is in the way" for square in squares if square in position.pieces), None)


def leaves_in_check(position, start, end):
    """Says which piece attacks the king after a move; None if none does."""
    pieces, king = after(position, start, end), position.king()
    after_king = end if start == king else king
    found = attackers(pieces, after_king, OTHER[position.side])
    if not found:
        return None
    attacker = f"the {NAMES[pieces[found[0]].lower()]} on {found[0]}"
    if start == king:
        return f"{attacker} attacks {end}"
    if found[0] in attackers(position.pieces, king, OTHER[position.side]):
        return f"{position.name} is in check by {attacker}, and would still be"
    return f"the {position.at(start)} is pinned: {attacker} would attack the king on {king}"


def after(position, start, end):
    """Returns the pieces after a move that is no castling; a pawn that is promoted stays one."""
    pieces = dict(position.pieces)
    if pieces[start].lower() == "p" and end == position.passant and end not in pieces:
        del pieces[end[0] + start[1]]
    pieces[end] = pieces.pop(start)
    return pieces


def why_not_castling(position, wing):
    """Says why the side can't castle on a wing; returns None if it can."""
    rook, king = position.rook_of(wing), position.king()
    if not rook:
        return f"{position.name} has no right to castle on the {'king' if wing == 'O-O' else 'queen'}'s wing"
    king_end, rook_end = (file + king[1] for file in ("gf" if wing == "O-O" else "cd"))
    king_path, rook_path = path(king, king_end), path(rook, rook_end)
    is_blocked = in_the_way(position, [square for square in king_path + rook_path if square not in (king, rook)])
    return is_blocked or why_not_over(position, king_path) or why_not_to(position, {king: king_end, rook: rook_end})


def path(start, end):
    """Returns the squares from one to another, with both."""
    return [start, *between(start, end), end] if start != end else [start]


def why_not_over(position, king_path):
    """Says which square of the way on which the king castles is attacked; None if none is."""
    for square in king_path:
        if found := attackers(position.pieces, square, OTHER[position.side]):
            attacker = f"the {position.at(found[0])}"
            is_check = square == king_path[0]
            return f"{position.name} is in check by {attacker}" if is_check else f"{attacker} attacks {square}"
    return None


def why_not_to(position, ends):
    """Says what attacks the king once king and rook have gone to their squares; None if nothing does."""
    others = {square: piece for square, piece in position.pieces.items() if square not in ends}
    king_end, _ = ends.values()
    found = attackers(others | {ends[start]: position.pieces[start] for start in ends}, king_end, OTHER[position.side])
    return f"then the {position.at(found[0])} attacks {king_end}" if found else None


# Texts


def why_illegal(fen, is_chess960, text):
    """Says why the text of a move denotes no legal move in a position; returns None if it is not known."""
    position = Position(fen, is_chess960)
    if found := COORDINATES.fullmatch(text):
        return why_not(position, *found.groups())
    if found := CASTLING.fullmatch(text):
        return why_not_castling(position, found[1])
    if found := SAN.fullmatch(text):
        return why_not_san(position, *(group or "" for group in found.groups()))
    return None


def why_not_san(position, letter, file, rank, end, promotion):
    """Says why none of the pieces that SAN may mean can go to a square."""
    kind, promotion = letter.lower() or "p", promotion.lower()
    own = (start for start, piece in position.pieces.items() if piece.lower() == kind and position.is_own(start))
    starts = [start for start in own if file in start and rank in start]
    if not starts:
        where = f" on {file}{rank}" if file or rank else ""
        return f"{position.name} has no {NAMES[kind]}{where}"
    goes = [start for start in starts if not why_not_there(position, start, end, promotion)]
    if len(starts) == 1 or len(goes) == 1:
        return why_not(position, (goes or starts)[0], end, promotion)
    if not goes:
        return f"no {NAMES[kind]} of {position.name} can go to {end}"
    reasons = [why_not(position, start, end, promotion) for start in goes]
    return "; ".join(reasons) if all(reasons) else None
