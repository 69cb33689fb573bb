"""Boards, read from FENs and written as such. A square is a name such as `e4`, a piece a letter as in a FEN."""

import re

FILES = "abcdefgh"
INITIAL = "rnbqkbnr/pppppppp/8/8/8/8/PPPPPPPP/RNBQKBNR w KQkq - 0 1"


def board_of(fen):
    """Returns the pieces of a FEN by square."""
    pieces = {}
    for rank, row in zip("87654321", fen.split()[0].split("/")):
        squares = re.sub(r"\d", lambda empty: "." * int(empty[0]), row)
        pieces |= {file + rank: piece for file, piece in zip(FILES, squares) if piece != "."}
    return pieces


def placement(pieces):
    """Returns the first field of the FEN of pieces by square."""
    rows = ("".join(pieces.get(file + rank, ".") for file in FILES) for rank in "87654321")
    return "/".join(re.sub(r"\.+", lambda empty: str(len(empty[0])), row) for row in rows)
