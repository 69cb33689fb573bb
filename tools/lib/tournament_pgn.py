"""The PGN files of a tournament: games.pgn, as the match wrote the games, and rated.pgn, for rating programs and
databases. tools/tournament uses it."""

import re
import textwrap
from decimal import Decimal

from boards import INITIAL

COLUMNS = 79
ROSTER = 7  # the tags that each game has, in their order
START = ("[FEN ", "[SetUp ")
# A position can't occur for the fifth time after fewer half-moves than these without a capture or a pawn's move.
FIVEFOLD = 16
NUMBER = re.compile(r"\d+\.+")
IRREVERSIBLE = re.compile(r"[a-h]|.*x")


def tag_value(name):
    """Returns a name as it is in a tag, in the encoding in which the records are read."""
    return name.encode().decode("latin-1").replace("\\", "\\\\").replace('"', '\\"')


def with_tags(text, tags):
    """Returns the PGN of a game with other values of these tags."""
    head, separator, movetext = text.partition("\n\n")
    for tag, value in tags.items():
        head = re.sub(rf'(?m)^\[{tag} ".*"\]$', lambda _: f'[{tag} "{value}"]', head)
    return head + separator + movetext


def own_pgn(outcome, text):
    """Returns a game as it is in games.pgn: as the match wrote it, with the tournament's names and round."""
    game = outcome.game
    text = re.sub(r"(?m)^score .*\n", "", text)
    return with_tags(text, {"Round": game.round, "White": tag_value(game.white), "Black": tag_value(game.black)})


def is_board_verdict(reason):
    """Says whether the board itself ended a game with this reason."""
    return re.search(r" mates|Stalemate|Insufficient material|Fivefold repetition|75-move rule", reason)


class RatedPgn:
    """How the games of a folder are in rated.pgn: how faults count there, the time control of each engine by its name,
    and the openings as games of PGN (none in a folder of 0.2.0)."""

    def __init__(self, faults, levels, openings):
        self.faults, self.openings = faults, openings
        self.controls = {name: time_control(level) for name, level in levels.items()}

    def game(self, outcome, text):
        """Returns a game with the result that counts; nothing if it counts for nobody. Its moves are left out if they
        lead to another result by the Laws."""
        counts = outcome.counts(self.faults)
        if counts == "*":
            return ""
        head, _, movetext = own_pgn(outcome, text).rstrip("\n").partition("\n\n")
        tags, words = head.split("\n"), movetext.split()[:-1]
        if counts != outcome.result:
            tags = with_tags(head, {"Result": counts, "Termination": "abandoned"}).split("\n")
            words = [] if is_board_verdict(outcome.reason) else words
        if outcome.game.opening < len(self.openings):
            tags, words = from_opening(tags, words, self.openings[outcome.game.opening])
        tags = [*tags[:ROSTER], *sorted([*tags[ROSTER:], *self.control_tags(outcome.game)])]
        lines = textwrap.wrap(" ".join([*words, counts]), COLUMNS, break_long_words=False, break_on_hyphens=False)
        return "\n".join([*tags, "", *lines, "", ""])

    def control_tags(self, game):
        """Returns the tag TimeControl; one for each side, as cutechess writes them, if their time controls differ."""
        white, black = self.controls[game.white], self.controls[game.black]
        if white == black:
            return [f'[TimeControl "{white}"]']
        return [f'[WhiteTimeControl "{white}"]', f'[BlackTimeControl "{black}"]']


def time_control(level):
    """Returns the tag TimeControl for a level of CECP, `MOVES BASE INC`: seconds, such as `40/300` or `60+0.5`."""
    moves, base, increment = level.split()
    minutes, _, seconds = base.partition(":")
    control = plain(Decimal(minutes) * 60 + Decimal(seconds or 0))
    control = f"{moves}/{control}" if int(moves) else control
    return f"{control}+{plain(Decimal(increment))}" if Decimal(increment) else control


def plain(number):
    """Returns a number without zeros at its end, and without an exponent."""
    return f"{number.normalize():f}"


def from_opening(tags, words, opening):
    """Returns the tags and the moves of a game from where its opening begins, if it has moves."""
    before = opening.movetext.split()[:-1]
    fen = next((tag.split('"')[1] for tag in tags if tag.startswith("[FEN ")), INITIAL)
    if not before or may_repeat(fen, words):
        return tags, words
    if words and words[0].endswith("..."):
        words = words[1:]
    others = [tag for tag in tags if not tag.startswith(START)]
    return [*others, *(tag for tag in opening.head.split("\n") if tag.startswith(START))], [*before, *words]


def may_repeat(fen, words):
    """Says whether a position before a game's start could occur in it for the fifth time: the match doesn't know these
    positions. It may if the opening ends, and the game begins, with many moves that can be taken back."""
    clock = int(fen.split()[4])
    moves = [word for word in words if not NUMBER.fullmatch(word)]
    quiet = next((number for number, move in enumerate(moves) if IRREVERSIBLE.match(move)), len(moves))
    return clock > 0 and clock + quiet >= FIVEFOLD
