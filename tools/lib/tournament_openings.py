"""The openings of a tournament: read from FENs, EPD, moves or PGN, and drawn. tools/tournament uses it.

What a file has is seen from its content. A session of the arbiter says which moves and positions are legal.
"""

import itertools
import os
import random
import re
import shutil
from dataclasses import dataclass, field

import pgn_files
import sessions
from list_files import entries

MOST_REFUSALS = 20
SHOWN = 40  # characters of a line that is no opening
BOOK_ENTRY = 16  # bytes of an entry of a polyglot book
LEAST_ENTRIES = 8  # fewer keys may be in order by chance

TAG_LINE = re.compile(r'(?m)^[ \t]*\[\s*\w+\s*"')
# The first field of a FEN, an operation of EPD, a whole EPD, and a move in SAN or in coordinates.
PLACEMENT = re.compile(r"[pnbrqkPNBRQK1-8/]*/[pnbrqkPNBRQK1-8/]*")
OPERATION = re.compile(r'\s*([A-Za-z]\w*)((?:\s+(?:"[^"]*"|[^\s";]+))*)\s*(?:;|$)')
EPD = re.compile(
    rf"(?P<fields>\S+(?:\s+\S+){{3}})(?:\s+(?P<counters>\d+\s+\d+))?[\s;]*(?P<operations>(?:{OPERATION.pattern})*)"
)
MOVE = re.compile(r"([KQRBN]?[a-h]?[1-8]?[x:-]?[a-h][1-8](=?[QRBNqrbn])?|[O0]-[O0](-[O0])?)[+#]?[!?]*")
# The parts of PGN, after white space and numbers, the frequent ones first. What begins with a digit is a number, a
# result, or castling with zeros. The last group of a part is its kind; comments and glyphs have none.
TOKEN = re.compile(
    r"""(?mx)
    (?: \s | \d+ \.+ )*
    (?: (?P<move> (?! e\.p\. ) [A-Za-z] [^\s(){};!?]* )
    | \{ [^}]* \} | ; .* | ^% .* | \$ \d+ | e\.p\. | [!?]+ | \.+
    | \[ \s* (?P<tag> \w+ ) \s* " (?P<value> (?: [^"\\\n] | \\. )* ) " \s* \]
    | ^ \[ (?! FEN \b ) (?P<malformed> \w+ ) [ \t] .* \] [ \t]* $
    | (?P<open> \( ) | (?P<close> \) )
    | (?P<result> (?: 1-0 | 0-1 | 1/2-1/2 | 1/2 | \* ) (?= [\s;{(] | \Z ) )
    | \d+ (?! [-/\w] )
    | (?P<other> [^\s(){};!?]+ | \S ) )
    """
)
TAGS = ("value", "malformed")
PLAYED = ("move", "other")  # what begins with no letter may be castling, or is no move


@dataclass
class Opening:
    """An opening of a file: its line, the FEN at which it begins, if it has one, and its moves."""

    line: int
    fen: str = ""
    moves: list = field(default_factory=list)

    def commands(self, variant):
        """Returns the commands of a session that set it up."""
        start = ["variant fischerandom" if variant == "fischerandom" else "new"]
        start += [f"setboard {self.fen}"] if self.fen else []
        return start + [f"usermove {move}" for move in self.moves]


# ---- files


class Refused(Exception):
    """Why a file is refused as a whole."""


def read(path, variant, plies):
    """Returns the openings of a file as FENs, the moves to each as PGN, and why it is refused; of moves only so many
    half-moves are played, if a number is given."""
    try:
        text = text_of(path)
        found = list(of_pgn(text)) if TAG_LINE.search(text) else of_lines(text)
    except (pgn_files.Unreadable, Refused) as fault:
        return [], {}, [f"{path}: {fault}"]
    for opening in found:
        opening.moves = opening.moves[:plies]
    fens, texts, refusals = fens_of(path, found, variant)
    more = len(refusals) - MOST_REFUSALS
    return fens, texts, refusals[:MOST_REFUSALS] + ([f"{path}: {more} more openings are refused"] if more > 0 else [])


def text_of(path):
    """Returns the text of a file, which may be compressed."""
    beginning = beginning_of(path)
    if is_polyglot_book(beginning):
        raise Refused("neither FEN, EPD, PGN nor moves: it seems to be a polyglot book")
    parts = pgn_files.File(str(path)).parts(pgn_files.UNCUT, False)
    content = b"".join(bytes(part.text) for part in parts)
    try:
        text = content.decode()
    except UnicodeDecodeError:
        text = content.decode("latin-1")
    return re.sub(r"\r\n?", "\n", text.replace("\ufeff", ""))


def beginning_of(path):
    """Returns the first bytes of a file; none of a stream, which can be read only once."""
    if not os.path.isfile(path):
        return b""
    try:
        with open(path, "rb") as file:
            return file.read(64 * BOOK_ENTRY)
    except OSError:
        return b""


def is_polyglot_book(content):
    """Says whether bytes are entries of a polyglot book: keys of eight bytes that never fall."""
    keys = [content[start : start + 8] for start in range(0, len(content), BOOK_ENTRY)]
    is_whole = len(keys) >= LEAST_ENTRIES and len(content) % BOOK_ENTRY == 0
    return is_whole and keys == sorted(keys) and 0 in content


def seems(text):
    """Returns what a text without openings seems to be."""
    first = entries(text)[0][1]
    start = text.lstrip()[:100].lower()
    if re.search(r"[\0-\x08]", text):
        return "no text"
    if start.startswith(("<!doctype html", "<html", "<?xml")):
        return "a page of the web"
    if start.startswith(("{", "[")):
        return "JSON"
    if shutil.which(first.rpartition("\t")[2].split()[0]):
        return "a list of engines"
    return f"text of another kind ('{first[:SHOWN]}{'...' if len(first) > SHOWN else ''}')"


# ---- what files have


def of_lines(text):
    """Returns the opening of each line."""
    found = entries(text)
    if not found:
        raise Refused("no opening")
    if not any(looks_like_opening(line) for _, line in found):
        raise Refused(f"neither FEN, EPD, PGN nor moves: it seems to be {seems(text)}")
    later = [(number, start[1]) for number, line in found if (start := re.match(r"(?!0*1\.)(\d+)\.", line))]
    if later:
        number, move = later[0]
        raise Refused(f"line {number} begins at move {move}: an opening is on one line, or a game of PGN with tags")
    return [of_line(number, line) for number, line in found]


def looks_like_opening(line):
    """Says whether a line begins as a FEN or with a move."""
    return bool(PLACEMENT.fullmatch(line.split()[0]) or MOVE.fullmatch(next(iter(moves_of(line)), "")))


def of_line(number, line):
    """Returns the opening of a line: a FEN, EPD, or moves."""
    if "/" in line.split()[0]:
        return Opening(number, fen_of_epd(line))
    return Opening(number, moves=moves_of(line))


def moves_of(line):
    """Returns the moves of a line, and other words in their place, which a session will refuse; without numbers,
    comments and variations."""
    return [token[token.lastgroup] for token in main_line(line) if token.lastgroup in PLAYED]


def fen_of_epd(line):
    """Returns the FEN of an EPD: four fields, perhaps two counters, and operations, of which `hmvc` and `fmvn` are
    counters too. Other lines are returned as they are."""
    found = EPD.fullmatch(line)
    if not found:
        return line
    values = dict(OPERATION.findall(found["operations"]))
    clock, number = (found["counters"] or "0 1").split()
    return " ".join([found["fields"], values.get("hmvc", clock).strip(), values.get("fmvn", number).strip()])


def main_line(text):
    """Yields the tags, moves and results of PGN that are in no variation. One that is not closed ends with its game."""
    depth = 0
    for token in TOKEN.finditer(text.rstrip()):
        kind = token.lastgroup
        if kind == "open":
            depth += 1
        elif kind == "close":
            depth = max(depth - 1, 0)
        elif kind in TAGS or (kind and not depth):
            depth = 0
            yield token


def of_pgn(text):
    """Yields the opening of each game: its tag FEN, and its moves."""
    game, is_over, line, counted = None, True, 1, 0
    for token in main_line(text):
        kind = token.lastgroup
        if is_over or (kind in TAGS and game.moves):
            if game:
                yield game
            line += text.count("\n", counted, token.start(kind))
            counted = token.start(kind)
            game = Opening(line)
        if kind in PLAYED:
            game.moves.append(token[kind])
        elif token["tag"] == "FEN":
            game.fen = token["value"].strip()
        is_over = kind == "result"
    if game:
        yield game


def fens_of(path, openings, variant):
    """Returns the openings as FENs, the moves to each as PGN (of several to the same the first ones), and why some are
    refused; a session reads them."""
    commands = []
    for number, opening in enumerate(openings):
        commands += [*opening.commands(variant), "showfen", "showpgn", f"ping {number}"]
    fens, texts, refusals, answers = [], {}, [], []
    for answer in session(commands):
        if not answer.startswith("pong "):
            answers.append(answer)
            continue
        if answers[0].startswith("# fen "):
            fens.append(answers[0].removeprefix("# fen "))
            texts.setdefault(fens[-1], "\n".join(sessions.shown(answers[1:])).strip())
        else:
            refusals.append(f"{path}:{openings[int(answer[5:])].line}: {reason(answers[0])}")
        answers = []
    return fens, texts, refusals


def reason(answer):
    """Returns why an opening is refused, from the first answer of the session."""
    words = answer.removeprefix("tellusererror ")
    return f"the game is over: {words}" if re.match(r"(1-0|0-1|1/2-1/2) \{", words) else words


def session(commands):
    """Returns the lines that a session answers. Ctrl-C does not reach it."""
    return sessions.answers("arbiter", commands, encoding="utf-8", errors="replace", start_new_session=True)


# ---- the draw


def drawn(openings, number, seed):
    """Returns so many openings: all in their order, or in orders drawn by a seed, and none again before all were
    taken."""
    return list(itertools.islice(rounds(openings, seed), number))


def rounds(openings, seed):
    """Yields the openings without end, all of them in each round."""
    source = random.Random(seed)  # which draws the same from a number in all versions of Python
    while openings:
        yield from openings if seed is None else sorted(openings, key=lambda _: source.random())
