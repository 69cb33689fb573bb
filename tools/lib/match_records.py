"""Reads the records of a match: the PGN that `arbiter match` writes, and the log of `--log` with its other lines."""

import re

# A line of the log may come after what an engine wrote without a newline.
LOG_LINE = re.compile(r"(?P<before>|.*?(?<!\d))(\d+) ([<>!])(first |second): (.*)")
RESULT_LINE = re.compile(r"result (1-0|0-1|1/2-1/2|\*) \{(.*)\}")
FAULT_LINE = re.compile(r"arbiter: game (\d+): ((White|Black) .*)")
KILLED_LINE = re.compile(r"arbiter: game \d+: (White|Black) did not exit, and was killed")
# What tools/watch_engine writes.
ENDED_LINE = re.compile(r"(first|second) engine: (exit status \d+|signal \w+)")
WROTE_LINE = re.compile(r"(first|second) engine wrote: (.*)")
REPORTS = (ENDED_LINE, WROTE_LINE, KILLED_LINE)
OWN_LINES = ("arbiter: ", "tournament: ")
SEATS = ("first", "second")
HANDSHAKE = ("xboard", "protover 2")
# What is advised where an engine does not answer the first lines.
NO_HANDSHAKE = "any other engine must end its lines and flush them, and may need longer to start"
# The faults of an engine that did not answer in time, without the side.
NO_ANSWER = ("did not answer", "sent no done=1 (a UCI engine needs polyglot)")
# How the reports begin that sanitizers, assertions and languages write when a program fails.
REPORT = re.compile(r"Sanitizer: |runtime error: |panicked at|[Aa]ssert|terminate called|^Traceback ")
OUT_OF_TIME = re.compile(r"(White|Black) forfeits on time|Time forfeit against a bare king")


def sans(movetext):
    """Returns the moves of a movetext, without move numbers and result."""
    return [word for word in movetext.split() if not re.fullmatch(r"\d+\.+|1-0|0-1|1/2-1/2|\*", word)]


class WrittenGame:
    """A game of a match's PGN: its tags and its movetext."""

    def __init__(self, text):
        self.head, _, movetext = text.partition("\n\n")
        self.tags = dict(re.findall(r'(?m)^\[(\w+) "(.*)"\]$', text))
        self.movetext = " ".join(movetext.split("score ", 1)[0].split())

    @property
    def result(self):
        """The outcome by its tag."""
        return self.tags.get("Result", "*")

    @property
    def termination(self):
        """The tag Termination, which a game that ended as usual lacks or has as `normal`."""
        return self.tags.get("Termination", "normal")

    def is_decided(self):
        """Says whether the game is whole and has a result."""
        return self.result != "*" and self.movetext.split(" ")[-1] == self.result

    def sans(self):
        """Returns the moves, without move numbers and result."""
        return sans(self.movetext)


class LoggedLine:
    """A line of a log: its moment in milliseconds, its mark (`<` received, `>` sent, `!` report), engine and text."""

    def __init__(self, fields):
        """`fields` are the groups of LOG_LINE after the first one."""
        self.moment, self.mark, self.seat, self.text = int(fields[0]), fields[1], fields[2].strip(), fields[3]

    def asks(self):
        """Says whether the match waits for this engine once it has sent it the line."""
        ignored = ("accepted", "rejected", "draw", "result", "quit")
        return self.mark == ">" and self.text.split(" ", 1)[0] not in ignored

    def is_silence(self):
        """Says whether this is the report that no line had come."""
        return self.mark == "!" and self.text == "no line"


class LoggedGame:
    """A game of a log: its lines, what was reported of the engines' processes (how each ended, the last lines of its
    standard error, and the sides whose engines were killed after the game), and other lines. The first line is the
    `xboard` sent to White."""

    def __init__(self, first_line):
        """`ended` and `wrote` are by engine, `first` or `second`; `killed` has sides."""
        self.lines = [first_line]
        self.ended, self.wrote, self.others = {}, {seat: [] for seat in SEATS}, []
        self.killed = []

    @property
    def white(self):
        """The engine, `first` or `second`, that has White."""
        return self.lines[0].seat

    def side(self, seat):
        """Returns the side of an engine."""
        return "White" if seat == self.white else "Black"

    def seat(self, side):
        """Returns the engine, `first` or `second`, of a side."""
        return self.white if side == "White" else SEATS[self.white == "first"]

    def add_report(self, line):
        """Takes a line that is no line of the log: one of tools/watch_engine, that an engine was killed, or what an
        engine wrote."""
        ended, wrote, killed = (kind.fullmatch(line) for kind in REPORTS)
        if ended:
            self.ended[ended[1]] = ended[2]
        elif wrote:
            self.wrote[wrote[1]].append(wrote[2])
        elif killed:
            self.killed.append(killed[1])
        elif not line.startswith(OWN_LINES):
            self.others.append(line)

    def start(self):
        """Returns the session commands for the start of the game, as the engines were sent it."""
        sent = [line.text for line in self.lines if line.mark == ">"]
        commands = [text for text in sent if re.fullmatch("variant fischerandom|setboard .*", text)]
        return sorted(set(commands), reverse=True)

    def end(self):
        """Returns the result and the reason that the engines were sent; (None, None) if the game did not end."""
        results = (RESULT_LINE.fullmatch(line.text) for line in self.lines if line.mark == ">")
        return next(((found[1], found[2]) for found in results if found), (None, None))

    def fault(self):
        """Returns the words of the fault by which an engine ended the game, as the other one was sent them, or None."""
        result, reason = self.end()
        return reason if result == "*" and reason.startswith(("White ", "Black ")) else None

    def out_of_time(self):
        """Returns the side by whose lack of time the game ended, or None. Against a bare king the reason doesn't name
        it: it is the side that was to move."""
        found = OUT_OF_TIME.fullmatch(self.end()[1] or "")
        return found and (found[1] or self.side(self.awaited().seat))

    def awaited(self, seat=None):
        """Returns the line after which the match waited for an answer at the end of this log, or for one of the engine
        `seat`."""
        return next(line for line in reversed(self.lines) if line.asks() and seat in (None, line.seat))

    def moves(self):
        """Returns the moves that the engines sent; the last one may be illegal."""
        received = (re.fullmatch(r"move (\S+).*", line.text) for line in self.lines if line.mark == "<")
        return [move[1] for move in received if move]

    def clock(self, before):
        """Returns the last line `time N` that the engine of the line `before` had been sent."""
        lines = self.lines[: self.lines.index(before) + 1]
        times = (line for line in reversed(lines) if line.seat == before.seat and line.mark == ">")
        return next((line for line in times if re.fullmatch(r"time -?\d+", line.text)), None)

    def clock_of_turn(self, asked):
        """Returns the last line `time N` of an engine that was asked for a move; None if it was asked for something
        else."""
        return None if asked.text.startswith("ping ") else self.clock(asked)

    def own_name(self, seat):
        """Returns what an engine calls itself in its features; an empty text if it doesn't."""
        names = re.findall(r'\bmyname="([^"]*)"', self.features(seat))
        return names[-1].strip() if names else ""

    def features(self, seat):
        """Returns the lines `feature` of an engine."""
        own = (line.text for line in self.lines if line.seat == seat and line.mark == "<")
        return "\n".join(text for text in own if text.startswith("feature "))


def texts_of_games(pgn):
    """Returns the text of each game of a PGN, from its line `[Event` on. It may be bytes; then so are these."""
    event = rb"(?m)^(?=\[Event )" if isinstance(pgn, bytes) else r"(?m)^(?=\[Event )"
    return re.split(event, pgn)[1:]


def written_games(text):
    """Returns the games of a match's PGN."""
    return [WrittenGame(part) for part in texts_of_games(text)]


def logged_games(text):
    """Returns the games of a log. Each game begins at every other line `xboard`: one is sent to each engine."""
    games, handshakes = [], 0
    for other, line in map(parts_of_line, text.split("\n")):
        if other and games:
            games[-1].add_report(other)
        if line and line.mark == ">" and line.text == "xboard":
            handshakes += 1
            if handshakes % 2 == 1:
                games.append(LoggedGame(line))
                continue
        if line and games:
            games[-1].lines.append(line)
    return games


def parts_of_line(line):
    """Returns what else a line has, and the line of the log that it is or ends with; either may be missing."""
    is_other = line.startswith(OWN_LINES) or is_of_engine(line)
    found = None if is_other else LOG_LINE.fullmatch(line)
    return (found["before"], LoggedLine(found.groups()[1:])) if found else (line, None)


def is_of_engine(line):
    """Says whether a line, which isn't of the log, is about an engine's process."""
    return any(kind.fullmatch(line) for kind in REPORTS)


def fault(text):
    """Returns the number of the game and the words of the fault that ended a match, or None."""
    own = [line for line in text.split("\n") if line.startswith("arbiter: ") and not KILLED_LINE.fullmatch(line)]
    faults = [found for found in map(FAULT_LINE.fullmatch, own) if found]
    return (int(faults[-1][1]), faults[-1][2]) if faults else None


def cause(wrote, most):
    """Returns the lines on standard error that may show why a program failed: the first ones of a report, or else the
    last ones."""
    begins = (number for number, line in enumerate(wrote) if REPORT.search(line))
    return wrote[next(begins, max(len(wrote) - most, 0)) :][:most]


def is_no_answer(words):
    """Says whether these are the words of the fault that an engine did not answer in time."""
    return (words or "").partition(" ")[2] in NO_ANSWER


def is_handshake(line):
    """Says whether an engine that does not answer this line may not know the protocol."""
    return line.text in HANDSHAKE


def polyglot_hint(command):
    """Returns how a UCI engine is started: polyglot takes a command without arguments."""
    how = f"SCRIPT, with a script that starts {command}" if " " in command else command
    return f"a UCI engine plays through polyglot: polyglot -noini -ec {how}"
