"""The outcomes of a tournament's games, their table, and the PGN files. tools/tournament uses it.

An outcome is judged from what a game left: `games/N`, the game as the match wrote it, and `games/N.err`, its log.
"""

import re
import subprocess
from collections import Counter
from dataclasses import dataclass

import match_records
import sessions
import tournament_pairs
from tournament_lists import Game, kept_faults, kept_games, kept_levels, kept_names, kept_sprt, lines, write_lines
from tournament_openings import session
from tournament_pgn import RatedPgn, own_pgn, tag_value, with_tags

STATUS = re.compile(r"(?m)^tournament: status (\d+)$")
STILL_RUNNING = re.compile(r"(?m)^tournament: still running: (first|second)$")  # in games played by 0.2.0
ENDED_AFTER = re.compile(r"(?m)^tournament: ended after (\d+) seconds$")
TIMED_OUT = 124
RESULTS_HEAD = "game\twhite\tblack\tresult\tend\tfault\tside\treason"
COLOURS = {"first": "White", "second": "Black"}
MOST_FAULT_LINES = 20
MOST_RANGES = 20
LATE_ANSWER = 10  # seconds: an engine that owes another answer than a move for longer is at fault
VOID = "void"  # how a game ends that --timeout ended while all was well
NO_END = "its log has no end"
MOST_LAST = 20  # lines on standard error, in a game without a fault
MOST_FIRST = 200  # and after a fault the first and the last
MOST_WIDTH = 160

# The kinds of faults, in the order of the table's columns. After a fault `quit` the game is over, and has a result.
KINDS = ("crash", "protocol", "timeout", "quit")
RULES = ("illegal move", "moves out of turn", "false claim", "rejects a legal move", "rules infraction")
CRASHES = ("ended its output", "can not be read", "can not be written")


# Outcomes


@dataclass
class Outcome:
    """How a game ended: the result that the match wrote, the kind of its end, and the reason in words. If it ended by a
    fault: its kind, and the sides whose engines are at fault."""

    game: Game
    result: str
    end: str
    reason: str
    fault: str = ""
    sides: tuple = ()

    def counts(self, faults):
        """Returns the result that counts; `*` counts for nobody. A fault that ends a game is a `loss` or makes it
        `void`; that an engine doesn't exit after a game costs it the point only if faults are `strict`."""
        if not self.fault or (self.fault == "quit" and faults != "strict"):
            return self.result
        if faults == "void" or len(self.sides) != 1:
            return "*"
        return "0-1" if self.sides[0] == "White" else "1-0"

    def is_amiss(self):
        """Says whether an engine is at fault, or the game did not come to its end."""
        return self.fault or self.end == VOID

    def at_fault(self):
        """Returns the names of the engines that are at fault."""
        return [self.game.white if side == "White" else self.game.black for side in self.sides]

    def row(self):
        """Returns the outcome's line of results.tsv."""
        words = (self.result, self.end, self.fault, " ".join(self.sides), self.reason)
        return "\t".join([str(self.game.number), self.game.white, self.game.black, *words])


def read_row(row, games):
    """Returns the outcome of a line of results.tsv; None if its writing was cut off, or if it is one of 0.2.0 on a game
    after which an engine did not exit: that has no word on how the game ended."""
    words = row.split("\t")
    if len(words) != 8 or not words[0].isdigit() or int(words[0]) not in games or words[4] == "quit":
        return None
    return Outcome(games[int(words[0])], words[3], words[4], words[7], words[5], tuple(words[6].split()))


def judge(game, text, errors):
    """Returns a game's outcome; None if it was not played to its end: then its host had trouble. Once play_game ends a
    game, the engines do nothing any more that counts."""
    statuses = STATUS.findall(errors)
    status = int(statuses[-1]) if statuses else None
    written, logged = match_records.written_games(text), match_records.logged_games(ENDED_AFTER.split(errors)[0])
    if status == 0 and written and logged and "\nscore " in text:
        return finished(game, written[0], logged[0])
    if status == 1 and match_records.fault(errors) and logged:
        return failed(game, written, logged[0], match_records.fault(errors)[1])
    if status == TIMED_OUT and logged:
        return timed_out(game, written, logged[0], errors)
    if status is None and written and logged and written[0].is_decided() and logged[0].end()[0] == written[0].result:
        return finished(game, written[0], logged[0])  # The script ended while an engine was quitting.
    return None


def finished(game, written, logged, stayed=()):
    """Judges a game that has a result. The engines of the sides `stayed`, or else those that the match killed, did not
    end after it: the result holds. That is no further fault of an engine whose time was over, since it may have hung
    before."""
    comment, late = logged.end()[1] or "", logged.out_of_time()
    end, reason = kind_of_end(written, comment), comment or NO_END
    sides = tuple(side for side in stayed or logged.killed if side != late)
    if not sides:
        return Outcome(game, written.result, end, reason)
    words = f"{' and '.join(sides)} did not end after quit ({written.result} {reason})"
    return Outcome(game, written.result, end, words, "quit", sides)


def failed(game, written, logged, words):
    """Judges a game that the match ended by a fault. A result that was not read by an engine holds all the same."""
    side, _, what = words.partition(" ")
    if written and written[0].result != "*":
        return finished(game, written[0], logged)
    how = logged.ended.get(logged.seat(side))
    kind, reason = "protocol", words
    if what in CRASHES:
        kind, reason = "crash", f"{words}, {how}" if how else words
    elif match_records.is_no_answer(words):
        kind, reason = "timeout", f"{words}: it was sent '{logged.awaited(logged.seat(side)).text}'"
    return Outcome(game, "*", kind, reason, kind, (side,))


def timed_out(game, written, logged, errors):
    """Judges a game that was ended after its time, by the first fault in its log, or by what was awaited. A result
    holds."""
    if logged.fault():
        return failed(game, written, logged, logged.fault())
    if logged.end()[0]:
        stayed = [logged.side(seat) for seat in STILL_RUNNING.findall(errors)]
        return finished(game, written[0], logged, stayed) if written else None
    after = ENDED_AFTER.findall(errors)
    return awaited_at_end(game, logged, int(after[-1]) * 1000 if after else 0)


def awaited_at_end(game, logged, end):
    """Judges a game that was ended at a moment, in milliseconds, while an answer was awaited. It is a fault if the time
    for it was over; otherwise the game counts for nobody."""
    asked = logged.awaited()
    side, clock = logged.side(asked.seat), logged.clock_of_turn(asked)
    waited = max(end - asked.moment, 0)
    time = clock_time(clock) if clock else LATE_ANSWER * 1000
    if waited > time:
        words = f"{side} did not answer '{asked.text}' for {waited / 1000:.0f} s"
        return Outcome(game, "*", "timeout", words, "timeout", (side,))
    words = f"--timeout ended it: {side} was sent '{asked.text}' {waited / 1000:.0f} s before"
    return Outcome(game, "*", VOID, words + (f", and had {(time - waited) / 1000:.0f} s left" if clock else ""))


def clock_time(line):
    """Returns the milliseconds that a line `time N` gives."""
    return int(line.text.removeprefix("time ")) * 10


def kind_of_end(written, comment):
    """Names how a game ended, for the table."""
    if written.result == "*":
        return "unfinished"
    if written.termination == "time forfeit":
        return "draw by time against a bare king" if written.result == "1/2-1/2" else "time"
    if written.termination == "rules infraction":
        return re.sub(r"^(White|Black) (makes an? )?", "", comment) or "rules infraction"
    if written.result == "1/2-1/2":
        return f"draw: {comment[0].lower()}{comment[1:]}" if comment else "draw"
    if comment.endswith(" mates"):
        return "mate"
    return "resignation" if comment.endswith(" resigns") else "won"


# The records in a folder


def read_text(path):
    """Returns the text of a file; an empty one if there is no such file."""
    return path.read_text(encoding="latin-1") if path.exists() else ""


def read_game(folder, game):
    """Returns the text and the log of a game."""
    return tuple(read_text(path) for path in records(folder, game))


def records(folder, game):
    """Returns the paths of a game's text and log: in `running` until they are moved to `games`."""
    names = (str(game.number), f"{game.number}.err")
    running = [folder / "running" / name for name in names]
    return [path if path.exists() else folder / "games" / path.name for path in running]


def outcomes(folder):
    """Returns the outcomes of a folder's games that have records, by number: from results.tsv, or judged anew."""
    games = {game.number: game for game in kept_games(folder) if records(folder, game)[0].exists()}
    rows = (read_row(row, games) for row in lines(folder / "results.tsv")[1:])
    found = {outcome.game.number: outcome for outcome in rows if outcome}
    for game in games.values():
        if game.number not in found and (outcome := judge(game, *read_game(folder, game))):
            found[game.number] = outcome
    return dict(sorted(found.items()))


def collect(folder, game, date):
    """Moves a game that ended from running/ to games/, and returns its outcome; None if it was not played."""
    text, errors = read_game(folder, game)
    outcome = judge(game, text, errors)
    if not outcome:
        return None
    path, log = records(folder, game)
    logged = match_records.logged_games(errors)[0]
    if not match_records.written_games(text):
        path.write_text(rebuilt(game, logged, date), encoding="latin-1")
    keep_log(log, folder / "games" / log.name, outcome, logged)
    path.replace(folder / "games" / path.name)
    return outcome


def keep_log(log, path, outcome, logged):
    """Moves the log of a game to a path, with only some of the lines that its engines wrote to standard error; all that
    the engine at fault wrote is then in a file beside it."""
    errors = read_text(log)
    kept = [line for line in errors.split("\n") if not match_records.WROTE_LINE.fullmatch(line)]
    end = next((number for number, line in enumerate(kept) if STATUS.fullmatch(line)), len(kept))
    wrote = []
    for seat in match_records.SEATS:
        own = logged.wrote[seat]
        is_at_fault = outcome.result == "*" and logged.side(seat) in outcome.sides
        if is_at_fault and own:
            text = "".join(f"{line}\n" for line in own)
            path.with_suffix(f".{seat}.stderr").write_text(text, encoding="latin-1")
        wrote += [f"{seat} engine wrote: {line}" for line in some_lines(own, MOST_FIRST if is_at_fault else 0)]
    text = "\n".join([*kept[:end], *wrote, *kept[end:]])
    if text == errors:
        log.replace(path)
        return
    new = path.with_name(f".{path.name}")
    new.write_text(text, encoding="latin-1")
    new.replace(path)
    log.unlink()


def some_lines(wrote, first):
    """Returns the first lines that an engine wrote, if some are wanted, and the last ones, each cut."""
    last = first or MOST_LAST
    left_out = len(wrote) - first - last
    if left_out > 0:
        note = [f".. {left_out} lines are left out"] if first else []
        wrote = [*wrote[:first], *note, *wrote[-last:]]
    return [re.sub(r"[^ -~]", "?", line[:MOST_WIDTH]) for line in wrote]


def rebuilt(game, logged, date):
    """Returns the PGN of a game that was ended before the match wrote it: a session plays the moves of its log."""
    commands = logged.start() + [f"usermove {move}" for move in logged.moves()] + ["showpgn"]
    text = "\n".join(sessions.shown(session(commands))).strip("\n") + "\n\n"
    names = {"White": tag_value(game.white), "Black": tag_value(game.black)}
    return with_tags(text, {"Event": "CECP match", "Date": date, **names})


# The table


class Row:
    """An engine's line of the table: its points, games by their points, faults by kind, how many games it lost on time
    and by the rules, and against each opponent the points and the games."""

    def __init__(self, engine):
        self.engine, self.points, self.time, self.rules = engine, 0, 0, 0
        self.scores, self.faults = Counter(), Counter()
        self.against = {}

    def add(self, opponent, points):
        """Counts a game against an opponent in which the engine had so many points."""
        scored, games = self.against.get(opponent, (0, 0))
        self.against[opponent] = scored + points, games + 1
        self.points += points
        self.scores[points] += 1

    def games(self):
        """Returns how many games count."""
        return sum(self.scores.values())

    def cells(self, kinds):
        """Returns the row's cells before those of the cross table."""
        games = self.games()
        share = f"{100 * self.points / games:.1f}" if games else "-"
        cells = [f"{self.points:g}", games, self.scores[1], self.scores[0.5], self.scores[0], share]
        return cells + [sum(self.faults.values()), *(self.faults[kind] for kind in kinds), self.time, self.rules]


def aligned(head, body, left):
    """Returns the lines of a table: the columns with the indices `left` are set left, all others right."""
    rows = [[str(cell) for cell in row] for row in [head, *body]]
    widths = [max(len(row[column]) for row in rows) for column in range(len(head))]
    texts = []
    for row in rows:
        sized = enumerate(zip(row, widths))
        cells = [cell.ljust(width) if i in left else cell.rjust(width) for i, (cell, width) in sized]
        texts.append("  ".join(cells).rstrip())
    return texts


class Table:
    """The table of a tournament: a row for each engine, the game pairs, the ends of the games, what each fault was, and
    what a test has decided."""

    def __init__(self, names, faults, sprt):
        """`faults` says how faults count (`loss`, `strict` or `void`); `sprt` is the test, or None."""
        self.faults, self.rows = faults, {name: Row(name) for name in names}
        self.pairs, self.sprt = tournament_pairs.AllPairs(names), sprt
        self.ends, self.amiss = Counter(), []

    def add(self, outcome):
        """Counts a game."""
        self.ends[outcome.end] += 1
        if outcome.is_amiss():
            self.amiss.append(outcome)
        for engine in outcome.at_fault():
            self.rows[engine].faults[outcome.fault] += 1
        points = {"1-0": 1, "0-1": 0, "1/2-1/2": 0.5}.get(outcome.counts(self.faults))
        if points is not None:
            self.add_points(outcome, points)

    def add_points(self, outcome, points):
        """Counts the points of a game for both engines and in their pairs, and what it was lost by."""
        self.pairs.add(outcome.game, points)
        white, black = self.rows[outcome.game.white], self.rows[outcome.game.black]
        white.add(black.engine, points)
        black.add(white.engine, 1 - points)
        loser = {1: black, 0: white}.get(points)
        if loser and outcome.counts(self.faults) == outcome.result:
            loser.time += outcome.end == "time"
            loser.rules += outcome.end in RULES

    def standings(self):
        """Returns the lines of the rows, the engine with most points first."""
        ordered = sorted(self.rows.values(), key=lambda row: -row.points)
        kinds = [kind for kind in KINDS if any(row.faults[kind] for row in ordered)]
        head = ["", "engine", "points", "games", "won", "drawn", "lost", "%", "faults", *kinds, "time", "rules"]
        body = []
        for number, row in enumerate(ordered, 1):
            against = ("{:g}/{}".format(*row.against.get(other.engine, (0, 0))) for other in ordered)
            cross = ["-" if other is row else cell for other, cell in zip(ordered, against)]
            body.append([number, row.engine, *row.cells(kinds), *cross])
        return aligned([*head, *range(1, len(ordered) + 1)], body, left=[1])

    def accepted(self):
        """Returns the hypothesis that the test accepts, or None."""
        return self.sprt and self.sprt.accepted(self.pairs.of_first_two().counts)

    def ratio_text(self):
        """Returns the log-likelihood ratio of the test, in words."""
        return tournament_pairs.ratio_text(self.sprt, self.pairs.of_first_two().counts)

    def lines(self, total):
        """Returns the lines of the whole table."""
        kinds = ", ".join(f"{kind} {number}" for kind, number in self.ends.most_common())
        text = [*self.standings(), ""]
        if pairs := self.pairs.rows():
            text += [*aligned(tournament_pairs.HEAD, pairs, left=[0, 1]), ""]
        text.append(f"{self.ends.total()} of {total} games" + (f": {kinds}" if kinds else ""))
        for outcome in self.amiss[:MOST_FAULT_LINES]:
            game, what = outcome.game.number, " and ".join(outcome.at_fault()) or outcome.end
            text.append(f"game {game}: {what}: {outcome.reason} (games/{game}.err)")
        if len(self.amiss) > MOST_FAULT_LINES:
            text.append(f"and {len(self.amiss) - MOST_FAULT_LINES} more such games: see results.tsv")
        if self.sprt:
            text += ["", f"SPRT of Elo {self.sprt.elo0:g} against {self.sprt.elo1:g}: {self.ratio_text()}"]
        return text


def ranges(numbers):
    """Returns the text of rising numbers, those in a row as a range; of many ranges only the first."""
    rows = []
    for number in numbers:
        if rows and rows[-1][-1] == number - 1:
            rows[-1] = [rows[-1][0], number]
        else:
            rows.append([number])
    texts = ["-".join(map(str, row)) for row in rows]
    more = [f".. {numbers[-1]}"] if len(texts) > MOST_RANGES else []
    return " ".join([*texts[:MOST_RANGES], *more])


def table_of(names, faults, sprt, found):
    """Returns the table of outcomes, counted in their order."""
    table = Table(names, faults, sprt)
    for outcome in found:
        table.add(outcome)
    return table


def is_decided(folder, lists):
    """Says whether the games of a folder decide the test of these lists."""
    names = kept_names(folder)
    if not lists.sprt or not names:
        return False
    return table_of(names, lists.faults, lists.sprt, outcomes(folder).values()).accepted() is not None


class Book:
    """What a folder keeps of the games that ended: results.tsv, games.pgn, rated.pgn and table.txt. Each is written on
    as a game ends, so that nothing is lost however the script ends. `accepted` is the hypothesis that the test accepts
    by these games, or None."""

    FILES = ("results.tsv", "games.pgn", "rated.pgn", "table.txt")

    def __init__(self, folder, total):
        """Reads what the folder has; `total` is the number of all games."""
        self.folder, self.total = folder, total
        self.faults, self.sprt = kept_faults(folder), kept_sprt(folder)
        openings = match_records.written_games(read_text(folder / "openings.pgn"))
        self.rated = RatedPgn(self.faults, kept_levels(folder), openings)
        self.found = outcomes(folder)
        self.count()

    def count(self):
        """Makes the table of the games in the order of their numbers."""
        self.found = dict(sorted(self.found.items()))
        self.counted = table_of(kept_names(self.folder), self.faults, self.sprt, self.found.values())
        self.accepted = self.counted.accepted()

    def write_all(self):
        """Writes the files anew, with the games in the order of their numbers."""
        self.count()
        write_lines(self.folder / "results.tsv", [RESULTS_HEAD, *(outcome.row() for outcome in self.found.values())])
        parts = [self.pgn(outcome) for outcome in self.found.values()]
        for name, texts in zip(("games.pgn", "rated.pgn"), zip(*parts) if parts else ((), ())):
            new = self.folder / f".{name}"
            new.write_text("".join(texts), encoding="latin-1")
            new.replace(self.folder / name)
        self.write_table()

    def pgn(self, outcome):
        """Returns a game as it is in games.pgn and in rated.pgn."""
        text = read_text(self.folder / "games" / str(outcome.game.number))
        return own_pgn(outcome, text), self.rated.game(outcome, text)

    def add(self, outcome):
        """Adds the outcome of a game that has just ended."""
        self.found[outcome.game.number] = outcome
        self.counted.add(outcome)
        self.accepted = self.counted.accepted()
        for name, text in zip(("games.pgn", "rated.pgn"), self.pgn(outcome)):
            with open(self.folder / name, "a", encoding="latin-1") as file:
                file.write(text)
        with open(self.folder / "results.tsv", "a", encoding="utf-8") as file:
            file.write(f"{outcome.row()}\n")
        self.write_table()

    def write_table(self):
        """Writes table.txt anew."""
        write_lines(self.folder / "table.txt", self.table())

    def table(self):
        """Returns the lines of the table."""
        return self.counted.lines(self.total)

    def line(self, outcome):
        """Returns the line that is shown when a game ends."""
        game = outcome.game
        result = f"{game.white} - {game.black} {outcome.counts(self.faults)} {outcome.reason}"
        ratio = f", {self.counted.ratio_text()}" if self.sprt else ""
        return f"{len(self.found)}/{self.total} {result}{ratio}"


def verified(folder, name):
    """Returns what `arbiter verify` finds in a file of the folder, and whether that is no fault."""
    with open(folder / name, "rb") as file:
        words = ["arbiter", "verify", "--keep-going", "--strict", "--quiet"]
        run = subprocess.run(words, stdin=file, stdout=subprocess.PIPE, encoding="latin-1")
    found = run.stdout.splitlines() or [f"verify ended with status {run.returncode}"]
    return found[-1], run.returncode == 0
