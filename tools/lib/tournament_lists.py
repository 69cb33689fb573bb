"""The lists of a tournament: engines, openings, options of the match, and games. tools/tournament uses it.

Everything is judged before anything is kept. Each refusal is a line on standard error, and the status is then 2.
"""

import math
import re
import shlex
import subprocess
import sys
from dataclasses import dataclass, field
from decimal import Decimal
from pathlib import Path

import needed
import tournament_openings
from elo import Sprt
from tournament_engines import MOST_NAME, kept_level, read_engines

GIVEN = ("--white", "--black", "--white-level", "--black-level", "--games", "--fen", "--log", "--flag", "--reply-timeout")
DEFAULT_LEVEL = "40 5 0"
LONG_GAME = 100  # The moves of a game that --timeout should allow.
MORE_SECONDS = 300  # for answers that are no moves
GAMES_HEAD = "game\tround\twhite\tblack"
CHANGEABLE = ("--faults=", "--sprt=")  # the options that a later start may change


@dataclass
class Patience:
    """How long engines are waited for: whether flags fall without a line, and the seconds for a reply (0: no limit)."""

    flag: bool
    reply: int

    def options(self):
        """Returns the options of the match."""
        return ["--flag"] * self.flag + (["--reply-timeout", str(self.reply)] if self.reply else [])


@dataclass
class Lists:
    """What a tournament is: its engines, openings (as FENs, one for each round), options of the match, whether it is a
    gauntlet, how faults count, how long engines are waited for, the number of games (if it is limited), the seed by
    which openings are drawn (if they are), the test that ends it (if there is one), and the moves to the FENs."""

    engines: list
    openings: list
    options: list
    is_gauntlet: bool
    faults: str
    patience: Patience
    games: int | None = None
    seed: int | None = None
    sprt: Sprt | None = None
    moves: dict = field(default_factory=dict)

    def programs(self):
        """Returns the programs that a host needs to play with all engines."""
        return sorted({program for engine in self.engines for program in engine.programs()})

    def levels(self):
        """Returns the levels of time at which the engines play."""
        common = option_value(self.options, "level", DEFAULT_LEVEL)
        return [engine.level or common for engine in self.engines]

    def games_of_round(self):
        """Returns how many games an opening is played in."""
        return 2 * sum(1 for _ in opponents(self))

    def kept_options(self):
        """Returns the options that a later start must have too."""
        own = ["--gauntlet"] * self.is_gauntlet + ([] if self.seed is None else [f"--random={self.seed}"])
        return own + without_date(self.options)

    def changeable_options(self):
        """Returns the options of the CHANGEABLE kinds."""
        return [f"--faults={self.faults}"] + ([f"--sprt={self.sprt}"] if self.sprt else [])


@dataclass(frozen=True)
class Game:
    """A game of the list: its number, its round, and the names of its engines. The round is `N.1` or `N.2`: the first
    or the second game of a pair, from the opening N."""

    number: int
    round: str
    white: str
    black: str

    @property
    def opening(self):
        """The opening's index."""
        return int(self.round.partition(".")[0]) - 1


def show(text, stream=None):
    """Writes a line to standard error, or to another stream; a terminal that is gone is no reason to end."""
    try:
        print(text, file=stream or sys.stderr, flush=True)
    except OSError:
        pass


def report(text):
    """Writes a message to standard error, after the script's name."""
    show(f"{Path(needed.command()).name}: {text}")


def refuse(refusals):
    """Ends the script if anything was refused."""
    for refusal in refusals:
        report(refusal)
    if refusals:
        sys.exit(2)


# Judging


def judge_options(options, patience):
    """Returns why `arbiter match` refuses these options: it judges them before it starts an engine."""
    given = [option for option in options if option.split("=")[0] in GIVEN]
    if given:
        return [f"{given[0]}: the tournament itself sets {', '.join(GIVEN)}"]
    if "--" in options:
        return ["--: a second one"]
    reason = match_refusal([*patience.options(), *options])
    return [f"match options {shlex.join(options or patience.options())}: {reason}"] if reason else []


def match_refusal(options):
    """Returns why `arbiter match` refuses these options, or None."""
    nobody = "/dev/null/nobody"
    words = ["arbiter", "match", "--white", nobody, "--black", nobody, *options]
    run = subprocess.run(words, stdout=subprocess.DEVNULL, stderr=subprocess.PIPE, encoding="utf-8", errors="replace")
    if run.returncode == 1 and run.stderr.startswith("arbiter: can not start"):
        return None
    return run.stderr.split("\n\n")[0].replace("\n", " ").strip() or "they print help or the version"


def judge_levels(engines):
    """Returns why levels of engines are refused."""
    given = [engine for engine in engines if engine.level]
    reasons = [(engine, match_refusal([f"--white-level={engine.level}"])) for engine in given]
    return [f"{engine.source}: level='{engine.level}': {reason}" for engine, reason in reasons if reason]


def option_value(options, name, default):
    """Returns the value of an option of the match, given as `--NAME VALUE` or `--NAME=VALUE`."""
    found = re.findall(rf"^--{name}[=\n](.*)$", "\n".join(options), re.MULTILINE)
    return found[-1] if found else default


def without_date(options):
    """Returns the options without --date: each start may have another one."""
    kept, words = [], iter(options)
    for word in words:
        if word == "--date":
            next(words, None)
        elif not word.startswith("--date="):
            kept.append(word)
    return kept


def long_game_seconds(levels):
    """Returns the seconds that a game of LONG_GAME moves can take between two engines that play at these levels."""
    longest = sorted(map(side_seconds, levels))[-2:]
    return sum(longest) if len(longest) == 2 else 2 * longest[0]


def side_seconds(level):
    """Returns the seconds that a side can take for LONG_GAME moves at a level."""
    moves, base, increment = level.split()
    minutes, _, seconds = base.partition(":")
    controls = -(-LONG_GAME // int(moves)) if int(moves) else 1
    return controls * (Decimal(minutes) * 60 + Decimal(seconds or 0)) + LONG_GAME * Decimal(increment)


def judged_timeout(timeout, levels):
    """Returns the seconds after which a game is ended: the given ones, with a warning if they end games that are within
    their time, or twice as many as a long game takes and some."""
    needs = long_game_seconds(levels)
    if timeout and timeout < needs:
        label = " or ".join(f"'{level}'" for level in dict.fromkeys(levels))
        takes = f"the {needs:.0f} seconds that a game of {LONG_GAME} moves can take at level {label}"
        report(f"warning: --timeout {timeout} is less than {takes}; a game that it ends counts for nobody")
    return timeout or math.ceil(2 * needs) + MORE_SECONDS


def judge_sprt(lists, engines_path):
    """Refuses a test of more than two engines."""
    if lists.sprt and len(lists.engines) > 2:
        refuse([f"{engines_path}: --sprt takes two engines, not {len(lists.engines)}"])


def read_lists(folder, arguments, options, patience):
    """Reads and judges all lists. Openings are drawn for at least as many rounds as the folder has."""
    engines, refusals, warnings = read_engines(arguments.engines, bool(arguments.hosts))
    wrong_options = judge_options(options, patience)
    refusals += judge_levels(engines)
    variant = "normal" if wrong_options else option_value(options, "variant", "normal")
    openings, moves, wrong_openings = tournament_openings.read(arguments.openings, variant, arguments.plies)
    refuse(refusals + wrong_options + wrong_openings)
    different = len(set(openings))
    if different < len(openings):
        warnings.append(f"{arguments.openings}: of {len(openings)} openings {different} are different")
    for warning in warnings:
        report(f"warning: {warning}")
    lists = Lists(engines, openings, options, arguments.gauntlet, arguments.faults, patience, moves=moves)
    lists.games, lists.seed, lists.sprt = arguments.games, arguments.random, arguments.sprt
    rounds = math.ceil(lists.games / lists.games_of_round()) if lists.games else len(openings)
    lists.openings = tournament_openings.drawn(openings, max(rounds, kept_rounds(folder, lists)), lists.seed)
    return lists


def kept_rounds(folder, lists):
    """Returns for how many rounds a folder has openings; 0 if the number of games is not limited, and thus no opening
    is played again."""
    return len(lines(folder / "openings.txt")) if lists.games else 0


# The lists that a folder keeps


def lines(path):
    """Returns the lines of a file; none if there is no such file."""
    return path.read_text(encoding="utf-8").splitlines() if path.exists() else []


def kept_games(folder):
    """Returns the games of a folder's list."""
    games = (line.split("\t") for line in lines(folder / "games.tsv")[1:])
    return [Game(int(words[0]), *words[1:]) for words in games]


def kept_options(folder):
    """Returns the options that a folder keeps and that a later start must have too."""
    return [option for option in lines(folder / "options.txt") if not option.startswith(CHANGEABLE)]


def kept_value(folder, name):
    """Returns the value of an option that a folder keeps, or None."""
    found = [option.removeprefix(name) for option in lines(folder / "options.txt") if option.startswith(name)]
    return found[0] if found else None


def kept_levels(folder):
    """Returns the level of each engine of a folder, by name."""
    common = option_value(kept_options(folder), "level", DEFAULT_LEVEL)
    engines = zip(lines(folder / "names.txt"), lines(folder / "engines.txt"))
    return {name: kept_level(line) or common for name, line in engines}


def kept_faults(folder):
    """Returns how a folder's table counts faults."""
    return kept_value(folder, "--faults=") or "loss"


def kept_sprt(folder):
    """Returns the test of a folder's tournament, or None."""
    value = kept_value(folder, "--sprt=")
    return Sprt(*map(float, value.split())) if value else None


def judge_folder(folder):
    """Refuses a folder that is no tournament's."""
    if (folder / "games.tsv").exists() or not folder.is_dir() or not any(folder.iterdir()):
        return
    if (folder / "matches.tsv").exists():
        refuse([f"{folder} was begun by arbiter 0.1.0 as a list of matches: finish it with that, or use another one"])
    refuse([f"{folder} has other files, and no tournament: use another folder"])


def differing(folder, name, source, new):
    """Returns a refusal if the folder's list is not the beginning of the new one."""
    for number, line in enumerate(lines(folder / name), 1):
        if number > len(new) or line != new[number - 1]:
            return [f"{folder} was begun with other {name[:-4]} than {source}: see line {number} of {folder / name}"]
    return []


def judge_kept(folder, lists, engines_path, openings_path):
    """Refuses lists and options with which this folder was not begun."""
    refusals = differing(folder, "engines.txt", engines_path, [engine.line for engine in lists.engines])
    refusals += differing(folder, "openings.txt", openings_path, lists.openings)
    games, options = kept_games(folder), kept_options(folder)
    if lists.games and len(games) > lists.games:
        refusals.append(f"{folder} was begun with more games, {len(games)}: --games may only grow")
    if (folder / "options.txt").exists() and options != lists.kept_options():
        refusals.append(f"{folder} was begun with other options: {shlex.join(options) or 'none'}")
    refuse(refusals)


def opponents(lists):
    """Yields the two engines of each pair that plays."""
    for i, first in enumerate(lists.engines[: 1 if lists.is_gauntlet else None]):
        for second in lists.engines[i + 1 :]:
            yield first, second


def pairs(lists):
    """Yields the round and the names of White and Black for each game: each pair plays an opening twice, with colours
    changed."""
    for number in range(1, len(lists.openings) + 1):
        for first, second in opponents(lists):
            yield f"{number}.1", first.name, second.name
            yield f"{number}.2", second.name, first.name


def all_games(folder, lists):
    """Returns the folder's games, and after them those that it does not have yet, up to the number of the lists."""
    games = kept_games(folder)
    known = {(game.round, game.white, game.black) for game in games}
    for new in pairs(lists):
        if new not in known:
            games.append(Game(len(games) + 1, *new))
    return games[: lists.games]


def write_lines(path, content):
    """Replaces a file as a whole, so that whoever reads it finds the old or the new one."""
    new = path.with_name(f".{path.name}")
    new.write_text("".join(f"{line}\n" for line in content), encoding="utf-8")
    new.replace(path)


def keep(folder, lists, games):
    """Keeps the lists in the folder. The list of the games, by which the folder is known, is written in full when all
    that it names is there."""
    for name in ("games", "running"):
        (folder / name).mkdir(parents=True, exist_ok=True)
    if not (folder / "games.tsv").exists():
        write_lines(folder / "games.tsv", [GAMES_HEAD])
    write_lines(folder / "names.txt", [engine.name for engine in lists.engines])
    write_lines(folder / "engines.txt", [engine.line for engine in lists.engines])
    for number, engine in enumerate(lists.engines, 1):
        if engine.is_uci:
            write_lines(folder / f"engine{number}.ini", engine.ini().splitlines())
    write_lines(folder / "openings.txt", lists.openings)
    write_lines(folder / "openings.pgn", [f"{lists.moves[fen]}\n" for fen in lists.openings])
    write_lines(folder / "options.txt", [*lists.changeable_options(), *lists.kept_options()])
    rows = [f"{game.number}\t{game.round}\t{game.white}\t{game.black}" for game in games]
    write_lines(folder / "games.tsv", [GAMES_HEAD, *rows])


# Names


def kept_names(folder):
    """Returns the names of a folder's engines, in their order."""
    return lines(folder / "names.txt")


def name_engines(folder, engines, own_names):
    """Gives each engine its name: the kept one, the one of its line, or what it calls itself. Names that occur before
    get a number, with a warning, and so do those by which an engine calls itself that another one's line gives it."""
    kept, taken = kept_names(folder), []
    given = [engine.given for engine in engines[len(kept) :] if engine.given]
    for number, engine in enumerate(engines):
        if number < len(kept):
            engine.name = kept[number]
        else:
            wanted = engine.given or (own_names[engine.script] or engine.command)[:MOST_NAME]
            engine.name = free_name(wanted, taken if engine.given else taken + given)
            if engine.name != wanted:
                report(f"warning: {engine.source}: another engine is named '{wanted}': this one is '{engine.name}'")
        taken.append(engine.name)


def free_name(wanted, taken):
    """Returns a name, with a number if others have it: `Rook`, `Rook #2`."""
    name, number = wanted, 1
    while name in taken:
        number += 1
        name = f"{wanted} #{number}"
    return name
