"""Plays the games of a tournament on one or several hosts, and tries its engines. tools/tournament uses it.

A host plays a game by tools/lib/play_game, here as a process of this script, elsewhere by ssh.
"""

import threading
import time
from concurrent.futures import ThreadPoolExecutor
from pathlib import Path

import match_records
from boards import INITIAL
from hosts import END_SECONDS, READY_SECONDS, STOP, Jobs, Run, captured, read_hosts
from tournament_lists import Patience, refuse, report, show, without_date
from tournament_table import CRASHES, STATUS, TIMED_OUT, collect, read_game

LIB = Path(__file__).resolve().parent
TRIAL_WAITS = 10  # how many times as long as a reply a trial may take
EXTRA_SECONDS = 60  # for a host to end a game whose time is over
TICK = 0.2  # the seconds after which a signal, or a game's time, is noticed
MOST_TRIALS = 16
STUB = "exec arbiter stub"


# Hosts


def ready_hosts(label, programs):
    """Returns the hosts of a list that can play; the others are left out, with a line each."""
    hosts = read_hosts(label)
    with ThreadPoolExecutor(len(hosts)) as pool:
        troubles = list(pool.map(lambda host: host.trouble(["arbiter", *programs]), hosts))
    for host, trouble in zip(hosts, troubles):
        if trouble:
            report(f"host {host.label} is left out: {trouble}")
    return [host for host, trouble in zip(hosts, troubles) if not trouble]


# Trials


class Trial:
    """What a short game against a stub that resigns showed of an engine: the name that the engine gives itself, why it
    can't play, and what to warn of; each may be an empty text. It had so many seconds for each reply."""

    def __init__(self, engine, seat, errors, seconds):
        """Judges a trial by what play_game wrote to standard error (`errors`). The engine had the seat `first` or
        `second`."""
        self.name = self.fault = self.warning = ""
        logged, statuses = match_records.logged_games(errors), STATUS.findall(errors)
        if not logged or not statuses:
            self.fault = f"its trial was not played: {last_words(errors) or 'no answer'}"
            return
        game, status, found = logged[0], int(statuses[-1]), match_records.fault(errors)
        self.name = game.own_name(seat)
        self.unknown = engine.unknown_settings(game.features(seat))
        if status == 1 and found and match_records.is_no_answer(found[1]):
            self.fault = no_answer(engine, game.awaited(seat), seconds)
        elif status == 1 and found:
            self.fault = failure(game, seat, found[1])
        elif status == TIMED_OUT:
            self.fault = f"its trial was not over within {TRIAL_WAITS * seconds} seconds"
        elif status != 0:
            self.fault = f"its trial ended with status {status}: {last_words(errors)}"
        elif game.killed:
            self.warning = f"did not end within {seconds} seconds after quit"


def last_words(errors):
    """Returns why no game was played, as far as standard error says it: the last line of the match, or else the last
    one that isn't of the log, nor of an engine."""
    others = (match_records.parts_of_line(line) for line in errors.split("\n"))
    said = [text for text, logged in others if text and not logged and not match_records.is_of_engine(text)]
    own = [text for text in said if text.startswith("arbiter: ")]
    return (own or [text for text in said if not STATUS.fullmatch(text)] or said or [""])[-1]


def why_not_played(folder, game):
    """Returns why a game was not played, and where its log is kept: with those of other such games."""
    log = folder / "running" / f"{game.number}.err"
    kept = folder / "failed" / log.name
    reason = last_words(read_game(folder, game)[1]) or "its end was not reported"
    kept.parent.mkdir(exist_ok=True)
    log.replace(kept)
    return reason, f"failed/{log.name}"


def failure(game, seat, words):
    """Returns the words of a fault that ended a trial, with how the engine's process ended."""
    what = words.partition(" ")[2]
    if what not in CRASHES:
        return what
    ended = [game.ended[seat]] if seat in game.ended else []
    return ": ".join([", ".join([what, *ended]), *match_records.cause(game.wrote[seat], 1)])


def no_answer(engine, asked, seconds):
    """Returns the words for an engine that did not answer in its trial."""
    words = f"no answer to '{asked.text}' within {seconds} seconds"
    if not match_records.is_handshake(asked):
        return words
    if engine.is_uci:
        return f"{words}; {engine.program} may be no UCI engine"
    how = f"before the command of a UCI engine write uci: uci {engine.command}"
    return f"{words}; {how}; {match_records.NO_HANDSHAKE}"


def try_engine(host, engine, opening, options, seconds):
    """Plays an engine's trial on a host. The stub is to move first, and resigns."""
    pair = [STUB, engine.script] if opening.split()[1] == "w" else [engine.script, STUB]
    number = pair.index(engine.script)
    seat = match_records.SEATS[number]
    levels = level_options(*["", engine.level] if number else [engine.level, ""])
    options = [*Patience(flag=False, reply=seconds).options(), *options, *levels]
    words = game_words(host, TRIAL_WAITS * seconds, pair, opening, options)
    errors = "" if STOP.at else captured(words, TRIAL_WAITS * seconds + READY_SECONDS)[1]
    return Trial(engine, seat, errors, seconds)


def level_options(white, black):
    """Returns the options of the match for the levels of White's and Black's engine; the texts may be empty."""
    given = {"--white-level": white, "--black-level": black}
    return [f"{name}={level}" for name, level in given.items() if level]


def game_words(host, seconds, pair, opening, options):
    """Returns the command that plays a game on a host."""
    play_game, watch_engine = (LIB / "play_game").read_text(), (LIB.parent / "watch_engine").read_text()
    script = ["bash", "-c", play_game, "tournament"]
    return host.command([*script, str(seconds), watch_engine, *pair, "--fen", opening, *options])


def trials_of(hosts, lists, seconds):
    """Returns each engine's trials by host. The opening is one that an engine must be sent by `setboard`, if there is
    one."""
    engines = {engine.script: engine for engine in lists.engines}.values()
    opening = next((fen for fen in lists.openings if fen != INITIAL), lists.openings[0])
    with ThreadPoolExecutor(min(MOST_TRIALS, sum(host.slots for host in hosts))) as pool:
        asked = [
            (engine, {host: pool.submit(try_engine, host, engine, opening, lists.options, seconds) for host in hosts})
            for engine in engines
        ]
    return [(engine, {host: trial.result() for host, trial in trials.items()}) for engine, trials in asked]


def try_engines(hosts, lists, seconds):
    """Tries each engine on each host. An engine that plays nowhere is refused; a host on which an engine does not play
    that plays elsewhere is left out. Returns the other hosts, and by script what the engines call themselves."""
    refusals, names, left_out = [], {}, {}
    tried = trials_of(hosts, lists, seconds)
    if STOP.at:
        return [], {}
    for engine, trials in tried:
        label = engine.given or engine.command
        good = [trial for trial in trials.values() if not trial.fault]
        if not good:
            refusals.append(f"{engine.source}: {label}: {trials[hosts[0]].fault}")
            continue
        names[engine.script] = good[0].name
        unknown = [f"doesn't announce {', '.join(good[0].unknown)}"] if good[0].unknown else []
        for warning in filter(None, [good[0].warning, *unknown]):
            report(f"warning: {engine.source}: {label} {warning}")
        left_out |= {host: f"{label}: {trial.fault}" for host, trial in trials.items() if trial.fault}
    refuse(refusals)
    for host, why in left_out.items():
        report(f"host {host.label} is left out: {why}")
    return [host for host in hosts if host not in left_out], names


# Games


class Player(Jobs):
    """Plays games on hosts. A game whose host fails is played again, at most `most_tries` times. A host that can't play
    any more is given up, and so is one on which `most_tries` games in a row were not played, if there is another one.
    Once the test of the tournament accepts a hypothesis, no game begins and the running ones are called off. Those that
    were over all the same are kept; if the test accepts nothing with them any more, games are played again."""

    def __init__(self, book, lists, hosts, timeout, most_tries, date):
        """`book` takes the outcomes; `timeout` is the most seconds that a game may take; `date` is for the games'
        tags."""
        super().__init__(hosts)
        self.book, self.folder, self.lists = book, book.folder, lists
        self.timeout, self.most_tries, self.date = timeout, most_tries, date
        self.runs, self.suspects = {}, set()  # of the running games; hosts that are to be asked whether they can play
        self.asking = {host: threading.Lock() for host in hosts}

    def play(self, games):
        """Plays these games, until all are played, a test is decided, no host is left, or a signal ends the script."""
        self.waiting.extend(games)
        self.start()
        with self.changed:
            while self.serving:
                self.changed.wait(TICK)
                self.end_late()
        for host in self.given_up:
            report(f"host {host.label} was given up after {host.done} games: {host.fault}")

    def end_late(self):
        """Ends the games whose host did not end them, and all once the script was stopped."""
        now = time.monotonic()
        for run in self.runs.values():
            late = now - min(run.deadline, STOP.at or run.deadline)
            if late > 0:
                run.ask_to_end()
            if late > END_SECONDS:
                run.kill()

    def work(self, host):
        """Plays games on a host, one after another; ends the script if a file can't be written."""
        try:
            super().work(host)
        except OSError as fault:
            report(f"{fault.filename or self.folder} can't be written: {fault.strerror}")
            STOP.now()

    def may_come(self):
        """Says whether there may be a game to play: also while others run, since one may have to be played again."""
        return self.running or (self.waiting and not self.book.accepted)

    def suits(self, host, game):
        """Says whether a host should play a game now: not if the test is decided, or if it is not known whether the
        host can play."""
        is_wanted = not self.book.accepted and host not in self.suspects
        return is_wanted and super().suits(host, game)

    def take(self, host):
        """Takes a game, and starts it, so that it can be called off."""
        with self.changed:
            game = super().take(host)
            if game:
                self.runs[game] = self.started(host, game)
            return game

    def started(self, host, game):
        """Starts a game on a host, with its records in running/; returns its process."""
        engines = {engine.name: engine for engine in self.lists.engines}
        pair = [engines[name] for name in (game.white, game.black)]
        options = [*self.lists.patience.options(), *without_date(self.lists.options), "--date", self.date]
        options += level_options(*(engine.level for engine in pair))
        scripts = [engine.script for engine in pair]
        words = game_words(host, self.timeout, scripts, self.lists.openings[game.opening], options)
        path = self.folder / "running" / str(game.number)
        with open(path, "wb") as output, open(path.with_name(f"{path.name}.err"), "wb") as errors:
            run = Run(words, output, errors)
        run.is_called_off, run.deadline = False, time.monotonic() + self.timeout + EXTRA_SECONDS
        return run

    def do(self, host, game):
        """Waits for the end of a game, and keeps it; if it was not played, its host is asked whether it can play."""
        run = self.runs[game]
        run.wait()
        outcome = collect(self.folder, game, self.date)
        with self.changed:
            del self.running[game], self.runs[game]
            if outcome:
                self.keep(host, game, outcome)
            elif run.is_called_off:
                self.waiting.appendleft(game)
            elif not STOP.at:
                self.put_back(host, game)
            self.changed.notify_all()
        if not outcome and not STOP.at and not run.is_called_off:
            self.ask_again(host)

    def keep(self, host, game, outcome):
        """Keeps a game's outcome. If it decides the test, the running games are called off."""
        host.done += 1
        host.failed.clear()
        self.book.add(outcome)
        show(self.book.line(outcome))
        for run in self.runs.values() if self.book.accepted else ():
            run.is_called_off, run.deadline = True, time.monotonic()

    def put_back(self, host, game):
        """Lets a game that was not played wait again, unless it was tried often enough."""
        self.count_failure(host, game)
        host.failed.add(game)
        self.suspects.add(host)
        reason, log = why_not_played(self.folder, game)
        again = self.tries[game] < self.most_tries
        if again:
            self.waiting.appendleft(game)
        where = "" if host.is_here else f" on {host.label}"
        report(f"game {game.number}{where} was not played{', and is played again' if again else ''}: {reason} ({log})")

    def ask_again(self, host):
        """Gives a host up if it can't play any more, with the games that it is playing."""
        with self.asking[host]:
            fault = host.fault or (None if host.is_here else host.trouble(["arbiter", *self.lists.programs()]))
        with self.changed:
            self.suspects.discard(host)
            if len(host.failed) >= self.most_tries and len(self.hosts) > 1:
                fault = fault or f"{len(host.failed)} games in a row were not played"
            if fault and not host.fault:
                self.give_up(host, fault)
                report(f"host {host.label} is given up: {fault}")
                for game, run in self.runs.items():
                    if self.running[game] is host:
                        run.kill()
            self.changed.notify_all()
