"""The list of a tournament's engines: how each is started, and with which settings. tools/tournament uses it."""

import os
import re
import shlex
import shutil
from dataclasses import dataclass, field
from pathlib import Path

import needed
from list_files import entries

LIB = Path(__file__).resolve().parent
MOST_NAME = 60  # characters
# A word that is a setting, and the settings as messages list them.
SETTING = re.compile(r"(uci)|(name|dir|level|memory|cores)=(.*)|option\.([^=]+)(=.*)?")
SETTINGS = "name=, dir=, level=, memory=, cores=, option.NAME= and uci"
# The fields of an Engine for the settings with `=`, and which of these take numbers.
FIELDS = {"name": "given", "dir": "folder", "level": "level", "memory": "memory", "cores": "cores"}
NUMBERS = ("memory", "cores")
LIKE_A_SETTING = re.compile(r"[\w.]+=.*")
SPECIAL = re.compile(r"[;#\[\]=\\]")  # what has a backslash before it in polyglot's files
# The options of a UCI engine that polyglot sets, but doesn't announce.
SET_BY_POLYGLOT = ("Hash", "Threads", "Ponder", "SyzygyPath", "NalimovPath", "UCI_Chess960", "UCI_AnalyseMode")


@dataclass
class Engine:
    """An engine of the list: where its line is, the line, the words of its command, and its settings: the name given
    there, the folder in which it is started, its level of time, megabytes of memory, cores, options (their values begin
    with `=`, or are empty), and whether it speaks UCI. It gets a name later."""

    source: str
    line: str
    words: list
    given: str = ""
    folder: str = ""
    level: str = ""
    memory: str = ""
    cores: str = ""
    options: dict = field(default_factory=dict)
    is_uci: bool = False
    name: str = ""

    @property
    def command(self):
        """Its command, quoted as in a shell."""
        return shlex.join(self.words)

    @property
    def program(self):
        """The program, as named in the folder where the tournament is started: a relative path in the command begins at
        the engine's own folder (`dir=`), and a name without a slash is looked for on the path."""
        return os.path.join(self.folder, self.words[0]) if "/" in self.words[0] else self.words[0]

    def programs(self):
        """Returns the programs that a host must have."""
        return [self.program, "polyglot"] if self.is_uci else [self.program]

    def lines(self):
        """Returns the lines that it is sent before its game, in the order of CECP."""
        options = [] if self.is_uci else [f"option {name}{value}" for name, value in self.options.items()]
        memory = [f"memory {self.memory}"] if self.memory else []
        return [*options, *memory, *([f"cores {self.cores}"] if self.cores else [])]

    def ini(self):
        """Returns polyglot's file for an engine that speaks UCI; an empty text for others. The command is read there as
        by a shell."""
        if not self.is_uci:
            return ""
        options = [f"{escaped(name)} = {escaped(value[1:])}" for name, value in self.options.items()]
        return "\n".join(["[PolyGlot]", f"EngineCommand = {escaped(self.command)}", "[Engine]", *options, ""])

    @property
    def script(self):
        """The text of a bash script that starts the engine, and becomes its process."""
        lines, ini = "\n".join(self.lines()), self.ini()
        words = ["polyglot"] if ini else self.words
        if self.folder or lines or ini:
            start = (LIB / "start_engine").read_text(encoding="utf-8")
            words = ["bash", "-c", start, "start_engine", self.folder or ".", lines, ini, *words]
        return shlex.join(["exec", *words])

    def unknown_settings(self, features):
        """Returns the settings that an engine which sent these features doesn't announce."""
        unknown = [] if not self.memory or "memory=1" in features else ["memory"]
        unknown += [] if not self.cores or "smp=1" in features else ["cores"]
        hidden = SET_BY_POLYGLOT if self.is_uci else ()
        names = (name for name in self.options if name not in hidden)
        return unknown + [f"option.{name}" for name in names if f'option="{name} -' not in features]


def escaped(text):
    """Returns a text as polyglot's files have it."""
    return SPECIAL.sub(r"\\\g<0>", text)


def kept_level(line):
    """Returns the level of the engine of a line that was read before, maybe by an earlier version; empty if it has none
    of its own."""
    try:
        return read_engine("", line).level
    except Wrong:
        return ""


class Wrong(Exception):
    """Why a line of the list is refused."""


def read_engine(source, line):
    """Returns the engine of a line `NAME<tab>SETTINGS COMMAND`, of which name and settings may be missing."""
    name, _, text = ("", "", line.replace("\t", " ")) if LIKE_A_SETTING.match(line) else line.rpartition("\t")
    if not name.isprintable() or not text.isprintable():
        raise Wrong("more than one tab, or another control character; a line is NAME<tab>COMMAND or COMMAND")
    try:
        words = shlex.split(text)
    except ValueError:
        raise Wrong("a quote is not closed, or the line ends with a backslash") from None
    engine = Engine(source, line, words, name.strip())
    while engine.words and (setting := SETTING.fullmatch(engine.words[0])):
        add_setting(engine, *setting.groups())
        engine.words = engine.words[1:]
    judge(engine)
    return engine


def add_setting(engine, uci, key, value, option, option_value):
    """Gives an engine the setting that was read: `uci`, a key with its value, or an option."""
    if uci:
        engine.is_uci = True
    elif option:
        if option in engine.options:
            raise Wrong(f"option.{option} twice")
        engine.options[option] = option_value or ""
    else:
        if getattr(engine, FIELDS[key]):
            raise Wrong("two names" if key == "name" else f"{key}= twice")
        if not value or (key in NUMBERS and not re.fullmatch("[1-9][0-9]{0,8}", value)):
            raise Wrong(f"{key}= takes {'a number from 1 on' if key in NUMBERS else 'a text'}, not '{value}'")
        setattr(engine, FIELDS[key], value)


def judge(engine):
    """Refuses what can't be an engine."""
    if not engine.words or not engine.words[0]:
        raise Wrong("no command")
    if LIKE_A_SETTING.fullmatch(engine.words[0]) and not shutil.which(engine.program):
        raise Wrong(f"'{engine.words[0]}' is no setting: these are {SETTINGS}")
    if len(engine.given) > MOST_NAME:
        raise Wrong(f"a name of more than {MOST_NAME} characters")
    without = [name for name, value in engine.options.items() if not value]
    if engine.is_uci and without:
        raise Wrong(f"option.{without[0]} has no value")


def late_settings(engine):
    """Returns a warning of each argument of an engine that looks like a setting."""
    late = [word for word in engine.words[1:] if "=" in word and SETTING.fullmatch(word)]
    return [f"{engine.source}: {engine.words[0]} gets the argument '{word}': settings are before it" for word in late]


def missing(engine):
    """Returns what this machine lacks of an engine, or None."""
    if engine.folder and not Path(engine.folder).is_dir():
        return f"no folder {engine.folder}"
    lacking = [program for program in engine.programs() if not shutil.which(program)]
    return f"no program {lacking[0]} that can be run{needed.package_of(lacking[0])}" if lacking else None


def read_engines(path, with_hosts):
    """Returns the engines, why lines are refused, and warnings. Hosts are asked for their programs later; without them
    the programs are here."""
    engines, refusals, warnings, seen = [], [], [], {}
    for number, line in entries(needed.content(path, "utf-8-sig")):
        try:
            engine = read_engine(f"{path}:{number}", line)
        except Wrong as fault:
            refusals.append(f"{path}:{number}: {fault}")
            continue
        first = seen.setdefault((engine.given, engine.script, engine.level), number)
        if first != number:
            refusals.append(f"{engine.source}: the engine of line {first} again")
        elif not with_hosts and (lack := missing(engine)):
            refusals.append(f"{engine.source}: {lack}")
        warnings += late_settings(engine)
        engines.append(engine)
    if not refusals and len(engines) < 2:
        refusals.append(f"{path}: fewer than two engines")
    return engines, refusals, warnings
