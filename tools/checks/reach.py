"""Counts, from the sources, which definitions of specs/ the contract of a function reaches; tools/checks/reach prints it.

What is at the top of specs/ is to be reached by the contract of a function that a user of the crates can call and that is no
law, but for crates of laws (NAME_laws); what is in specs/laws/, specs/shared/ or specs/ties/ is not. A function reaches the
definitions that its clauses name, those by which contracts see its arguments, and what these name in turn. A definition's lines
are counted without comments, imports and empty lines. Names are resolved by the imports of their file; no prover is asked."""

import copy
import re

from declared import Types
from sources import HEAD, TOP, Name, Places, Sources, Specs, imports_of, read, reading_order, used_crates, without_comment
from toolchain import Toolchain, guides

# The functions that have a row in the table of docs/claims/README.md.
HEADLINES = [
    "run_program", "run_session", "run_match", "read_words",
    "read_pgn", "write_pgn", "read_move", "san", "move_text", "read_fen", "read_fen_as", "write_fen",
    "Session::answer", "Lines::next", "read_command", "read_engine_line",
    "Game::play", "Game::take_back", "Game::declare", "Game::verdict", "Game::claims", "Game::repetitions",
    "Position::new", "Position::is_legal", "Position::after", "Position::attacked",
    "Board::legal_moves", "Board::make", "Board::take_back", "make_then_take_back",
    "put", "Input::read", "Output::write",
]

# What is believed of plain arguments: the law says what they are read as, so a reader need not know what `IsReading` means.
PLAIN, CLOSED = ["run_program", "plain_arguments_are_followed"], "IsReading"

# The crates of the toolchain that together are std.
STD = {"core", "std", "std_alloc", "std_collections", "std_io"}

ROOMS = {
    "program": "reached by the contract of run_program",
    "calls": "not by that, but by the contract of another function that a user of the crates can call",
    "laws": "only by laws",
    "ties": "only by contracts within a crate",
    "proofs": "named only in proofs",
    "nothing": "named by nothing",
}


class Reach:
    """What contracts reach, by the sources of this repository and of the toolchain, if one is on the path. The
    definitions in `closed` are left out, with what only they reach."""

    def __init__(self):
        """Reads all sources."""
        self.specs = Specs()
        self.sources = Sources()
        self.order = reading_order(read("tools/checks/reading_order.txt"))
        self.types = Types(TOP / "crates", used_crates(), self.sources.models)
        self.toolchain = Toolchain(guides()) if guides() else None
        self.closed = frozenset()

    def closing(self, name):
        """The same, without the definitions of that name and what only these reach."""
        other = copy.copy(self)
        other.closed = frozenset(key for key in self.specs.definitions if key.name == name)
        return other

    def functions(self, name):
        """The public functions of that name; of methods the ones of the type itself."""
        found = [f for f in self.sources.functions if self.sources.is_public(f) and f.clauses and name in (f.full_name, f.name)]
        exact = [f for f in found if f.full_name == name]
        return exact or found

    def of(self, functions):
        """The definitions that the contracts of these functions reach."""
        roots = set()
        for f in functions:
            roots |= self.sources.names_in(self.specs, f)
        return self.specs.reached(roots, self.closed)

    def places(self, functions):
        """The (crate, module, name) of all that the contracts of functions, and the definitions that they reach, name."""
        found = set().union(*(self.sources.names_in(Places(), f) for f in functions))
        return found.union(*(self.specs.places(key) for key in self.of(functions)))

    def types_of(self, functions):
        """The types and constants of the code that these and the functions' signatures name, and that such types contain."""
        roots = {self.types.find(*place) for place in self.places(functions)} - {None}
        for f in functions:
            roots |= self.types.in_text(f.crate, f.path.partition("/src/")[2].removesuffix(".rt"), f.signature)
        return self.types.reached(roots)

    def besides(self, functions):
        """What is to be believed besides the definitions: rows of what it is, how many, and how many lines."""
        rows = [("types and constants of the code", *self.types.count(self.types_of(functions)))]
        if self.toolchain:
            definitions, types = self.toolchain.beneath(self.places(functions))
            crates = sorted({key.crate for key in definitions} - STD)
            for name, keys in [*((crate, {crate}) for crate in crates), ("std", STD)]:
                found = [key for key in definitions if key.crate in keys]
                rows.append((f"definitions of the toolchain's {name}", *self.toolchain.count(found)[:2]))
            rows.append(("types and constants of the toolchain", *self.toolchain.types.count(types)))
        return [row for row in rows if row[1]]

    def by_file(self, keys):
        """The names of these definitions by their files, and the files in reading order; those that the order doesn't
        list come last."""
        files = {}
        for key in keys:
            files.setdefault(key.path, []).append(key.name)
        place = {path: i for i, path in enumerate(self.order)}
        return sorted(files.items(), key=lambda item: place.get(item[0], len(place)))

    # ---- rooms

    def rooms(self):
        """Each definition's room: the first that fits."""
        s = self.sources
        public = [f for f in s.functions if s.is_public(f)]
        program = self.of([f for f in public if f.name == "run_program"])
        calls = self.of([f for f in public if not s.is_law(f)])
        for path, text in s.promised:
            calls |= self.specs.reached(self.specs.resolve(text, *s.imports[path]))
        laws = self.of([f for f in public if s.is_law(f)])
        ties = self.specs.reached(self.named_in("src", ".rt", "ghost use "))
        proofs = self.specs.reached(self.named_in("proofs", ".antt", "use "))
        found = {}
        for key in self.specs.definitions:
            for room, keys in (("program", program), ("calls", calls), ("laws", laws), ("ties", ties), ("proofs", proofs)):
                if key in keys:
                    found[key] = room
                    break
            else:
                found[key] = "nothing"
        return found

    def misplaced(self):
        """For each file the definitions that are at the top of specs/ and serve no call, or that are below it and serve one. In
        a crate of laws those at the top serve laws."""
        found = {}
        for key, room in self.rooms().items():
            is_top = not key.module.startswith(("laws.", "shared.", "ties."))
            if is_top != (room in ("program", "calls") or room == "laws" and key.crate.endswith("_laws")):
                found.setdefault(key.path, []).append(f"{key.name} ({room})")
        return found

    def uncommented(self):
        """For each file the definitions that run_program reaches and that no comment is right above."""
        reached = self.of(self.functions("run_program"))
        found = {}
        for path in self.specs.files:
            crate, module = path.split("/")[1], path.split("/specs/")[1][: -len(".antt")].replace("/", ".")
            above = ""
            for line in read(path).split("\n"):
                head = HEAD.match(without_comment(line))
                if head and Name(crate, module, head.group(2)) in reached and not re.match(r"\s*--(\s|$)", above):
                    found.setdefault(path, []).append(head.group(2))
                above = line
        return found

    def named_in(self, folder, ending, prefix):
        """What the files of a folder name anywhere."""
        found = set()
        for path in sorted(TOP.glob(f"crates/*/{folder}/**/*{ending}")):
            lines = path.read_text(encoding="utf-8").split("\n")
            names, aliases = imports_of(lines, prefix)
            text = "\n".join(l for l in lines if not l.strip().startswith((prefix, "use ", "#[", "//", "--")))
            found |= self.specs.resolve(text, names, aliases)
        return found


def table(reach):
    """The table of docs/claims/README.md."""
    everything = reach.specs.count(reach.specs.definitions)
    rows = ["| theorem | definitions | lines | files |", "|---|---:|---:|---:|"]
    for name in HEADLINES:
        functions = reach.functions(name)
        if not functions:
            raise SystemExit(f"no public function with a contract is named {name}")
        d, l, f = reach.specs.count(reach.of(functions))
        rows.append(f"| `{name}` | {d} | {l} | {f} |")
    laws = reach.of([f for f in reach.sources.functions if reach.sources.is_law(f)])
    d, l, f = reach.specs.count(laws)
    rows.append(f"| all laws | {d} | {l} | {f} |")
    rows.append(f"| all that specs/ holds | {everything[0]} | {everything[1]} | {len(reach.specs.files)} |")
    rooms = reach.rooms()
    rows += ["", "Each definition is counted in the first of these rooms that it serves; `--rooms` lists them file by file:", ""]
    rows += ["| room | definitions | lines | which |", "|---|---:|---:|---|"]
    for room, meaning in ROOMS.items():
        keys = [k for k, r in rooms.items() if r == room]
        d, l, _ = reach.specs.count(keys)
        rows.append(f"| {room} | {d} | {l} | {meaning} |")
    return "\n".join(rows)


def table_besides(reach, version):
    """The table of docs/claims/README.md on what run_program's contract rests on in all, and on what for plain arguments."""
    columns = [believed(reach, ["run_program"]), believed(reach.closing(CLOSED), PLAIN)]
    head = [f"| with {version} | how many | lines | for plain arguments | lines |", "|---|---:|---:|---:|---:|"]
    rows = [" | ".join([what, *(f"{count} | {lines}" for count, lines in (c.get(what, (0, 0)) for c in columns))]) for what in columns[0]]
    return "\n".join(head + [f"| {row} |" for row in rows])


def believed(reach, names):
    """What the contracts of the functions with these names rest on, and how many and how many lines of it."""
    functions = [f for name in names for f in reach.functions(name)]
    besides = {what: (count, lines) for what, count, lines in reach.besides(functions)}
    return {"definitions of this repository": reach.specs.count(reach.of(functions))[:2], **besides}
