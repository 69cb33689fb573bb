"""The lemmas and definitions of the files .antt, found by their shape: which are used by what a check asks for, and
which have equal statements; and which public items of a crate no other crate names. No prover is asked.

A check asks for what is in Answers, Invariants and other files that name a function's goals, and for what the code
names: in clauses, and by the attribute `tactic`. From there uses are followed. A word counts as a use of what its file
imports or declares by that name, also where it is bound to something else; so something unused may be missed, but what
is found is unused."""

import re
from dataclasses import dataclass, field

from sources import TOP, Sources, imported_items

# A name as antt has it: `length-append`, `◌++◌`, `then-loop-to-test+else`.
NAME = r"[^\s(){}\[\],;.λ:]+"
BREAK = re.compile(r"[\s(){}\[\],;.]+")
# The head of a lemma or a definition, and an import.
HEAD = re.compile(
    r"^(?P<kind>(?:pub |unfoldable |abbrev |pattern )*)"
    rf"(?:(?P<what>record|data) (?P<of>{NAME})|(?P<name>{NAME})(?: \{{[^{{}}]*\}})* :(?: |$))"
)
USE = re.compile(
    r"^(?P<word>(?:pub |unfoldable |ghost )*use )(?P<path>[\w.+\-]+?)(?:\.\{(?P<names>.*)\}| as (?P<here>\S+))?;?$"
)
NOT_HEADS = ("use ", "mod ", "infix", "module ", "unfolding ", "--")
# So many lines has a lemma that is not to be proved again in another crate.
LONG = 5
CITED = re.compile(r"\bcrate::((?:proofs|specs)(?:::\w+)+)|\b(\w+)::((?:proofs|specs)(?:::\w+)+)")


@dataclass
class Item:
    """A lemma or a definition."""

    module: str  # such as `chess_base.proofs.Rays`
    name: str
    line: int
    is_pub: bool
    is_definition: bool
    is_documented: bool  # whether a comment is right above it
    lines: list = field(default_factory=list)
    bound: str = ""  # what the modules around it bind, as `(n : ℕ)`

    @property
    def key(self):
        """Its module and its name, by which it is found."""
        return self.module, self.name

    @property
    def statement(self):
        """What is right of its colon, up to the line where its proof begins."""
        text = self.lines[0].split(" :", 1)[1].strip()
        for line in self.lines[1:]:
            if not line.startswith(" ") or line.strip() == "where":
                break
            text += " " + line.strip()
        return f"{self.bound} {text}".strip()


class File:
    """A file .antt: its items, and what it imports."""

    def __init__(self, path, relative):
        """`relative` is its path from the top of the repository. `names` has for each imported name its module and its
        name there, `passed` those of them that are passed on (`pub use`), `aliases` the modules that have another name
        here, and `constructors` the item in which each field or constructor is."""
        self.relative = relative
        parts = relative.removesuffix(".antt").split("/")
        self.crate, self.module = parts[1], ".".join(parts[1:])
        self.names, self.aliases, self.passed, self.items = {}, {}, {}, []
        self.constructors = {}
        self.text = path.read_text(encoding="utf-8")
        self.read(self.text.split("\n"))

    def read(self, lines):
        """Reads the items and the imports. `around` has the blocks `module _ .. where` in which a line is, with their
        indentation and what they bind; `current` is the item to which further lines belong."""
        around, current, comment, opened = [], None, False, None
        for number, raw in enumerate(joined(lines), 1):
            line = re.sub(r"(^|\s)--(\s.*)?$", "", raw).rstrip()
            if not line:
                comment = raw.strip().startswith("--")
                continue
            indent = len(line) - len(line.lstrip())
            if opened:
                around.append((indent, opened))
                opened = None
            while around and indent < around[-1][0]:
                around.pop()
            text = line[around[-1][0] if around else 0 :]
            if m := re.match(r"^module _ (.*) where$", text):
                opened, current = m.group(1), None
            elif m := USE.match(text):
                self.import_line(m)
                current = None
            elif (m := HEAD.match(text)) and not text.startswith(NOT_HEADS) and not text.startswith(" "):
                name = m.group("of") or m.group("name")
                current = Item(self.module, name, number, "pub" in m.group("kind").split() or "pub record" in text,
                               bool(m.group("what")) or bool(m.group("kind").replace("pub ", "")), comment,
                               bound=" ".join(b for _, b in around))
                self.items.append(current)
                current.lines.append(text)
            elif current and not text.startswith(NOT_HEADS[:4]):
                current.lines.append(text)
                if (m := re.match(rf"^  (?:pub )?({NAME}) :", text)) and current.is_definition:
                    self.constructors.setdefault(m.group(1), current)
            comment = False

    def import_line(self, m):
        """Takes the names of an import, which USE has matched."""
        path = m.group("path").removeprefix("Rattle.")
        if m.group("names") is not None:
            for module, there, here in imported_items(path, m.group("names")):
                self.names[here] = (module, there)
                if "pub " in m.group("word"):
                    self.passed[here] = (module, there)
        elif m.group("here"):
            self.aliases[m.group("here")] = path


def joined(lines):
    """The lines, with a head `module _ .. where` of several lines joined on its first one. The others are left empty,
    so that the numbers of lines stay."""
    out, open_at = [], None
    for line in lines:
        if open_at is not None:
            out[open_at] += " " + line.strip()
            out.append("")
            if out[open_at].endswith(" where"):
                open_at = None
            continue
        out.append(line)
        if re.match(r"^\s*module _ ", line) and not line.rstrip().endswith(" where"):
            open_at = len(out) - 1
    return out


class Lemmas:
    """All files of proofs/ and specs/ of a checkout."""

    def __init__(self, top=TOP):
        """`files` has the files by module, `items` the items by their keys, and `inside` for each field or constructor
        the key of its record or data type."""
        self.top = top
        self.files = {}
        for path in sorted(top.glob("crates/*/proofs/**/*.antt")) + sorted(top.glob("crates/*/specs/**/*.antt")):
            file = File(path, path.relative_to(top).as_posix())
            self.files[file.module] = file
        self.items = {item.key: item for file in self.files.values() for item in file.items}
        self.inside = {
            (module, name): item.key for module, file in self.files.items() for name, item in file.constructors.items()
        }

    def place(self, module, name):
        """Where a name of a module is declared: in that module, or in the one from which it passes the name on."""
        for _ in range(9):
            file = self.files.get(module)
            if (module, name) in self.items or (module, name) in self.inside or not file or name not in file.passed:
                break
            module, name = file.passed[name]
        return module, name

    def find(self, module, name):
        """The key of the item that a module has by a name, or None."""
        place = self.place(module, name)
        return place if place in self.items else self.inside.get(place)

    def named(self, file, text):
        """The keys of the items that a text of a file names: by words, also those of operators (the parts of `◌++◌` are
        written apart), with the name of a module, and by `do`, which uses `◌>>=◌`."""
        found = set()
        words = {w for w in BREAK.split(text) if w}
        for word in words:
            found.add(self.find(*file.names[word]) if word in file.names else self.find(file.module, word))
        # An operator is written without the marks of its places.
        for here, there in file.names.items():
            if "◌" in here and all(part in words for part in here.split("◌") if part):
                found.add(self.find(*there))
        for item in file.items:
            if "◌" in item.name and all(part in words for part in item.name.split("◌") if part):
                found.add(item.key)
        for here, path in file.aliases.items():
            for name in re.findall(rf"(?<![\w.]){re.escape(here)}\.({NAME})", text):
                found.add(self.find(path, name))
        for path, name in re.findall(rf"\bRattle\.([\w.]+)\.({NAME})", text):
            found.add(self.find(path, name))
        if "do" in words:
            found.add(self.find(*file.names.get("◌>>=◌", (file.module, "◌>>=◌"))))
        return found - {None}

    def roots(self):
        """Yields the keys of what a check asks for: all items of files that answer goals of functions, and what the
        code names."""
        for file in self.files.values():
            if is_of_function(file):
                yield from (item.key for item in file.items)
        for path in sorted(self.top.glob("crates/*/src/**/*.rt")):
            yield from self.named_by_code(path)

    def named_by_code(self, path):
        """Yields the keys of what a file of src/ names, by a path such as `crate::proofs::M::x` or by an import; None
        for a name that isn't found."""
        text = path.read_text(encoding="utf-8")
        crate = path.relative_to(self.top).parts[1]
        for own, other, module in CITED.findall(text):
            parts = (f"{crate}::{own}" if own else f"{other}::{module}").split("::")
            yield self.find(".".join(parts[:-1]), parts[-1])
        for line in text.split("\n"):
            m = USE.match(line.strip())
            path = m.group("path").removeprefix("Rattle.") if m else ""
            for module, there, _ in imported_items(path, m.group("names")) if m and m.group("names") else ():
                yield self.find(module, there)

    def used(self):
        """All that the roots name, directly or not."""
        seen, left = set(), [key for key in self.roots() if key]
        while left:
            key = left.pop()
            if key not in seen:
                seen.add(key)
                left += self.named(self.files[key[0]], "\n".join(self.items[key].lines))
                left += self.named(self.files[key[0]], self.items[key].bound)
        return seen

    def unused(self):
        """The items that nothing uses."""
        used = self.used()
        return [item for item in self.items.values() if item.key not in used]

    def unexplained(self):
        """The lemmas for crates above that have no comment right above them."""
        for item in self.items.values():
            if ".proofs.shared." in item.module and item.is_pub and not item.is_definition and not item.is_documented:
                yield item

    def unnamed_files(self):
        """The files that no other file imports and no code names, but for the lists of modules."""
        named = {path for file in self.files.values() for path, _ in file.names.values()}
        named |= {path for file in self.files.values() for path in file.aliases.values()}
        for path in sorted(self.top.glob("crates/*/src/**/*.rt")):
            named |= {key[0] for key in self.named_by_code(path) if key}
        whole = "\n".join(file.text for file in self.files.values())
        for module, file in self.files.items():
            if file.items and module not in named and not is_of_function(file) and f"Rattle.{module}." not in whole:
                yield file.relative

    def equal_statements(self):
        """The groups of lemmas whose statements are equal but for the names of what they bind."""
        groups = {}
        for item in self.items.values():
            file = self.files[item.module]
            if not item.is_definition and not is_of_function(file):
                groups.setdefault(self.normal(file, item.statement), []).append(item)
        return [items for statement, items in groups.items() if statement and len(items) > 1]

    def copies(self, uses):
        """Pairs of lemmas with equal statements, of which one is to take the other's place: both are in one crate; or
        the first is shared, and the other's crate uses its crate; or each has LONG lines or more. A shorter private
        lemma may be proved again in another crate."""
        for items in self.equal_statements():
            for first in items:
                for other in items:
                    crate, above = first.module.split(".")[0], other.module.split(".")[0]
                    both_long = first.key < other.key and min(len(first.lines), len(other.lines)) >= LONG
                    is_shared = ".proofs.shared." in first.module and first.is_pub and crate in uses.get(above, ())
                    if first is not other and (crate == above and first.key < other.key or is_shared or both_long):
                        yield first, other

    def normal(self, file, statement):
        """A statement with full names for what is declared elsewhere, and numbers for what it binds; None if none of
        that is used, as in the type of a definition."""
        # `(a b : ℕ) → ..` as `(a : ℕ) (b : ℕ) ..`
        text = re.sub(
            rf"[({{]((?:{NAME} )+): ([^(){{}}]*)[)}}]( →)?",
            lambda m: " ".join(f"( {name} : {m.group(2)} )" for name in m.group(1).split()),
            statement,
        )
        bound = [name for group in re.findall(rf"[({{] ?((?:{NAME} )+): ", text) for name in group.split()]
        bound += [name for group in re.findall(r"λ ([^.]*)\.", text) for name in BREAK.split(group)]
        numbers = {}
        for name in bound:
            numbers.setdefault(name, f"#{len(numbers)}")
        tokens = re.findall(rf"[(){{}}\[\],;.]|λ|{NAME}|:", text)
        if all(tokens.count(name) == 1 for name in numbers):
            return None
        return " ".join(numbers.get(t) or self.full(file, t) for t in tokens)

    def full(self, file, word):
        """A word with the module that declares it; the word itself if none does."""
        if word in file.names:
            return ".".join(self.place(*file.names[word]))
        return f"{file.module}.{word}" if self.find(file.module, word) else word


def unnamed_exports(top=TOP):
    """The public items of each crate that no other crate's code names."""
    exports = Sources().exports
    words = {crate: set() for crate in exports}
    for path in sorted(top.glob("crates/*/src/**/*.rt")):
        code = re.sub(r"//.*", "", path.read_text(encoding="utf-8"))
        words[path.relative_to(top).parts[1]] |= set(re.findall(r"\w+", code))
    for crate, names in exports.items():
        others = set().union(*(found for other, found in words.items() if other != crate))
        yield from (f"{crate}::{name}" for name in sorted(names - others))


def is_of_function(file):
    """Whether a file answers a function's goals."""
    return bool(re.search(r"\.(?:Goals|Given)(?: as|\.\{)", file.text))
