"""The sources, as far as the documents speak of them: the definitions in specs/, the public functions with their clauses, and the
mutations in must-fail/ and tried-apart/. Found by their shape, as the formatter leaves it; no prover is asked."""

import re
from dataclasses import dataclass, field
from pathlib import Path

TOP = Path(__file__).resolve().parents[2]

WORD = r"[A-Za-z_]\w*'*"


# the names by which the documents call the crates
SHORT = {
    "devices": "byte_devices",
    "base": "chess_base",
    "base_laws": "chess_base_laws",
    "lines": "text_lines",
    "tokens": "pgn_tokens",
    "fen": "chess_fen",
    "fen_laws": "chess_fen_laws",
    "moves": "chess_moves",
    "bits": "chess_bits",
    "game": "chess_game",
    "text": "chess_text",
    "text_laws": "chess_text_laws",
    "writer": "pgn_writer",
    "pgn": "chess_pgn",
    "pgn_laws": "chess_pgn_laws",
    "pieces": "pgn_pieces",
    "verify_options": "verify_options",
    "verifier": "pgn_verifier",
    "verifier_laws": "pgn_verifier_laws",
    "cecp": "chess_cecp",
    "cecp_laws": "chess_cecp_laws",
    "engine": "cecp_engine",
    "match": "chess_match",
    "match_laws": "chess_match_laws",
    "grammar": "arbiter_grammar",
    "cli": "arbiter_cli",
    "runner": "match_runner",
    "stub": "stub_engine",
    "arbiter": "chess_arbiter",
    "laws": "arbiter_laws",
    "runner_laws": "match_runner_laws",
    "written_laws": "match_pgn_laws",
    "rules": "rules_laws",
    "devices_tests": "byte_devices_tests",
    "base_tests": "chess_base_tests",
    "lines_tests": "text_lines_tests",
    "fen_tests": "chess_fen_tests",
    "boards_tests": "boards_tests",
    "game_tests": "chess_game_tests",
    "rules_tests": "rules_laws_tests",
    "text_tests": "chess_text_tests",
    "pgn_tests": "chess_pgn_tests",
    "pieces_tests": "pgn_pieces_tests",
    "verifier_tests": "pgn_verifier_tests",
    "cecp_tests": "chess_cecp_tests",
    "engine_tests": "cecp_engine_tests",
    "cli_tests": "arbiter_cli_tests",
    "arbiter_tests": "chess_arbiter_tests",
    "match_tests": "chess_match_tests",
}


def short_name(crate):
    """The name by which the documents call a crate."""
    return next(short for short, whole in SHORT.items() if whole == crate)


@dataclass(frozen=True)
class Name:
    """A definition: the crate, the file in its specs/ and the definition's name."""

    crate: str
    module: str
    name: str

    @property
    def path(self):
        """Its file, from the top of the repository."""
        folders = self.module.split(".")
        return f"crates/{self.crate}/specs/{'/'.join(folders)}.antt"


@dataclass
class Definition:
    """A definition: its kind (`abbrev`, `unfoldable`, `record` or `data`), its lines without comments, and of a data
    type the names of its constructors."""

    key: Name
    kind: str
    line: int  # in its file, from 1 on
    body: list = field(default_factory=list)
    constructors: list = field(default_factory=list)

    @property
    def lines(self):
        """How many lines it has."""
        return len(self.body)


@dataclass
class Function:
    """A function with its contract. `owner` is the type or the trait that has it, if one does."""

    crate: str
    path: str
    line: int  # in its file, from 1 on
    owner: str
    name: str
    is_pub: bool
    signature: str
    clauses: list = field(default_factory=list)  # (requires or ensures, name or '', text)
    body_is_empty: bool = False
    gives: list = field(default_factory=list)  # what its impl promises by `ghost NAME = {TEXT};`: (name, TEXT)

    @property
    def full_name(self):
        """`OWNER::NAME`, or only the name if no type or trait has it."""
        return f"{self.owner}::{self.name}" if self.owner else self.name


def read(path):
    """The text of a file, given from the top of the repository."""
    return (TOP / path).read_text(encoding="utf-8")


def crates():
    """The names of the crates, in their order."""
    return sorted(p.parent.name for p in TOP.glob("crates/*/src"))


def used_crates(text=None):
    """The libraries that each crate names in crates.txt, or in another text of that form."""
    lines = [l.split("#")[0] for l in (read("crates.txt") if text is None else text).split("\n")]
    return {name.strip(): used.split() for name, _, used in (l.partition(":") for l in lines) if name.strip()}


def without_comment(line):
    """A line of a file .antt without its comment."""
    return re.sub(r"(^|\s)--(\s.*)?$", "", line).rstrip()


# ---- imports

def imported_names(text):
    """The names in braces, with the names that they have here: `a, b as c`."""
    for part in text.split(","):
        part = part.strip()
        if part:
            there, _, here = part.partition(" as ")
            yield there.strip(), (here or there).strip()


# An import, and one of several names in braces, which may be of several modules.
IMPORT = re.compile(r"(?:pub |unfoldable |ghost )*use ([^\s{]+?)(?:\.\{(.*)\}| as (\S+))?$")
GROUP = re.compile(r"^(\s*(?:pub |unfoldable |ghost )*use [^\s{}]+)\.\{([^{}]*)\}(;?)$", re.M)


def imported_items(path, text):
    """The names in braces after a path of antt, each with its module: `N.d` is of the module N below that path."""
    for there, here in imported_names(text):
        below, dot, name = there.rpartition(".")
        yield f"{path}.{below}" if dot else path, name, name if here == there else here


def by_module(text):
    """The text with a line for each module from which `use M.{N.d, ..}` brings names."""

    def lines(found):
        """The lines that take the place of one import."""
        names = {}
        for path, there, here in imported_items(found[1], found[2]):
            names.setdefault(path, []).append(there if here == there else f"{there} as {here}")
        return "\n".join(f"{path}.{{{', '.join(items)}}}{found[3]}" for path, items in names.items())

    return GROUP.sub(lambda found: lines(found) if "." in found[2] else found[0], text)


def place_of(path):
    """The crate and the module of a path `Rattle.CRATE.specs.MODULE`; of another one, without a crate, the path itself."""
    m = re.match(r"Rattle\.(\w+)\.specs\.(.*)$", path)
    return (m.group(1), m.group(2)) if m else ("", path)


# How the imports of a file of specs/ begin.
IMPORTS = ("use ", "pub use ", "unfoldable pub use ")


def imports_of(lines, prefix):
    """Local name to (crate, module, name), and local alias to (crate, module). Types of the code are in the modules
    `declared.FILE.TYPE`, their variants in `declared.FILE.TYPE.TheVariants`, and constants in `declared.FILE.TheConstants`."""
    names, aliases = {}, {}
    for line in lines:
        line = line.strip().rstrip(";")
        m = IMPORT.match(line) if line.startswith(prefix) else None
        if m and m.group(2) is not None:
            for path, there, here in imported_items(m.group(1), m.group(2)):
                names[here] = (*place_of(path), there)
        elif m and m.group(3):
            aliases[m.group(3)] = place_of(m.group(1))
    return names, aliases


def is_written(name, text):
    """Whether a text uses a name that is no word, such as `◌++◌` or `⊤`."""
    words = re.split(r"[\s(){}\[\],]+", text)
    return all(part in words for part in name.split("◌") if part)


def named(text, names, aliases, home=None, bound=frozenset()):
    """Yields the (crate, module, name) of each name in a text that is imported, by `names` and `aliases` of
    `imports_of`. With `home`, a (crate, module), each other word is taken as a name of that module. Names in `bound`,
    and those of fields in record literals, are left out."""
    for m in re.finditer(rf"(?<![\w.'])({WORD})(?:\.({WORD}))?", text):
        first, second = m.group(1), m.group(2)
        if first in bound or is_field(text, m.end(1)):
            continue
        if first in aliases and second:
            yield (*aliases[first], second)
        elif first in names:
            yield names[first]
        elif home:
            yield (*home, first)
    for here, there in names.items():
        if not re.fullmatch(WORD, here) and is_written(here, text):
            yield there


# ---- definitions

HEAD = re.compile(r"^(abbrev|unfoldable|record|data|pub record|pub data)(?: pub)? (\S+)")
# The head of what is proved, and so is no definition; what follows belongs to it.
LEMMA = re.compile(r"^(?:pub |unfolding .* )?[^\s(]+(?: \{[^{}]*\})? : ")


class Specs:
    """The definitions of files of specs/: of all of this repository, unless others are given."""

    def __init__(self, paths=None):
        """`definitions` has them by Name; `imports` the names and aliases of each (crate, module), as `imports_of`
        finds them; `constructors` the data type of each constructor; `infix` the definitions whose name is no word,
        such as `◌++◌`."""
        self.definitions = {}
        self.named_by = {}  # what `references` found
        self.files = []
        self.imports = {}
        self.constructors = {}
        self.infix = []
        for path in sorted(TOP.glob("crates/*/specs/**/*.antt")) if paths is None else paths:
            relative = path.relative_to(TOP).as_posix()
            crate = relative.split("/")[1]
            module = relative.split("/specs/")[1][: -len(".antt")].replace("/", ".")
            self.read_lines(relative, crate, module, read(relative).split("\n"))

    def read_lines(self, path, crate, module, lines):
        """Reads the definitions of a file. Those of a block `module _ .. where` are indented."""
        found = margin = 0
        current = None
        for number, raw in enumerate(lines, 1):
            line = without_comment(raw)
            if not line.strip():
                continue
            margin = min(margin, len(line) - len(line.lstrip()))
            line = line[margin:]
            if re.match(r"^module .* where$", line):
                margin, current = margin + 2, None
                continue
            m = HEAD.match(line)
            if m:
                key = Name(crate, module, m.group(2))
                current = Definition(key, m.group(1).replace("pub ", ""), number)
                self.definitions[key] = current
                if not re.fullmatch(WORD, key.name):
                    self.infix.append(key)
                found += 1
            elif re.match(r"^(use|infix\w*|pub mod|pub use|mod) ", line) or LEMMA.match(line):
                current = None
            if current:
                current.body.append(line)
                if current.kind == "data" and (c := re.match(rf"^  ({WORD}) :", line)):
                    current.constructors.append(c.group(1))
                    self.constructors[Name(crate, module, c.group(1))] = current.key
        if found:
            self.files.append(path)
        self.imports[(crate, module)] = imports_of(lines, IMPORTS)

    def find(self, crate, module, name):
        """The definition, or the data type whose constructor has that name."""
        key = Name(crate, module, name)
        return key if key in self.definitions else self.constructors.get(key)

    def resolve(self, text, names, aliases, home=None, bound=frozenset()):
        """The definitions that a text names."""
        found = {self.find(*place) for place in named(text, names, aliases, home, bound)}
        if home:
            found |= {k for k in self.infix if (k.crate, k.module) == home and is_written(k.name, text)}
        found.discard(None)
        return found

    def texts(self, key):
        """The parts of a definition (of a record or data type one, otherwise its type and each equation), each with the
        names that are bound in it."""
        definition = self.definitions[key]
        if definition.kind in ("record", "data"):
            bound = set(re.findall(rf"[({{]((?:{WORD} )+):", definition.body[0]))
            bound = {w for group in bound for w in group.split()}
            fields = [re.sub(rf"^  (pub )?{WORD} :", "  ", line) for line in definition.body[1:]]
            return [("\n".join([definition.body[0].split(" where")[0]] + fields), bound)]
        return [(equation, bound_in(equation, key.name)) for equation in equations(definition)]

    def references(self, key):
        """The definitions that a definition names."""
        if key not in self.named_by:
            self.named_by[key] = self.find_references(key)
        return self.named_by[key]

    def find_references(self, key):
        """Finds what `references` returns. A `do` names `◌>>=◌`."""
        names, aliases = self.imports[(key.crate, key.module)]
        found = set()
        for text, bound in self.texts(key):
            found |= self.resolve(text, names, aliases, (key.crate, key.module), bound)
        if "do" in re.findall(WORD, "\n".join(self.definitions[key].body)):
            found |= {k for k in self.infix if (k.crate, k.module) == (key.crate, key.module) and k.name == "◌>>=◌"}
            if "◌>>=◌" in names:
                found.add(self.find(*names["◌>>=◌"]))
        found.discard(key)
        found.discard(None)
        return found

    def places(self, key):
        """The (crate, module, name) of all that a definition names from elsewhere."""
        names, aliases = self.imports[(key.crate, key.module)]
        found = {place for text, bound in self.texts(key) for place in named(text, names, aliases, None, bound)}
        if "do" in re.findall(WORD, "\n".join(self.definitions[key].body)) and "◌>>=◌" in names:
            found.add(names["◌>>=◌"])
        return found

    def reached(self, roots, closed=frozenset()):
        """What these definitions reach, but for the closed ones and what only these reach."""
        seen, left = set(), list(roots)
        while left:
            key = left.pop()
            if key not in seen and key not in closed:
                seen.add(key)
                left += self.references(key)
        return seen

    def count(self, keys):
        """How many definitions, how many lines of them, and in how many files."""
        return len(keys), sum(self.definitions[k].lines for k in keys), len({k.path for k in keys})


class Places:
    """Takes the place of definitions where all that clauses name is looked for."""

    def resolve(self, text, names, aliases, home=None, bound=frozenset()):
        """The (crate, module, name) of all that a text names from elsewhere."""
        return set(named(text, names, aliases, None, bound))


def is_field(text, end):
    """Whether the name that ends at `end` is that of a field in a record literal: ` = ` follows, and not ` ==`."""
    return bool(re.match(r" = ", text[end:end + 3]))


def equations(definition):
    """The type, and each equation by itself: a line that begins at the margin, with what is indented below it."""
    parts = []
    for line in definition.body:
        if line.startswith(" ") and parts:
            parts[-1] += "\n" + line
        else:
            parts.append(line)
    return parts


def bound_in(equation, name):
    """The names that an equation binds, which are no definitions: those with a small first letter left of `=`, after λ,
    in binders and after `let`."""
    bound = set()
    m = re.match(r"^(.*?) =(\s|$)", equation.split("\n")[0] + " ")
    if m and not re.match(r"^(abbrev|unfoldable)", equation):
        for word in re.findall(WORD, m.group(1)):
            if word[0].islower() and word != name:
                bound.add(word)
    for group in re.findall(r"λ ([^.]*)\.", equation):
        bound |= set(re.findall(WORD, group))
    for group in re.findall(rf"\(((?:{WORD} )+):", equation):
        bound |= set(group.split())
    bound |= set(re.findall(rf"\blet ({WORD}) =", equation))
    return bound


# ---- functions

def contract_at(lines, i):
    """The signature and the clauses of the function that begins in line `i`, and the line in which its body begins, or
    in which it ends if it has none."""
    signature, clauses, kind, is_whole = [], [], None, True
    indent = len(lines[i]) - len(lines[i].lstrip())
    while True:
        line = lines[i]
        if m := re.match(r"^\s+(requires|ensures|decreases)\*?( \w+)? \{(.*)$", line):
            kind = m.group(1)
            clauses.append([kind, (m.group(2) or "").strip(), m.group(3)])
        elif kind and not line.strip().startswith("//") and (line.strip() not in ("{", "{}", "}") or not is_whole):
            clauses[-1][2] += "\n" + line
        elif not kind:
            signature.append(line)
        at_margin = len(line) - len(line.lstrip()) == indent
        # (a line of a record in a clause ends in `;` too)
        is_whole = not kind or clauses[-1][2].count("{") < clauses[-1][2].count("}")
        ends_here = line.rstrip().endswith(";") and (kind or ")" in line) and is_whole
        if at_margin and line.strip() in ("{", "{}"):
            break
        if not kind and line.rstrip().endswith(("{", "{}")) or ends_here:
            break
        i += 1
    return "\n".join(signature), [tuple(c) for c in clauses], i


class Sources:
    """All functions of a tree, and which of them a user of a crate can call."""

    def __init__(self):
        """By files, `imports` has their names and aliases. `models` has the text by which contracts see a type,
        `ghosts` those of a trait's ghost members, `members` the names of the ghost members that a type's impls define,
        and `exports` the names that each crate offers."""
        self.functions = []
        self.imports = {}
        self.models = {}
        self.ghosts = {}
        self.members = {}
        self.promised = []  # what impls of std's traits promise: the text of `{}`, and what conversions and iterators give
        self.exports = {}
        self.uses = used_crates()
        for crate in crates():
            for path in sorted((TOP / "crates" / crate / "src").glob("**/*.rt")):
                self.read_file(crate, path.relative_to(TOP).as_posix())
            self.exports[crate] = self.exported(crate)

    def read_file(self, crate, path):
        """Reads the functions of a file, and what its traits and impls declare by `ghost`. `owner` is the type or trait
        of the block in which a line is."""
        lines = read(path).split("\n")
        names, aliases = imports_of(lines, "ghost use ")
        self.imports[path] = (names, aliases)
        owner, model, is_trait, of_trait, gives = "", None, False, False, []
        i = 0
        while i < len(lines):
            line = lines[i]
            if m := re.match(r"^(?:pub(?:\(crate\))? )?trait (\w+)", line):
                owner, model, is_trait, of_trait = m.group(1), None, True, False
            elif m := re.match(r"^impl(?:<.*?>+)? (?:(.+?) for )?([\w:]+)", line):
                what = m.group(1)
                owner, is_trait, of_trait = m.group(2).split("::")[-1], False, bool(what)
                model, gives = owner if what == "Model" else None, []
            elif re.match(r"^\}", line):
                owner, model, is_trait, of_trait = "", None, False, False
            if model and (m := re.match(r"^\s+ghost Value = \{(.*)\};", line)):
                self.models[(crate, model)] = (path, m.group(1))
            if is_trait and (m := re.match(r"^\s+(?:pub )?ghost (\w+): \{(.*)\}", line)):
                self.ghosts.setdefault(owner, []).append((path, m.group(2)))
            if of_trait and (m := re.match(r"^\s+ghost (\w+) = ", line)):
                self.members.setdefault((crate, owner), set()).add(m.group(1))
            if of_trait and (m := re.match(r"^\s+ghost (output|\w+_gives) = \{(.*)\};", line)):
                self.promised.append((path, m.group(2)))
                gives.append((m.group(1), m.group(2)))
            if m := re.match(r"^\s*(pub )?(?:pub\(\w+\) )?(?:const )?fn (\w+)", line):
                is_pub = bool(m.group(1)) or is_trait or of_trait
                signature, clauses, last = contract_at(lines, i)
                f = Function(crate, path, i + 1, owner, m.group(2), is_pub, signature, clauses)
                f.body_is_empty, f.gives = lines[last].strip() == "{}", gives if of_trait else []
                self.functions.append(f)
                i = last
            i += 1

    def exported(self, crate):
        """The names that a crate offers: of `pub use`, and of `pub mod` with what that offers in turn."""
        names, left, seen = set(), [], set()
        for top in ("lib.rt", "main.rt"):
            if (TOP / "crates" / crate / "src" / top).exists():
                left.append(f"crates/{crate}/src/{top}")
        while left:
            path = left.pop()
            if path in seen or not (TOP / path).exists():
                continue
            seen.add(path)
            text = read(path)
            for module in re.findall(r"^pub mod (\w+);", text, re.M):
                inner = f"crates/{crate}/src/{module}.rt"
                left.append(inner)
                if (TOP / inner).exists():
                    names |= set(re.findall(r"^pub (?:const )?(?:fn|struct|enum|trait|const|type) (\w+)", read(inner), re.M))
            for used in re.findall(r"^pub use ([^;]+);", text, re.M):
                inside = re.search(r"\{([^}]*)\}", used, re.S)
                words = inside.group(1) if inside else used.split("::")[-1]
                names |= {here for _, here in imported_names(words.replace("\n", " "))}
        return names

    def is_public(self, f):
        """Whether a user of its crate can call a function: it is public and no test, and the crate offers it, or its
        type."""
        if "tests" in f.path or f.crate.endswith("_tests"):
            return False
        return f.is_pub and (f.owner or f.name) in self.exports[f.crate]

    def is_law(self, f):
        """A public function of a file laws.rt, or of a crate of laws."""
        return self.is_public(f) and (f.path.endswith("/laws.rt") or f.crate.endswith("_laws"))

    def bound_in_clause(self, f, text):
        """The names that stand for values in a clause: parameters, and what the clause binds."""
        parameters = set(re.findall(r"(?:^|[(,\s])(?:mut )?([a-z_]\w*):", f.signature))
        bound = parameters | {w for g in re.findall(r"λ ([^.]*)\.", text) for w in re.findall(WORD, g)}
        bound |= {w for g in re.findall(rf"\(((?:{WORD} )+):", text) for w in g.split()}
        used = {w for w in bound if not re.search(rf"(?<![\w.']){re.escape(w)}\.(now|old|new|entry)", text)}
        return bound - (used & set(self.imports[f.path][0]) & parameters)

    def names_in(self, specs, f, wanted=None):
        """The definitions that a function's clauses name (if some are wanted, only those of its clauses `ensures` with
        these names count), and those by which contracts see its arguments."""
        names, aliases = self.imports[f.path]
        found = set()
        for kind, name, text in f.clauses:
            if wanted is None or kind != "ensures" or name in wanted:
                found |= specs.resolve(text, names, aliases, None, self.bound_in_clause(f, text))
        for word in set(re.findall(r"\w+", f.signature)) | {f.owner}:
            for (crate, model), (path, text) in self.models.items():
                if model == word and (crate == f.crate or crate in self.uses.get(f.crate, []) and model in self.exports[crate]):
                    found |= specs.resolve(text, *self.imports[path])
            for path, text in self.ghosts.get(word, []):
                found |= specs.resolve(text, *self.imports[path])
        return found


def mutations(folder="must-fail"):
    """The names of the mutations by crate: those that the gate tries, or those in tried-apart/."""
    found = {}
    for path in sorted(TOP.glob(f"crates/*/{folder}/*.edit")):
        found.setdefault(path.parent.parent.name, []).append(path.stem)
    return found


# ---- documents

def target_of(label):
    """The file, from the top of the repository, that a short link such as `base/Moves` or `base/position.rt` means;
    None if there is none."""
    crate, _, name = label.partition("/")
    crate = SHORT.get(crate)
    if not crate:
        return None
    if name.endswith(".rt"):
        found = sorted((TOP / "crates" / crate / "src").glob(f"**/{name}"), key=lambda p: len(p.parts))
    else:
        found = sorted((TOP / "crates" / crate / "specs").glob(f"**/{name}.antt"), key=lambda p: len(p.parts))
    return found[0].relative_to(TOP).as_posix() if found else None


def reading_order(text):
    """The files of specs/ as reading_order.txt lists them: `CRATE: FILE, FILE..` for each crate, indented by four spaces."""
    lists = re.findall(r"^    (\w+): ([\w/]+(?:,\s+[\w/]+)*)$", text, re.M)
    return [f"crates/{crate}/specs/{file}.antt" for crate, files in lists for file in re.split(r",\s+", files)]


def beneath(crate, own):
    """All crates below one, by the crates that each uses."""
    return own[crate].union(*(beneath(used, own) for used in own[crate]))


def direct_uses(text=None):
    """The crates of this repository that each crate uses directly, by crates.txt: not those below another of them."""
    uses = used_crates(text)
    own = {crate: {used for used in all_used if used in uses} for crate, all_used in uses.items()}
    return {crate: used - set().union(*(beneath(it, own) for it in used)) for crate, used in own.items()}
