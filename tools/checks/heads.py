"""Finds names in comments of proofs that name nothing: `some_lemma of SomeModule`, `SomeModule.some_lemma` and
`proofs/SomeModule`, anywhere; and in parentheses also names without a module: `(SomeModule)`, `(some_lemma)`,
`(first, second of Ends; Counts)`. What is of another crate is named with it, as in `(Tokens of chess_pgn)` or
`(text_is of chess_pgn's Words)`, or imported by the file. Other words in parentheses, and what is in backquotes, are
left out. No prover is asked."""

import re

COMMENT = re.compile(r"^\s*--(?: (.*))?$")
NAME = r"[A-Za-z][\w'+-]*"
# A name of a lemma that can't be a plain word.
LEMMA = r"[a-z][a-z0-9]*(?:[_+-][\w'+-]+)+"
NO_WORD = re.compile(rf"[A-Z][\w'+-]*|{LEMMA}")
MODULE = r"(?:[a-z]\w*[./])*[A-Z]\w*"
WHERE = rf"(?:(?P<of>[a-z]\w*)'s? )?(?P<module>{MODULE})"
# What a list in parentheses may have.
IN_MODULE = re.compile(rf"(?P<name>{NAME}) of {WHERE}")
IN_CRATE = re.compile(rf"(?P<name>{NAME}) of (?P<crate>[a-z]+(?:_[a-z]+)+)")
DOTTED = re.compile(rf"(?P<module>{MODULE})\.(?P<name>{NAME})")
LIST = re.compile(r", | and (?!those after)")
# What a sentence may have.
INSIDE = re.compile(
    rf"(?<![\w./-])(?:(?P<name>{LEMMA}) of {WHERE}|(?P<path>proofs/{MODULE})|(?P<at>{MODULE})\.(?P<dotted>{NAME}))"
)


def comments(text):
    """Yields each comment of a file .antt with its first line's number. Lines below one another are one comment."""
    begun, words = 0, []
    for number, line in enumerate([*text.split("\n"), ""], 1):
        if m := COMMENT.match(line):
            begun = begun or number
            words.append(m.group(1) or "")
            continue
        if begun:
            yield begun, " ".join(words)
        begun, words = 0, []
        if m := re.search(r"\s-- (.*)$", line):
            yield number, m.group(1)


class Heads:
    """The comments of all files of proofs/ of a checkout, whose lemmas are given, and what they may name."""

    def __init__(self, lemmas):
        """`lemmas` is a `Lemmas` of lemmas.py; `of_crate` has the modules of each crate."""
        self.lemmas = lemmas
        self.of_crate = {}
        for module in lemmas.files:
            self.of_crate.setdefault(module.split(".")[0], set()).add(module)

    def modules(self, file, crate=None):
        """The modules that a comment may name: those of this crate; without one those of the file's crate, and those
        from which the file imports."""
        own = self.of_crate.get(crate or file.crate, set())
        return own if crate else own | {path for path, _ in file.names.values()} | set(file.aliases.values())

    def called(self, file, name, crate=None):
        """The modules that a comment of this file may call so: those of `modules` whose path ends in this name, such as
        `Words` or `shared/Words`."""
        parts = name.replace("/", ".").removeprefix("proofs.").split(".")
        return [path for path in self.modules(file, crate) if path.split(".")[-len(parts) :] == parts]

    def has(self, module, name):
        """Whether a module has a name. What a library's module has isn't known."""
        return module not in self.lemmas.files or self.lemmas.find(module, name) is not None

    def is_in(self, file, name, module, crate=None):
        """Whether one of the modules that the comment may call `module` has the name `name`."""
        return any(self.has(path, name) for path in self.called(file, module, crate))

    def is_known(self, file, name, crate=None):
        """Whether a name is that of a module, or of what a module has; or whether the file imports it."""
        if self.called(file, name, crate) or not crate and name in file.names:
            return True
        return any(self.lemmas.find(path, name) for path in self.modules(file, crate))

    def lost_of_list(self, file, text):
        """The names of a list that name nothing; None if the text is no list of names. `alone` has the names so far
        whose module a later `NAME of MODULE` may give; `module` is that of the last `MODULE.NAME`, in which what
        follows is looked up."""
        lost, alone, module = [], [], None
        for item in LIST.split(text.replace(", of ", " of ")):
            item = item.removesuffix(" and those after it")
            if m := IN_MODULE.fullmatch(item):
                absent = [it for it in [*alone, m["name"]] if not self.is_in(file, it, m["module"], m["of"])]
                # What has a capital letter may be a module before this one.
                alone, module = [it for it in absent if it != m["name"] and it[0].isupper()], None
                lost += [f"{it} of {m['module']}" for it in absent if it not in alone]
            elif m := IN_CRATE.fullmatch(item):
                absent = [it for it in [*alone, m["name"]] if not self.is_known(file, it, m["crate"])]
                alone, module = [], None
                lost += [f"{it} of {m['crate']}" for it in absent]
            elif m := DOTTED.fullmatch(item):
                module = m["module"]
                lost += [] if self.is_in(file, m["name"], module) else [item]
            elif not re.fullmatch(f"{NAME}|{MODULE}", item):
                return None
            elif module and NO_WORD.fullmatch(item):
                lost += [] if self.is_in(file, item, module) else [f"{module}.{item}"]
            else:
                alone.append(item)
        return lost + [it for it in alone if NO_WORD.fullmatch(it.split("/")[-1]) and not self.is_known(file, it)]

    def lost_inside(self, file, text):
        """The names in a sentence that name nothing."""
        for m in INSIDE.finditer(text):
            name, module = m["name"] or m["dotted"], m["module"] or m["at"]
            if not (self.called(file, m["path"]) if m["path"] else self.is_in(file, name, module, m["of"])):
                yield m.group(0)

    def lost_in(self, file, text):
        """The names in a comment that name nothing."""
        text = re.sub(r"`[^`]*`", "``", text)
        for inner in re.findall(r"\(([^()]*)\)", text):
            for part in inner.split("; "):
                lost = self.lost_of_list(file, part)
                yield from self.lost_inside(file, part) if lost is None else lost
        yield from self.lost_inside(file, re.sub(r"\([^()]*\)", "", text))

    def lost(self):
        """Yields each name that names nothing, with its comment's `FILE:LINE`."""
        for module, file in self.lemmas.files.items():
            if module.split(".")[1] == "proofs":
                for number, text in comments(file.text):
                    yield from ((f"{file.relative}:{number}", name) for name in self.lost_in(file, text))
