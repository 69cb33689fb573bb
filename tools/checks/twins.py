"""Copies of definitions, so that a law is checked with a wrong one, while the crates below, whose code keeps the right one,
need no new proof.

A law rests only on definitions. So those that are edited, and all modules of specs/ and proofs/ between them and the law,
are copied into the law's crate, as `of_CRATE`, and what names them there names the copies, as far as it concerns this law; and
so are the proofs that only their own crate can name. If the law calls laws of other crates whose clauses name what is copied,
these are copied too, as functions of src/of_CRATE_FILE.rt (called_laws.py). The crate's line of crates.txt gets the crates that the
copies name. Types and constants of the code stay where they are. Found by the names of modules; no prover is asked."""

import re
from functools import cache
from pathlib import Path

from called_laws import IMPORT, Law, imports_for
from sources import by_module, imported_names

MODULE = re.compile(r"\bRattle(?:\.\w+)+")
KINDS = ("specs", "proofs")
# The crates that a text names, also by an import of src/; the toolchain's std is listed nowhere.
CRATE = re.compile(r"\bRattle\.(\w+)\.|^use (\w+)::", re.M)
UNLISTED = {"std", "core", "crate"}


def read(path):
    """The text of a file."""
    return path.read_text(encoding="utf-8")


def is_private(name):
    """Whether only its own crate can name a module: proofs that are not in proofs/shared."""
    _, _, kind, *rest = name.split(".")
    return kind == "proofs" and rest[0] != "shared"


@cache
def crates_named(text):
    """The crates that a text names."""
    return {a or b for a, b in CRATE.findall(text)}


class Modules:
    """The modules of the crates in a folder, as they are when it is made, and which of them each names."""

    def __init__(self, crates):
        """`crates` is the folder of the crates; `paths` has the file of each module."""
        self.crates = Path(crates)
        self.paths = {
            self.name_of(path): path for kind in KINDS for path in sorted(self.crates.glob(f"*/{kind}/**/*.antt"))
        }
        self.used, self.named = {}, {}  # what `uses` and `named_in` found

    def name_of(self, path):
        """The name of the module in a file: `Rattle.low.specs.laws.Laws`."""
        return ".".join(("Rattle", *path.relative_to(self.crates).with_suffix("").parts))

    def path_of(self, name):
        """The file of a module, whether it exists or not."""
        return self.crates.joinpath(*name.split(".")[1:]).with_suffix(".antt")

    def longest(self, name):
        """The module that a name is of, if it is one of these crates."""
        parts = name.split(".")
        return next((m for k in range(len(parts), 3, -1) if (m := ".".join(parts[:k])) in self.paths), None)

    def named_in(self, text):
        """The modules that a text names."""
        if text not in self.named:
            self.named[text] = {m for name in MODULE.findall(by_module(text)) if (m := self.longest(name))}
        return self.named[text]

    def uses(self, name):
        """The other modules that a module names."""
        if name not in self.used:
            self.used[name] = self.named_in(read(self.paths[name])) - {name}
        return self.used[name]

    def reached(self, names):
        """These modules, and all that they reach."""
        found, left = set(), set(names)
        while left:
            found |= left
            left = {used for name in left for used in self.uses(name)} - found
        return found


class Twins:
    """The copies that are made in a crate of laws so that some files can be edited: of modules, and of the laws that one law
    calls."""

    def __init__(self, modules, crate, files, law=""):
        """Finds what is to be copied; nothing is written. `files` are those to be edited, given from crates/ on, and
        `law` is `FILE::FUNCTION`. Called laws and copied modules are found by turns, until no more laws are called
        whose clauses name what is copied. `missed` are edited modules that nothing here reaches."""
        self.modules, self.crates, self.crate = modules, modules.crates, crate
        self.crates_txt = self.crates.parent / "crates.txt"
        self.law = Law(self.crates, crate, *law.split("::")) if law else None
        self.called, self.was = [], {}
        edited = {modules.name_of(self.crates / file) for file in files}
        self.files = self.concerned(edited)
        self.copied = self.between(edited)
        while more := self.more_called():
            self.called += more
            self.copied = self.between(edited)
        self.missed = sorted(edited - self.copied)

    def own(self):
        """The files of the crate of laws that name modules."""
        folder = self.crates / self.crate
        return [path for kind in (*KINDS, "src") for path in sorted(folder.glob(f"{kind}/**/*.*t"))]

    def concerned(self, edited):
        """The files of the crate of laws that are to name the copies: the law's own, those of the modules that these name, and
        those that name a module of these which reaches what is edited. Others, with the modules below, stay as they are."""
        used = {path: self.modules.named_in(read(path)) for path in self.own()}
        names = {path: self.modules.name_of(path) for path in used}
        found, more = set(), {path for path in used if self.law is None or path in (self.law.path, *self.law.proofs())}
        while more:
            found |= more
            named = set().union(*(used[path] for path in found))
            changed = {names[path] for path in found if self.modules.reached(used[path]) & edited}
            more = {path for path in used if names[path] in named or used[path] & changed} - found
        return sorted(found)

    def between(self, edited):
        """The modules below the crate of laws that it reaches, and that are edited or reach one that is; and the private ones
        that the copies need."""
        proofs = self.named_in(path for law in self.called for path in law.proofs())
        clauses = set().union(*(law.named() for law in self.called)) & set(self.modules.paths)
        reached = self.modules.reached(self.named_in(self.files) | proofs | clauses)
        uses = {name: self.modules.uses(name) for name in reached if not name.startswith(f"Rattle.{self.crate}.")}
        found, more = set(), edited & set(uses)
        while more:
            found |= more
            more = {name for name, used in uses.items() if used & found} - found
        more = proofs.union(*(uses[name] for name in found))
        while more := {name for name in more if name in uses and is_private(name)} - found:
            found |= more
            more = set().union(*(uses[name] for name in more))
        return found

    def named_in(self, paths):
        """The modules that some files name."""
        return {name for path in paths for name in self.modules.named_in(read(path))}

    def more_called(self):
        """The laws that are called by the law, or by a called law that is copied, and whose clauses name what is copied."""
        laws = [self.law, *self.called] if self.law else []
        called = [it for law in laws for it in law.calls() if it.named() & self.copied and it not in self.called]
        return [it for i, it in enumerate(called) if it not in called[:i]]

    # ---- names

    def twin(self, name):
        """The name of a module's copy."""
        _, crate, kind, *rest = name.split(".")
        return ".".join(("Rattle", self.crate, kind, f"of_{crate}", *rest))

    def place(self, file):
        """The file that is to be edited for one of the crates: its copy, if it has one."""
        name = self.modules.name_of(self.crates / file)
        return self.modules.path_of(self.twin(name)) if name in self.copied else self.crates / file

    def renamed(self, text):
        """The text in which each name of a module that is copied is that of the copy."""

        def twin(found):
            """The copy's name in place of a name that was found."""
            name = self.modules.longest(found[0])
            return self.twin(name) + found[0][len(name) :] if name in self.copied else found[0]

        return MODULE.sub(twin, by_module(text)) if self.modules.named_in(text) & self.copied else text

    def redirected(self, text):
        """The text of a file of src/ that calls the copies of laws."""

        def imports(found):
            """An import in which the laws that are copied come from their copies."""
            names = [there for there, _ in imported_names(found[2] or found[3])]
            copied = {it.name: it for it in self.called if it.crate == found[1] and it.name in names}
            others = [name for name in names if name not in copied]
            kept = f"use {found[1]}::{{{', '.join(others)}}};\n" if others else ""
            return kept + "".join(f"use crate::{file_of(it)}::{name};\n" for name, it in copied.items()) if copied else found[0]

        return IMPORT.sub(imports, text) if self.called else text

    # ---- texts

    def texts(self):
        """The text of each file that differs from what is in the folder."""
        if not self.copied:
            return {}
        found = {path: self.redirected(self.renamed(read(path))) for path in self.files}
        found |= {self.modules.path_of(self.twin(name)): self.renamed(read(self.modules.paths[name])) for name in self.copied}
        found |= self.called_texts()
        found |= self.lists()
        found[self.crates_txt] = self.listing(found.values())
        if self.called:
            path = self.crates / self.crate / "src/lib.rt"
            files = sorted({file_of(law) for law in self.called})
            found[path] = found.get(path, read(path)) + "".join(f"mod {file};\n" for file in files)
        return {path: text for path, text in found.items() if not path.exists() or read(path) != text}

    def called_texts(self):
        """The functions and the proofs of the called laws."""
        found = {}
        folder = self.crates / self.crate
        for law in self.called:
            path = folder / "src" / f"{file_of(law)}.rt"
            others = [it.text for it in self.called if file_of(it) == file_of(law)]
            functions = "\n\n".join(others)
            imports = self.redirected(self.renamed(imports_for(law.source, functions)))
            found[path] = f"//! Copies of laws of {law.crate}.\n\n{imports}\n{functions}\n"
            for proof in law.proofs():
                text = self.renamed(read(proof))
                text = text.replace(f"Rattle.{law.crate}.proofs.{law.file}.", f"Rattle.{self.crate}.proofs.{file_of(law)}.")
                found[folder / "proofs" / file_of(law) / law.name / proof.name] = text
        return found

    def lists(self):
        """The files that have a line `pub mod` for each copy."""
        listed = {}
        for name in self.copied:
            path = self.modules.path_of(self.twin(name))
            while path.parent.name not in KINDS:
                listed.setdefault(path.parent.with_suffix(".antt"), set()).add(path.stem)
                path = path.parent
            listed.setdefault(path.parent / "Lib.antt", set()).add(path.stem)
        return {
            path: (read(path) if path.exists() else "") + "".join(f"pub mod {name}\n" for name in sorted(names))
            for path, names in listed.items()
        }

    def listed(self, text):
        """The crates that the crate of laws has in the text of crates.txt."""
        return self.line_in(text).split(":")[1].split()

    def line_in(self, text):
        """The line of the crate of laws in the text of crates.txt, without a comment."""
        return re.search(rf"^{self.crate}\b[^:#\n]*:[^#\n]*", text, re.M)[0].rstrip()

    def listing(self, texts):
        """crates.txt, in which the crate of laws has all crates that these texts name."""
        text = read(self.crates_txt)
        line = self.line_in(text)
        named = set().union(*map(crates_named, texts)) - UNLISTED - {self.crate, *self.listed(text)}
        return text.replace(line, " ".join([line, *sorted(named)]))

    def copy(self):
        """Writes the copies, and lets the crate of laws name them."""
        for path, text in self.texts().items():
            self.was[path] = read(path) if path.exists() else None
            path.parent.mkdir(parents=True, exist_ok=True)
            path.write_text(text, encoding="utf-8")

    def undo(self):
        """Puts back what `copy` changed."""
        for path, text in self.was.items():
            if text is not None:
                path.write_text(text, encoding="utf-8")
                continue
            path.unlink()
            for folder in path.parents:
                if any(folder.iterdir()):
                    break
                folder.rmdir()


def file_of(law):
    """The file of src/, without its suffix, that has the copy of a called law."""
    return f"of_{law.crate}_{law.file}"

