"""Finds faults of wrong definitions without a prover, for tools/checks/definition_edits --text-only: an old text that
is not in its file exactly once; a law that doesn't exist, or that doesn't reach the edited file; and in the copies
(twins.py) a module that doesn't exist, or that the crate of laws can't name."""

import re

from called_laws import Law
from sources import IMPORT, by_module, imported_names
from twins import MODULE, crates_named, read

# Modules that the toolchain writes: types of the code, and contracts and goals of functions.
WRITTEN = re.compile(r"\.specs\.(?:declared|contracts)\b|\.(?:Goals|Given)$")


def law_faults(edit, modules, crate):
    """Yields what is wrong with the law of an edit: there is none of that name, or neither its clauses nor its proof reach a
    file that is edited."""
    law = Law(modules.crates, crate, *edit.law.split("::"))
    if not law.text or not law.proofs():
        yield f"{crate} has no law {edit.law}, or no proof of it"
        return
    roots = law.named().union(*(it.named() for it in law.calls()), *(modules.named_in(read(path)) for path in law.proofs()))
    reached = modules.reached(roots & set(modules.paths))
    for file in edit.files:
        if modules.name_of(modules.crates / file) not in reached:
            yield f"{edit.law} doesn't reach {file}"


def contract_faults(twins):
    """Yields each function, itself no law, that the law or a copied law calls and whose clauses name a module that is
    copied. Only laws are copied, so these clauses would keep the definition without the edit."""
    for law in [twins.law, *twins.called] if twins.law else []:
        for name, modules in law.other_contracts():
            yield from (f"{law.name} calls {name}, whose clauses name {it}" for it in sorted(modules & twins.copied))


def imports_in(text):
    """The imports of modules, and of items from them."""
    return [found for line in by_module(text).split("\n") if (found := IMPORT.match(line.strip().rstrip(";")))]


class Copied:
    """The files as they would be if the copies of `twins` were written; nothing is written."""

    def __init__(self, twins):
        """`texts` has the files that would differ from the sources, `listed` the crates that the crate of laws may
        name."""
        self.twins, self.crates, self.crate = twins, twins.crates, twins.crate
        self.texts = twins.texts()
        self.listed = twins.listed(self.text(twins.crates_txt))

    def text(self, path):
        """The text of a file; None if there is no such file."""
        return self.texts[path] if path in self.texts else read(path) if path.is_file() else None

    def faults(self):
        """Yields the names of crates and modules in these files that they can't name."""
        for path in sorted(self.texts):
            if path != self.twins.crates_txt:
                yield from self.faults_in(path, self.texts[path])

    def edit_faults(self, edit):
        """Yields the texts to replace that are not in their file exactly once, and what the edited lines can't name."""
        for file, pairs in edit.files.items():
            path = self.twins.place(file)
            text = self.text(path) or ""
            were = set(text.split("\n"))
            for old, new in pairs:
                if text.count(old) != 1:
                    yield f"its old text is not in {file} exactly once: {old}"
                text = text.replace(old, new)
            lines = by_module("\n".join(line for line in text.split("\n") if line not in were))
            yield from self.faults_in(path, lines)
            for found in imports_in(lines):
                yield from (f"{found[1]} has no {it}" for it in self.items_missed(found[1], found[2] or ""))

    def faults_in(self, path, text):
        """Yields the names of crates and modules in the text of a file that it can't name."""
        where, whole = path.relative_to(self.crates), {found[1] for found in imports_in(text)}
        for crate in sorted(crates_named(text)):
            if (self.crates / crate).is_dir() and crate not in (self.crate, *self.listed):
                yield f"{where}: crates.txt doesn't list {crate}"
        for name in sorted(set(MODULE.findall(by_module(text)))):
            if fault := self.module_fault(name, name in whole):
                yield f"{where}: {name} {fault}"

    def module_fault(self, name, is_whole):
        """Returns what is wrong with the name of a module; an empty text if nothing is. The file of each folder on the
        way must have a line `mod` for the next part, and `pub mod` where another crate names it. Unless `is_whole`, the
        name's last parts may be those of an item."""
        _, crate, *parts = name.split(".")
        if not (self.crates / crate).is_dir() or WRITTEN.search(name):
            return ""
        parent = self.crates.joinpath(crate, *parts[:1], "Lib.antt")
        for number in range(1, len(parts)):
            path = self.crates.joinpath(crate, *parts[: number + 1]).with_suffix(".antt")
            if self.text(path) is None:
                return "is no module" if is_whole or number == 1 else ""
            line = re.search(rf"^(pub )?mod {parts[number]}$", self.text(parent) or "", re.M)
            if not line or not line[1] and crate != self.crate:
                return f"is not passed on by {parent.relative_to(self.crates)}"
            parent = path
        return ""

    def items_missed(self, module, names):
        """The imported names that the text of their module doesn't have."""
        text = None if WRITTEN.search(module) else self.text(self.twins.modules.path_of(module))
        wanted = [there for there, _ in imported_names(names)] if text is not None else []
        return [name for name in wanted if not re.search(rf"(?<![\w'.-]){re.escape(name)}(?![\w'-])", text)]
