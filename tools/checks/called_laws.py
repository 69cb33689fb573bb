"""Finds the laws of other crates that a law calls. The law's proof uses their clauses, and these name definitions: so
where twins.py copies such a definition to try a wrong one, it copies the called laws too, with their proofs."""

import re
from pathlib import Path

from sources import WORD, contract_at, imported_names, imports_of, is_written, named

# A call of a law, and an import of what is called.
CALL = re.compile(r"^    (\w+)\(\);$", re.M)
IMPORT = re.compile(r"^use (\w+)::(?:\{([^}]*)\}|(\w+));\n", re.M)
# An import of definitions, and the head of a function.
GHOST = re.compile(r"^ghost use (\S+?)(?:\.\{(.*)\}| as (\w+));\n", re.M)
FUNCTION = re.compile(r"^ *(?:pub(?:\(crate\))? )?(?:const )?fn (\w+)\b")


def law_text(text, name):
    """The function that states a law, in the text of its file; empty if there is none."""
    found = re.search(rf"^(?:#\[.*\]\n)?pub fn {name}\(\)\n(?:.*\n)*?(?:\{{\}}|\}})$", text, re.M)
    return found[0] if found else ""


def imported(text):
    """Yields each function or type that a file imports in single words, with its crate."""
    for crate, names, name in IMPORT.findall(text):
        for there, _ in imported_names(names or name):
            yield there, crate


def is_named(name, text):
    """Whether a text uses a name."""
    return bool(re.search(rf"\b{name}\b", text)) if re.fullmatch(WORD, name) else is_written(name, text)


def imports_for(source, text):
    """Returns the imports of a file of src/ (`source`) that a part of it (`text`) needs: of each import only the names
    that occur in that part."""
    found = []
    for path, items, alias in GHOST.findall(source):
        here = [it.strip() for it in items.split(",") if is_named(list(imported_names(it))[0][1], text)] if items else []
        found += [f"ghost use {path}.{{{', '.join(here)}}};\n"] if here else []
        found += [f"ghost use {path} as {alias};\n"] if alias and is_named(alias, text) else []
    return "".join(found) + "".join(f"use {crate}::{there};\n" for there, crate in imported(source) if is_named(there, text))


class Law:
    """A law: its crate, its file in src/ (without the suffix) and the name of its function. `crates` is the folder of all."""

    def __init__(self, crates, crate, file, name):
        """Reads the law's function; `text` is empty if there is none."""
        self.crates, self.crate, self.file, self.name = Path(crates), crate, file, name
        self.path = self.crates / crate / "src" / f"{file}.rt"
        self.source = self.path.read_text(encoding="utf-8") if self.path.is_file() else ""
        self.text = law_text(self.source, name)

    def __eq__(self, other):
        """Whether both are the same law, whatever folder they were read from."""
        return (self.crate, self.file, self.name) == (other.crate, other.file, other.name)

    def proofs(self):
        """The files of its proof."""
        return sorted((self.crates / self.crate / "proofs" / self.file / self.name).glob("*.antt"))

    def named(self):
        """The modules of specs/ that its clauses name."""
        return modules_named(self.source, self.text)

    def calls(self):
        """The laws of other crates that it calls."""
        crate_of = dict(imported(self.source))
        found = [law_of(self.crates, crate_of.get(name, ""), name) for name in CALL.findall(self.text)]
        return [law for law in found if law]

    def other_contracts(self):
        """Yields the functions that it calls and that are no laws of other crates, each with the modules of specs/ that
        its clauses name. They are looked for by name in the crates from which its file imports: of several functions
        with a name each is yielded."""
        called = set(re.findall(r"(\w+)\(", self.text)) - {self.name} - {law.name for law in self.calls()}
        for crate in sorted({crate for _, crate in imported(self.source)}):
            for path in sorted((self.crates / crate / "src").glob("**/*.rt")):
                yield from contracts_in(path, called)


def law_of(crates, crate, name):
    """The law of that name in a crate, or None."""
    files = sorted((crates / crate / "src").glob("*.rt")) if crate else []
    found = [law for file in files if (law := Law(crates, crate, file.stem, name)).text]
    return found[0] if found else None


def modules_named(source, text):
    """The modules of specs/ that a part of a file of src/ names, by the file's imports."""
    names, aliases = imports_of(source.split("\n"), "ghost use ")
    return {f"Rattle.{crate}.specs.{module}" for crate, module, _ in named(text, names, aliases) if crate}


def contracts_in(path, called):
    """Yields the functions of a file that have one of these names, with the modules that their clauses name."""
    source = path.read_text(encoding="utf-8")
    lines = source.split("\n")
    for number, line in enumerate(lines):
        if (found := FUNCTION.match(line)) and found[1] in called:
            clauses = contract_at(lines, number)[1]
            yield found[1], modules_named(source, "\n".join(text for _, _, text in clauses))
