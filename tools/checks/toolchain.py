"""The definitions and types of the toolchain's crates. It publishes their sources beside its guides; they are only read."""

import re
import shutil
import subprocess
from pathlib import Path

from declared import Types
from sources import IMPORTS, Specs, imports_of, place_of

PASSED_ON = re.compile(r"pub use (\S+?)(?: as (\w+))?$")
# Where the toolchain's first page names the folder of the guides; KIT is the page's own folder.
GUIDES = re.compile(r"the guides \(in `KIT/([^`]+)`\)")


def printed(*words):
    """What a command of the toolchain prints."""
    return subprocess.run(["rt", *words], stdout=subprocess.PIPE, encoding="utf-8").stdout.strip()


def guides():
    """The folder of the toolchain's guides and published sources, which its first page names, or None if no toolchain
    is on the path."""
    page = Path(printed("doc")) if shutil.which("rt") else None
    named = GUIDES.search(page.read_text(encoding="utf-8")) if page and page.is_file() else None
    folder = page.parent.joinpath(named[1]) if named else None
    return folder if folder and folder.is_dir() else None


class Toolchain(Specs):
    """The definitions of the toolchain's crates; a file is read when a name of it is looked up."""

    def __init__(self, folder):
        """`folder` has the crates; `known` lists the modules that were read, `passed_on` the names that each of these
        passes on, and `modules` those that a crate's Lib passes on."""
        super().__init__([])
        self.folder, self.known, self.passed_on, self.modules = folder, set(), {}, {}
        self.types = Types(folder, {}, {})

    def version(self):
        """The name of the toolchain's version, such as `rattle-kit-13b`."""
        return printed("version").split()[0]

    def lines_of(self, crate, module):
        """The lines of a module's file, or None if there is no such file."""
        path = self.folder / crate / "specs" / f"{module.replace('.', '/')}.antt"
        return path.read_text(encoding="utf-8").split("\n") if crate and path.is_file() else None

    def read_module(self, crate, module):
        """Reads a file once. Returns whether there is one."""
        if (crate, module) in self.known:
            return True
        lines = self.lines_of(crate, module)
        if lines is None:
            return False
        self.known.add((crate, module))
        self.read_lines(f"{crate}/{module}", crate, module, lines)
        self.passed_on[crate, module] = imports_of(lines, IMPORTS[1:])[0]
        return True

    def home_of(self, crate, module):
        """The crate and module in whose file a module's text is: a crate may pass on another one's modules in its Lib."""
        if not crate or self.read_module(crate, module):
            return crate, module
        if crate not in self.modules:
            found = (PASSED_ON.match(line) for line in self.lines_of(crate, "Lib") or [])
            self.modules[crate] = {m.group(2) or m.group(1).split(".")[-1]: m.group(1) for m in found if m}
        first, dot, rest = module.partition(".")
        path = self.modules[crate].get(first)
        return self.home_of(*place_of(f"{path}{dot}{rest}")) if path else ("", f"{crate}.{module}")

    def find(self, crate, module, name):
        """The definition of a name, or the data type whose constructor has it; None for names of the logic and types."""
        crate, module = self.home_of(crate, module)
        if (crate, module) not in self.known:
            return None
        there = self.passed_on[crate, module].get(name)
        return super().find(crate, module, name) or (self.find(*there) if there else None)

    def origin(self, crate, module, name):
        """The place from which a name is passed on to here, or this place."""
        if module.startswith("declared"):
            return crate, module, name
        home = self.home_of(crate, module)
        there = self.passed_on.get(home, {}).get(name)
        return self.origin(*there) if there else (*home, name)

    def beneath(self, places):
        """The definitions that these (crate, module, name) reach, and the types that they and these definitions name."""
        reached = self.reached({self.find(*place) for place in places} - {None})
        places = places.union(*(self.places(key) for key in reached))
        return reached, {self.types.find(*self.origin(*place)) for place in places} - {None}
