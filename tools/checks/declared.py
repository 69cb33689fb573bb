"""The types and constants of the code that definitions name: in imports they are under `declared`. Their lines are
counted without comments, attributes and empty lines. A type brings with it the types that its fields name, but for those
that contracts see by a model and not by their fields."""

import re
from dataclasses import dataclass

# The head of a type or a constant, and an import.
HEAD = re.compile(r"^ *(?:pub(?:\([\w ]+\))? )?(?:struct|enum|const|type) (\w+)\b")
USE = re.compile(r"^ *(?:pub(?:\([\w ]+\))? )?use ((?:\w+::)+)([^;]*);", re.M)


@dataclass(frozen=True)
class Item:
    """A type or a constant: its crate, its file from the crate's src/ on, and its name."""

    crate: str
    file: str
    name: str


class Types:
    """The types and constants that the files of some crates declare. `folder` has the crates, `uses` names those that
    each crate uses, and `models` has the crate and the name of each type with a model."""

    def __init__(self, folder, uses, models):
        self.folder, self.uses, self.models, self.crates, self.imports = folder, uses, models, {}, {}

    def items(self, crate):
        """The items of a crate, each with its lines."""
        if crate not in self.crates:
            self.crates[crate] = {}
            source = self.folder / crate / "src"
            for path in sorted(source.glob("**/*.rt")):
                file = path.relative_to(source).as_posix().removesuffix(".rt")
                lines = path.read_text(encoding="utf-8").split("\n")
                self.imports[crate, file] = dict(imported("\n".join(lines)))
                for start, line in enumerate(lines):
                    if m := HEAD.match(line):
                        self.crates[crate].setdefault(Item(crate, file, m.group(1)), body_from(lines, start))
        return self.crates[crate]

    def find(self, crate, module, name):
        """The item that an import of a definition names, or None. `module` is `declared.FILE.TYPE`, perhaps with an
        ending such as `.TheVariants`, and then the item is TYPE; or `declared.FILE.TheConstants`, and then it is the
        constant `name`."""
        parts = module.split(".")
        if parts[0] != "declared" or not (self.folder / crate / "src").is_dir():
            return None
        last = parts.pop() if parts[-1].startswith("The") else ""
        if last != "TheConstants":
            name = parts.pop()
        return self.named(crate, "/".join(parts[1:]), name)

    def named(self, crate, file, name):
        """The item of a name in a file of a crate, or in all of the crate if it is the only one."""
        if Item(crate, file, name) in self.items(crate):
            return Item(crate, file, name)
        found = [item for item in self.items(crate) if item.name == name]
        return found[0] if len(found) == 1 else None

    def in_text(self, crate, file, text):
        """The items that a text of a file names, but for those with a model."""
        found = set()
        for name in set(re.findall(r"\b[A-Z]\w*", text)) if self.items(crate) else ():
            root = self.imports[crate, file].get(name, "crate")
            crates = [crate] if root in ("crate", "super", "self") else [root, *self.uses.get(root, [])]
            found |= {self.named(it, file, name) for it in crates}
        return {item for item in found - {None} if (item.crate, item.name) not in self.models}

    def references(self, item):
        """The items that an item's lines name."""
        return self.in_text(item.crate, item.file, "\n".join(self.items(item.crate)[item])) - {item}

    def reached(self, items):
        """These items and all that they name, directly or through others."""
        seen, left = set(), list(items)
        while left:
            item = left.pop()
            if item not in seen:
                seen.add(item)
                left += self.references(item)
        return seen

    def count(self, items):
        """How many items, and how many lines of them."""
        return len(items), sum(len(self.items(item.crate)[item]) for item in items)


def imported(text):
    """Yields each name that a file imports with the first part of its path."""
    for m in USE.finditer(text):
        for name in re.findall(r"\b[A-Z]\w*", m.group(1) + m.group(2)):
            yield name, m.group(1).split("::")[0]


def body_from(lines, start):
    """The lines of an item, from its head to its end, without comments, attributes and empty lines."""
    body, depth = [], 0
    for line in lines[start:]:
        code = re.sub(r"//.*$", "", line).strip()
        if code and not code.startswith("#["):
            body.append(code)
        depth += sum(code.count(c) for c in "{([") - sum(code.count(c) for c in "})]")
        if depth == 0 and code.endswith((";", "}")):
            break
    return body
