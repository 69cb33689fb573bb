"""The wrong definitions, crates/NAME/definition-edits/*.edit, and the page that lists them by what refuses them. Their form is
in the head of definition_edits."""

from dataclasses import dataclass, field
from pathlib import Path

from sources import short_name


@dataclass
class Edit:
    """A wrong definition: the texts to replace in each file (given from crates/), and the law that has to refuse it."""

    path: Path
    law: str = ""
    files: dict = field(default_factory=dict)

    @property
    def name(self):
        """The name of its file, without the suffix."""
        return self.path.stem


def read_edit(path):
    """Returns the wrong definition of a file. Where a file to edit is not given from crates/ on, it is one of the
    edit's own crate."""
    edit, file, old = Edit(path), None, None
    for line in path.read_text(encoding="utf-8").splitlines():
        kind, _, rest = line.partition(": ")
        if kind == "file":
            file = rest.removeprefix("crates/") if rest.startswith("crates/") else f"{path.parts[-3]}/{rest}"
            edit.files.setdefault(file, [])
        elif kind == "refused by":
            edit.law = rest
        elif kind == "old":
            old = rest
        elif kind == "new":
            edit.files[file].append((old, rest))
    return edit


def read_edits(crate):
    """Returns the wrong definitions of a crate, given by its folder, in the order of their names."""
    return [read_edit(path) for path in sorted((crate / "definition-edits").glob("*.edit"))]


PAGE = """# Wrong definitions

Where a definition and the code are wrong alike, every contract still holds: only a law that says the same in other words \
can notice. Each edit here makes a definition wrong, and names the law whose proof is to refuse it, also if the code is \
changed alike, since a law rests only on definitions. In brackets is the [file of definitions](definitions.md), or *the \
law* where its own words were made wrong. `tools/checks/mutations --definitions` tries them, and prints what \
refuses each. [Which were tried, and what no law refuses](README.md#held-only-by-the-definition-and-by-tests)

The lines *a proof of the crate* show less. If they don't name *the law*, only one definition was made wrong, and the code \
was left as it is. So the code's proof refuses it, or a second definition of the same: a text's tokens are defined by \
Tokens (one after another) and by Split (which splits there are), a written line by Written and by PgnText. If both of \
them and the code were wrong alike, these lines don't say that anything would notice.

`tools/checks/theorems --fill` writes this page, from crates/*/definition-edits.
"""


def where(edit, crate):
    """Returns the files of specs/ that an edit changes, by the names that the page gives them."""
    files = [file.split("/", 2) for file in edit.files]
    names = [
        "the law" if below == crate and crate.endswith("_laws") else f"{short_name(below)}/{Path(rest).stem}"
        for below, folder, rest in files
        if folder == "specs"
    ]
    return ", ".join(dict.fromkeys(names))


def page(folder):
    """The page: for each crate its laws, and the wrong definitions that each refuses."""
    lines = [PAGE]
    for crate in sorted({path.parts[-3] for path in Path(folder).glob("crates/*/definition-edits/*.edit")}):
        by_law = {}
        for edit in read_edits(Path(folder) / "crates" / crate):
            text = edit.name.removeprefix("twin_").replace("_", " ")
            by_law.setdefault(edit.law.split("::")[-1], {}).setdefault(where(edit, crate), []).append(text)
        lines += [f"## {crate}", ""]
        for law, by_file in sorted(by_law.items()):
            texts = "; ".join(f"{', '.join(texts)} ({files})" for files, texts in by_file.items())
            lines.append(f"- {f'`{law}`' if law else '*a proof of the crate*'}: {texts}")
        lines.append("")
    return "\n".join(lines)
