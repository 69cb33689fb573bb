"""Which files cite what is private to another crate: of a crate's proofs/ only proofs/shared is for others, of its
specs/ all but specs/ties. And which shared lemmas cite specs/ties: they are to be about definitions that crates above
may cite."""

import re

from sources import TOP, by_module

CITED = re.compile(r"\bRattle\.(\w+)\.((?:proofs|specs)(?:\.\w+)+)")


def is_shared(module):
    """Whether other crates may cite the module, given from its crate on."""
    kind, first = module.split(".")[:2]
    return first == "shared" if kind == "proofs" else first != "ties"


def private_citations(top=TOP):
    """Yields each citation of what is private to another crate: its `FILE:LINE`, and the module."""
    own = {path.name for path in (top / "crates").iterdir()}
    for crate in sorted(own):
        for folder in ("src", "specs", "proofs"):
            for path in sorted((top / "crates" / crate / folder).glob("**/*")):
                if path.suffix in (".rt", ".antt"):
                    yield from private_in(path, crate, own, top)


def private_in(path, crate, own, top):
    """Yields those in one file of `crate`. `own` has the names of this repository's crates: citations of others, such
    as the toolchain's std, don't count. In a shared lemma a citation of its own crate's specs/ties counts too."""
    relative = path.relative_to(top)
    is_lemma = relative.parts[2:4] == ("proofs", "shared")
    for number, line in enumerate(path.read_text(encoding="utf-8").split("\n"), 1):
        for cited, module in CITED.findall(by_module(line)):
            is_other = cited in own and cited != crate
            if is_other and not is_shared(module) or is_lemma and cited == crate and module.startswith("specs.ties"):
                yield f"{relative}:{number}", f"{cited}.{module}"
