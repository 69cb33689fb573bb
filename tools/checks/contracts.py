"""Which definitions the clauses of a claim name, for its lists in docs/claims/; and the table of reading paths in
docs/claims/README.md, with links to lines of the sources. tools/checks/theorems uses it."""

import re

from sources import named

UP = "../../"
LONGEST_PATH = 6


def link(name, path, line):
    """A link from a page of lists to a line of a source."""
    return f"[`{name}`]({UP}{path}#L{line})"


def texts_of(function, wanted):
    """Returns the texts of a function's clauses `ensures` whose names are in `wanted`, and of the wanted promises
    `ghost NAME = {..}` of its impl."""
    texts = [text for name, text in function.gives if name in wanted]
    return texts + [text for kind, name, text in function.clauses if kind == "ensures" and name in wanted]


def top_definitions(reached, theorems):
    """Returns the definitions that the clauses name, in the order of the clauses, without those that another one of
    them reaches. `theorems` are pairs of a function and the names of its clauses."""
    keys = {}
    for function, wanted in theorems:
        names, aliases = reached.sources.imports[function.path]
        for text in texts_of(function, wanted):
            places = named(text, names, aliases, None, reached.sources.bound_in_clause(function, text))
            keys |= dict.fromkeys(key for place in places if (key := reached.specs.find(*place)))
    beneath = [reached.specs.reached([key]) - {key} for key in keys]
    return [key for key in keys if not any(key in others for others in beneath)]


# ---- reading paths: a row for each claim of README, with its theorems and the definitions to read


def names_of(cell):
    """The names in backquotes of a cell."""
    return re.findall(r"`([^`]+)`", cell)


def with_links(cell, links):
    """A cell in which each name is a link."""
    return ", ".join(links[name] for name in names_of(cell))


def path_row(reached, theorems, definitions):
    """Returns a row of the table with links, and its faults. Its definitions are to be read one after another: each
    must be named by a theorem of the row or by a definition before it, and at most LONGEST_PATH are allowed."""
    functions = {name: reached.functions(name)[:1] for name in names_of(theorems)}
    faults = [f"there is no function {name}" for name, found in functions.items() if not found]
    functions = {name: found[0] for name, found in functions.items() if found}
    keys = reached.of(list(functions.values()))
    known = set().union(*(reached.sources.names_in(reached.specs, f) for f in functions.values()))
    links = {name: link(name, f.path, f.line) for name, f in functions.items()}
    for name in names_of(definitions):
        found = [key for key in keys if key.name == name]
        named_before = [key for key in found if key in known]
        if len(named_before or found) != 1:
            faults.append(f"{len(found)} definitions {name} are reached by {theorems}")
            continue
        key = (named_before or found)[0]
        if not named_before:
            faults.append(f"{name} is named neither by {theorems} nor by a definition before it")
        known |= reached.specs.references(key)
        links[name] = link(name, key.path, reached.specs.definitions[key].line)
    if len(names_of(definitions)) > LONGEST_PATH:
        faults.append(f"the path of {theorems} has more than {LONGEST_PATH} definitions")
    if faults:
        return f"| {theorems} | {definitions} |", faults
    return f"| {with_links(theorems, links)} | {with_links(definitions, links)} |", []


def paths(reached, table, readme):
    """Returns the table of reading paths with links, and its faults. Its rows must have the theorems of the rows of
    README's table of claims, in their order."""
    head, rows = table.split("\n")[:2], [row.strip("| ").split(" | ") for row in table.split("\n")[2:]]
    claims = [re.findall(r"\[`([^`]+)`\]\(docs/THEOREMS", line) for line in readme.split("\n") if line.startswith("| ")]
    claims = [names for names in claims if names]
    found = [path_row(reached, *row) for row in rows]
    faults = [fault for _, wrong in found for fault in wrong]
    if [names_of(theorems) for theorems, _ in rows] != claims:
        faults.append(f"its theorems are not README's: {claims}")
    return "\n".join(head + [row for row, _ in found]), faults
