"""Reads lists that users write: an entry on each line, and comments."""

import re


def entries(text):
    """Returns the number and the text of each line of a list, without comments and empty lines."""
    found = []
    for number, line in enumerate(text.split("\n"), 1):
        line = re.sub(r"(^|\s)#(\s.*)?$|^\s*#.*$", "", line).strip()
        if line:
            found.append((number, line))
    return found
