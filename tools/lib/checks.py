"""Counts what a test of the tools checks. Its last line is `N passed, M failed`; before it, it names what can't be tried
here."""

import sys

FOUND = {True: 0, False: 0}


def check(what, holds, found=""):
    """Counts a check, and names it with what was found if it doesn't hold."""
    FOUND[bool(holds)] += 1
    if not holds:
        print(f"failed: {what}" + (f": {found}" if found else ""))


def check_equal(what, found, expected):
    """Counts a comparison."""
    check(what, found == expected, f"{found!r}, not {expected!r}")


def skip(what, why):
    """Names a part that can't be tried here; tools/check counts these lines."""
    print(f"skipped: {what} ({why})")


def end():
    """Prints the counts and ends the test, with status 1 if a check failed."""
    print(f"{FOUND[True]} passed, {FOUND[False]} failed")
    sys.exit(1 if FOUND[False] else 0)
