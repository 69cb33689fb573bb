"""Ends a script by a plain message and status 2 where something that it needs is missing."""

import argparse
import os
import shutil
import sys
from pathlib import Path

# The packages of Debian in which programs are.
PACKAGES = {
    "bzip2": "bzip2",
    "gzip": "gzip",
    "polyglot": "polyglot",
    "ssh": "openssh-client",
    "xz": "xz-utils",
    "zstd": "zstd",
}


def package_of(name):
    """Returns a note on the package in which a program is, or an empty text if it is not known."""
    return f" (Debian's package {PACKAGES[name]})" if name in PACKAGES else ""


def stop(message):
    """Ends the script: it can't do what it was asked for."""
    print(f"{Path(command()).name}: {message}", file=sys.stderr)
    sys.exit(2)


def command():
    """Returns the command by which this script was started: the packages call tools/NAME arbiter-NAME."""
    path = Path(sys.argv[0])
    if path.resolve().parent.parts[-2:] == ("lib", "arbiter"):
        return f"arbiter-{path.name.replace('_', '-')}"
    return f"tools/{path.name}"


def program(name):
    """Returns the path of a program: a name without a slash is looked up on the path."""
    found = shutil.which(name)
    if not found:
        stop(f"{name} is no program that can be run" if "/" in name else f"{name} is not on the path{package_of(name)}")
    return os.path.abspath(found)


def content(path, encoding="utf-8"):
    """Returns the text of a file."""
    try:
        return Path(path).read_text(encoding=encoding)
    except (OSError, UnicodeDecodeError) as fault:
        stop(f"{path} can't be read: {getattr(fault, 'strerror', None) or 'it is no text'}")


def folder(path):
    """Makes a folder, if there is none, and returns its path."""
    try:
        Path(path).mkdir(parents=True, exist_ok=True)
    except OSError as fault:
        stop(f"{path} can't be made: {fault.strerror}")
    return Path(path).resolve()


def add_arbiter(parser, note=""):
    """Adds the option --arbiter to the parser of a script for users, with a note on the program."""
    about = f"the arbiter{note} [default: arbiter on the path]"
    parser.add_argument("--arbiter", metavar="PROGRAM", default="arbiter", help=about)


def positive(text):
    """Reads a number of an argument, from 1 on."""
    number = int(text)
    if number < 1:
        raise argparse.ArgumentTypeError(f"{text} is not a positive number")
    return number
