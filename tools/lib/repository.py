"""What maintainers' scripts know of this repository: its folder, its proved programs, and the option --arbiter."""

from pathlib import Path

TOP = Path(__file__).resolve().parents[2]


def built(crate):
    """Returns the path of a crate's proved program: `rt run` and `rt ci` leave it in crates/, the launcher in build/out.
    It is the newer one if there are two."""
    places = [TOP / folder / crate for folder in (f"crates/{crate}/out", "build/out")]
    return max(places, key=lambda it: it.stat().st_mtime if it.exists() else 0)


def add_arbiter(parser):
    """Adds the option --arbiter to a parser of arguments: the proved program if it is not given."""
    parser.add_argument("--arbiter", metavar="PROGRAM", default=str(built("arbiter")), help="[default: %(default)s]")
