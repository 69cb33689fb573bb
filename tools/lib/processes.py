"""The processes of a match that a script started in a session of its own."""

from pathlib import Path


def processes_of_session(session):
    """Returns the processes that belong to a session; zombies are gone."""
    found = []
    for entry in Path("/proc").iterdir():
        if entry.name.isdigit():
            try:
                fields = (entry / "stat").read_text().rpartition(")")[2].split()
            except OSError:
                continue
            if int(fields[3]) == session and fields[0] != "Z":
                found.append(int(entry.name))
    return found
