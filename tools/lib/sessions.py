"""Sessions of the program, each given all of its commands at once."""

import subprocess

import needed


def answers(arbiter, commands, **how):
    """Returns the lines that a session answers; `how` has options for its process, whose texts are Latin-1 otherwise."""
    how = {"encoding": "latin-1", **how}
    run = subprocess.run([arbiter], input="\n".join(commands) + "\n", stdout=subprocess.PIPE, **how)
    if run.returncode != 0:
        needed.stop(f"{arbiter} ended with status {run.returncode}")
    return run.stdout.splitlines()


def shown(lines):
    """Returns what a session shows for `showfen` and `showpgn`: of its answers the lines that begin with `#`, without
    that and the space after it."""
    return [line[2:].rstrip() for line in lines if line == "#" or line.startswith("# ")]
