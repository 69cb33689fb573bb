"""Debian's stockfish, which lists and counts legal moves."""

import re
import subprocess

STOCKFISH = "/usr/games/stockfish"


def count_commands(fen, depth):
    """Returns the commands that count the lines of legal moves of so many half-moves, as bytes."""
    return f"position fen {fen}\ngo perft {depth}\nquit\n".encode()


def count_of(output):
    """Returns the count in the output of a stockfish that was given `count_commands`, or None."""
    found = re.search(rb"Nodes searched: (\d+)", output)
    return int(found[1]) if found else None


class Stockfish:
    """A stockfish that runs on, and lists legal moves."""

    def __init__(self):
        """Starts it, so that it writes castling as in Chess960."""
        self.process = subprocess.Popen([STOCKFISH], stdin=subprocess.PIPE, stdout=subprocess.PIPE, text=True)
        self.say("setoption name UCI_Chess960 value true")

    def say(self, line):
        """Sends it a line."""
        self.process.stdin.write(line + "\n")
        self.process.stdin.flush()

    def legal_moves(self, start, moves):
        """Returns the legal moves after these moves in coordinates, castling as the king's move to his rook."""
        self.say(f"position fen {start}" + (" moves " + " ".join(moves) if moves else ""))
        self.say("go perft 1")
        found = []
        for line in self.process.stdout:
            if line.startswith("Nodes searched"):
                return sorted(found)
            if match := re.match(r"([a-h][1-8][a-h][1-8][qrbn]?): 1$", line):
                found.append(match[1])

    def end(self):
        """Ends it, and waits for that."""
        self.say("quit")
        self.process.wait()
