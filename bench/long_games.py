"""Long games, made with the program's own session; for the scripts beside this one."""

import itertools
import random
import subprocess

import needed
from boards import board_of


class Session:
    """The program's session, asked line by line."""

    def __init__(self, arbiter):
        """Starts the program."""
        self.program = subprocess.Popen(
            [arbiter], stdin=subprocess.PIPE, stdout=subprocess.PIPE, text=True, bufsize=1
        )

    def ask(self, line):
        """Returns the lines of the answer."""
        try:
            self.program.stdin.write(line + "\nping 1\n")
            self.program.stdin.flush()
        except OSError:
            pass
        answers = []
        while (answer := self.program.stdout.readline()) != "pong 1\n":
            if not answer:
                needed.stop(f"{self.program.args[0]} ended, and did not answer {line}")
            answers.append(answer.rstrip("\n"))
        return answers

    def end(self):
        """Ends the session, and waits for that."""
        self.program.stdin.close()
        self.program.wait()


def long_game(arbiter, length):
    """Returns the moves of a legal game of that many half-moves, or of fewer if it can't go on. Each move is drawn with
    a fixed seed: from quiet moves of pieces, if there are none from those of pawns, and then from captures; but those
    of pawns come first where 100 half-moves had none. A move that the session answers by a line, as where it ends the
    game, is taken back."""
    session, dice, moves, clock = Session(arbiter), random.Random(1), [], 0
    session.ask("new")
    while len(moves) < length:
        legal = session.ask("showmoves")[0].split()[3:]
        pieces = board_of(session.ask("showfen")[0].removeprefix("# fen "))
        quiet = [move for move in legal if move[2:4] not in pieces]
        pawns = [move for move in quiet if pieces[move[:2]] in "Pp"]
        others = [move for move in quiet if pieces[move[:2]] not in "Pp"]
        taking = [move for move in legal if move not in quiet]
        shuffled = [dice.sample(part, len(part)) for part in (others, pawns, taking)]
        if clock > 100:
            shuffled = shuffled[1:] + shuffled[:1]
        for move in itertools.chain(*shuffled):
            answers = session.ask(move)
            if not answers:
                break
            session.ask("undo")
        else:
            break
        clock = clock + 1 if move in others else 0
        moves.append(move)
    session.end()
    return moves
