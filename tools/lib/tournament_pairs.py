"""The game pairs of a tournament, and what they decide. tools/tournament uses it.

Two games of the same engines from the same opening, with colours changed, are a pair. It counts when both games count.
"""

import math
from dataclasses import dataclass, field

import elo

HEAD = ("engine", "against", "Elo", "error", "LOS %", "drawn %", "pairs", "0", "1/2", "1", "3/2", "2")


@dataclass
class Pairs:
    """How many game pairs gave the first engine 0, 1/2, 1, 3/2 and 2 points, and how many of their games were drawn."""

    counts: list = field(default_factory=lambda: [0] * 5)
    drawn: int = 0

    def add(self, *points):
        """Counts a pair by the points of the first engine in each game."""
        self.counts[int(2 * sum(points))] += 1
        self.drawn += points.count(0.5)

    def __add__(self, other):
        """The counts of both together."""
        return Pairs([sum(both) for both in zip(self.counts, other.counts)], self.drawn + other.drawn)

    def cells(self):
        """Returns the cells of the table; `-` is in place of an error that is infinite, and of the error and the
        likelihood if all pairs have the same points."""
        error, number = elo.elo_error(self.counts), sum(self.counts)
        is_known = elo.standard_error(self.counts) > 0
        return [
            signed(elo.elo_difference(elo.mean_score(self.counts))),
            f"{error:.1f}" if is_known and math.isfinite(error) else "-",
            f"{100 * elo.likelihood_of_superiority(self.counts):.1f}" if is_known else "-",
            f"{100 * self.drawn / (2 * number):.1f}",
            number,
            *self.counts,
        ]


def signed(difference):
    """Returns the text of an Elo difference; a zero has always the same sign."""
    return f"{round(difference, 1) + 0.0:+.1f}"


class AllPairs:
    """The game pairs of all engines; of two engines the first is the one whose name is earlier in the list."""

    def __init__(self, names):
        self.names = names
        self.single = {}  # the first engine's points in a game without its other one, by engines and opening
        self.found = {}  # Pairs by engines

    def add(self, game, points):
        """Counts a game in which White had so many points."""
        engines = tuple(sorted((game.white, game.black), key=self.names.index))
        own = points if game.white == engines[0] else 1 - points
        key = *engines, game.opening
        if key in self.single:
            self.found.setdefault(engines, Pairs()).add(self.single.pop(key), own)
        else:
            self.single[key] = own

    def of_first_two(self):
        """Returns the pairs of the first two engines, which --sprt is about."""
        return self.found.get(tuple(self.names[:2]), Pairs())

    def of_first(self):
        """Returns the pairs of the first engine, against all others."""
        return sum((pairs for engines, pairs in self.found.items() if engines[0] == self.names[0]), Pairs())

    def rows(self):
        """Returns the rows of the table: the first engine against all, if there are several, and each two engines."""
        rows, all_pairs = [], self.of_first()
        if len(self.names) > 2 and any(all_pairs.counts):
            rows.append([self.names[0], "all", *all_pairs.cells()])
        for engines in sorted(self.found, key=lambda engines: [self.names.index(name) for name in engines]):
            rows.append([*engines, *self.found[engines].cells()])
        return rows


def ratio_text(sprt, counts):
    """Returns the log-likelihood ratio with its bounds, and which hypothesis is accepted, if one is."""
    lower, upper = sprt.bounds()
    accepted = sprt.accepted(counts)
    text = f"LLR {round(sprt.ratio(counts), 2) + 0.0:.2f} ({lower:.2f}, {upper:.2f})"
    return f"{text}, {accepted} is accepted" if accepted else text
