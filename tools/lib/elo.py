"""What the results of a match decide: Elo difference with its error, likelihood of superiority, and the SPRT.

The functions take the counts of game pairs: in how many pairs the first engine had 0, 1/2, 1, 3/2 and 2 points. The two
games of a pair begin with the same opening, with colours changed, and so are not independent; the pairs are. With
`scores` they take counts of other kinds too, such as those of single games lost, drawn and won.

Sources: A. Wald, Sequential Tests of Statistical Hypotheses (1945), for the SPRT and its bounds; Michel Van den Bergh's
notes on the GSPRT for multinomial distributions, on which Stockfish's testing framework is based, for the log-likelihood
ratio; and fastchess, for the error and the likelihood of superiority from game pairs.
"""

import math
from dataclasses import dataclass
from statistics import NormalDist

NORMAL = NormalDist()
CONFIDENCE = 0.95
# The score of a game, on average, in pairs with 0, 1/2, 1, 3/2 and 2 points.
PAIR_SCORES = (0, 0.25, 0.5, 0.75, 1)
# What a count of 0 is in the log-likelihood ratio, so that distributions of each mean are possible.
LEAST_COUNT = 0.001
HALVINGS = 40  # An error of t changes the ratio by its square only.


def expected_score(elo):
    """Returns the score that is expected at an Elo difference: 1 / (1 + 10^(-elo / 400))."""
    return 1 / (1 + 10 ** (-elo / 400))


def elo_difference(score):
    """Returns the Elo difference at which a score is expected: 400 log10(score / (1 - score)). It is infinite for 0 or
    less and for 1 or more."""
    if score <= 0 or score >= 1:
        return math.copysign(math.inf, score - 0.5)
    return 400 * math.log10(score / (1 - score))


def mean_score(counts, scores=PAIR_SCORES):
    """Returns the mean m: the sum of n_i a_i / n for n_i counts of the score a_i, of n in all."""
    return sum(count * score for count, score in zip(counts, scores)) / sum(counts)


def variance(counts, scores=PAIR_SCORES):
    """Returns the variance of a pair: the sum of n_i (a_i - m)^2 / n."""
    mean = mean_score(counts, scores)
    return sum(count * (score - mean) ** 2 for count, score in zip(counts, scores)) / sum(counts)


def standard_error(counts, scores=PAIR_SCORES):
    """Returns the standard error of the mean: the root of the variance of a pair / n."""
    return math.sqrt(variance(counts, scores) / sum(counts))


def elo_error(counts, scores=PAIR_SCORES):
    """Returns half the width, in Elo, of the interval from m - z s to m + z s, where s is the standard error and z is
    1.96, for 95 % by the normal distribution. It is infinite if the interval reaches 0 or 1."""
    reach = NORMAL.inv_cdf((1 + CONFIDENCE) / 2) * standard_error(counts, scores)
    mean = mean_score(counts, scores)
    return (elo_difference(mean + reach) - elo_difference(mean - reach)) / 2


def likelihood_of_superiority(counts, scores=PAIR_SCORES):
    """Returns the likelihood that the first engine is the stronger one: the share of the normal distribution below
    (m - 1/2) / s, where s is the standard error, which must not be 0."""
    return NORMAL.cdf((mean_score(counts, scores) - 0.5) / standard_error(counts, scores))


# The sequential probability ratio test (SPRT)


def tilt(counts, mean, scores=PAIR_SCORES):
    """Returns the t for which the sum of n_i (a_i - mean) / (1 + t (a_i - mean)) is 0 and each denominator is
    positive. The sum falls as t grows. The mean must be between the least and the greatest score, and no count 0."""
    low, high = -1 / (scores[-1] - mean), 1 / (mean - scores[0])
    for _ in range(HALVINGS):
        middle = (low + high) / 2
        slope = sum(n * (score - mean) / (1 + middle * (score - mean)) for n, score in zip(counts, scores))
        low, high = (middle, high) if slope > 0 else (low, middle)
    return (low + high) / 2


def log_likelihood(counts, mean, scores=PAIR_SCORES):
    """Returns the greatest log-likelihood of the counts by a distribution with this mean, less the greatest by any. The
    most likely distribution with this mean gives the score a_i the probability (n_i / n) / (1 + t (a_i - mean)), with
    the t of `tilt` (Van den Bergh)."""
    t = tilt(counts, mean, scores)
    return -sum(count * math.log1p(t * (score - mean)) for count, score in zip(counts, scores))


def log_likelihood_ratio(counts, elo0, elo1, scores=PAIR_SCORES):
    """Returns the log-likelihood ratio of the generalized SPRT: how much more likely the counts are by the best
    distribution whose mean is the score expected at elo1 than by the best with that of elo0. A count of 0 is taken as
    LEAST_COUNT."""
    counts = [count or LEAST_COUNT for count in counts]
    by_elo0, by_elo1 = (log_likelihood(counts, expected_score(elo), scores) for elo in (elo0, elo1))
    return by_elo1 - by_elo0


@dataclass(frozen=True)
class Sprt:
    """A test of the hypotheses H0, that the Elo difference is elo0, and H1, that it is elo1, where elo0 < elo1. H1 is
    accepted with the probability alpha if H0 is true, and H0 with the probability beta if H1 is true, at most about."""

    elo0: float
    elo1: float
    alpha: float
    beta: float

    def __str__(self):
        """The four numbers, as a tournament's options.txt keeps them."""
        return f"{self.elo0} {self.elo1} {self.alpha} {self.beta}"

    def bounds(self):
        """Returns Wald's bounds: log(beta / (1 - alpha)), where H0 is accepted, and log((1 - beta) / alpha), for H1."""
        return math.log(self.beta / (1 - self.alpha)), math.log((1 - self.beta) / self.alpha)

    def ratio(self, counts):
        """Returns the log-likelihood ratio of counts of game pairs."""
        return log_likelihood_ratio(counts, self.elo0, self.elo1)

    def accepted(self, counts):
        """Returns the hypothesis that is accepted, H0 or H1; None while the ratio is between the bounds."""
        lower, upper = self.bounds()
        ratio = self.ratio(counts)
        return "H0" if ratio <= lower else "H1" if ratio >= upper else None
