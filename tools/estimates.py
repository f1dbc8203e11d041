"""How long the proofs that are left will take: by what they took elsewhere, and by how fast the first ones were here."""

import os

TIMES = os.path.join(os.path.dirname(os.path.realpath(__file__)), "times.csv")


def times():
    """The seconds that each crate took where they were measured, by the names of the crates."""
    with open(TIMES, encoding="utf-8") as file:
        rows = [line.split(",") for line in file.read().splitlines()[1:]]
    return {crate: float(seconds) for crate, seconds in rows}


class Estimate:
    """How long the crates that are left will take."""

    def __init__(self, crates):
        known = times()
        self.left = {crate: known.get(crate) for crate in crates}
        self.here = self.there = 0.0

    def hear(self, crate, seconds):
        """Takes in how long a crate took here. Those before it that took nothing were proved before."""
        before = list(self.left)
        there = [self.left.pop(name) for name in before[: before.index(crate) + 1]][-1]
        if there is not None:
            self.here, self.there = self.here + seconds, self.there + there

    def told(self):
        """What is told of the time that is left. Nothing where none is left, or it isn't known of each crate."""
        if not self.left or None in self.left.values():
            return ""
        factor = self.here / self.there if self.there else 1.0
        minutes = max(1, round(factor * sum(self.left.values()) / 60))
        return f"; {minutes} minute{'s' * (minutes > 1)} left, or fewer where crates were proved before"
