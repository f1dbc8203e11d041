"""Rows taken column by column, through which Python goes faster than row by row. Those of the tables, those of the accepted files and
those that a period settles to have the same form, and so they can be compared."""

import bisect
import functools

from .beside import sum_of


class Keys:
    """The keys of rows, and what is found out of them once. Most periods have the same keys, and share them."""

    def __init__(self, names):
        self.names = names

    @functools.cached_property
    def places(self):
        """The place of each key. Of a key that comes twice it is the last one."""
        return {name: at for at, name in enumerate(self.names)}

    @functools.cached_property
    def order(self):
        """The places of the keys in the order of the keys."""
        return sorted(range(len(self.names)), key=self.names.__getitem__)

    @functools.cached_property
    def sorted(self):
        return [*map(self.names.__getitem__, self.order)]

    @functools.cached_property
    def sum(self):
        return sum_of(self.names)

    @functools.cached_property
    def sum_in_order(self):
        return sum_of(self.sorted)


def shared(names, before):
    """The keys of these names, which are those of the period before if it has the same."""
    names = [*names]
    return before if before is not None and before.names == names else Keys(names)


class Held:
    """Rows under keys that differ: the keys, and the values column by column."""

    def __init__(self, keys, columns):
        self.keys, self.columns = keys, columns

    @functools.cached_property
    def values(self):
        """The value under each key."""
        return dict(zip(self.keys.names, zip(*self.columns)))

    @functools.cached_property
    def in_order(self):
        """The columns in the order of the keys."""
        return [[*map(column.__getitem__, self.keys.order)] for column in self.columns]

    @functools.cached_property
    def sum(self):
        return sum_of((self.keys.sum_in_order, self.in_order))

    def is_same(self, other):
        """Whether others are under the same keys the same values."""
        if self.keys.names == other.keys.names:
            return all([*mine] == [*others] for mine, others in zip(self.columns, other.columns))
        return self.values == other.values

    def over(self, older):
        """These rows, and those of before under other keys."""
        if older is None or older.keys is self.keys:
            return self
        return held_of({**older.values, **self.values})


NOTHING = Held(Keys([]), ())


def held_of(values):
    """The rows that have values under keys."""
    return Held(Keys([*values]), [*zip(*values.values())])


def held_by_period(periods, names, columns):
    """The rows of each period, of which the last under a key counts."""
    found, keys = {}, None
    for period, part, *parts in cut(periods, names, *columns):
        keys = shared(part, keys)
        found[period] = alone(Held(keys, parts))
    return found


def alone(held):
    """The same rows, of which the last under a key counts."""
    return held if len(held.keys.places) == len(held.keys.names) else held_of(held.values)


def cut(periods, *columns):
    """Each period with its part of each column, where rows stay in their order."""
    periods = [*periods]
    if any(map(int.__gt__, periods, periods[1:])):
        order = sorted(range(len(periods)), key=periods.__getitem__)
        periods, *columns = ([*map(column.__getitem__, order)] for column in (periods, *columns))
    first = 0
    while first < len(periods):
        last = bisect.bisect_right(periods, periods[first], first)
        yield periods[first], *(column[first:last] for column in columns)
        first = last
