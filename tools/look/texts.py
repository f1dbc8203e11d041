"""How lines and tables are set."""

WIDTH = 84


def item(label, amount, unit=""):
    """A label with an amount at the right."""
    return f"{label}{amount:>{max(WIDTH - len(label), len(amount) + 2)}}{unit and f' {unit}'}"


def table(heads, rows, words=(0,)):
    """The lines of a table. Columns of words are set at the left, and those of numbers at the right."""
    cells = [heads, *rows]
    widths = [max(len(row[at]) for row in cells) for at in range(len(heads))]
    forms = [f"{'<' if at in words else '>'}{width}" for at, width in enumerate(widths)]
    return ["  ".join(format(text, form) for text, form in zip(row, forms)).rstrip() for row in cells]


def listed(words):
    """`a`, `a and b`, `a, b and c`."""
    return words[0] if len(words) == 1 else f"{', '.join(words[:-1])} and {words[-1]}"
