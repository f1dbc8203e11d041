"""Whole numbers of small units, as docs/market.md has them, and the texts that stand for them."""

KWH, TLM, PERCENT, PRICE = 3, 7, 5, 5  # digits behind the point, in files and in texts


def scaled(texts, digits):
    """The whole number of each decimal of an accepted file, with so many digits behind the point."""
    # (a minus stays in front, of 0 too)
    return [int(whole + fraction.ljust(digits, "0")) for text in texts for whole, _, fraction in [text.partition(".")]]


def decimal(number, digits):
    """The text of a number of units, of which so many zeros make one."""
    text = str(abs(number)).rjust(digits + 1, "0")
    return f"{'-' if number < 0 else ''}{text[:-digits]}.{text[-digits:]}"


def mwh(ticks):
    """An energy, exact."""
    return decimal(ticks, 10)


def rounded(ticks):
    """An energy in MWh with three digits, for reading. It is the nearest; a half goes away from zero."""
    kwh = (abs(ticks) + 5_000_000) // 10_000_000
    return f"{'-' if ticks < 0 and kwh else ''}{kwh // 1000}.{kwh % 1000:03}"


def pounds(pence):
    """Cash, with the sign before the pound."""
    return f"{'-' if pence < 0 else ''}£{abs(pence) // 100:,}.{abs(pence) % 100:02}"


def per_mwh(price):
    """A price in pounds per MWh, exact."""
    return f"{'-' if price < 0 else ''}£{decimal(abs(price), PRICE)}"


def near(number, unit):
    """How many units come nearest to a number; a half goes away from zero."""
    whole, rest = divmod(abs(number), unit)
    if 2 * rest >= unit:
        whole += 1
    return whole if number >= 0 else -whole


def counted(number, one, many=None):
    """`1 price`, `2 prices`."""
    return f"{number:,} {one if number == 1 else many or one + 's'}"


def spans(numbers):
    """Rising whole numbers as a text: `1, 3 to 5`."""
    parts = []
    for number in numbers:
        if parts and parts[-1][1] == number - 1:
            parts[-1][1] = number
        else:
            parts.append([number, number])
    return ", ".join(f"{first}" if first == last else f"{first} to {last}" for first, last in parts)


def periods_named(numbers):
    """`period 7`, or `periods 7 to 9`."""
    return f"period{'s' if len(numbers) > 1 else ''} {spans(numbers)}"
