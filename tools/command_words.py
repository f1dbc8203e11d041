"""What the words of a call of `settle` say that the script has to know: they are otherwise the program's."""

# Options of `settle script` with a word behind them.
VALUED = "--db", "--operator-key", "--operator-key-file", "--lead-minutes"


def command_of(words):
    """The word that says what is to be done."""
    return next((word for word in words if word != "--explain"), "")


def database_of(words):
    """The path behind `--db`, None where the words have none."""
    for word, after in zip(words, [*words[1:], None]):
        if word == "--db":
            return after
        if word.startswith("--db="):
            return word.removeprefix("--db=")
    return None


def placed_words(words):
    """The words that are neither options nor the values of some."""
    placed, rest = [], iter(words)
    for word in rest:
        if word == "--":
            return [*placed, *rest]
        if word in VALUED:
            next(rest, None)
        elif not word.startswith("--"):
            placed.append(word)
    return placed
