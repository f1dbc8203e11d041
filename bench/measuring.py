"""What the measuring scripts share: their words, the Rust peers, and the tables of times."""
import argparse
import os
import pathlib
import statistics
import subprocess
import sys

BENCH = pathlib.Path(__file__).resolve().parent
sys.path.insert(0, str(BENCH.parent / "tools"))

from running import environment  # noqa: E402

# All that is measured, the peers too, has the environment that `./settle` gives the program.
os.environ.update(environment())


def read_words(description, crate, times=None):
    """The built program of a crate, the number of rounds and, if the script takes it, the number of times."""
    parser = argparse.ArgumentParser(description=description, formatter_class=argparse.RawDescriptionHelpFormatter)
    parser.add_argument("program", nargs="?", default=str(BENCH.parent / "crates" / crate / "out" / crate))
    parser.add_argument("--rounds", type=int, default=7)
    if times is not None:
        parser.add_argument("--times", type=int, default=times)
    words = parser.parse_args()
    words.program = str(pathlib.Path(words.program).resolve())
    if not pathlib.Path(words.program).is_file():
        sys.exit(f"no program at {words.program}: build it by `rt run` in crates/{crate}")
    if words.rounds < 1 or (times is not None and words.times < 1):
        sys.exit("--rounds and --times are at least 1")
    return words


def build_rust_peer(name, folder, *options):
    """The built peer whose source is NAME.rs."""
    built = folder / name
    subprocess.run(["rustc", "-O", *options, "-o", str(built), str(BENCH / f"{name}.rs")], check=True)
    return str(built)


def print_table(times, decimals):
    """The median, least and greatest of each program's milliseconds, and the ratios to the peers that were measured."""
    medians = {name: statistics.median(taken) for name, taken in times.items()}
    peers = {name: digits for name, digits in (("Rust peer", 2), ("Python peer", 3)) if name in times}
    print()
    print("| Program | Median, ms | Least, ms | Most, ms |" + "".join(f" To the {peer} |" for peer in peers))
    print("|---|---:|---:|---:|" + "---:|" * len(peers))
    for name, taken in times.items():
        figures = [f"{figure:.{decimals}f}" for figure in (medians[name], min(taken), max(taken))]
        ratios = [f"{medians[name] / medians[peer]:.{digits}f}" for peer, digits in peers.items()]
        print(f"| {' | '.join([name, *figures, *ratios])} |")
