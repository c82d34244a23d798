#!/usr/bin/env python3
"""Writes a policy of command aliases, each of which names the one before it many times, into a file.

usage: chain.py FILE [--aliases N] [--times N] [--cycle]

With --cycle the first alias names itself, so that every alias leads to a cycle; else it is a command.
"""

import argparse
from collections.abc import Iterator
from typing import NamedTuple


class Chain(NamedTuple):
    """How many aliases there are, how often each names the one before it, and whether the first names itself."""

    aliases: int
    times: int
    cycle: bool


def options() -> tuple[str, Chain]:
    """Returns the file and the chain that the words ask for."""
    parser = argparse.ArgumentParser(description=__doc__, formatter_class=argparse.RawDescriptionHelpFormatter)
    parser.add_argument("file")
    parser.add_argument("--aliases", type=int, default=4000)
    parser.add_argument("--times", type=int, default=100)
    parser.add_argument("--cycle", action="store_true")
    given = parser.parse_args()
    return given.file, Chain(given.aliases, given.times, given.cycle)


def lines(given: Chain) -> Iterator[str]:
    """Yields the lines of the policy."""
    yield "Cmnd_Alias A0 = " + ("A0" if given.cycle else "/bin/ls")
    for number in range(1, given.aliases):
        yield f"Cmnd_Alias A{number} = " + ", ".join([f"A{number - 1}"] * given.times)
    yield f"root ALL = A{given.aliases - 1}"


def main() -> None:
    """Writes the policy."""
    path, given = options()
    with open(path, "w", encoding="ascii") as file:
        file.writelines(line + "\n" for line in lines(given))


if __name__ == "__main__":
    main()
