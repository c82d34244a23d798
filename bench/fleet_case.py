#!/usr/bin/env python3
"""Writes a made-up fleet into a folder, for tools/fleet: each host has a policy, users, hosts and requests of its own.

usage: fleet_case.py FOLDER [--fleet N] [--requests N] [--rules N]

Each fiftieth host has a policy with a fault, and each hundredth has no users. The same numbers always give the same
bytes.
"""

import argparse
import os
from typing import NamedTuple

from case import Case, Sizes, write


class Fleet(NamedTuple):
    """A fleet that is asked for: its folder, its hosts, and the requests and rules of each."""

    folder: str
    hosts: int
    requests: int
    rules: int


def options() -> Fleet:
    """Returns what the words ask for."""
    parser = argparse.ArgumentParser(description=__doc__, formatter_class=argparse.RawDescriptionHelpFormatter)
    parser.add_argument("folder")
    parser.add_argument("--fleet", type=int, default=1000, metavar="N", help="how many hosts (default 1000)")
    parser.add_argument("--requests", type=int, default=20, metavar="N", help="requests of a host (default 20)")
    parser.add_argument("--rules", type=int, default=2, metavar="N", help="rules of a host (default 2)")
    given = parser.parse_args()
    return Fleet(given.folder, given.fleet, given.requests, given.rules)


def write_host(given: Fleet, number: int) -> None:
    """Writes a host."""
    case = Case(Sizes(rules=given.rules, aliases=3, users=30, hosts=5, seed=number))
    folder = os.path.join(given.folder, f"host{number:06}")
    for below in ("tree/etc/sudoers.d", "requests"):
        os.makedirs(os.path.join(folder, below))
    first, *rest = case.policy()
    fault = ["root ALL ALL"] if number % 50 == 49 else []
    write(folder, "tree/etc/sudoers", [first, "@includedir /etc/sudoers.d"])
    write(folder, "tree/etc/sudoers.d/10-rules", rest + fault)
    if number % 100 != 24:
        write(folder, "users.csv", case.user_rows())
    write(folder, "hosts.csv", case.host_rows())
    for sender in range(2):
        write(folder, f"requests/host{number:06}_{sender}.csv", case.request_rows(given.requests // 2))


def main() -> None:
    """Writes the fleet."""
    given = options()
    for number in range(given.hosts):
        write_host(given, number)


if __name__ == "__main__":
    main()
