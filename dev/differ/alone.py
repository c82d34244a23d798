"""Policies with one caution, and requests for what they name."""

import itertools
import random
import re
from collections.abc import Sequence

from differ import world
from differ.ask import Case
from differ.assumed import EDIT
from differ.classes import LINE
from differ.draw import Draw
from differ.pieces import plain
from differ.review import Caution
from differ.world import POLICY, Request

MOST_REQUESTS = 3_000
NO_RULE = re.compile(r"[ \t]*(?:\w+_Alias\b|Defaults(?=[ \t@:!>])|[@#]include|#\D|$)")
DEFINES = re.compile(r"[ \t]*\w+_Alias\b")
DEFINED = re.compile(r"(?:_Alias|:)\s*([A-Z][A-Z0-9_]*)\s*=")


def alone_with(case: Case, wanted: Caution, cautions: Sequence[Caution]) -> Case | None:
    """Returns a case in which one caution is left, and no other rule hides what its line decides.

    Other rules go, if its line is a rule; lines with other cautions go too. Returns `None` if the line has another one, or
    if it defines aliases that no line uses."""
    others = {caution.place for caution in cautions} - {wanted.place}
    line, number, rest = "", 1, []
    for one in LINE.findall(case.text):
        ends = one.count("\n")
        places = {f"{POLICY}:{number + at}" for at in range(ends + (not one.endswith("\n")))}
        number += ends
        if wanted.place in places:
            line = "" if places & others else one
            rest.append(line)
        elif not places & others:
            rest.append(one)
    if not line or sum(caution.place == wanted.place for caution in cautions) > 1 or not _is_used(line, rest):
        return None
    kept = [one for one in rest if one is line or NO_RULE.match(one)] if not NO_RULE.match(line) else rest
    return case._replace(text="".join(kept))


def _is_used(line: str, lines: list[str]) -> bool:
    """Returns whether a line is none that defines aliases, or another line names one of them."""
    names = DEFINED.findall(line) if DEFINES.match(line) else []
    used = re.compile(rf"(?<![\w\\])({'|'.join(names)})(?!\w)")
    return not names or any(used.search(one) for one in lines if one is not line)


def requests_for(draw: Draw, case: Case, seed: str, known: list[world.User]) -> list[Request]:
    """Returns requests for what a policy names, in an order by chance."""
    said = world.lower(plain(case.text))
    targets = ["", *(user.name for user in known if any(world.lower(name) in said for name in (user.name, *user.groups)))]
    targets += [user.name for user in known if f"#{user.number}" in said]
    arguments = list(dict.fromkeys(["", *(one.replace("\n", "").strip(" ") for one in draw.used_arguments)]))[:10]
    commands = list(dict.fromkeys([*draw.used_commands, EDIT]))[:8]
    pairs = [*itertools.product(commands, arguments), *((command, "") for command in world.COMMANDS)]
    users, hosts = [user.name for user in known], [host.name for host in world.HOSTS_KNOWN]
    drawn = list(itertools.product(users, hosts, dict.fromkeys(targets) if "(" in case.text else [""], pairs))
    random.Random(seed).shuffle(drawn)
    return [Request(user, host, target, "", *pair) for user, host, target, pair in drawn[:MOST_REQUESTS]]
