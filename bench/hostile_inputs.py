"""Inputs that are made to be slow. Each function writes one into a folder, as large as a part of the largest one."""

import fractions
import itertools
import math
import os
import random
from collections.abc import Callable, Iterable, Iterator, Sequence
from typing import NamedTuple

from kulavemia import limits

Part = fractions.Fraction

TIMES = 100
DOUBLINGS = 16
DOUBLED_REQUESTS = 1000
STARS = 1000
BRACKETS = 10_000
PATTERN_REQUESTS = 10
FILES_OF_SENDER = limits.SOURCES // limits.SENDERS
GROUPS_OF_USER, GROUPS = 100, 1000

PLAIN = ("plain-check", "one-file")
POLICY = "policy"
KEYWORDS = {"User_Alias": "alice", "Runas_Alias": "root", "Host_Alias": "web1", "Cmnd_Alias": "/bin/ls"}
HEADER = "number,user,host,runas_user,runas_group,command,arguments\n"


class Input(NamedTuple):
    """An input as written: its size in words, and the words of the program that read it."""

    size: str
    words: list[str]


def _of(part: Part, most: int) -> int:
    return max(1, int(part * most))


def _write(folder: str, name: str, texts: Iterable[str]) -> None:
    with open(os.path.join(folder, name), "w", encoding="ascii") as file:
        file.writelines(texts)


def _filled(folder: str, part: Part, first: str, more: str, last: str) -> Input:
    """Writes a policy of a first text, a further one as often as a part of the most bytes has room for, and a last."""
    times = max(1, (_of(part, limits.POLICY_BYTES) - len(first) - len(last)) // len(more))
    _write(folder, POLICY, [first, more * times, last])
    shown = more.strip(" ,:\\\n")
    return Input(f"{times:,} times `{shown}`", ["check", POLICY])


def plain_check(folder: str, part: Part) -> Input:
    """Writes rules, each of a line."""
    rule = "user{:06} host{:02} = (root) NOPASSWD: /usr/bin/command{:02} -v, /opt/tool\n"
    count = max(1, _of(part, limits.POLICY_BYTES) // len(rule.format(0, 0, 0)))
    _write(folder, POLICY, (rule.format(number, number % 50, number % 80) for number in range(count)))
    return Input(f"{count:,} rules", ["check", POLICY])


def one_rule(folder: str, part: Part) -> Input:
    """Writes one rule of many commands, each on a line that is joined to the next."""
    return _filled(folder, part, "alice ALL = ", "/bin/ls, \\\n", "/bin/ls\n")


def one_line(folder: str, part: Part) -> Input:
    """Writes one line of many hosts with commands."""
    return _filled(folder, part, "alice ALL = /bin/ls", " : web1 = /bin/ls", "\n")


def one_word(folder: str, part: Part) -> Input:
    """Writes one command with a very long name."""
    return _filled(folder, part, "alice ALL = /", "a", "\n")


def one_alias(folder: str, part: Part) -> Input:
    """Writes one alias of as many members as fit, which is more than an alias may have."""
    return _filled(folder, part, "Cmnd_Alias A = ", "/bin/ls, ", "/bin/ls\nalice ALL = A\n")


def parentheses(folder: str, part: Part) -> Input:
    """Writes opening parentheses."""
    return _filled(folder, part, "", "(", "")


def _rule(names: Sequence[str]) -> str:
    """Returns a rule that uses an alias of each kind."""
    user, runas, host, command = names
    return f"{user} {host} = ({runas}) {command}\n"


def _chained(folder: str, part: Part, times: int, closed: bool) -> Input:
    """Writes aliases of each kind, each of which names the one before it so often; closed, the first names the last."""
    count = _of(part, limits.ALIASES)
    lines = []
    for keyword, member in KEYWORDS.items():
        letter = keyword[0]
        lines.append(f"{keyword} {letter}0 = {f'{letter}{count - 1}' if closed else member}\n")
        lines += [f"{keyword} {letter}{i} = {', '.join([f'{letter}{i - 1}'] * times)}\n" for i in range(1, count)]
    _write(folder, POLICY, [*lines, _rule([f"{keyword[0]}{count - 1}" for keyword in KEYWORDS])])
    return Input(f"{count:,} aliases of each kind", ["check", POLICY])


def chain(folder: str, part: Part) -> Input:
    """Writes a chain of aliases of each kind."""
    return _chained(folder, part, 1, False)


def cycle(folder: str, part: Part) -> Input:
    """Writes a cycle of aliases of each kind."""
    return _chained(folder, part, 1, True)


def hundred(folder: str, part: Part) -> Input:
    """Writes a chain of aliases of each kind, each of which names the one before it a hundred times."""
    return _chained(folder, part, TIMES, False)


def hundred_cycle(folder: str, part: Part) -> Input:
    """Writes a cycle of aliases of each kind, each of which names the one before it a hundred times."""
    return _chained(folder, part, TIMES, True)


def _request_rows(count: int, rows: Iterable[tuple[int, str]]) -> Iterator[str]:
    """Yields the lines of a requests file with a close row."""
    yield HEADER
    yield from (f"{number},{fields}\n" for number, fields in rows)
    yield f"close,{count},,,,,\n"


def _directory(folder: str) -> None:
    """Writes a few users and hosts."""
    _write(folder, "users.csv", ["user,uid,groups\nroot,0,root:0\nalice,1,alice:1\nbob,2,bob:2\n"])
    _write(folder, "hosts.csv", ["host,interfaces\nweb1,10.1.2.3/16\nweb2,10.2.2.3/16\n"])


def _audit(sources: Iterable[str] = ("s=requests.csv",)) -> list[str]:
    """Returns the words of an audit."""
    return ["audit", POLICY, "--users", "users.csv", "--hosts", "hosts.csv", *sources]


def _doubled(folder: str, part: Part, doubled: str) -> Input:
    """Writes rules on an alias that names another twice, which does so too, and so on; the last is not asked for."""
    doublings = max(1, DOUBLINGS + math.floor(math.log2(part)))
    other = {"User_Alias": "bob", "Runas_Alias": "bob", "Host_Alias": "web2", "Cmnd_Alias": "/bin/other"}[doubled]
    lines = [f"{doubled} W0 = {other}\n"] + [f"{doubled} W{i} = W{i - 1}, W{i - 1}\n" for i in range(1, doublings + 1)]
    names = [f"W{doublings}" if keyword == doubled else member for keyword, member in KEYWORDS.items()]
    _write(folder, POLICY, [*lines, *[_rule(names)] * 10])
    _directory(folder)
    rows = [(number, "alice,web1,,,/bin/ls,") for number in range(1, DOUBLED_REQUESTS + 1)]
    _write(folder, "requests.csv", _request_rows(DOUBLED_REQUESTS, rows))
    return Input(f"{doublings} doublings, 10 rules, {DOUBLED_REQUESTS:,} requests", _audit())


def doubled_users(folder: str, part: Part) -> Input:
    """Writes user aliases that double."""
    return _doubled(folder, part, "User_Alias")


def doubled_runas(folder: str, part: Part) -> Input:
    """Writes runas aliases that double."""
    return _doubled(folder, part, "Runas_Alias")


def doubled_hosts(folder: str, part: Part) -> Input:
    """Writes host aliases that double."""
    return _doubled(folder, part, "Host_Alias")


def doubled_commands(folder: str, part: Part) -> Input:
    """Writes command aliases that double."""
    return _doubled(folder, part, "Cmnd_Alias")


def _pattern(folder: str, pattern: str, path: str, size: str) -> Input:
    """Writes a rule of a pattern, and requests of a path."""
    _write(folder, POLICY, [f"alice ALL = {pattern}\n"])
    _directory(folder)
    rows = [(number, f"alice,web1,,,{path},") for number in range(1, PATTERN_REQUESTS + 1)]
    _write(folder, "requests.csv", _request_rows(PATTERN_REQUESTS, rows))
    return Input(f"{size}, {len(path):,} letters, {PATTERN_REQUESTS} requests", _audit())


def stars(folder: str, part: Part) -> Input:
    """Writes a pattern of stars with a letter between them, and a long path that fits all but its end."""
    count = _of(part, STARS)
    return _pattern(folder, "/" + "*a" * count + "b", "/" + "a" * (10 * count), f"{count:,} stars")


def one_star(folder: str, part: Part) -> Input:
    """Writes a pattern of a star and many letters, and a path that fits it nearly at each place."""
    count = _of(part, STARS)
    return _pattern(folder, "/*" + "a" * count + "b", "/" + "a" * (10 * count), f"a star and {count:,} letters")


def brackets(folder: str, part: Part) -> Input:
    """Writes a pattern of brackets, and a path that fits all but the last of them."""
    count = _of(part, BRACKETS)
    return _pattern(folder, "/" + "[a-z]" * count + "b", "/" + "a" * count + "c", f"{count:,} brackets")


def _long_audit(folder: str) -> None:
    """Writes a policy of a rule, with a few users and hosts."""
    _write(folder, POLICY, ["alice web1 = (root) /bin/ls\n"])
    _directory(folder)


def one_file(folder: str, part: Part) -> Input:
    """Writes many requests in one file."""
    count = _of(part, limits.REQUESTS)
    _long_audit(folder)
    rows = ((number, "alice,web1,,,/bin/ls,") for number in range(1, count + 1))
    _write(folder, "requests.csv", _request_rows(count, rows))
    return Input(f"{count:,} requests", _audit())


def many_files(folder: str, part: Part) -> Input:
    """Writes as many requests, in 256 files of 64 senders; numbers go round the files of a sender."""
    count = max(FILES_OF_SENDER, _of(part, limits.REQUESTS) // limits.SENDERS)
    _long_audit(folder)
    sources = []
    for sender, file in itertools.product(range(limits.SENDERS), range(1, FILES_OF_SENDER + 1)):
        rows = [f"{number},alice,web1,,,/bin/ls,\n" for number in range(file, count + 1, FILES_OF_SENDER)]
        _write(folder, f"{sender}-{file}.csv", [HEADER, *rows, *([f"close,{count},,,,,\n"] if file == 1 else [])])
        sources.append(f"s{sender}={sender}-{file}.csv")
    return Input(f"{count * limits.SENDERS:,} requests in {len(sources)} files", _audit(sources))


def users(folder: str, part: Part) -> Input:
    """Writes many users of a hundred groups each, and a request."""
    count = _of(part, limits.ROWS)
    chance = random.Random(1)
    groups = [f"group{number}:{1000 + number}" for number in range(GROUPS)]
    _long_audit(folder)
    samples = (" ".join(chance.sample(groups, GROUPS_OF_USER)) for _ in range(count - 2))
    rows = (f"user{number},{10 + number},{sample}\n" for number, sample in enumerate(samples))
    _write(folder, "users.csv", itertools.chain(["user,uid,groups\nroot,0,root:0\nalice,1,alice:1\n"], rows))
    _write(folder, "requests.csv", _request_rows(1, [(1, "alice,web1,,,/bin/ls,")]))
    return Input(f"{count:,} users of {GROUPS_OF_USER} groups", _audit())


INPUTS: dict[str, Callable[[str, Part], Input]] = {
    make.__name__.replace("_", "-"): make
    for make in (
        plain_check,
        one_rule,
        one_line,
        one_word,
        one_alias,
        parentheses,
        chain,
        cycle,
        hundred,
        hundred_cycle,
        one_file,
        many_files,
        users,
        doubled_users,
        doubled_runas,
        doubled_hosts,
        doubled_commands,
        stars,
        one_star,
        brackets,
    )
}
