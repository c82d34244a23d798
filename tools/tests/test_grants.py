"""Tables of grants on policies drawn at random: their rows decide as the policy does, and stand where they are asked for.

The variable POLICIES says how many policies there are: with 2000 there are 100,000 requests.
"""

import csv
import io
import os
import unittest
from collections import Counter
from collections.abc import Iterator
from typing import NamedTuple

import listing
from drawn import Drawn
from support import REVIEW, needs_review

POLICIES = int(os.environ.get("POLICIES", "60"))
# How many cells (a user and a host) of a policy are looked at, and how many requests of each.
CELLS = 5
REQUESTS = 10
HEADER = "place,users,hosts,runas,sign,command,tags,depends"
# Users, groups and hosts beside those of drawn policies, each as it stands in a policy: docs/PROFILE.md, "what is printed".
USERS = {
    "domain user": r"domain\ user",
    "x, y": r"x\,\ y",
    "ALL": '"ALL"',
    "A0": '"A0"',
    "#11": r"\#11",
    "%adm": r"\%adm",
    'a"b\\': r"a\"b\\",
    "tab\there": r"tab\x09here",
    "é:=(!)": r"é\:\=\(\!\)",
}
GROUPS = {"domain users": r"domain\ users", "g,h:37": r"g\,h\:37", "A1": "A1"}
HOSTS = {"web,3": r"web\,3", "A2": '"A2"'}
# Words for these in lists: as above, and in double quotes.
QUOTED = {
    "User": ['"domain user"', '"x, y"', '"%domain users"', '"%adm"', r'"a\"b\\"'],
    "Host": ['"web,3"', '"a2"'],
}
# Signs that drawn commands have, and those that stand in a path or in arguments with a backslash alone.
SIGNS = "abx5é.-/*?[]!^@>+'\"()=:,#\\ "
ESCAPED = {"path": "=:,#\\ ", "arguments": ":,#\\"}


class Row(NamedTuple):
    """A row of a table of grants."""

    place: str
    users: str
    hosts: str
    runas: str
    sign: str
    command: str
    tags: str
    depends: str

    def __str__(self) -> str:
        """Returns the rule for all that grants what the row does."""
        tags = [f"{tag}:" for tag in self.tags.split()]
        return " ".join(filter(None, ["ALL ALL =", self.runas, *tags, self.sign + self.command]))


class Cell(NamedTuple):
    """A user and a host."""

    user: str
    host: str


class Answer(NamedTuple):
    """An answer to a request."""

    verdict: str
    place: str
    tags: str


def users_file() -> str:
    """Returns a users file, with a row for each membership, of the users of drawn policies and those beside them."""
    rows = [
        (row["user"], row["uid"], *reversed(group.split(":")))
        for row in csv.DictReader(listing.USERS.splitlines())
        for group in row["groups"].split()
    ]
    for uid, user in enumerate(USERS, 2000):
        rows += [(user, str(uid), str(gid), group) for gid, group in enumerate(GROUPS, 3000) if gid == 3000 or (uid + gid) % 2]
    out = io.StringIO(newline="")
    csv.writer(out, lineterminator="\n").writerows([("user", "uid", "gid", "group"), *rows])
    return out.getvalue()


def hosts_file() -> str:
    """Returns a hosts file of the hosts of drawn policies and those beside them."""
    return listing.HOSTS + "".join(f'"{host}",\n' for host in HOSTS)


def is_listed(name: str, field: str, written: dict[str, str]) -> bool:
    """Returns whether a field of a table lists a name, which stands there as it is written in a policy."""
    return field == "ALL" or written.get(name, name) in field.split(", ")


class Draw(listing.Draw):
    """A policy and requests drawn at random, with names and commands in which escapes, quotes, blanks and commas are."""

    def __init__(self, seed: int) -> None:
        self.fitting = {word: sorted(commands) for word, commands in listing.FITS["Cmnd"].items()}
        # The commands that words of the policy are for.
        self.commands: list[list[str]] = []
        super().__init__(seed)

    def words(self, kind: str) -> list[str]:
        """Returns the words that lists are drawn from, apart from aliases: drawn ones among them."""
        if kind == "Cmnd":
            return [*super().words(kind), *(self.drawn_command() for _ in range(6))]
        if kind == "Host":
            return [*super().words(kind), *HOSTS.values(), *QUOTED[kind]]
        return [*super().words(kind), *USERS.values(), *(f"%{group}" for group in GROUPS.values()), *QUOTED["User"]]

    def members(self, kind: str, most: int = 3) -> listing.Members:
        """Draws a list: every second one, but of commands, is for all but some."""
        drawn = super().members(kind, most)
        if kind == "Cmnd":
            self.commands += [self.fitting[member.word] for member in drawn if member.word in self.fitting]
            return drawn
        return [listing.Member(0, "ALL"), *drawn] if self.random.random() < 0.5 else drawn

    def drawn_text(self, style: str) -> tuple[str, str]:
        """Draws a text of up to four signs: as it stands in a policy, and its bytes."""
        signs = self.random.choices(SIGNS, k=self.random.randint(1, 4))
        words = [f"\\{sign}" if sign in ESCAPED[style] or self.random.random() < 0.2 else sign for sign in signs]
        return "".join(words), "".join(signs)

    def drawn_command(self) -> str:
        """Draws the word of a command, and keeps the commands of its bytes. A comma of a path ends that of a request."""
        word = plain = self.random.choice(("/opt/a", "/bin/ls", "sudoedit"))
        if self.random.random() < 0.3:
            word, plain = (f"/opt/{text}" for text in self.drawn_text("path"))
        texts = [("", ""), ('""', ""), *(self.drawn_text("arguments") for _ in range(4))]
        written, arguments = self.random.choice(texts)
        word = f"{word} {written}" if written else word
        self.fitting[word] = [f"{plain},{arguments}", f"{plain},{arguments.strip(' ')}", f"{plain},-"]
        return word

    def request(self) -> listing.Request:
        """Draws a request: most commands are those that a word of the policy is for."""
        asked = super().request()
        if self.random.random() < 0.9:
            asked = asked._replace(command=self.random.choice(self.random.choice(self.commands)))
        if self.random.random() < 0.2:
            asked = asked._replace(runas_user=self.random.choice([*USERS]))
        if self.random.random() < 0.1:
            asked = asked._replace(runas_group=self.random.choice([*GROUPS]))
        return asked

    def cells(self) -> list[Cell]:
        """Draws cells."""
        cells = [Cell(user, host) for user in (*listing.GROUPS, *USERS) for host in (*sorted(listing.KNOWN_HOSTS), *HOSTS)]
        return self.random.sample(cells, CELLS)


@needs_review
class Grants(Drawn):
    """Tables of grants on policies drawn at random."""

    def setUp(self) -> None:
        super().setUp()
        self.write("users", users_file())
        self.write("hosts", hosts_file())

    def table(self, *words: str) -> list[Row]:
        """Returns the rows of the table on the policy `p`."""
        header, *rows = csv.reader(io.StringIO(self.printed(REVIEW, "grants", *words), newline=""))
        self.assertEqual(",".join(header), HEADER)
        return [Row(*row) for row in rows]

    def answers(self, policy: str, requests: list[listing.Request]) -> list[Answer]:
        """Returns the answers to requests under a policy."""
        _, *rows = csv.reader(self.report(REVIEW, "report", policy, requests))
        self.assertEqual(len(rows), len(requests))
        return [Answer(*row[8:11]) for row in rows]

    def read_back(self, rows: list[Row], requests: list[listing.Request]) -> list[Answer]:
        """Returns the answers under a policy of rows, with the places of the rows. Fails where they are read as other rows."""
        places = {"": "", **{f"p:{line}": row.place for line, row in enumerate(rows, 1)}}
        answers = self.answers("".join(f"{row}\n" for row in rows), requests)
        again = [row._replace(place=f"p:{line}", users="ALL", hosts="ALL") for line, row in enumerate(rows, 1)]
        self.assertEqual(self.table(), again)
        return [it._replace(place=places[it.place]) for it in answers]

    def test_the_rows_of_a_cell_decide_as_the_policy_does(self) -> None:
        seen: Counter[str] = Counter()
        for seed in range(POLICIES):
            draw = Draw(seed)
            policy = str(draw.policy)
            for cell in draw.cells():
                requests = [draw.request()._replace(user=cell.user, host=cell.host) for _ in range(REQUESTS)]
                with self.subTest(seed=seed, policy=policy, cell=cell, requests=requests):
                    wanted = self.answers(policy, requests)
                    rows = self.table(f"--user={cell.user}", f"--host={cell.host}")
                    self.assertEqual(self.read_back(rows, requests), wanted)
                    seen.update(it.verdict for it in wanted)
        self.assertEqual(set(seen), {"allow", "deny", "nomatch", "unknown-target", "unknown-group"})
        self.assertGreater(min(seen.values()), POLICIES // 2, seen)

    def scopes(self, cell: Cell) -> Iterator[tuple[list[str], str, str]]:
        """Yields words of a cell, of its user and of its host, with whom they name."""
        yield [f"--user={cell.user}", f"--host={cell.host}"], cell.user, cell.host
        yield [f"--user={cell.user}"], cell.user, ""
        yield [f"--host={cell.host}"], "", cell.host

    def test_the_table_has_the_rows_of_each_cell(self) -> None:
        seen: Counter[str] = Counter()
        for seed in range(POLICIES):
            draw = Draw(seed)
            self.write("p", str(draw.policy))
            table = self.table()
            for words, user, host in (scope for cell in draw.cells() for scope in self.scopes(cell)):
                of_user = [row for row in table if not user or is_listed(user, row.users, USERS)]
                wanted = [row for row in of_user if not host or is_listed(host, row.hosts, HOSTS)]
                with self.subTest(seed=seed, policy=str(draw.policy), words=words):
                    self.assertEqual(self.table(*words), wanted)
                seen.update({"there": len(wanted), "left out": len(table) - len(wanted)})
        self.assertGreater(min(seen.values()), POLICIES * CELLS, seen)


if __name__ == "__main__":
    unittest.main()
