"""Netgroups and non-Unix groups beside sudo itself, which asks its library and a plugin: in namespaces with another /etc."""

import os
import random
import shutil
import subprocess
import unittest
from collections.abc import Sequence

from support import REQUESTS_HEADER, REVIEW, TOOLS, Case, needs_review
from kulavemia.rows import row

POLICIES = 30
REQUESTS = 24
ACCOUNTS = {"root": 0, "alice": 5001, "bob": 5002, "carol": 5003, "Dan": 5004}
HOSTS = ("web1", "web2.example.org", "db1")
NETGROUPS = ("ng1", "ng2", "NG3", "n-g.4", "none")
DOMAINS = ("", "", "example.org", "Example.ORG", "other.net")
TRIPLE_HOSTS = ("", "-", "-", *HOSTS, "WEB1", "web2", "Web2.Example.Org", "db1.example.org", "other")
TRIPLE_USERS = ("", "-", "-", *ACCOUNTS, "ALICE", "zoe")
# Non-Unix groups, which a plugin of sudo reads of a file.
NON_UNIX = ("g1", "G2", "two words")
PLUGIN = "/usr/libexec/sudo/group_file.so"
NSSWITCH = "passwd: files\ngroup: files\nhosts: files\nnetgroup: files\nsudoers: files\n"
# What sudo and its library read besides.
COPIED = ("ld.so.cache", "pam.d", "security", "login.defs", "hosts", "localtime")
# Writes netgroups.csv by what getent says there, and a line with 0 for each request that sudo allows.
SCRIPT = """
mount --bind {folder}/etc /etc && echo '{domain}' >/proc/sys/kernel/domainname || exit 9
{tools}/directory {folder}/out --netgroups /etc/sudoers 2>/dev/null || exit 8
while read -r user host runas command; do
  sudo -n -l -U $user -h $host -u $runas $command >/dev/null 2>&1 </dev/null
  echo $?
done <{folder}/asks
"""


class Drawn:
    """A policy with netgroups, and their triples, drawn at random; with non-Unix groups too, if any, by a plugin or none."""

    def __init__(self, seed: str, commands: Sequence[str], non_unix: Sequence[str] = (), plugin: bool = False) -> None:
        self.draw = random.Random(seed)
        self.commands = commands
        self.plugin = plugin
        self.users = {name: self.draw.sample(list(ACCOUNTS), self.draw.randint(0, 3)) for name in non_unix}
        choice = self.draw.choice
        self.triples = [("none", "-", "-", "")]
        for _ in range(self.draw.randint(3, 14)):
            self.triples.append((choice(NETGROUPS[:-1]), choice(TRIPLE_HOSTS), choice(TRIPLE_USERS), choice(DOMAINS)))
        aliases = [f"User_Alias A1 = {self.of_users('alice bob carol')}", f"Host_Alias H1 = {self.listed('web1 web2 db1')}"]
        if plugin:
            aliases.append('Defaults group_plugin="group_file.so /etc/plugin-groups"')
        rules = [self.rule() for _ in range(self.draw.randint(2, 5))]
        self.policy = "".join(f"{line}\n" for line in ("Defaults !fqdn", *aliases, *rules))

    def listed(self, words: str) -> str:
        """Returns a list of netgroups and of words."""
        members = [
            self.draw.choice(("", "", "", "", "!", "!!"))
            + self.draw.choice((f"+{name}", f"+{name}", f'"+{name}"', "ALL", *words.split()))
            for name in (self.draw.choice(NETGROUPS) for _ in range(self.draw.randint(1, 3)))
        ]
        return ", ".join(members)

    def of_users(self, words: str) -> str:
        """Returns a list of netgroups, of words, and of non-Unix groups."""
        if not self.users or self.draw.random() < 0.4:
            return self.listed(words)
        name = self.draw.choice(list(self.users))
        group = f'"%:{name}"' if " " in name or self.draw.random() < 0.3 else f"%:{name}"
        return f"{self.listed(words)}, {self.draw.choice(('', '', '!', '!!'))}{group}"

    def rows(self) -> list[tuple[str, str, str, str]]:
        """Returns what a file of netgroups says of the non-Unix groups: nobody without a plugin."""
        found = []
        for name, users in self.users.items():
            found += [(f"%:{name}", "-", user, "") for user in (users if self.plugin and users else ["-"])]
        return found

    def rule(self) -> str:
        """Returns a rule."""
        commands = [
            self.draw.choice(("", "", f"({self.of_users('root alice')}) ")) + self.draw.choice(("", "", "", "!")) + command
            for command in self.draw.sample(self.commands, 2)
        ]
        return f"{self.of_users('alice bob A1')} {self.listed('web1 db1 H1')} = {', '.join(commands)}"

    def netgroup(self) -> str:
        """Returns the file /etc/netgroup."""
        names = dict.fromkeys(triple[0] for triple in self.triples)
        return "".join(f"{name} {' '.join(self.shown(name))}\n" for name in names)

    def shown(self, name: str) -> list[str]:
        """Returns the triples of a netgroup."""
        return [f"({host},{user},{domain})" for netgroup, host, user, domain in self.triples if netgroup == name]

    def asks(self) -> list[tuple[str, str, str, str]]:
        """Returns requests: a user, a host, whom to run as, and a command."""
        choice = self.draw.choice
        return [
            (choice(list(ACCOUNTS)), choice(HOSTS), choice(("root", "root", "alice", "carol")), choice(self.commands))
            for _ in range(REQUESTS)
        ]


@needs_review
@unittest.skipUnless(os.geteuid() == 0 and shutil.which("sudo") and shutil.which("unshare"), "not root, or without sudo")
class Netgroups(Case):
    def setUp(self) -> None:
        super().setUp()
        if subprocess.run(["unshare", "-m", "-u", "true"], capture_output=True, check=False).returncode != 0:
            self.skipTest("no namespace can be made here")
        for name in COPIED:
            if os.path.isdir(f"/etc/{name}"):
                shutil.copytree(f"/etc/{name}", self.path("etc", name), symlinks=True)
            elif os.path.exists(f"/etc/{name}"):
                os.makedirs(self.path("etc"), exist_ok=True)
                shutil.copy(f"/etc/{name}", self.path("etc", name))
        self.write("etc/nsswitch.conf", NSSWITCH)
        self.write("etc/passwd", "".join(f"{name}:x:{uid}:{uid}::/:/bin/sh\n" for name, uid in ACCOUNTS.items()))
        self.write("etc/shadow", "".join(f"{name}:*:19000:0:99999:7:::\n" for name in ACCOUNTS))
        self.write("etc/group", "".join(f"{name}:x:{gid}:\n" for name, gid in ACCOUNTS.items()))
        self.write("users", "user,uid,gid,group\n" + "".join(f"{name},{uid},{uid},{name}\n" for name, uid in ACCOUNTS.items()))
        self.write("hosts", "host,interfaces\n" + "".join(f"{name},\n" for name in HOSTS))
        self.commands = [self.write(f"bin/{name}", "#!/bin/sh\n") for name in "abc"]
        for path in (self.folder, self.path("bin"), *self.commands):
            os.chmod(path, 0o755)

    def of_sudo(self, drawn: Drawn, asks: Sequence[Sequence[str]], domain: str) -> list[bool]:
        """Returns which requests sudo allows. Skips the test where that cannot be asked."""
        self.write("etc/netgroup", drawn.netgroup())
        self.write("etc/plugin-groups", "".join(f"{name}:x:1:{','.join(users)}\n" for name, users in drawn.users.items()))
        os.chmod(self.write("etc/sudoers", drawn.policy), 0o440)
        self.write("asks", "".join(" ".join(ask) + "\n" for ask in asks))
        script = SCRIPT.format(folder=self.folder, tools=TOOLS, domain=domain)
        done = subprocess.run(["unshare", "-m", "-u", "sh", "-c", script], capture_output=True, text=True, check=False)
        if done.returncode == 9:
            self.skipTest("no namespace can be made here")
        self.assertEqual(done.returncode, 0, done.stderr)
        return [line == "0" for line in done.stdout.splitlines()]

    def of_review(self, drawn: Drawn, asks: Sequence[Sequence[str]]) -> list[bool]:
        """Returns which requests `sudo_review` allows."""
        self.write("p", drawn.policy)
        rows = [(str(number), user, host, runas, "", command, "") for number, (user, host, runas, command) in enumerate(asks, 1)]
        self.write("requests", REQUESTS_HEADER + "".join(map(row, rows)) + f"close,{len(rows)},,,,,\n")
        self.write("out/netgroups.csv", self.read("out", "netgroups.csv") + "".join(map(row, drawn.rows())))
        words = ["p", "--users", "users", "--hosts", "hosts", "--netgroups", "out/netgroups.csv", "s=requests"]
        done = subprocess.run([REVIEW, "report", *words], cwd=self.folder, capture_output=True, text=True, check=False)
        self.assertEqual(done.returncode, 0, done.stderr)
        return [",allow," in line for line in done.stdout.splitlines()[1:]]

    def test_both_allow_the_same(self) -> None:
        self.compare([Drawn(f"sudo.{number}", self.commands) for number in range(POLICIES)])

    @unittest.skipUnless(os.path.exists(PLUGIN), "without the plugin of sudo that reads a file")
    def test_both_allow_the_same_by_non_unix_groups(self) -> None:
        self.compare([Drawn(f"plugin.{number}", self.commands, NON_UNIX, number % 3 > 0) for number in range(POLICIES)])

    def compare(self, policies: Sequence[Drawn]) -> None:
        """Compares the answers of sudo and of `sudo_review` to requests under policies."""
        allowed = 0
        for number, drawn in enumerate(policies):
            asks = drawn.asks()
            found = self.of_sudo(drawn, asks, ("(none)", "example.org")[number % 2])
            with self.subTest(policy=drawn.policy, triples=drawn.triples, users=drawn.users):
                self.assertEqual(found, self.of_review(drawn, asks))
            allowed += sum(found)
        self.assertGreater(allowed, len(policies))


if __name__ == "__main__":
    unittest.main()
