"""Users and hosts."""

import os
import shutil
import time
import unittest
from collections.abc import Callable
from unittest import mock

from support import Case, needs_program

from kulavemia import netgroups
from kulavemia.command import Fault
from kulavemia.directory import Group, Person, write
from kulavemia.netgroups import Triple, named_in, of_this_machine, triples_of

PASSWD = """root:x:0:0::/root:/bin/sh
jim:x:5001:5000::/home/jim:/bin/sh
ann:x:5002:100::/home/ann:/bin/sh
ghost:x:5003:5999::/:/bin/sh
"""
GROUP = "root:x:0:\nusers:x:100:jim\ndomain users:x:5000:\nit staff:x:5001:jim,ann\nadm:x:4:ann\n"
ADDR = (
    '[{"ifname":"eth0","addr_info":[{"family":"inet","local":"192.0.2.7","prefixlen":24},'
    '{"family":"inet6","local":"fe80::1","prefixlen":64}]},{"ifname":"none"}]'
)


class Directory(Case):
    def host(self, name: str, passwd: str = PASSWD, group: str = GROUP, addr: str = ADDR) -> None:
        """Writes the copied files of a host."""
        for file, text in (("passwd", passwd), ("group", group), ("addr.json", addr)):
            self.write(f"{name}/{file}", text)

    def test_this_machine(self) -> None:
        self.run_tool("directory", "out")
        users, hosts = self.rows("out", "users.csv"), self.rows("out", "hosts.csv")
        self.assertEqual(users[0], "user,uid,groups")
        self.assertTrue(any(row.startswith("root,0,root:0") for row in users))
        self.assertEqual((hosts[0], len(hosts)), ("host,interfaces", 2))

    def test_a_user_that_is_named(self) -> None:
        self.run_tool("directory", "out", "--user", "root")
        self.assertEqual(sum(row.startswith("root,") for row in self.rows("out", "users.csv")), 1)
        self.assertIn(
            "--user no-such-user: this machine knows no such user",
            self.run_tool("directory", "out", "--user", "no-such-user", status=3)[1],
        )

    def test_copied_files_of_a_host(self) -> None:
        self.host("web1", group=GROUP.replace("domain users", "domain-users").replace("it staff", "it-staff"))
        self.run_tool("directory", "--from", "web1", "out")
        self.assertEqual(
            self.rows("out", "users.csv"),
            [
                "user,uid,groups",
                "ann,5002,users:100 it-staff:5001 adm:4",
                "ghost,5003,#5999:5999",
                "jim,5001,domain-users:5000 users:100 it-staff:5001",
                "root,0,root:0",
            ],
        )
        self.assertEqual(self.rows("out", "hosts.csv"), ["host,interfaces", "web1,192.0.2.7/24"])

    def test_names_of_groups_that_no_list_can_hold(self) -> None:
        self.host("web1")
        _, err = self.run_tool("directory", "--from", "web1", "out")
        self.assertEqual(
            self.rows("out", "users.csv"),
            [
                "user,uid,gid,group",
                "ann,5002,100,users",
                "ann,5002,5001,it staff",
                "ann,5002,4,adm",
                "ghost,5003,5999,#5999",
                "jim,5001,5000,domain users",
                "jim,5001,100,users",
                "jim,5001,5001,it staff",
                "root,0,0,root",
            ],
        )
        self.assertEqual(err, "")

    def test_groups_by_number(self) -> None:
        self.host("web1")
        _, err = self.run_tool("directory", "--from", "web1", "out", "--by-number")
        self.assertEqual(
            self.rows("out", "users.csv"),
            [
                "user,uid,groups",
                "ann,5002,users:100 #5001:5001 adm:4",
                "ghost,5003,#5999:5999",
                "jim,5001,#5000:5000 users:100 #5001:5001",
                "root,0,root:0",
            ],
        )
        for name, gid in (("domain users", 5000), ("it staff", 5001)):
            said = f"group '{name}' ({gid}) is written #{gid}, and rules that name it do not find it"
            self.assertEqual(err.count(said), 1)

    def test_other_names_of_groups(self) -> None:
        for name, written in (("a:b", "a:b"), ('say "x", y z', '"say ""x"", y z"'), (" ", " ")):
            group = Group(name, 7)
            write(self.path("out"), [Person("root", 0, (group,)), Person("bob", 1, ())], [])
            self.assertEqual(self.rows("out", "users.csv"), ["user,uid,gid,group", "bob,1,,", f"root,0,7,{written}"])

    def test_as_many_memberships_as_an_audit_takes(self) -> None:
        groups = tuple(Group(f"g {gid}", gid) for gid in range(1000))
        people = [Person("root", 0, groups)] + [Person(f"u{uid}", uid, groups) for uid in range(1, 100)]
        write(self.path("out"), people, [])
        self.assertEqual(len(self.rows("out", "users.csv")), 100_001)
        with self.assertRaisesRegex(Fault, "100001 memberships, and an audit takes 100000; directory --by-number"):
            write(self.path("out"), [*people, Person("v", 100, ())], [])

    def test_many_hosts(self) -> None:
        self.host("all/web1")
        self.host("all/web2", addr="[]")
        self.write("all/web2/hostname", "web2.example.org\n")
        self.write("all/notes", "")
        _, err = self.run_tool("directory", "--from", "all", "out")
        self.assertEqual(self.rows("out", "hosts.csv")[1:], ["web1,192.0.2.7/24", "web2.example.org,"])
        self.assertEqual(len(self.rows("out", "users.csv")), 9)
        self.assertIn("all/notes has no passwd: passed over", err)

    def test_two_folders_of_one_host_are_refused_by_name(self) -> None:
        self.host("all/web1")
        self.host("all/web2")
        self.write("all/web2/hostname", "WEB1\n")
        for words, status in (((), 3), (("--each",), 1)):
            _, err = self.run_tool("directory", "--from", "all", "out", *words, status=status)
            self.assertIn("directory: all/web1 and all/web2 are both of the host WEB1\n", err)
        self.assertEqual(os.listdir(self.path("out")), ["web1"])

    def test_a_host_that_takes_anothers_name_does_not_stop_it(self) -> None:
        named = {"a": "Web1", "web1": "web1.example.org", "web2": "WEB1.example.org", "x": "y", "z": "y", "web3": "a"}
        for folder, name in named.items():
            self.host(f"all/{folder}")
            self.write(f"all/{folder}/hostname", f"{name}\n")
        err = self.run_tool("directory", "--from", "all", "out", "--each", status=1)[1]
        self.assertEqual(
            err,
            "directory: all/web1 and all/web2 are both of the host WEB1.example.org\n"
            "directory: all/x and all/z are both of the host y\n"
            "directory: all/x and all/z are both of the host y\n"
            "directory: 3 of 6 hosts are refused\n",
        )
        self.assertEqual(sorted(os.listdir(self.path("out"))), ["a", "web1", "web3"])

    def test_no_host_stops_another(self) -> None:
        self.host("all/web1")
        self.host("all/web9", passwd=PASSWD.replace("5002", "6002"))
        self.run_tool("directory", "--from", "all", "good", "--each")
        many = "".join(f"u{number}:x:{number}:0:::\n" for number in range(100_001))
        for name, spoiled, said in (
            ("/passwd", "root:x:0:0::/root\n", "/passwd:1: not a line of such a file\n"),
            ("/passwd", "root:x:0:0:::\n" + many, ": 100002 users, and an audit takes 100000\n"),
            ("/group", "root:x:none:\n", "/group:1: not a line of such a file\n"),
            ("/group", None, "/group: No such file or directory\n"),
            ("/hostname", "\n", "/hostname:1: no name\n"),
            ("/addr.json", "{", "/addr.json: not what ip -j addr writes: "),
            ("/passwd", os.mkfifo, "/passwd: expected a plain file, found a FIFO\n"),
            ("/hostname", self.link_to("/etc/hostname"), "/hostname: expected a plain file, found a link\n"),
            ("", self.link_to("web1"), ": expected a folder, found a link\n"),
            ("", os.mkfifo, ": expected a folder, found a FIFO\n"),
        ):
            self.host("all/web5")
            self.spoil(f"all/web5{name}", spoiled)
            _, err = self.run_tool("directory", "--from", "all", "out", "--each", status=1)
            self.assertIn(f"directory: all/web5{said}", err)
            self.assertTrue(err.endswith("\ndirectory: 1 of 3 hosts are refused\n"), err)
            for names in (("web1", "users.csv"), ("web1", "hosts.csv"), ("web9", "users.csv"), ("web9", "hosts.csv")):
                self.assertEqual(self.read("out", *names), self.read("good", *names))
            self.assertFalse(os.path.exists(self.path("out", "web5", "users.csv")))
            shutil.rmtree(self.path("out"))
            self.spoil("all/web5", None)

    def test_a_warning_names_its_host(self) -> None:
        self.host("all/web1")
        self.host("all/web2", passwd="ann:x:1:1:::\n")
        self.assertEqual(
            self.run_tool("directory", "--from", "all", "out", "--each")[1],
            "directory: warning: out/web2/users.csv: there is no user root, and an audit wants one\n",
        )

    def spoil(self, name: str, spoiled: str | Callable[[str], None] | None) -> None:
        """Puts something in the place of a file or folder, nothing if there is nothing to put."""
        path = self.path(name)
        if os.path.isdir(path) and not os.path.islink(path):
            shutil.rmtree(path)
        elif os.path.lexists(path):
            os.unlink(path)
        if callable(spoiled):
            spoiled(path)
        elif spoiled is not None:
            self.write(name, spoiled)

    def test_copied_files_are_plain_files(self) -> None:
        secret = self.write("secret", "root:x:0:0:canary:/:\n")
        for name in ("passwd", "group", "hostname", "addr.json"):
            makes: list[tuple[Callable[[str], None], str]] = [(os.mkfifo, "a FIFO"), (os.mkdir, "a folder")]
            for make, kind in (*makes, (self.link_to(secret), "a link")):
                self.host("all/web1")
                self.write("all/web1/hostname", "web1\n")
                os.unlink(self.path("all", "web1", name))
                make(self.path("all", "web1", name))
                for source in ("all", "all/web1"):
                    _, err = self.run_tool("directory", "--from", source, "out", status=3)
                    self.assertEqual(err, f"directory: all/web1/{name}: expected a plain file, found {kind}\n")
                shutil.rmtree(self.path("all"))
        self.host("all/web1")
        os.symlink(self.path("all", "web1"), self.path("all", "web2"))
        _, err = self.run_tool("directory", "--from", "all", "out", status=3)
        self.assertEqual(err, "directory: all/web2: expected a folder, found a link\n")

    def link_to(self, target: str) -> Callable[[str], None]:
        """Returns what makes a link to a path."""
        return lambda path: os.symlink(target, path)

    def test_what_is_written_is_for_its_owner_unless_it_is_shared(self) -> None:
        self.host("web1")
        for words, modes in (((), (0o700, 0o600)), (("--mode", "shared"), (0o755, 0o644))):
            self.run_tool("directory", "--from", "web1", "out", *words)
            found = [os.stat(self.path("out", *names)).st_mode & 0o777 for names in ((), ("users.csv",))]
            self.assertEqual(found, list(modes))
            shutil.rmtree(self.path("out"))

    @unittest.skipUnless(os.geteuid() == 0, "root alone can make a folder of another user")
    def test_root_does_not_write_through_another_users_link(self) -> None:
        victim = self.write("victim", "victim")
        os.mkdir(self.path("work"))
        os.symlink(victim, self.path("work", "users.csv"))
        os.chown(self.path("work"), 65534, 65534)
        _, err = self.run_tool("directory", "work", status=2)
        self.assertIn(f"{self.folder}/work is of the user nobody, who could change what is written there", err)
        self.assertEqual((self.read("victim"), os.listdir(self.path("work"))), ("victim", ["users.csv"]))

    def test_hosts_that_differ(self) -> None:
        self.host("all/web1")
        self.host("all/web2", passwd=PASSWD.replace("5002", "6002"))
        self.assertIn(
            "user ann of web1 and of web2 differ; --each writes",
            self.run_tool("directory", "--from", "all", "out", status=3)[1],
        )
        self.host("all/web2", group=GROUP.replace("adm:x:4", "adm:x:5"))
        self.assertIn("(and 1 more)", self.run_tool("directory", "--from", "all", "out", status=3)[1])
        self.run_tool("directory", "--from", "all", "out", "--each")
        self.assertIn("ann,5002,5,adm", self.read("out", "web2", "users.csv"))
        self.assertIn("ann,5002,4,adm", self.read("out", "web1", "users.csv"))

    def test_files_of_another_form(self) -> None:
        for name, kind, text, said in (
            ("a", "passwd", "root:x:0:0::/root\n", "a/passwd:1: not a line of such a file"),
            ("b", "passwd", PASSWD + "x:x:-1:0:::\n", "b/passwd:5: not a line of such a file"),
            ("c", "group", "root:x:4294967296:\n", "c/group:1: not a line of such a file"),
            ("d", "addr", "{", "d/addr.json: not what ip -j addr writes"),
            ("g", "addr", "[" * 100_000, "g/addr.json: not what ip -j addr writes"),
            ("h", "group", f"root:x:{'9' * 5000}:\n", "h/group:1: not a line of such a file"),
            (
                "i",
                "addr",
                '[{"addr_info":[{"family":"inet","local":"1.2.3.4","prefixlen":1e999}]}]',
                "i/addr.json: not what ip -j addr writes",
            ),
            (
                "e",
                "addr",
                '[{"addr_info":[{"family":"inet","local":"1.2.3","prefixlen":24}]}]',
                "e/addr.json: not what",
            ),
            (
                "f",
                "addr",
                '[{"addr_info":[{"family":"inet","local":"1.2.3.4","prefixlen":33}]}]',
                "f/addr.json: not what ip -j addr writes: 33 bits",
            ),
        ):
            self.host(name, **{kind: text})
            _, err = self.run_tool("directory", "--from", name, "out", status=3)
            self.assertIn(said, err)
        self.write("none/readme", "")
        self.assertIn(
            "no passwd and no HOST/passwd is there", self.run_tool("directory", "--from", "none", "out", status=3)[1]
        )

    def test_lines_of_other_databases(self) -> None:
        self.host("a", passwd=PASSWD + "+::::::\n# note\n\n" + PASSWD)
        _, err = self.run_tool("directory", "--from", "a", "out")
        self.assertIn("a/passwd:5: +::::::: what other databases hold is not followed", err)

    @needs_program
    def test_the_program_takes_it(self) -> None:
        self.host("web1")
        self.write(
            "r.csv", "number,user,host,runas_user,runas_group,command,arguments\n1,jim,web1,,,/bin/id,\nclose,1,,,,,\n"
        )
        self.write("old", "root ALL = ALL\n")
        by_name = GROUP.replace("domain users", "domain-users").replace("it staff", "it-staff")
        for group, rule in ((by_name, "%#5000"), (GROUP, "%#5000"), (GROUP, "%domain\\ users"), (GROUP, '"%it staff"')):
            self.host("web1", group=group)
            self.run_tool("directory", "--from", "web1", "out")
            self.write("new", f"{rule} web1 = ALL\n")
            out, _ = self.run_tool(
                "compare", "old", "new", "--users", "out/users.csv", "--hosts", "out/hosts.csv", "s=r.csv", status=1
            )
            self.assertIn("gained,s,1,jim,web1,,,/bin/id,,nomatch,allow,,SETENV,,new:1", out)


# A getent that prints as that of glibc does, which has a blank for any host, and notes how it is asked.
GETENT = """#!/bin/sh
printf '%s\\n' "$*" >>{folder}/asked
[ "$1 $2" = "netgroup --" ] || exit 1
case $3 in
  ops) echo 'ops                   ( ,alice,) ( ,bob,Example.org) ( ,eve,example.com) ( ,alice,)' ;;
  web) echo 'web                   (web1,-,) (web2.example.org,-,)' ;;
  'two words') echo 'two words             ( ,,)' ;;
  -s) echo '-s                    (-,joe,)' ;;
  empty) echo 'empty                ' ;;
  far) echo 'far                   ( ,eve,example.com)' ;;
  address) echo 'address               (10.0.0.1,joe,)' ;;
  control) printf 'control               ( ,j\\001,)\\n' ;;
  hangs) sleep 600 ;;
  pours) cat /dev/zero ;;
  other) echo 'ops                   ( ,alice,)' ;;
  torn) echo 'torn                  ( ,alice' ;;
  fails) echo 'fails                 ( ,alice,)'; exit 1 ;;
  *) exit 2 ;;
esac
"""


class Netgroups(Case):
    """Netgroups of this machine, by a stub of getent."""

    def setUp(self) -> None:
        super().setUp()
        os.chmod(self.write("bin/getent", GETENT.format(folder=self.folder)), 0o755)
        changes = {"PATH": f"{self.path('bin')}:{os.environ['PATH']}"}
        self.enterContext(mock.patch.dict(os.environ, changes))
        self.in_domain("(none)")

    def in_domain(self, domain: str) -> None:
        """Gives this machine a NIS domain."""
        self.enterContext(mock.patch.object(netgroups, "_OWN_DOMAIN", self.write("domainname", f"{domain}\n")))

    def found(self, *names: str) -> tuple[list[str], list[str]]:
        """Returns the fields behind the names of netgroups of this machine, and the warnings."""
        with mock.patch.object(netgroups, "warn") as warn:
            triples = of_this_machine(names)
        return [",".join(triple) for triple in triples], [call.args[0] for call in warn.call_args_list]

    def fault_of(self, name: str) -> str:
        """Returns why a netgroup is refused."""
        with self.assertRaises(Fault) as raised:
            of_this_machine([name])
        return str(raised.exception)

    def test_the_file_of_a_policy(self) -> None:
        self.write("sudoers", 'Defaults:+ops !lecture\n"+two words" +web = (+-s, +gone) ALL\n@include more\n')
        self.write("more", "alice ALL = (+empty) ALL\n")
        _, err = self.run_tool("directory", "out", "--netgroups", "sudoers")
        self.assertEqual(
            [row for row in self.rows("out", "netgroups.csv") if not row.startswith("ops,")],
            [
                "netgroup,host,user,domain",
                "two words,,,",
                "web,web1,-,",
                "web,web2.example.org,-,",
                "-s,-,joe,",
                "gone,-,-,",
                "empty,-,-,",
            ],
        )
        self.assertEqual(self.rows("asked")[-1], "netgroup -- empty")
        said = "netgroup gone: this machine knows no such netgroup; it is written as one of nobody, as for sudo"
        self.assertIn(f"directory: warning: {said}\n", err)
        self.assertTrue(os.path.exists(self.path("out", "users.csv")))

    def test_non_unix_groups_are_named_and_not_written(self) -> None:
        self.write("sudoers", 'Defaults:%:ops !lecture\n"%:two words", +-s, "+%:odd" ALL = (%:#5) ALL\n@include more\n')
        self.write("more", "User_Alias A = !%:x, %:ops\n%adm ALL = /bin/date +%:s\n")
        _, err = self.run_tool("directory", "out", "--netgroups", "sudoers")
        self.assertEqual(self.rows("out", "netgroups.csv"), ["netgroup,host,user,domain", "-s,-,joe,"])
        self.assertEqual(self.rows("asked"), ["netgroup -- -s"])
        for name in ("%:ops", "%:two words", "%:odd", "%:#5", "%:x"):
            said = "only a plugin of sudo knows it; it is not written, and sudo_review refuses it without a row"
            self.assertEqual(err.count(f"directory: warning: non-Unix group {name}: {said}\n"), 1, err)
        self.assertEqual(err.count("non-Unix"), 5)

    def test_a_policy_without_netgroups(self) -> None:
        self.write("sudoers", "alice ALL = /bin/date +%s\n")
        self.run_tool("directory", "out", "--netgroups", "sudoers")
        self.assertEqual(self.rows("out", "netgroups.csv"), ["netgroup,host,user,domain"])
        self.assertFalse(os.path.exists(self.path("asked")))

    def test_nothing_is_written_where_a_netgroup_is_refused(self) -> None:
        self.write("sudoers", "+address ALL = ALL\n")
        _, err = self.run_tool("directory", "out", "--netgroups", "sudoers", status=3)
        self.assertEqual(err, "directory: netgroup address: the host 10.0.0.1 is no name that sudo_review takes\n")
        self.assertEqual(os.listdir(self.path("out")), [])
        _, err = self.run_tool("directory", "out", "--from", "x", "--netgroups", "sudoers", status=2)
        self.assertEqual(err, "directory: --netgroups is for this machine, and --from for copied files\n")
        _, err = self.run_tool("directory", "out", "--netgroups", "gone", status=4)
        self.assertEqual(err, "directory: gone: No such file or directory\n")

    def test_domains(self) -> None:
        ops = ["ops,,alice,", "ops,,bob,Example.org", "ops,,eve,example.com"]
        for domain in ("(none)", "", "a b", "a,b"):
            self.in_domain(domain)
            self.assertEqual(self.found("ops"), (ops, []))
        self.in_domain("example.ORG")
        said = "triples are left out, since they are of another domain than example.ORG"
        self.assertEqual(self.found("ops"), (ops[:2], [f"netgroup ops: 1 of 4 {said}"]))
        self.assertEqual(self.found("far"), (["far,-,-,"], [f"netgroup far: 1 of 1 {said}"]))
        with mock.patch.object(netgroups, "_OWN_DOMAIN", self.path("none")):
            self.assertEqual(self.found("ops"), (ops, []))

    def test_what_cannot_be_taken(self) -> None:
        self.assertEqual(self.fault_of("control"), "netgroup control: the user j\x01 is no name that sudo_review takes")
        for name, status in (("other", 0), ("torn", 0), ("fails", 1)):
            said = f"netgroup {name}: getent ended with status {status}, and its answer cannot be read"
            self.assertEqual(self.fault_of(name), said)
        self.assertEqual(self.fault_of("pours"), f"netgroup pours: getent prints more than {1 << 26} bytes")
        start = time.monotonic()
        with mock.patch.object(netgroups, "SECONDS", 0.5):
            self.assertEqual(self.fault_of("hangs"), "netgroup hangs: getent took more than 0.5 s")
        self.assertLess(time.monotonic() - start, 30)
        os.environ["PATH"] = self.path("none")
        self.assertEqual(self.fault_of("ops"), "this machine has no command getent, which lists netgroups")

    def test_too_many_triples(self) -> None:
        os.mkdir(self.path("out"))
        triple = Triple("ops", "", "u", "")
        netgroups.write(self.path("out"), [triple] * 100_000)
        with self.assertRaisesRegex(Fault, "100001 triples of netgroups, and sudo_review takes 100000"):
            netgroups.write(self.path("out"), [triple] * 100_001)

    def test_what_getent_prints(self) -> None:
        self.assertEqual(triples_of("a", "a                     ( ,,)\n"), [Triple("a", "", "", "")])
        self.assertEqual(triples_of("a", "a (h)h,u)u,d)\n"), [Triple("a", "h)h", "u)u", "d")])
        self.assertEqual(triples_of("long" * 6, "long" * 6 + " (h,u,d) ( ,-,)\n"), [
            Triple("long" * 6, "h", "u", "d"), Triple("long" * 6, "", "-", "")
        ])
        for text in ("", "a", "a (h,u,d)", "b (h,u,d)\n", "a (h,u)\n", "a (h,u,d\n", "a x\n", "a (h,u,d)\nb\n"):
            self.assertIsNone(triples_of("a", text), text)

    def copied(self, folder: str, netgroup: str, domain: str = "(none)") -> None:
        """Writes the copied files of a host with netgroups."""
        for name, text in (("passwd", PASSWD), ("group", "x:x:0:\n"), ("addr.json", "[]")):
            self.write(f"{folder}/{name}", text)
        self.write(f"{folder}/netgroup", netgroup)
        self.write(f"{folder}/domain", f"{domain}\n")

    def test_those_of_copied_files(self) -> None:
        netgroup = "ops                   ( ,alice,) (web1,bob,d.org)\ntwo words\n%:odd\nnone                 \n"
        self.copied("all/web1", netgroup, "x.org")
        _, err = self.run_tool("directory", "--from", "all/web1", "out")
        rows = ["netgroup,host,user,domain", "ops,,alice,", "two words,-,-,", "none,-,-,"]
        self.assertEqual(self.rows("out", "netgroups.csv"), rows)
        self.assertIn("netgroup ops: 1 of 2 triples are left out, since they are of another domain than x.org\n", err)
        self.assertIn("non-Unix group %:odd: only a plugin of sudo knows it", err)
        os.unlink(self.path("all", "web1", "domain"))
        self.run_tool("directory", "--from", "all/web1", "out")
        self.assertEqual(self.rows("out", "netgroups.csv")[2], "ops,web1,bob,d.org")
        self.copied("all/web2", "")
        os.unlink(self.path("all", "web2", "netgroup"))
        self.run_tool("directory", "--from", "all", "each", "--each")
        self.assertEqual(self.read("each", "web1", "netgroups.csv"), self.read("out", "netgroups.csv"))
        self.assertEqual(sorted(os.listdir(self.path("each", "web2"))), ["hosts.csv", "users.csv"])

    def test_hosts_that_differ_in_netgroups(self) -> None:
        self.copied("all/web1", "ops                   ( ,alice,) ( ,bob,)\nmore\n")
        self.copied("all/web2", "ops                   ( ,bob,) ( ,alice,)\nother\n")
        self.run_tool("directory", "--from", "all", "out")
        rows = ["netgroup,host,user,domain", "ops,,alice,", "ops,,bob,", "more,-,-,", "other,-,-,"]
        self.assertEqual(self.rows("out", "netgroups.csv"), rows)
        self.copied("all/web2", "ops                   ( ,bob,)\n")
        said = "directory: netgroup ops of web1 and of web2 differ; --each writes the files of each host apart\n"
        self.assertEqual(self.run_tool("directory", "--from", "all", "out", status=3)[1], said)
        self.run_tool("directory", "--from", "all", "out", "--each")

    def test_copied_files_that_are_refused(self) -> None:
        for text, said in (
            ("ops\nweb ( ,a,\n", "netgroup:2: not a line of getent netgroup"),
            ("\n\n", "netgroup:1: not a line of getent netgroup"),
            (" (a,b,c)\n", "netgroup:1: not a line of getent netgroup"),
            ("ops (a,b,c) x\n", "netgroup:1: not a line of getent netgroup"),
            ("ops (a,b,c)" * 100_000, "netgroup:1: not a line of getent netgroup"),
            ("ops                   (10.0.0.1,a,)\n", "netgroup ops: the host 10.0.0.1 is no name that sudo_review takes"),
        ):
            self.copied("all/web1", text)
            self.assertIn(said, self.run_tool("directory", "--from", "all", "out", "--each", status=1)[1])
        os.unlink(self.path("all", "web1", "netgroup"))
        os.mkfifo(self.path("all", "web1", "netgroup"))
        said = "directory: all/web1/netgroup: expected a plain file, found a FIFO\n"
        self.assertEqual(self.run_tool("directory", "--from", "all", "out", status=3)[1], said)

    def test_netgroups_that_a_policy_names(self) -> None:
        for text, names in (
            ("+a ALL = ALL", "a"),
            ("%:a ALL = ALL", "%:a"),
            ("%:a,!%:b, ! +c %:#5x = (%:d : adm) %:e", "%:a %:b c %:#5x %:d %:e"),
            ("%:a#x ALL = ALL : % :b = ALL\n%: a ALL = ALL\na%:b ALL = ALL", "%:a"),
            ("Defaults:%:a lecture", "%:a"),
            ("+a,!+b, ! +c ALL = ALL", "a b c"),
            ("alice +a, !+b = (+c, !+d : adm) /bin/ls : +e = (+f) NOPASSWD: ALL", "a b c d e f"),
            ("alice \\\n  +a \\\n  = ALL", "a"),
            ("User_Alias A = +a : B = !+b, +a", "a b"),
            ("Runas_Alias A = +a", "a"),
            ("Host_Alias A = +a, web1", "a"),
            ("Defaults:+a lecture\nDefaults@+b lecture\nDefaults>+c, !+d lecture", "a b c d"),
            ('"+a" ALL = ("+b") ALL', "a b"),
            ("+a-b.c_d@e ALL = ALL", "a-b.c_d@e"),
            ("+a#x ALL = ALL", "a"),
            # arguments, comments, paths, and what no netgroup of the program's is
            ("alice ALL = /bin/date +a, /bin/x (+b) !+c \\, +d, sudoedit /x +e", ""),
            ("alice ALL = CWD=/x /bin/date +a : +b = sha224:x /bin/date +c", "b"),
            ("# +a\nalice ALL = ALL # +b", ""),
            ("#1000 +a = ALL", "a"),
            ("alice ALL = ALL\n@includedir +a", ""),
            ("+ ALL = ALL", ""),
            ("+a\\ b ALL = ALL", ""),
            ('"+a\\x20" ALL = ALL', ""),
        ):
            with self.subTest(text):
                self.assertEqual(named_in(self.write("sudoers", text + "\n")), names.split())
        self.assertEqual(named_in(self.write("sudoers", '"+a b, c" ALL = ALL\n')), ["a b, c"])


if __name__ == "__main__":
    unittest.main()
