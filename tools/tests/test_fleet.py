"""Fleets in parts and joined, without workers."""

import hashlib
import json
import os
import shutil
import unittest
from random import Random

from fleet_case import HEADER, POLICY, FleetCase, requests
from support import PROGRAM, TOOLS, needs_program

from kulavemia.fleet_foreign import Foreigners
from kulavemia.fleet_plan import Requests, cut
from kulavemia.fleet_work import Job
from kulavemia.rows import row


class Parts(FleetCase):
    def test_two_parts_give_the_report_of_one_machine(self) -> None:
        for name in ("web", "web.1", "db"):
            self.host(name, senders=[f"{name[:2]}{len(name)}", f"{name[:2]}{len(name)}_2"])
        self.write("fleet/web/requests/we3.2.csv", requests((4, 5, 6), 6))
        self.write("fleet/web/requests/we3.csv", requests((1, 2, 3)))
        for part in ("1/2", "2/2"):
            self.fleet("--part", part, "--senders", "1")
        out, _ = self.fleet("--join", "--senders", "1")
        self.assertEqual(out, "21 rows of 6 shards; 0 refused, 0 failed\n")
        self.want_as_one_machine()
        self.assertEqual(
            self.rows("out", "status.csv"),
            ["host,shard,status,rows,fault"]
            + ["db,1,done,3,", "db,2,done,3,", "web,1,done,6,", "web,2,done,3,", "web.1,1,done,3,", "web.1,2,done,3,"],
        )

    def test_what_a_host_lacks_is_the_fleets_own(self) -> None:
        self.host("web1")
        self.host("web2", POLICY + "# stub refuse\n")
        for name in ("tree", "users.csv", "hosts.csv"):
            os.rename(self.path("fleet", "web1", name), self.path("fleet", name))
        self.fleet("--part", "1/1")
        self.fleet("--join", status=1)
        self.assertEqual(len(self.rows("out", "report.csv")), 4)
        self.assertIn("web1/web1,1,allow,/etc/sudoers:1,SETENV", self.rows("out", "report.csv"))

    def test_what_is_refused_is_a_row(self) -> None:
        self.host("web1", POLICY + "# stub refuse\n")
        self.host("web2")
        self.host("web3")
        os.unlink(self.path("fleet", "web3", "users.csv"))
        os.makedirs(self.path("fleet", "web4", "requests"))
        self.fleet("--part", "1/1")
        self.fleet("--join", status=1)
        self.assertEqual(
            self.rows("out", "status.csv")[1:],
            [
                'web1,1,refused,0,"sudo_audit: /etc/sudoers:1:1: syntax error, expected command"',
                "web2,1,done,3,",
                "web3,,refused,0,there is no users.csv",
                "web4,,refused,0,requests has no files",
            ],
        )
        self.want_as_one_machine(without=["web1", "web3", "web4"])

    def test_links_are_refused(self) -> None:
        self.host("web1")
        os.rename(self.path("fleet", "web1", "users.csv"), self.path("users.csv"))
        os.symlink(self.path("users.csv"), self.path("fleet", "web1", "users.csv"))
        self.host("web2")
        os.unlink(self.path("fleet", "web2", "requests", "web2.csv"))
        os.mkfifo(self.path("fleet", "web2", "requests", "web2.csv"))
        os.symlink(self.path("fleet", "web1"), self.path("fleet", "web3"))
        self.host("web4")
        shutil.rmtree(self.path("fleet", "web4", "tree"))
        os.symlink("/", self.path("fleet", "web4", "tree"))
        self.fleet("--part", "1/1")
        self.fleet("--join", status=1)
        self.assertEqual(
            [row.split(",", 4)[4] for row in self.rows("out", "status.csv")[1:]],
            [
                '"fleet/web1/users.csv: expected a plain file, found a link"',
                '"fleet/web2/requests/web2.csv: expected a plain file, found a FIFO"',
                '"fleet/web3: expected a folder, found a link"',
                '"fleet/web4/tree: expected a folder, found a link"',
            ],
        )

    def test_what_a_host_could_not_gather_is_a_warning(self) -> None:
        self.host("web1")
        self.host("web2")
        self.write("fleet/web2/missing", "/etc/nsswitch.conf: sudoers: files sss: not gathered\n")
        self.assertNotIn("warning", self.fleet("--part", "1/1")[1])
        self.assertIn(
            "fleet: warning: fleet/web2/missing: /etc/nsswitch.conf: sudoers: files sss: not gathered\n",
            self.fleet("--join")[1],
        )

    def test_files_without_end_are_refused_for_their_host_alone(self) -> None:
        for name in ("web1", "web2", "web3", "web4"):
            self.host(name)
        os.truncate(self.path("fleet", "web1", "tree", "etc", "sudoers"), 100 << 30)
        os.truncate(self.path("fleet", "web2", "requests", "web2.csv"), 100 << 30)
        for part in range(2, 7):
            self.write(f"fleet/web3/requests/web3.{part}.csv", "")
            os.truncate(self.path("fleet", "web3", "requests", f"web3.{part}.csv"), 255 << 20)
        self.fleet("--part", "1/1")
        self.fleet("--join", status=1)
        self.assertEqual(
            [row.split(",", 4)[4] for row in self.rows("out", "status.csv")[1:]],
            [
                '"fleet/web1/tree/etc/sudoers: more than 16777216 bytes, and no more are read"',
                "the requests of web2 have more than 1073741824 bytes",
                "the requests of web3 have more than 1073741824 bytes",
                "",
            ],
        )
        self.want_as_one_machine(without=["web1", "web2", "web3"])

    def test_two_runs_at_once(self) -> None:
        self.host("web1", POLICY + f"# stub wait {self.path('go')}\n")
        running = self.start("--part", "1/1")
        self.wait_until(lambda: os.path.exists(self.path("out", ".lock")))
        self.assertIn(f"out: the process {running.pid} works in this folder", self.fleet("--join", status=4)[1])
        self.write("go", "")
        running.communicate()
        self.fleet("--join")
        self.want_as_one_machine()

    def test_a_host_for_which_there_is_no_memory_stops_no_other(self) -> None:
        for name in ("web1", "web2", "web3"):
            self.host(name, POLICY + ("# stub memory\n" if name == "web2" else ""))
        err = self.fleet("--part", "1/1", status=4)[1]
        self.assertEqual(err, "fleet: web2/1: sudo_audit: out of memory\nfleet: 3 shards of 3 hosts; 1 failed\n")
        self.fleet("--join", status=1)
        self.assertIn("web2,1,failed,0,sudo_audit: out of memory\n", self.read("out", "status.csv"))
        self.want_as_one_machine(without=["web2"])
        self.host("web2")
        self.assertEqual(self.fleet("--part", "1/1")[1], "fleet: 1 shards of 3 hosts\n")
        self.fleet("--join")
        self.want_as_one_machine()

    def test_words(self) -> None:
        self.host("web1")
        self.assertIn("name one", self.fleet("--join", "--part", "1/1", status=2)[1])
        self.assertIn("expected I/N", self.fleet("--part", "2/1", status=2)[1])
        self.assertIn("below it", self.run_tool("fleet", "fleet", "--out", "fleet/out", status=2)[1])

    def test_a_sender_of_two_hosts_is_told_apart_by_the_host(self) -> None:
        self.host("web1", senders=["jen"])
        self.host("web2", senders=["jen"])
        self.fleet("--part", "1/1")
        self.fleet("--join")
        self.want_as_one_machine()
        senders = [row.split(",")[0] for row in self.rows("out", "report.csv")[1:]]
        self.assertEqual(senders, ["web1/jen"] * 3 + ["web2/jen"] * 3)

    def test_a_folder_with_a_name_that_is_not_printable_is_refused_alone(self) -> None:
        self.host("web1")
        for name in ("a\x1b[31m", "b\nc", "d\udcff"):
            os.rename(self.path("fleet", "web1"), self.path("fleet", name))
            self.host("web1")
        self.fleet("--part", "1/1")
        out, err = self.fleet("--join", status=1)
        self.assertEqual(out, "3 rows of 1 shards; 3 refused, 0 failed\n")
        fault = "the folder's name has characters that are not printable"
        self.assertEqual(
            self.rows("out", "status.csv")[1:],
            [f"a⟨U+001B⟩[31m,,refused,0,{fault}", f"b⟨U+000A⟩c,,refused,0,{fault}"]
            + [f"d⟨byte FF⟩,,refused,0,{fault}", "web1,1,done,3,"],
        )
        self.assertEqual(err, "")

    def test_a_fault_with_control_characters_is_shown(self) -> None:
        self.host("web1")
        self.write("fleet/web1/requests/\x1b[31m.csv", "")
        self.fleet("--part", "1/1")
        self.fleet("--join", status=1)
        self.assertIn("requests/⟨U+001B⟩[31m.csv: expected NAME.csv", self.read("out", "status.csv"))

    def test_a_spreadsheet_takes_no_host_for_a_formula(self) -> None:
        self.host("=cmd|x", senders=["a"])
        self.host("-web1", senders=["a"])
        self.fleet("--part", "1/1")
        self.fleet("--join", "--spreadsheet")
        self.assertEqual(
            self.rows("out", "status.csv"),
            ["\ufeffhost,shard,status,rows,fault", "'-web1,1,done,3,", "'=cmd|x,1,done,3,"],
        )
        head, *rows = self.rows("out", "report.csv")
        self.assertEqual(head, "\ufeffsender,number,verdict,place,tags")
        self.assertEqual([row[:8] for row in rows], ["'-web1/a"] * 3 + ["'=cmd|x/"] * 3)
        self.fleet("--join")
        self.want_as_one_machine()

    def test_a_file_of_a_policy_is_shown_in_the_report(self) -> None:
        for host, name in (("web1", "sudo\x1b[31mers"), ("web2", "sudo⟨U+001B⟩[31mers"), ("web3", "a\ufeff\udcff")):
            self.host(host)
            self.write(f"fleet/{host}/tree/etc/{name}", POLICY)
            self.write(f"fleet/{host}/policy", f"/etc/{name}\n")
        self.fleet("--part", "1/1")
        self.fleet("--join")
        rows = self.rows("out", "report.csv")
        self.assertEqual(rows[1], "web1/web1,1,allow,/etc/sudo⟨U+001B⟩[31mers:1,SETENV")
        self.assertEqual(rows[4], "web2/web2,1,allow,/etc/sudo⟨U+27E8⟩U+001B⟩[31mers:1,SETENV")
        self.assertEqual(rows[7], "web3/web3,1,allow,/etc/a⟨U+FEFF⟩⟨byte FF⟩:1,SETENV")

    def test_a_scheduler_of_another_machine_wants_tls(self) -> None:
        self.host("web1")
        for address in ("tcp://head:8786", "head:8786", "tcp://127.0.0.1.example.org:8786", "ws://[::1]@head:1"):
            err = self.fleet("--scheduler", address, status=2)[1]
            self.assertIn(f"fleet: {address}: policies and users go to another machine by tls://, unless", err)
            self.assertIn("--without-tls", err)
        self.assertIn("--without-tls needs --scheduler", self.fleet("--without-tls", status=2)[1])

    @needs_program
    def test_shards_of_one_host_give_the_programs_own_report(self) -> None:
        self.program = PROGRAM
        self.host("web1", senders=["a", "b", "c"])
        self.write("fleet/web1/requests/b.csv", requests((2, 3), 3))
        self.write("fleet/web1/requests/b.2.csv", requests((1,)))
        self.fleet("--part", "1/1", "--senders", "1")
        self.fleet("--join", "--senders", "1")
        self.want_as_one_machine()
        self.assertIn("web1/b,1,allow,/etc/sudoers:2,", self.rows("out", "report.csv"))


class Foreign(FleetCase):
    """Logs of a host that have lines of another one."""

    def setUp(self) -> None:
        super().setUp()
        for name in ("web1", "web2"):
            self.host(name, senders=[f"{name}_example_org"])
            self.write(f"fleet/{name}/hosts.csv", f"host,interfaces\n{name}.example.org,10.0.0.1/8\n")
            self.ask(name, f"{name}_example_org", f"{name}.example.org")

    def ask(self, folder: str, sender: str, named: str) -> None:
        """Writes three requests of a sender that name a host."""
        self.write(f"fleet/{folder}/requests/{sender}.csv", requests((1, 2, 3), 3, named))

    def joined(self) -> str:
        """Audits and joins, and returns the last line."""
        self.fleet("--part", "1/1")
        return self.fleet("--join")[0]

    def of_host(self, name: str, file: str) -> list[str]:
        """Returns the rows of a host."""
        return [row for row in self.rows("out", file) if row.startswith(name)]

    def test_the_log_of_a_relay_leaves_the_other_hosts_as_they_are(self) -> None:
        self.assertEqual(self.joined(), "6 rows of 2 shards; 0 refused, 0 failed\n")
        before = [self.of_host("web1", file) for file in ("report.csv", "status.csv")]
        self.assertEqual(self.rows("out", "foreign.csv"), ["host,sender,named,requests,first"])
        self.ask("web2", "web1_example_org", "web1.example.org")
        self.ask("web2", "other", "WEB2.example.ORG")
        said = "12 rows of 2 shards; 0 refused, 0 failed; 3 requests name another host\n"
        self.assertEqual(self.joined(), said)
        self.assertEqual(self.rows("out", "foreign.csv")[1:], ["web2,web1_example_org,web1.example.org,3,1"])
        self.assertEqual([self.of_host("web1", file) for file in ("report.csv", "status.csv")], before)
        self.want_as_one_machine()

    def test_with_the_hosts_of_the_fleet_a_host_is_called_as_its_folder(self) -> None:
        for name in ("web1", "web2"):
            os.unlink(self.path("fleet", name, "hosts.csv"))
        both = "host,interfaces\nweb1.example.org,10.0.0.1/8\nweb2.example.org,10.0.0.2/8\nweb1x,10.0.0.3/8\n"
        self.write("fleet/hosts.csv", both)
        self.ask("web1", "x", "web1x")
        self.ask("web2", "y", "web2.example.com")
        self.ask("web2", "z", "web1.example.org")
        self.assertIn("; 9 requests name another host\n", self.joined())
        self.assertEqual(
            self.rows("out", "foreign.csv")[1:],
            ["web1,x,web1x,3,1", "web2,y,web2.example.com,3,1", "web2,z,web1.example.org,3,1"],
        )

    def test_a_list_in_parts_is_counted_once(self) -> None:
        self.write("fleet/web2/requests/a.csv", requests((2,), None, "=x\x1b"))
        self.write("fleet/web2/requests/a.2.csv", requests((1, 3), 3, "=x\x1b"))
        self.joined()
        self.assertEqual(self.rows("out", "foreign.csv")[1:], ["web2,a,=x⟨U+001B⟩,3,2"])
        self.fleet("--join", "--spreadsheet")
        self.assertEqual(self.rows("out", "foreign.csv")[1:], ["web2,a,'=x⟨U+001B⟩,3,2"])


class ForeignRows(unittest.TestCase):
    """Requests files as hostile as the program takes them."""

    USERS = ("u", 'x"y', "a,b", "\r", "n\n1,u,web1,r,,/c,\n", "n\nclose,1,,,,,\n")
    HOSTS = ("web1", "WEB1", "web1.x", "xweb1", "a,b", "a", "web1\n", "", "\udcff", "close")

    def job(self, random: Random) -> tuple[Job, list[tuple[str, ...]]]:
        """Returns a shard of random requests, and their rows."""

        def fields(number: int) -> tuple[str, ...]:
            user, host, arguments = (random.choice(names) for names in (self.USERS, self.HOSTS, self.USERS))
            return str(number), user, host, "", "", "/c", arguments

        rows = [fields(number) for number in range(1, 30)]
        text = HEADER + "".join(map(row, rows)) + random.choice(("", "close,29,,,,,\n"))
        files = {"r.csv": text.encode("utf-8", "surrogateescape"), "hosts.csv": b'host,interfaces\nWeb1,\n"a,b",\n'}
        return Job("h/1", "", "", files, (), (("s", "r.csv"),), 1, 0.0), rows

    def test_each_that_names_another_host_is_counted(self) -> None:
        for seed in range(300):
            job, rows = self.job(Random(seed))
            named = [fields[2] for fields in rows if fields[2] not in ("web1", "WEB1", "a,b")]
            found = {other.named: (other.requests, other.first) for other in Foreigners(b"").of("h", job)}
            expected = {host: (named.count(host), next(row[0] for row in rows if row[2] == host)) for host in named}
            self.assertEqual(found, expected, seed)

    def test_a_host_is_called_as_its_folder(self) -> None:
        listed = b"host,interfaces\nweb1,\nWEB1.b,\nweb1-x,\nweb10,\nweb1/x,\nweb,\nweb1.,\n"
        self.assertEqual(Foreigners(listed).called(b"web1"), {b"web1", b"web1.b", b"web1."})
        self.assertEqual(Foreigners(b"").called(b"web1"), set())


class Joins(FleetCase):
    def setUp(self) -> None:
        super().setUp()
        self.hosts(3)
        self.fleet("--part", "1/1")

    def shard(self, host: str) -> str:
        """Returns the path of a host's result."""
        return self.path("out", "shards", f"{host}.1.shard")

    def refusal(self) -> str:
        """Returns what a join says that refuses, and wants it to leave no report."""
        self.fleet("--join", status=3)
        self.assertEqual(os.listdir(self.path("out")), ["shards"])
        return self.fleet("--join", status=3)[1]

    def test_missing(self) -> None:
        os.unlink(self.shard("host01"))
        self.assertIn("fleet: host01/1: missing\n", self.refusal())

    def test_twice(self) -> None:
        with open(self.shard("host01"), "rb") as file:
            self.write("out/shards/other.shard", file.read())
        places = "out/shards/host01.1.shard and out/shards/other.shard"
        self.assertIn(f"fleet: host01/1: twice, in {places}\n", self.refusal())

    def test_a_stranger(self) -> None:
        os.rename(self.path("fleet", "host01"), self.path("host01"))
        self.assertIn("host01/1: a stranger, in out/shards/host01.1.shard", self.refusal())
        self.write("out/shards/notes.txt", "x\n")
        self.assertIn("out/shards/notes.txt: no whole result", self.refusal())

    def test_a_host_with_fewer_shards_than_before_stops_no_other(self) -> None:
        more = [f"fleet/host01/requests/{sender}.csv" for sender in ("a", "b")]
        for name in more:
            self.write(name, requests((1,), 1))
        self.fleet("--part", "1/1", "--senders", "1")
        self.fleet("--join", "--senders", "1")
        self.assertEqual(len(self.rows("out", "status.csv")), 6)
        for name in more:
            os.unlink(self.path(name))
        self.fleet("--part", "1/1", "--senders", "1")
        self.fleet("--join", "--senders", "1")
        self.assertEqual(len(self.rows("out", "status.csv")), 4)
        self.want_as_one_machine()

    def test_a_host_that_is_refused_later_stops_no_other(self) -> None:
        os.truncate(self.path("fleet", "host01", "tree", "etc", "sudoers"), 100 << 30)
        self.fleet("--part", "1/1")
        self.assertIn("; 1 refused, 0 failed\n", self.fleet("--join", status=1)[0])
        self.assertIn('host01,,refused,0,"fleet/host01/tree/etc/sudoers: more than', self.read("out", "status.csv"))
        self.want_as_one_machine(without=["host01"])

    def test_a_forged_result_is_joined_as_the_documents_say(self) -> None:
        # The sums find damage: whoever can write a result is trusted.
        with open(self.shard("host01"), "rb") as file:
            head, data = json.loads(file.readline()), file.read()
        data = data.replace(b",allow,", b",deny,")
        head = {**head, "size": len(data), "sum": hashlib.sha256(data).hexdigest()}
        self.write("out/shards/host01.1.shard", json.dumps(head).encode() + b"\n" + data)
        self.fleet("--join")
        said = [row.split(",")[2] for row in self.rows("out", "report.csv")[1:]]
        self.assertEqual(said, ["allow"] * 3 + ["deny"] * 3 + ["allow"] * 3)
        with open(os.path.join(os.path.dirname(TOOLS), "docs", "FLEET.md"), encoding="utf-8") as file:
            self.assertIn("can forge each row and status", " ".join(file.read().split()))

    def test_other_inputs(self) -> None:
        self.write("fleet/host01/tree/etc/sudoers.d/10-more", "root ALL = ALL\n")
        self.assertIn("host01/1: its inputs, or the program, changed after its audit", self.refusal())
        self.fleet("--part", "1/1")
        self.fleet("--join")
        self.want_as_one_machine()

    def test_a_damaged_result(self) -> None:
        with open(self.shard("host01"), "r+b") as file:
            head = file.readline()
            file.seek(len(head) + 3)
            file.write(b"X")
        self.assertIn("out/shards/host01.1.shard: no whole result", self.refusal())
        self.assertIn("1 shards of 3 hosts", self.fleet("--part", "1/1")[1])
        with open(self.shard("host01"), "r+b") as file:
            file.truncate(len(head) + 3)
        self.assertIn("out/shards/host01.1.shard: no whole result", self.refusal())
        self.fleet("--part", "1/1")
        self.fleet("--join")

    def test_what_stands_is_not_done_again(self) -> None:
        before = os.stat(self.shard("host00")).st_mtime_ns
        self.write("fleet/host01/users.csv", "user,uid,groups\nroot,0,root:0\n")
        self.assertIn("1 shards of 3 hosts", self.fleet("--part", "1/1")[1])
        self.assertEqual(os.stat(self.shard("host00")).st_mtime_ns, before)

    def test_the_first_line_of_a_result(self) -> None:
        with open(self.shard("host00"), "rb") as file:
            first = json.loads(file.readline())
            self.assertEqual(file.readline(), b"host00/host00,1,allow,/etc/sudoers:1,SETENV\n")
        self.assertEqual((first["shard"], first["status"], first["rows"]), ("host00/1", "done", 3))


class Cuts(unittest.TestCase):
    def test_limits(self) -> None:
        many = [Requests(f"s{number:03}", "", 1) for number in range(130)]
        self.assertEqual([len(shard) for shard in cut(many, 64)], [64, 64, 2])
        parts = [Requests(sender, "", 1) for sender in "abc" for _ in range(100)]
        self.assertEqual([len(shard) for shard in cut(parts, 64)], [200, 100])
        large = [Requests(sender, "", 40 << 20) for sender in "abc"]
        self.assertEqual([len(shard) for shard in cut(large, 64)], [1, 1, 1])
        self.assertEqual([len(shard) for shard in cut([Requests("a", "", 1)] * 300, 64)], [300])


if __name__ == "__main__":
    unittest.main()
