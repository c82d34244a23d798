"""Runs of the program by the tables in `runs/`, which `tables.py` reads, and at its limits."""

import os
import re
import unittest

from support import REQUESTS_HEADER, needs_program
from tables import AUDIT, REPORT, TABLES, Shown, TableCase, asked, parts

OF_REVIEW = {
    *("addresses", "cautions", "compare", "expanded", "grants", "hostname", "masks", "netgroups", "report", "review", "roots"),
    *("rules", "subjects", "who"),
}


@needs_program
class Tables(TableCase):
    """The runs of each table of sudo_audit."""

    def test_table_check(self) -> None:
        self.check_table("check")

    def test_table_expand(self) -> None:
        self.check_table("expand")

    def test_table_audit(self) -> None:
        self.check_table("audit")

    def test_table_verdict(self) -> None:
        self.check_table("verdict")

    def test_table_cut(self) -> None:
        self.check_table("cut")

    def test_table_words(self) -> None:
        self.check_table("words")

    def test_table_worked(self) -> None:
        self.check_table("worked")

    def test_all_tables_are_read(self) -> None:
        names = {name.removesuffix(".toml") for name in os.listdir(TABLES)}
        self.assertEqual(names, {"check", "expand", "audit", "verdict", "worked", "cut", "words"} | OF_REVIEW)

    def test_words_that_are_not_read(self) -> None:
        shown = self.shown("check", b"\xff")
        self.assertTrue(shown.startswith("2 ! error: invalid UTF-8 was detected in one or more arguments;"), shown)


@needs_program
class Limits(Shown):
    """The most aliases, members, parts, senders and requests, and one more."""

    def checked(self, policy: str) -> str:
        """Returns what a check of a policy shows."""
        self.write("p", policy)
        return self.shown("check", "p")

    def expanded(self, policy: str, name: str) -> str:
        """Returns what the members of a command alias show."""
        self.write("p", policy)
        return self.shown("expand", "p", "cmnd", name)

    def audited(self, *sources: str, workers: int = 2) -> str:
        """Returns what an audit of requests files shows, each as in a table."""
        names, files = parts("|".join(sources), {"kill": "alice,web1,,,/bin/kill,"})
        directory = {"users": "user,uid,groups\nroot,0,root:0\nalice,1000,alice:1000\n", "hosts": "host,interfaces\nweb1,\n"}
        self.write_all({"p": "alice ALL = /bin/kill\n", **directory, **files})
        return self.shown(*AUDIT.split(), "--workers", str(workers), *names)

    def judged(self, policy: str, asks: dict[str, str], users: str = "alice,1000,alice:1000\n", hosts: str = "") -> None:
        """Checks the report on the rows of a requests file, under users beside root and hosts beside web1."""
        requests, shows = asked(asks)
        directory = {"users": f"user,uid,groups\nroot,0,root:0\n{users}", "hosts": f"host,interfaces\nweb1,\n{hosts}"}
        self.write_all({"p": policy, **directory, "requests": requests})
        self.assertEqual(self.shown(*AUDIT.split(), "s=requests"), shows)

    def test_definitions(self) -> None:
        lines = [f"Cmnd_Alias C{number} = /bin/ls\n" for number in range(4097)]
        unused = "".join(f"p:{number + 1}: warning: unused Cmnd_Alias C{number};" for number in range(4096))
        self.assertEqual(self.checked("".join(lines[:4096])), f"0 {unused}ok;")
        self.assertEqual(self.checked("".join(lines)), "1 ! sudo_audit: p:4097: too many aliases;")

    def test_depth(self) -> None:
        lines = [f"Cmnd_Alias A{number} = A{number + 1}\n" for number in range(1, 65)]
        deep = f"{''.join(lines[:63])}Cmnd_Alias A64 = /bin/ls\nalice ALL = A1\n"
        self.assertEqual(self.checked(deep), "0 ok;")
        self.assertEqual(self.expanded(deep, "A1"), "0 /bin/ls;")
        self.judged(deep, {"alice,web1,,,/bin/ls,": "allow,p:65,", "alice,web1,,,/bin/su,": "nomatch,,"})
        deeper = f"alice ALL = A1\n{''.join(lines)}Cmnd_Alias A65 = /bin/ls\n"
        self.assertEqual(self.checked(deeper), "1 p:2: error: too deep Cmnd_Alias A1;")

    def test_width(self) -> None:
        lines = [f"Cmnd_Alias W{number + 1} = W{number}, W{number}\n" for number in range(17)]
        wide = f"Cmnd_Alias W0 = /bin/ls\n{''.join(lines[:16])}alice ALL = !W16\n"
        self.assertEqual(self.checked(wide), "0 ok;")
        self.assertEqual(self.expanded(wide, "W16"), "0 " + 65_536 * "/bin/ls;")
        self.judged(wide, {"alice,web1,,,/bin/ls,": "deny,p:18,", "alice,web1,,,/bin/su,": "nomatch,,"})
        wider = f"Cmnd_Alias W0 = /bin/ls\n{''.join(lines)}alice ALL = !W17\n"
        self.assertEqual(self.checked(wider), "1 p:18: error: too wide Cmnd_Alias W17;")

    def test_a_long_way_to_a_cycle(self) -> None:
        lines = [f"Cmnd_Alias A{number + 1} = {', '.join(10 * [f'A{number}'])}\n" for number in range(300)]
        hanging = f"Cmnd_Alias A0 = A0\n{''.join(lines)}alice ALL = A300\n"
        self.assertEqual(self.checked(hanging), "1 p:1: error: cycle Cmnd_Alias A0;")

    def test_groups_and_rules(self) -> None:
        groups = " ".join(f"g{number}:{number + 2000}" for number in range(100))
        many = f"alice,1000,alice:1000\nmany,1001,many:1001 {groups}\n"
        policy = "".join(f"%g{number % 100} ALL = /bin/c{number}\n" for number in range(1300))
        asks = {f"many,web1,,,/bin/c{number},": f"allow,p:{number + 1}," for number in (0, 700, 1299)}
        self.judged(policy, {**asks, "many,web1,,,/bin/c,": "nomatch,,", "alice,web1,,,/bin/c0,": "nomatch,,"}, many)

    def test_beginnings_of_commands(self) -> None:
        policy = "".join(f"alice ALL = /bin/{number * 'a'}*\n" for number in range(1, 101))
        asks = {f"alice,web1,,,/bin/{80 * 'a'},": "allow,p:80,", "alice,web1,,,/bin/aaab,": "allow,p:3,"}
        self.judged(policy, {**asks, "alice,web1,,,/bin/b,": "nomatch,,"})

    def test_users_and_hosts(self) -> None:
        users = "".join(f"u{number},{number},g{number}:{number}\n" for number in range(2, 100_000))
        hosts = "".join(f"h{number},10.{number >> 16}.{number >> 8 & 255}.{number & 255}/8\n" for number in range(2, 100_000))
        asks = {"u99999,H99999,,,/bin/ls,": "allow,p:1,", "u99998,h99999,,,/bin/ls,": "nomatch,,"}
        self.judged("%g99999 10.1.134.159 = /bin/ls\n", {**asks, "u99999,h99998,,,/bin/ls,": "nomatch,,"}, users, hosts)

    def test_rows(self) -> None:
        rows = {
            "users": "user,uid,groups\nroot,0,root:0\n" + "".join(f"u{number},{number},g:7\n" for number in range(1, 100_000)),
            "hosts": "host,interfaces\n" + "".join(f"h{number},\n" for number in range(100_000)),
            "requests": REQUESTS_HEADER + "".join(f"{number},u,h,,,/c,\n" for number in range(1, 1_000_001)),
        }
        more = {"users": "one,1,g:7\n", "hosts": "one,\n", "requests": "1000001,u,h,,,/c,\n"}
        self.write_all({"p": "", **rows})
        self.assertEqual(self.shown(*AUDIT.split(), "s=requests"), "3 ! sudo_audit: sender s: not closed;")
        for name, row in more.items():
            self.write(name, rows[name] + row)
            said = "sender s" if name == "requests" else name
            self.assertEqual(self.shown(*AUDIT.split(), "s=requests"), f"3 ! sudo_audit: {said}: too many rows;")
            self.write(name, rows[name])

    def test_memberships(self) -> None:
        header, row = "user,uid,gid,group\nroot,0,0,root\n", "a,1,7,g\n"
        self.write_all({"p": "", "hosts": "host,interfaces\n", "users": header + 99_999 * row})
        self.assertEqual(self.shown(*AUDIT.split()), REPORT)
        # The first fault decides, and in a row its form.
        bad = "a,2,7,g\n"
        for more, fault in ((row, "too many rows"), (row + bad, "too many rows"), (bad, "row 100002: bad row")):
            self.write("users", header + 99_999 * row + more)
            self.assertEqual(self.shown(*AUDIT.split()), f"3 ! sudo_audit: users: {fault};")

    def test_files_and_folders(self) -> None:
        self.write_all({"a": "", "d/b": ""})
        self.assertEqual(self.checked(1023 * "@include a\n"), "0 ok;")
        self.assertEqual(self.checked(1024 * "@include a\n"), "1 ! sudo_audit: p:1024: too many files;")
        self.assertEqual(self.checked(1024 * "@includedir none\n"), "0 ok;")
        self.assertEqual(self.checked(1025 * "@includedir none\n"), "1 ! sudo_audit: p:1025: too many files;")

    def test_includes_in_one_another(self) -> None:
        self.write_all({f"f{number}": f"@include f{number + 1}\n" for number in range(1, 128)} | {"f128": ""})
        self.assertEqual(self.checked("@include f1\n"), "0 ok;")
        self.write_all({"f128": "@include f129\n", "f129": ""})
        self.assertEqual(self.checked("@include f1\n"), "1 ! sudo_audit: f128:1: includes too deep;")

    def test_definitions_of_all_files(self) -> None:
        self.write("a", 2048 * "Host_Alias H = web1\n")
        policy = "@include a\n@include a\nUser_Alias H = bob\n\nHost_Alias H = web2\n"
        self.assertEqual(self.checked(policy), "1 ! sudo_audit: p:5: too many aliases;")

    def test_parts(self) -> None:
        self.assertEqual(self.audited(*256 * ["s:"]), "3 ! sudo_audit: sender s: not closed;")
        self.assertEqual(self.audited(*256 * ["s:"], workers=16), "3 ! sudo_audit: sender s: not closed;")
        self.assertEqual(self.audited(*257 * ["s:"]), "3 ! sudo_audit: too many parts;")

    def test_senders(self) -> None:
        senders = [f"a{number}: close=0" for number in range(65)]
        self.assertEqual(self.audited(*senders[:64]), REPORT)
        self.assertEqual(self.audited(*senders), "3 ! sudo_audit: too many senders;")

    def test_a_sender_that_is_closed_early(self) -> None:
        rows = " ".join(f"{number}=kill" for number in range(1, 1001))
        # Threads decide which number is named.
        for _ in range(2):
            shown = self.audited(f"s: {rows} close=1")
            number = re.fullmatch(r"3 ! sudo_audit: sender s: request ([0-9]+) past close;", shown)
            self.assertTrue(number and 2 <= int(number[1]) <= 1000, shown)

    def test_long_files(self) -> None:
        rows = " ".join(f"{number}=kill" for number in range(1, 1001))
        answers = "".join(f"{sender},{number},allow,p:1,;" for sender in "st" for number in range(1, 1001))
        for workers in (1, 2, 16):
            self.assertEqual(self.audited(f"s: {rows} close=1000", f"t: {rows} close=1000", workers=workers), REPORT + answers)

    def test_a_long_file_with_quotes_or_a_fault(self) -> None:
        rows = [f"{number},alice,web1,,,/bin/kill,\n" for number in range(1, 5001)]
        rows[3999] = rows[3999].replace("alice", '"alice"')
        close = "close,5000,,,,,\n"
        answers = "".join(f"s,{number},allow,p:1,;" for number in range(1, 5001))
        self.assertEqual(self.audited("s: close=0"), REPORT)
        for row, text, shows in (
            (5000, close, REPORT + answers),
            (4501, rows[4499], "3 ! sudo_audit: sender s: row 4503: out of order;"),
            (3001, "x\n", "3 ! sudo_audit: sender s: row 3003: bad row;"),
            (2001, close, "3 ! sudo_audit: sender s: row 2004: row after close;"),
        ):
            self.write("part0", REQUESTS_HEADER + "".join([*rows[:row], text, *rows[row:]]))
            self.assertEqual(self.shown(*AUDIT.split(), "s=part0"), shows)


if __name__ == "__main__":
    unittest.main()
