"""What hosts send is unpacked within limits, and a hostile host fails alone."""

import contextlib
import io
import os
import shlex
import shutil
import signal
import stat
import subprocess
import tarfile
import tempfile
import time
import unittest
from collections.abc import Callable

from support import TOOLS, Case

from kulavemia.command import Fault
from kulavemia.tar import Limits, Tar, Unpacking

NAMES = frozenset(("tree", "policy", "passwd", "hostname", "logs"))
PASSWD = b"root:x:0:0::/root:/bin/sh\n"
TRANSPORT = """#!/bin/sh
[ "$1" = -- ] || exit 9
cat >{folder}/script
printf '%s\\n' "$*" >>{folder}/asked
case ${{2#*@}} in
  hangs) exec sleep 600 ;;
  trickles) while :; do printf x; sleep 0.1; done ;;
  pours) exec /usr/bin/python3 -c "import sys
data = open('{folder}/tars/header', 'rb').read() * 1000
while True: sys.stdout.buffer.write(data)" ;;
  gone) echo 'ssh: connect to host gone: Connection refused' >&2; exit 255 ;;
  shouts) cat /dev/zero >&2 ;;
  bomb) head -c 512 {folder}/tars/bomb.tar; exec cat /dev/zero ;;
  endless) cat {folder}/tars/web1.tar; exec cat /dev/zero ;;
  short) head -c 3000 {folder}/tars/web1.tar ;;
  misses) cat {folder}/tars/web1.tar; exit 3 ;;
  fails) cat {folder}/tars/web1.tar; echo 'sudo: a password is required' >&2; exit 1 ;;
  lies) printf '=cmd|\\033[31m\\n' >&2; exit 1 ;;
  *) exec cat {folder}/tars/"$2".tar ;;
esac
"""

Put = Callable[..., None]


def having(name: str, data: bytes = b"", **fields: object) -> Callable[[Put], None]:
    """Returns what puts a further member into a tar."""
    return lambda put: put(name, data, **fields)


class GatherCase(Case):
    """A test with tars, and with a stub that sends them in place of ssh."""

    def setUp(self) -> None:
        super().setUp()
        os.mkdir(self.path("tars"))
        os.chmod(self.write("stub", TRANSPORT.format(folder=shlex.quote(self.folder))), 0o755)
        self.tar("web1", lambda put: None)

    def tar(self, name: str, more: Callable[[Put], None], form: int = tarfile.GNU_FORMAT, top: str = "web1") -> str:
        """Writes a tar as tools/collect does, with further members, and returns its path."""
        path = self.path("tars", f"{name}.tar")
        with tarfile.open(path, "w", format=form) as file:

            def put(name: str, data: bytes = b"", **fields: object) -> None:
                member = tarfile.TarInfo(name)
                member.size = len(data)
                for field, value in fields.items():
                    setattr(member, field, value)
                file.addfile(member, io.BytesIO(data))

            for folder in (top, f"{top}/tree", f"{top}/tree/etc", f"{top}/logs"):
                put(folder, type=tarfile.DIRTYPE, mode=0o4777)
            put(f"{top}/policy", b"/etc/sudoers\n")
            put(f"{top}/passwd", PASSWD, mode=0o4755, uid=1001, gid=1001, mtime=1_700_000_000)
            put(f"{top}/tree/etc/sudoers", b"root ALL = ALL\n")
            more(put)
        return path

    def gather(self, *words: str, status: int = 0) -> tuple[str, str]:
        """Runs the command over the stub."""
        return self.run_tool("gather", "--command", self.path("stub"), "--out", "out", *words, status=status)

    def statuses(self) -> dict[str, tuple[str, str]]:
        """Returns the status and the fault of each host."""
        rows = [row.split(",") for row in self.rows("out", "status.csv")[1:]]
        return {row[0]: (row[1], ",".join(row[2:-3]).strip('"')) for row in rows}

    def fault_of(self, name: str, more: Callable[[Put], None], *words: str, form: int = tarfile.GNU_FORMAT) -> str:
        """Returns why a host with such a tar is refused, and wants that nothing of it is left."""
        self.tar(name, more, form)
        self.gather(name, *words, status=1)
        status, fault = self.statuses()[name]
        self.assertEqual((status, sorted(os.listdir(self.path("out")))), ("refused", ["status.csv"]))
        return fault


class Gather(GatherCase):
    def test_hosts_are_unpacked_into_folders_of_their_names(self) -> None:
        out, err = self.gather("web1", "admin@misses")
        self.assertEqual(out, "2 done, 0 skipped, 0 refused, 0 failed\n")
        self.assertEqual(self.read("out", "web1", "tree", "etc", "sudoers"), "root ALL = ALL\n")
        self.assertEqual(self.read("out", "misses", "policy"), "/etc/sudoers\n")
        first = self.rows("out", "status.csv")
        self.assertEqual(first[0], "host,status,fault,bytes,members,seconds")
        self.assertRegex(first[1], r"^web1,done,,5632,7,\d+\.\d$")
        self.assertIn("admin@misses,done,something is missing: out/misses/missing names it,", first[2])
        self.assertIn("gather: admin@misses: something is missing", err)
        with open(os.path.join(TOOLS, "collect"), encoding="utf-8") as script:
            self.assertEqual(self.read("script"), script.read())

    def test_owners_and_modes_are_left_out_and_times_stay(self) -> None:
        self.gather("web1")
        status = os.stat(self.path("out", "web1", "passwd"))
        self.assertEqual((stat.S_IMODE(status.st_mode), status.st_uid), (0o600, os.geteuid()))
        self.assertEqual(status.st_mtime, 1_700_000_000)
        for names in ((), ("web1",), ("web1", "tree")):
            self.assertEqual(stat.S_IMODE(os.stat(self.path("out", *names)).st_mode), 0o700)
        self.run_tool("gather", "--command", self.path("stub"), "--out", "shared", "--mode", "shared", "web1")
        self.assertEqual(stat.S_IMODE(os.stat(self.path("shared", "web1", "passwd")).st_mode), 0o644)

    def test_a_time_to_come_is_now(self) -> None:
        for moment in (1 << 40, -5):
            self.tar("web1", lambda put: put("web1/hostname", b"web1\n", mtime=moment))
            self.gather("web1")
            status = os.stat(self.path("out", "web1", "hostname"))
            self.assertLessEqual(abs(status.st_mtime - max(0, min(moment, time.time()))), 60)
            shutil.rmtree(self.path("out"))

    def test_the_words_that_a_host_gets(self) -> None:
        self.gather("web1", "--since", "two days ago", "--user", "jd; reboot", "--policy", "/etc/s", "--no-logs")
        line = "sudo sh -s -- --policy /etc/s --since 'two days ago' --user 'jd; reboot' --no-logs"
        self.assertEqual(self.rows("asked"), [f"-- web1 {line}"])

    def test_hosts_that_are_none(self) -> None:
        for host in ("a@-x", "a b", "../x", "web1/..", ".x", "status.csv", "tree", "x" * 201, "a\x1b@b", "", "a\n"):
            self.assertIn("expected a host's name", self.gather(host, status=2)[1])
        for words in (("-oProxyCommand=x",), ("--", "-oProxyCommand=x"), ("--", "-x@web1"), ("web1", "--", "-x")):
            self.gather(*words, status=2)
        self.assertIn("web1 and root@web1 have one folder", self.gather("web1", "root@web1", status=2)[1])
        self.assertIn("name a HOST, or tars by --tar", self.gather(status=2)[1])
        for option, word in (("jobs", "0"), ("limit", "0"), ("limit", "nan"), ("host-size", "1T"), ("members", "-1")):
            self.gather("web1", f"--{option}", word, status=2)
        err = self.run_tool("gather", "--command", "/none/such x", "--out", "out", "web1", status=2)[1]
        self.assertIn("there is no such command", err)
        self.assertFalse(os.path.exists(self.path("out")))

    def test_hosts_that_fail_are_named_and_the_others_go_on(self) -> None:
        hosts = ("web1", "gone", "hangs", "trickles", "shouts", "short", "fails", "nosuch")
        out, err = self.gather(*hosts, "--limit", "6", status=1)
        self.assertEqual(out, "1 done, 0 skipped, 1 refused, 6 failed\n")
        found = self.statuses()
        self.assertEqual(found["web1"], ("done", ""))
        self.assertEqual(found["gone"], ("failed", "ssh: connect to host gone: Connection refused"))
        self.assertEqual(found["fails"], ("failed", "sudo: a password is required"))
        for host in ("hangs", "shouts"):
            self.assertEqual(found[host], ("failed", "took more than 6 s"))
        self.assertEqual(found["short"], ("refused", "the tar ends early"))
        self.assertEqual(found["nosuch"][0], "failed")
        self.assertIn("gather: gone: ssh: connect to host gone: Connection refused\n", err)
        self.assertEqual(sorted(os.listdir(self.path("out"))), ["status.csv", "web1"])

    def test_what_a_host_says_is_harmless(self) -> None:
        err = self.gather("lies", status=1)[1]
        self.assertIn("gather: lies: =cmd|⟨U+001B⟩[31m\n", err)
        self.assertEqual(self.statuses(), {"lies": ("failed", "=cmd|⟨U+001B⟩[31m")})
        self.gather("lies", "--spreadsheet", status=1)
        self.assertRegex(self.rows("out", "status.csv")[1], r"^lies,failed,'=cmd\|⟨U\+001B⟩\[31m,0,0,")

    def test_a_run_that_was_cut_off_continues(self) -> None:
        self.gather("web1", "gone", status=1)
        self.tar("gone", lambda put: None)
        with open(self.path("stub"), encoding="utf-8") as file:
            text = file.read().replace("gone)", "other)")
        self.write("stub", text)
        os.mkdir(self.path("out", ".0123456789abcdef.part"))
        before = os.stat(self.path("out", "web1")).st_mtime_ns
        out, _ = self.gather("web1", "gone")
        self.assertEqual(out, "1 done, 1 skipped, 0 refused, 0 failed\n")
        self.assertEqual(os.stat(self.path("out", "web1")).st_mtime_ns, before)
        self.assertEqual(sorted(os.listdir(self.path("out"))), ["gone", "status.csv", "web1"])
        self.assertEqual(sum(row.startswith("-- web1 ") for row in self.rows("asked")), 1)

    def test_an_interrupt_ends_what_was_started(self) -> None:
        words = [os.path.join(TOOLS, "gather"), "--command", self.path("stub"), "--out", "out", "web1", "hangs"]
        # Where the tests run in the background, they ignore interrupts, and so would the command.
        before = signal.signal(signal.SIGINT, signal.default_int_handler)
        try:
            running = subprocess.Popen(words, cwd=self.folder, stdout=subprocess.DEVNULL)
        finally:
            signal.signal(signal.SIGINT, before)
        self.addCleanup(running.wait)
        self.addCleanup(running.kill)
        end = time.monotonic() + 30
        while not os.path.isdir(self.path("out", "web1")) or len(self.rows("asked")) < 2:
            self.assertLess(time.monotonic(), end)
            time.sleep(0.02)
        running.send_signal(signal.SIGINT)
        self.assertEqual(running.wait(60), 130)
        self.assertEqual(os.listdir(self.path("out")), ["web1"])

    def test_tars_at_hand(self) -> None:
        tars = [self.tar("a", lambda put: None, tarfile.PAX_FORMAT), self.tar("b", lambda put: None, top="web2")]
        tars += [self.tar("c", lambda put: None), self.write("no.tar", "x" * 5000), self.path("none.tar")]
        out, _ = self.run_tool("gather", "--out", "out", "--tar", *tars, status=1)
        self.assertEqual(out, "2 done, 0 skipped, 3 refused, 0 failed\n")
        self.assertEqual(sorted(os.listdir(self.path("out"))), ["status.csv", "web1", "web2"])
        rows = self.rows("out", "status.csv")
        self.assertIn(f"web1,refused,{tars[2]}: its folder web1 is that of {tars[0]},0,0,0.0", rows)
        self.assertIn("not a tar, or a damaged one", rows[4])
        self.assertIn("none.tar: No such file or directory", rows[5])
        for top in ("tree", "users.csv", ".x"):
            tar = self.tar("other", lambda put: None, top=top)
            _, err = self.run_tool("gather", "--out", "out", "--tar", tar, status=1)
            self.assertIn(f"{top}: not the name of a host's folder", err)
        out, _ = self.run_tool("gather", "--out", "out", "--tar", *tars[:2])
        self.assertEqual(out, "0 done, 2 skipped, 0 refused, 0 failed\n")


class HostileTars(GatherCase):
    """Each is of the host `evil`, of which nothing is left."""

    def test_names_that_lead_elsewhere(self) -> None:
        for name in ("web1/../../victim", "/victim", "../victim", "web1/tree/../../../victim", "web1//x", "./web1/x"):
            fault = self.fault_of("evil", having(name, b"x"))
            self.assertIn("not the plain form of a path below a folder", fault)
        self.assertFalse(os.path.exists(self.path("victim")))

    def test_a_member_of_another_hosts_folder(self) -> None:
        fault = self.fault_of("evil", lambda put: put("web2/policy", b"x"))
        self.assertEqual(fault, "web2/policy: not in the folder web1")
        fault = self.fault_of("evil", lambda put: put("policy", b"x"))
        self.assertIn("policy: two members have this name, or it is beside the folder web1", fault)

    def test_links_devices_and_the_like(self) -> None:
        self.write("victim", "victim")
        for kind, shown in (
            (tarfile.SYMTYPE, "a link"),
            (tarfile.LNKTYPE, "a hard link"),
            (tarfile.CHRTYPE, "a device"),
            (tarfile.BLKTYPE, "a device"),
            (tarfile.FIFOTYPE, "a FIFO"),
            (tarfile.GNUTYPE_SPARSE, "a sparse file"),
            (b"Z", "a member of an unknown kind"),
        ):
            for name in ("web1/hostname", "web1/tree/etc/sudoers.d"):
                fault = self.fault_of("evil", having(name, type=kind, linkname=self.path("victim")))
                self.assertEqual(fault, f"{name}: {shown}; plain files and folders alone are unpacked")
        self.assertEqual(self.read("victim"), "victim")

    def test_two_members_of_one_name(self) -> None:
        for name, kind in (("web1/passwd", tarfile.REGTYPE), ("web1/tree", tarfile.DIRTYPE), ("web1/tree", tarfile.REGTYPE)):
            fault = self.fault_of("evil", having(name, type=kind))
            self.assertEqual(fault, f"{name}: two members have this name")

    def test_a_member_below_a_file_or_without_a_folder(self) -> None:
        for name in ("web1/tree/gone/x", "web1/passwd/x"):
            fault = self.fault_of("evil", having(name))
            self.assertEqual(fault, f"{name}: no folder for it comes before it")

    def test_what_is_not_gathered_of_a_host(self) -> None:
        for name in ("web1/users.csv", "web1/requests", "web1/.lock", "web1/tools"):
            fault = self.fault_of("evil", having(name))
            self.assertEqual(fault, f"{name}: not what is gathered of a host")

    def test_names_with_characters_that_have_no_shape(self) -> None:
        for character in [chr(code) for code in range(1, 32)] + ["\x7f", "\x85", "\u202e", "\udcff"]:
            name = f"web1/logs/a{character}b"
            for form in (tarfile.GNU_FORMAT, tarfile.PAX_FORMAT):
                path = self.tar("evil", having(name), form)
                with open(path, "rb") as file, self.assertRaisesRegex(Fault, "a name that is not printable"):
                    self.unpack(file.read)
        self.assertIn("web1/logs/a⟨U+001B⟩b", self.fault_of("evil", lambda put: put("web1/logs/a\x1bb")))
        fault = self.fault_of("evil", lambda put: put("x", pax_headers={"path": "web1/a\0b"}), form=tarfile.PAX_FORMAT)
        self.assertIn("a name that is not printable", fault)

    def test_names_that_are_too_long(self) -> None:
        for name in ("web1/logs/" + "x" * 256, "web1/logs/" + "x/" * 600):
            self.assertIn("a name that is too long", self.fault_of("evil", having(name)))
        fault = self.fault_of("evil", lambda put: put("web1/" + "x" * (1 << 17)))
        self.assertIn("a header of 131078 bytes, and at most 65536 are read", fault)

    def test_a_setuid_file_is_a_plain_one(self) -> None:
        self.tar("evil", lambda put: put("web1/tree/etc/sh", b"x", mode=0o6777))
        self.gather("evil")
        self.assertEqual(stat.S_IMODE(os.stat(self.path("out", "evil", "tree", "etc", "sh")).st_mode), 0o600)

    def test_no_command_of_the_folder_comes_from_a_tar(self) -> None:
        repository = self.path("repository")
        leave = shutil.ignore_patterns("tests", "__pycache__")
        shutil.copytree(TOOLS, os.path.join(repository, "tools"), ignore=leave)
        shutil.copy(os.path.join(os.path.dirname(TOOLS), "VERSION"), repository)
        before = self.read("repository", "tools", "replay")
        script = f"#!/bin/sh\n: >{shlex.quote(self.path('ran'))}\n".encode()
        tars = [
            self.tar("beside", lambda put: put("tools/replay", script, mode=0o755)),
            self.tar("below", lambda put: put("web1/tools/replay", script, mode=0o755)),
            self.tar("climbs", lambda put: put("web1/../tools/replay", script, mode=0o755)),
            self.tar("named", lambda put: put("tools/replay", script, mode=0o755), top="tools"),
        ]
        for tar in tars:
            for words in (["gather", "--out", ".", "--tar", tar], ["replay", "--version"]):
                command = [os.path.join("tools", words[0]), *words[1:]]
                subprocess.run(command, cwd=repository, capture_output=True, check=False)
            self.assertEqual(self.read("repository", "tools", "replay"), before, tar)
        self.assertEqual(sorted(os.listdir(repository)), ["VERSION", "status.csv", "tools"])
        self.assertFalse(os.path.exists(self.path("ran")))

    def test_bombs(self) -> None:
        self.tar("bomb", lambda put: None)
        with open(self.path("tars", "bomb.tar"), "wb") as file:
            member = tarfile.TarInfo("web1/addr.json")
            member.size = 400 << 20
            file.write(member.tobuf(tarfile.GNU_FORMAT))
        start = time.monotonic()
        self.gather("bomb", "endless", "--host-size", "8M", status=1)
        self.assertLess(time.monotonic() - start, 60)
        found = self.statuses()
        self.assertEqual(found["bomb"], ("refused", "more than 8388608 bytes"))
        self.assertEqual(found["endless"], ("refused", "the tar goes on behind its end"))
        self.assertEqual(os.listdir(self.path("out")), ["status.csv"])

    def test_a_file_that_is_too_large(self) -> None:
        fault = self.fault_of("evil", lambda put: put("web1/logs/a", bytes(3000)), "--file-size", "2K")
        self.assertEqual(fault, "web1/logs/a: a file of 3000 bytes; a file has at most 2048, and a folder none")

    def test_sizes_that_are_none(self) -> None:
        for size in (b"\xff" * 12, b"\x80" + b"\xff" * 11, b"99999999999\0"):
            with self.subTest(size):
                fault = self.fault_of_block(lambda block: block[:124] + size + block[136:])
                self.assertRegex(fault, "bytes|wrong|below 0")

    def fault_of_block(self, change: Callable[[bytes], bytes]) -> str:
        """Returns why a tar is refused whose first block is changed, with the right sum."""
        block = change(tarfile.TarInfo("web1/policy").tobuf(tarfile.GNU_FORMAT))
        total = sum(block[:148]) + 256 + sum(block[156:])
        path = self.write("tars/evil.tar", block[:148] + b"%06o\0 " % total + block[156:] + bytes(2048))
        self.assertTrue(path)
        self.gather("evil", status=1)
        return self.statuses()["evil"][1]

    def test_200_000_members(self) -> None:
        path = self.tar("evil", lambda put: None)
        block = tarfile.TarInfo("web1/logs/000000").tobuf(tarfile.GNU_FORMAT)
        rest = sum(block) - sum(block[10:16]) - sum(block[148:156]) + 256
        with open(path, "r+b") as file:
            file.seek(7 * 512 + 3 * 512)
            for number in map(b"%06d".__mod__, range(200_000)):
                file.write(block[:10] + number + block[16:148] + b"%06o\0 " % (rest + sum(number)) + block[156:])
        self.gather("evil", status=1)
        self.assertEqual(self.statuses()["evil"], ("refused", "more than 100000 members"))
        self.assertEqual(os.listdir(self.path("out")), ["status.csv"])

    def test_a_host_that_pours_is_ended_in_time(self) -> None:
        header = tarfile.TarInfo("web1/x")
        header.type = tarfile.XGLTYPE
        self.write("tars/header", header.tobuf(tarfile.GNU_FORMAT))
        start = time.monotonic()
        self.gather("pours", "--limit", "1", "--members", "999999999", "--host-size", "900G", status=1)
        self.assertEqual(self.statuses()["pours"], ("failed", "took more than 1 s"))
        self.assertLess(time.monotonic() - start, 60)

    def test_extended_headers_with_many_records(self) -> None:
        header = tarfile.TarInfo("x")
        header.type = tarfile.XHDTYPE
        records = b"".join(b"12 %06d=x\n"[:12] % number for number in range(5000))
        header.size = len(records)
        with open(self.path("tars", "web1.tar"), "rb") as file:
            whole = file.read()
        start = time.process_time()
        padded = header.tobuf(tarfile.GNU_FORMAT) + records + bytes(-len(records) % 512)
        self.unpack(io.BytesIO(padded * 100 + whole).read)
        with self.assertRaisesRegex(Fault, "an extended header is wrong"):
            self.unpack(io.BytesIO(padded[:512] + b"9" * len(records) + padded[512 + len(records) :] + whole).read)
        self.assertLess(time.process_time() - start, 5)

    def test_headers_count_as_members(self) -> None:
        def long(put: Put) -> None:
            for number in range(20):
                put(f"web1/logs/{number}" + "x" * 200)

        self.assertEqual(self.fault_of("evil", long, "--members", "40"), "more than 40 members")

    def test_any_byte_that_is_changed_or_left_out(self) -> None:
        with open(self.tar("web1", lambda put: None), "rb") as file:
            whole = file.read()
        for place in range(0, len(whole) - 1024, 23):
            for data in (whole[:place], whole[:place] + bytes([whole[place] ^ 0xA5]) + whole[place + 1 :]):
                with contextlib.suppress(Fault):
                    self.unpack(io.BytesIO(data).read)

    def unpack(self, read: Callable[[int], bytes]) -> None:
        """Unpacks a tar in this process."""
        with tempfile.TemporaryDirectory(dir=self.folder) as folder:
            Unpacking(Tar(read, Limits()), folder, NAMES).run()


if __name__ == "__main__":
    unittest.main()
