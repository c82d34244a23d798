"""What is gathered on a host."""

import io
import os
import shutil
import subprocess
import tarfile
import time
import unittest
from unittest import mock

from machine import MachineCase
from support import TOOLS, Case


def bytes_of(tar: tarfile.TarFile, member: tarfile.TarInfo) -> bytes:
    """Returns the bytes of a plain file of a tar."""
    file = tar.extractfile(member)
    assert file is not None
    return file.read()


class Collect(Case):
    def collect(self, *words: str, status: int = 0) -> tuple[dict[str, bytes], str]:
        """Runs the script as ssh would, and returns the files of its tar."""
        with open(os.path.join(TOOLS, "collect"), "rb") as script:
            done = subprocess.run(
                ["sh", "-s", "--", *words], stdin=script, stdout=subprocess.PIPE, stderr=subprocess.PIPE, check=False
            )
        err = os.fsdecode(done.stderr)
        self.assertEqual(done.returncode, status, err)
        if not done.stdout or not words[:1] or words[0] == "--help":
            return {}, err
        with tarfile.open(fileobj=io.BytesIO(done.stdout)) as tar:
            files = [member for member in tar.getmembers() if member.isfile()]
            return {member.name.partition("/")[2]: bytes_of(tar, member) for member in files}, err

    def test_the_policy_and_what_it_includes(self) -> None:
        main = self.write(
            "etc/sudoers",
            '@includedir d\n#include "with \\"space"\n# note \\\n@include\\\n  later\n@includedir gone\nx ALL = ALL\n',
        )
        self.write("etc/d/10", f"@include {self.folder}/opt/far\n")
        self.write("etc/d/no.x", "")
        self.write('etc/with "space', "")
        self.write("etc/later", "")
        self.write("opt/far", "@include ../etc/sudoers\n")
        files, _ = self.collect("--policy", main, "--no-logs")
        tree = {name.removeprefix(f"tree{self.folder}/") for name in files if name.startswith("tree/")}
        self.assertTrue({"etc/sudoers", "etc/d/10", 'etc/with "space', "opt/far"} <= tree, tree)
        self.assertNotIn("etc/d/no.x", tree)
        self.assertEqual(files["policy"].decode(), main + "\n")
        self.assertIn(b"root:", files["passwd"])
        self.assertIn(b"root:", files["group"])

    def test_what_is_missing_is_named(self) -> None:
        main = self.write("sudoers", "@include gone\n")
        files, err = self.collect("--policy", main, "--user", "no-such-user", "--no-logs", status=3)
        self.assertIn(f"{self.folder}/gone: cannot be read", err)
        self.assertIn(b"user no-such-user: not known", files["missing"])

    def test_what_is_no_plain_file_or_too_large_is_named_and_not_read(self) -> None:
        os.mkfifo(self.path("fifo"))
        os.symlink("/dev/zero", self.path("zero"))
        os.mkdir(self.path("folder"))
        for name, size in (("sparse", 100 << 30), ("large", (16 << 20) + 1), ("most", 16 << 20)):
            self.write(name, "")
            os.truncate(self.path(name), size)
        names = ("fifo", "zero", "folder", "sparse", "large", "most")
        main = self.write("sudoers", "".join(f"@include {name}\n" for name in names))
        start = time.monotonic()
        files, err = self.collect("--policy", main, "--no-logs", status=3)
        self.assertLess(time.monotonic() - start, 10)
        said = [f"collect: {self.folder}/{name}: not a plain file\n" for name in names[:3]]
        said += [f"collect: {self.folder}/{name}: more than 16777216 bytes, and no more are read\n" for name in names[3:5]]
        self.assertEqual(err, "".join(said))
        self.assertEqual(files["missing"].decode(), err.replace("collect: ", ""))
        tree = [name.rpartition("/")[2] for name in files if name.startswith("tree/")]
        self.assertEqual(sorted(tree), ["most", "sudoers"])
        for name in names[:4]:
            _, err = self.collect("--policy", self.path(name), "--no-logs", status=3)
            self.assertIn(f"collect: {self.folder}/{name}: ", err)

    def test_a_last_line_without_its_end_and_ends_of_another_system(self) -> None:
        main = self.write("etc/sudoers", "@include a\r\n@include b")
        self.write("etc/a", "")
        self.write("etc/b", "")
        files, _ = self.collect("--policy", main, "--no-logs")
        tree = {name.removeprefix(f"tree{self.folder}/") for name in files if name.startswith("tree/")}
        self.assertTrue({"etc/a", "etc/b"} <= tree, tree)

    def test_an_include_does_not_lead_out_of_the_copies(self) -> None:
        up = "../" * 40
        main = self.write("etc/sudoers", f"@includedir {up}{self.folder[1:]}/d\n@include {up}{self.folder[1:]}/f\n")
        self.write("d/x", "")
        self.write("f", "")
        before = sorted(os.listdir(self.folder))
        files, err = self.collect("--policy", main, "--no-logs", status=3)
        self.assertEqual(err.count("leads above the root folder"), 2)
        self.assertEqual([name for name in files if name.startswith("tree/")], [f"tree{main}"])
        self.assertEqual(sorted(os.listdir(self.folder)), before)

    def test_a_user_is_not_an_option_of_getent(self) -> None:
        main = self.write("sudoers", "")
        for name in ("-s", "--service=files", "root\n--help"):
            err = self.collect("--policy", main, "--no-logs", "--user", name, status=2)[1]
            self.assertIn("a user's name is one line and does not begin with -", err)
        files, _ = self.collect("--policy", main, "--no-logs", "--user", "root")
        self.assertEqual(files["passwd"].count(b"root:x:0:0:"), 2)

    def test_a_name_with_control_characters_is_harmless_on_a_terminal(self) -> None:
        main = self.write("sudoers", "@include a\x1b[31m\x9b\x07z\n")
        files, err = self.collect("--policy", main, "--no-logs", status=3)
        self.assertIn(f"collect: {self.folder}/a^[[31mM-BM-^[^Gz: cannot be read\n", err)
        self.assertIn(b"/a^[[31mM-BM-^[^Gz: cannot be read\n", files["missing"])
        self.assertIn("collect: ^[]0;x is no option", self.collect("\x1b]0;x", status=2)[1])

    def test_words(self) -> None:
        for words in (["--wrong"], ["--policy"], ["--policy", "relative"]):
            self.assertIn("collect: ", self.collect(*words, status=2)[1])
        self.collect("--help")

    def test_nothing_is_left_behind(self) -> None:
        main = self.write("sudoers", "")
        os.makedirs(self.path("tmp"))
        os.environ["TMPDIR"] = self.path("tmp")
        self.addCleanup(os.environ.pop, "TMPDIR")
        self.collect("--policy", main, "--no-logs")
        self.assertEqual(os.listdir(self.path("tmp")), [])

    def test_the_version(self) -> None:
        with open(os.path.join(os.path.dirname(TOOLS), "VERSION"), encoding="utf-8") as file:
            self.assertEqual(self.run_tool("collect", "--version")[0], f"collect {file.read()}")
        self.assertIn("does not know it", self.collect("--version", status=2)[1])

    def test_the_name_of_the_host_is_that_which_sudo_has(self) -> None:
        main = self.write("etc/sudoers", "@include q.%h\n@includedir %h.d\n")
        self.write("etc/q.Web1", "")
        self.write("etc/Web1.d/x", "")
        for own, resolved, wanted in (
            ("Web1", "web1.example.org", "Web1.example.org"),
            ("Web1", "localhost", "Web1"),
            ("Web1", "", "Web1"),
            ("Web1.example.org", "localhost.localdomain", "Web1.example.org"),
            ("Web1", "Web1", "Web1"),
        ):
            self.stub("hostname", f"case $* in -f) echo {resolved} ;; *) echo {own} ;; esac")
            files, _ = self.collect("--policy", main, "--no-logs")
            tree = {name.removeprefix(f"tree{self.folder}/etc/") for name in files if name.startswith("tree/")}
            self.assertEqual(tree, {"sudoers", "q.Web1", "Web1.d/x"})
            self.assertEqual(files["hostname"].decode(), f"{wanted}\n")

    def test_a_name_that_is_none_leads_nowhere(self) -> None:
        main = self.write("etc/sudoers", "@include q.%h\n")
        for name in ("../x", "a/b", "a&b", "a b"):
            self.stub("hostname", f"echo '{name}'")
            self.assertIn(f"{self.folder}/etc/q.", self.collect("--policy", main, "--no-logs", status=3)[1])

    def stub(self, name: str, text: str) -> None:
        """Puts a command before that of the machine."""
        os.chmod(self.write(f"bin/{name}", f"#!/bin/sh\n{text}\n"), 0o755)
        self.enterContext(mock.patch.dict(os.environ, {"PATH": f"{self.path('bin')}:{os.environ['PATH']}"}))

    def stub_getent(self, *cases: str) -> None:
        """Puts a getent before that of the machine, which it asks in all other cases."""
        self.stub("getent", "\n".join(("case $* in", *cases, f"  *) exec {shutil.which('getent')} \"$@\" ;;", "esac")))

    def test_netgroups_that_the_policy_may_name(self) -> None:
        self.stub_getent(
            "  'netgroup -- ops') echo 'ops                   ( ,ann,)' ;;",
            "  'netgroup -- two words') echo 'two words             (web1,-,)' ;;",
            "  'netgroup -- fails') exit 1 ;;",
            "  netgroup*) exit 2 ;;",
        )
        main = self.write("sudoers", 'Defaults@+at x\nann,!+ops +-s=(+run:adm) /bin/date +%s\n"+two words" ALL=ALL\n@include d\n')
        self.write("d", "+ops ALL = ALL\r\nUser_Alias A=\\\n +fails")
        files, err = self.collect("--policy", main, "--no-logs", status=3)
        rows = ["%s", "-s", "at", "ops                   ( ,ann,)", "run", "two words             (web1,-,)"]
        self.assertEqual(sorted(files["netgroup"].decode().splitlines()), sorted(rows))
        self.assertEqual(err, "collect: netgroup fails: cannot be listed\n")
        with open("/proc/sys/kernel/domainname", "rb") as file:
            self.assertEqual(files["domain"], file.read())

    def test_a_netgroup_is_no_option_of_getent(self) -> None:
        self.stub_getent("  'passwd -- root') exit 1 ;;", "  netgroup*) printf '%-21s ( ,ann,)\\n' \"$2\" ;;")
        main = self.write("sudoers", "+-s,+--help,+ops ALL = ALL\n")
        files, err = self.collect("--policy", main, "--no-logs", status=3)
        self.assertEqual(files["netgroup"].decode(), "ops                   ( ,ann,)\n")
        self.assertEqual(sorted(err.splitlines()), [f"collect: netgroup {name}: cannot be listed" for name in ("--help", "-s")])

    def test_a_policy_without_netgroups(self) -> None:
        files, _ = self.collect("--policy", self.write("sudoers", "ann ALL = ALL\n"), "--no-logs")
        self.assertFalse({"netgroup", "domain"} & files.keys())


class Machine(MachineCase):
    """A machine of which something is missing."""

    def collected(self, *words: str) -> dict[str, bytes]:
        """Returns the files of the machine's tar."""
        command = ["chroot", self.path("root"), "/bin/sh", "-s", "--", *words]
        with open(os.path.join(TOOLS, "collect"), "rb") as script:
            done = subprocess.run(command, stdin=script, capture_output=True, check=False)
        with tarfile.open(fileobj=io.BytesIO(done.stdout)) as tar:
            files = [member for member in tar.getmembers() if member.isfile()]
            return {member.name.partition("/")[2]: bytes_of(tar, member) for member in files}

    def missing_with(self, nsswitch: str) -> list[str]:
        """Returns what is missing on a machine with this nsswitch.conf."""
        self.write("root/etc/nsswitch.conf", nsswitch)
        return self.collected("--no-logs")["missing"].decode().splitlines()

    def test_a_log_that_is_too_large_is_missing(self) -> None:
        self.make_machine()
        logs = [name for name in self.collected() if name.startswith("logs/")]
        self.write("root/var/log/auth.log.7", "")
        os.truncate(self.path("root", "var", "log", "auth.log.7"), 100 << 30)
        os.mkfifo(self.path("root", "var", "log", "sudo.log"))
        files = self.collected()
        self.assertEqual([name for name in files if name.startswith("logs/")], logs)
        said = "/var/log/auth.log.7: more than 4294967296 bytes, and no more are read\n"
        self.assertEqual(files["missing"].decode(), said)

    def test_other_sources_than_files_are_missing(self) -> None:
        self.make_machine()
        for line in ("sudoers: files sss", "sudoers:ldap", "SUDOERS:\tldap [SUCCESS=return] files"):
            wanted = f"/etc/nsswitch.conf: {line}: the rules of other sources than files are not gathered"
            with self.subTest(line):
                missing = self.missing_with(f"passwd: files\n# sudoers: nis\n  {line} # x\nsudoers: files\n")
                self.assertEqual(missing, [wanted])

    def test_files_alone_lack_nothing(self) -> None:
        self.make_machine()
        for text in ("", "passwd: sss\n", "sudoers: files\nsudoers: sss\n", "sudoers: FILES [NOTFOUND=return]\n"):
            with self.subTest(text):
                self.assertEqual(self.missing_with(text), [])


if __name__ == "__main__":
    unittest.main()
