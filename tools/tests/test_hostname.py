"""Tests of `sudo_review --hostname`, beside the policy with the name written out, and beside the files that visudo opens."""

import os
import random
import re
import shutil
import subprocess
import unittest

from support import REQUESTS_HEADER, REVIEW, Case, needs_review

from kulavemia.rows import row

POLICIES = 150
LINES = 1500
NAMES = ("web1", "w", "Web-1", "a_b", "10", "web1.example.org", "w.x.y.z")
DIRECTIVES = ("@include", "#include", "@includedir", "#includedir")
PATHS = ("q.%h", "%h", "%h.d", "q.%h.%h", "%%h", "q%h%h")
# What is put into include lines.
PIECES = (
    *("%h", "%", "h", "\\", '"', " ", "\t", ",", "#", "# %h", ".", "/", "\\\n", " \\\n", "\r", "x"),
    *("%H", "\\%h", "\\x25h", "ALL", "=", "!"),
)
BAD_NAMES = (
    *("", ".", "..", ".web1", "a..b", "a/b", "../x", "a b", "a\tb", "a\nb", "a\\b", 'a"b', "a#b", "%h", "a,b", "a:b"),
    *("é", "x" * 256),
)
ON_HOST = 'echo "$1" >/proc/sys/kernel/hostname && exec visudo -c -f p'


def is_set() -> bool:
    """Returns whether this machine lets a host's name be set in a namespace, and has visudo."""
    if not (shutil.which("unshare") and shutil.which("visudo")):
        return False
    words = ["unshare", "-Uru", "sh", "-c", "echo web1 >/proc/sys/kernel/hostname"]
    done = subprocess.run(words, capture_output=True, check=False)
    return done.returncode == 0


@needs_review
class Hostname(Case):
    """Policies with `%h`, and the same with the name in its place."""

    def setUp(self) -> None:
        super().setUp()
        self.write("users", "user,uid,groups\nroot,0,root:0\nalice,1000,alice:1000\nbob,1001,bob:1001\n")
        asks = [(str(at), user, self.short, "", "", "/opt/a", "") for at, user in enumerate(("alice", "bob"), 1)]
        self.write("s", REQUESTS_HEADER + "".join(map(row, asks)) + "close,2,,,,,\n")

    short = "web1"

    def ran(self, *words: str) -> tuple[int, str, str]:
        """Returns the status of a run of the program, and what it printed."""
        done = subprocess.run([REVIEW, *words], cwd=self.folder, capture_output=True, text=True, check=False)
        return done.returncode, done.stdout, done.stderr

    def answers(self, *more: str) -> list[tuple[int, str, str]]:
        """Returns what is printed of the policy `p` by each command that judges it."""
        words = ["p", "--users", "users", "--hosts", "hosts", *more]
        tables = (
            *(["grants"], ["roots", "--all"], ["subjects"], ["who", "--command", "/opt/a"]),
            *(["report", "s=s"], ["rules", "s=s"]),
        )
        found = [self.ran(command, *words, *rest) for command, *rest in tables]
        return [*found, self.ran("cautions", "p", *more), self.ran("check", "p", *more)]

    def lines(self, draw: random.Random) -> list[str]:
        """Returns a policy's lines, with an include line."""
        rules = [f"{draw.choice(('alice', 'bob', 'ALL'))} ALL = {draw.choice(('', '!'))}/opt/a" for _ in range(3)]
        path = draw.choice(PATHS)
        quoted = f'"{path}"' if draw.random() < 0.3 else path
        line = f"{draw.choice(DIRECTIVES)} {quoted}{draw.choice(('', ' ', ' # c'))}"
        rules.insert(draw.randrange(4), line)
        return rules

    def write_named(self, line: str, name: str) -> None:
        """Writes the file or the folder that an include line names, with the name in place of `%h`."""
        found = re.match(r'.include(dir)? "?([^" ]*)', line)
        self.assertIsNotNone(found)
        assert found is not None
        path = found[2].replace("%h", name)
        self.write(f"{path}/f" if found[1] else path, "bob ALL = /opt/a\n")

    def test_it_is_read_as_the_name_written_out(self) -> None:
        for number in range(POLICIES):
            draw = random.Random(f"hostname.{number}")
            name = draw.choice(NAMES)
            short = name.partition(".")[0]
            self.write("hosts", f"host,interfaces\n{short},\n{short}.example.com,\n")
            lines = self.lines(draw)
            folder = self.folder
            self.folder = os.path.join(folder, str(number))
            os.makedirs(self.folder)
            for file in ("users", "hosts", "s"):
                os.symlink(os.path.join(folder, file), self.path(file))
            self.write_named(next(line for line in lines if "include" in line), short)
            with self.subTest(lines=lines, name=name):
                self.write("p", "".join(f"{line}\n" for line in lines))
                found = self.answers("--hostname", name)
                self.assertIn("unsupported %h", self.ran("check", "p")[2])
                self.write("p", "".join(f"{line}\n" for line in lines).replace("%h", short))
                self.assertEqual(found, self.answers())
                self.assertEqual(found, self.answers("--hostname", name))
                self.assertEqual({status for status, _, _ in found} - {0, 5}, set())
            self.folder = folder

    def test_a_line_is_read_as_that_with_the_name(self) -> None:
        read = 0
        for file in ("q", "qxh1", "xh1", "q.xh1"):
            self.write(file, "bob ALL = ALL\n")
        for number in range(LINES):
            draw = random.Random(f"line.{number}")
            parts = [draw.choice(DIRECTIVES[:2]), " ", *draw.choice((("q", ".", "%h"), ("q", "%h"), ("%h",), ('"', "%h", '"')))]
            for _ in range(draw.randint(0, 2)):
                parts.insert(draw.randrange(len(parts) + 1), draw.choice(PIECES))
            text = "".join(parts) + "\n"
            self.write("p", text)
            found = self.ran("check", "p", "--hostname", "xh1.org")
            plain = self.ran("check", "p")
            with self.subTest(text=text):
                if "unsupported %h" not in plain[2]:
                    self.assertEqual(found, plain)
                elif "unsupported %h" not in found[2]:
                    read += 1
                    self.write("p", re.sub(r"(\\.)|%h", lambda found: found[1] or "xh1", text))
                    self.assertEqual(found[:2], self.ran("check", "p")[:2])
        self.assertGreater(read, LINES // 10)

    def test_names_that_are_none(self) -> None:
        self.write("p", "@include q.%h\n")
        for name in BAD_NAMES:
            with self.subTest(name):
                status, out, err = self.ran("check", "p", f"--hostname={name}")
                self.assertEqual((status, out), (2, ""))
                self.assertIn("error: ", err)
        self.write(f"q.{'x' * 200}", "")
        for name in ("x" * 200, f"{'x' * 200}.{'y' * 54}"):
            self.assertEqual(self.ran("check", "p", "--hostname", name), (0, "ok\n", ""))
        self.assertEqual(self.ran("check", "p", "--hostname", f"{'x' * 200}.{'y' * 55}")[0], 2)

    @unittest.skipUnless(is_set(), "no namespace with a host's name, or no visudo")
    def test_visudo_opens_the_same_files(self) -> None:
        for number, name in enumerate(NAMES * 6):
            draw = random.Random(f"visudo.{number}")
            short, directive, path = name.partition(".")[0], draw.choice(DIRECTIVES[:2]), draw.choice(PATHS)
            quoted = f'"{self.folder}/{path}"' if draw.random() < 0.3 else f"{self.folder}/{path}"
            self.write("p", f"{directive} {quoted}\n")
            named = self.write(path.replace("%h", short), "bob ALL = ALL\n")
            with self.subTest(line=self.read("p"), name=name):
                words = ["unshare", "-Uru", "sh", "-c", ON_HOST, "sh", name]
                done = subprocess.run(words, cwd=self.folder, capture_output=True, text=True, check=False)
                self.assertIn(f"{named}: parsed OK", done.stdout)
                self.write("hosts", f"host,interfaces\n{short},\n")
                status, out, _ = self.ran("grants", "p", "--users", "users", "--hosts", "hosts", "--hostname", name)
                self.assertEqual((status, out.splitlines()[1].partition(",")[0]), (0, f"{named}:1"))
            os.remove(named)


if __name__ == "__main__":
    unittest.main()
