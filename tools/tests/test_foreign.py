"""Opens of files of other machines."""

import gzip
import os
import socket
import time
import unittest
from typing import BinaryIO, cast

from support import Case

from kulavemia import foreign
from kulavemia.command import Fault


class Foreign(Case):
    def refusal(self, path: str, below: str | None, cap: int = 100) -> str:
        """Returns what is said where a file is refused, and wants that at once."""
        start = time.monotonic()
        with self.assertRaises(Fault) as raised:
            foreign.read(path, cap, below)
        self.assertLess(time.monotonic() - start, 30)
        return str(raised.exception).replace(self.folder + "/", "")

    def test_a_plain_file_is_read(self) -> None:
        path = self.write("web1/logs/a", "text\n")
        for below in (None, self.path("web1"), self.path("web1") + "/", self.path("web1", "logs")):
            self.assertEqual(foreign.read(path, 5, below), b"text\n")
        self.assertEqual(foreign.read(os.fsencode(path), 5, os.fsencode(self.path("web1"))), b"text\n")
        with foreign.opened(path, 5) as file:
            self.assertEqual((file.peek(2)[:2], file.seekable(), file.read(2), file.tell()), (b"te", True, b"te", 2))

    def test_a_link_is_followed_where_the_user_names_it_and_nowhere_else(self) -> None:
        secret = self.write("secret", "secret\n")
        self.write("web1/plain", "")
        os.symlink(secret, self.path("web1", "link"))
        os.symlink(self.folder, self.path("web1", "up"))
        os.symlink(self.path("web1"), self.path("named"))
        self.assertEqual(foreign.read(self.path("web1", "link"), 100), b"secret\n")
        below = self.path("web1")
        self.assertEqual(self.refusal(f"{below}/link", below), "web1/link: expected a plain file, found a link")
        self.assertEqual(self.refusal(f"{below}/up/secret", below), "web1/up: expected a folder, found a link")
        self.assertEqual(foreign.read(self.path("named", "plain"), 100, self.path("named")), b"")
        for call in (foreign.kind_of, foreign.entries, foreign.exists):
            with self.assertRaisesRegex(Fault, "up: expected a folder, found a link"):
                call(f"{below}/up/web1", below)

    def test_anything_but_a_plain_file_is_named_and_not_opened(self) -> None:
        os.mkfifo(self.path("fifo"))
        os.mkdir(self.path("folder"))
        with socket.socket(socket.AF_UNIX) as bound:
            bound.bind(self.path("socket"))
        for name, kind in (("fifo", "a FIFO"), ("folder", "a folder"), ("socket", "a socket")):
            for below in (None, self.folder):
                said = f"{name}: expected a plain file, found {kind}"
                self.assertEqual(self.refusal(self.path(name), below), said)
        for device in ("/dev/zero", "/dev/tty"):
            self.assertEqual(self.refusal(device, None), f"{device}: expected a plain file, found a device")
        with self.assertRaisesRegex(Fault, "fifo: expected a folder, found a FIFO"):
            foreign.entries(self.path("fifo"))

    def test_a_path_leads_nowhere_else(self) -> None:
        self.write("web1/a", "")
        self.write("b", "")
        below = self.path("web1")
        for path in (f"{below}/../b", f"{below}//a", f"{below}/./a", self.path("b"), f"{below}1/a", f"{below}/"):
            self.assertIn("not the plain form of a path below web1", self.refusal(path, below))
        self.assertIn("no path has a NUL", self.refusal(f"{below}/\0", below))
        with self.assertRaises(FileNotFoundError) as raised:
            foreign.read(f"{below}/none/a", 1, below)
        self.assertEqual(raised.exception.filename, f"{below}/none")

    def test_a_file_over_its_cap_is_refused_before_it_is_read(self) -> None:
        self.write("five", "12345")
        self.write("sparse", "")
        os.truncate(self.path("sparse"), 100 << 30)
        self.assertEqual(foreign.read(self.path("five"), 5), b"12345")
        self.assertEqual(self.refusal(self.path("five"), None, 4), "five: more than 4 bytes, and no more are read")
        said = f"sparse: more than {foreign.LOG_CAP} bytes, and no more are read"
        self.assertEqual(self.refusal(self.path("sparse"), self.folder, foreign.LOG_CAP), said)
        self.assertIn("sparse: more than", self.refusal(self.path("sparse"), None, foreign.TABLE_CAP))

    def test_a_file_that_grows_is_read_up_to_its_cap(self) -> None:
        with foreign.opened(self.write("log", "1234"), 5) as file:
            self.assertEqual(file.read(), b"1234")
            self.write("log", "123456")
            with self.assertRaisesRegex(Fault, "log: more than 5 bytes"):
                file.read()

    def test_a_line_is_read_up_to_its_cap(self) -> None:
        for text, fits in (("1234\n1234\r1234", True), ("1234\n12345", False), ("12345\n" * 3, True)):
            with foreign.opened(self.write("log", text), 100, line_cap=4) as file:
                if fits:
                    self.assertEqual(file.read(), text.encode())
                    continue
                with self.assertRaisesRegex(Fault, "log: a line of more than 4 bytes"):
                    file.read()

    def test_unpacked_bytes_count(self) -> None:
        packed = gzip.compress(bytes(1 << 20))
        for cap, fits in ((1 << 20, True), ((1 << 20) - 1, False)):
            with foreign.opened(self.write("log.gz", packed), 1 << 20) as raw:
                with foreign.capped(cast(BinaryIO, gzip.open(raw)), "log.gz", cap) as file:
                    if fits:
                        self.assertEqual(len(file.read()), 1 << 20)
                        continue
                    with self.assertRaisesRegex(Fault, f"log.gz: more than {cap} bytes"):
                        file.read()

    def test_what_a_folder_has(self) -> None:
        self.write("web1/b", "12")
        self.write("web1/ä/x", "")
        os.symlink("/", self.path("web1", "a"))
        os.mkfifo(self.path("web1", "\udcff"))
        found = foreign.entries(self.path("web1"))
        self.assertEqual(
            [(entry.name, entry.kind) for entry in found],
            [("a", foreign.LINK), ("b", foreign.FILE), ("ä", foreign.FOLDER), ("\udcff", "a FIFO")],
        )
        self.assertEqual(found[1].size, 2)
        self.assertEqual([entry.name for entry in foreign.entries(self.path("web1", "ä"), self.path("web1"))], ["x"])
        self.assertTrue(foreign.exists(self.path("web1", "a"), self.path("web1")))
        self.assertFalse(foreign.exists(self.path("web1", "c", "d"), self.path("web1")))
        self.assertEqual(foreign.kind_of(self.path("web1", "a")), foreign.FOLDER)
        self.assertEqual(foreign.want_plain(self.path("web1", "b"), 2, self.path("web1")), 2)


if __name__ == "__main__":
    unittest.main()
