"""Writes: who may read them, where they may go, and a disk that is full."""

import os
import resource
import signal
import socket
import stat
import subprocess
import sys
import time
import unittest

from support import TOOLS, Case

from kulavemia import outputs
from kulavemia.command import Fault

needs_root = unittest.skipUnless(os.geteuid() == 0, "root alone can make files of other users")
OTHER = 65534


def mode_of(path: str) -> int:
    """Returns the bits of a file that say who may do what."""
    return stat.S_IMODE(os.stat(path).st_mode)


class Outputs(Case):
    def setUp(self) -> None:
        super().setUp()
        self.addCleanup(os.umask, os.umask(0o077))

    def put(self, name: str, text: bytes = b"new") -> None:
        """Writes a file below the test's folder."""
        with outputs.written(self.path(name)) as file:
            file.write(text)

    def test_who_may_read_what_is_written(self) -> None:
        for mode, file, folder in ((outputs.PRIVATE, 0o600, 0o700), (outputs.SHARED, 0o644, 0o755)):
            outputs.set_mode(mode)
            outputs.folder(self.path(mode, "a", "b"))
            self.put(f"{mode}/a/b/c")
            with outputs.appended(self.path(mode, "d")) as end:
                end.write(b"d")
            self.assertEqual({mode_of(self.path(mode, name)) for name in ("a/b/c", "d")}, {file})
            self.assertEqual({mode_of(self.path(mode, *names)) for names in ((), ("a",), ("a", "b"))}, {folder})

    def test_a_file_is_whole_or_as_it_was(self) -> None:
        self.write("a", "old")
        with self.assertRaises(KeyError), outputs.written(self.path("a")) as file:
            file.write(b"half")
            raise KeyError
        self.assertEqual((self.read("a"), os.listdir(self.folder)), ("old", ["a"]))
        self.put("a")
        self.assertEqual((self.read("a"), os.listdir(self.folder)), ("new", ["a"]))

    def test_a_link_is_replaced_and_not_followed(self) -> None:
        victim = self.write("victim", "victim")
        os.symlink(victim, self.path("a"))
        self.put("a")
        self.assertEqual((self.read("victim"), self.read("a")), ("victim", "new"))
        self.assertFalse(os.path.islink(self.path("a")))
        os.symlink(victim, self.path("b"))
        with self.assertRaises(OSError), outputs.appended(self.path("b")):
            pass
        with outputs.replacing(self.path("b")) as file:
            file.write(b"new")
        self.assertEqual((self.read("victim"), self.read("b")), ("victim", "new"))

    def test_a_folder_that_others_can_write_is_refused_by_name(self) -> None:
        os.makedirs(self.path("open", "inner"))
        os.chmod(self.path("open"), 0o777)
        for path in (self.path("open"), self.path("open", "inner"), self.path("open", "none")):
            with self.assertRaisesRegex(Fault, r"open can be written by other users: take that from them \(chmod"):
                outputs.folder(path)
        with self.assertRaisesRegex(Fault, "open can be written"):
            self.put("open/inner/a")
        os.symlink(self.path("open", "inner"), self.path("link"))
        with self.assertRaisesRegex(Fault, "open can be written"):
            outputs.folder(self.path("link"))
        self.assertEqual(os.listdir(self.path("open")), ["inner"])

    @needs_root
    def test_a_folder_of_another_user_is_refused_by_name(self) -> None:
        os.makedirs(self.path("theirs", "work"))
        os.chown(self.path("theirs"), OTHER, OTHER)
        for path in (self.path("theirs"), self.path("theirs", "work"), self.path("theirs", "none")):
            with self.assertRaisesRegex(Fault, "theirs is of the user nobody, who could change what is written there"):
                outputs.folder(path)
        os.symlink(self.path(), self.path("link"))
        os.chown(self.path("link"), OTHER, OTHER, follow_symlinks=False)
        with self.assertRaisesRegex(Fault, "link is of the user nobody"):
            outputs.folder(self.path("link"))

    @needs_root
    def test_a_folder_like_tmp_is_taken_if_it_is_roots(self) -> None:
        os.mkdir(self.path("tmp"))
        os.chmod(self.path("tmp"), 0o1777)
        self.put("tmp/a")
        outputs.folder(self.path("tmp", "work"))
        with self.assertRaisesRegex(Fault, "tmp can be written by other users: name a folder below it"):
            with outputs.locked(self.path("tmp")):
                pass
        os.mkfifo(self.path("tmp", "fifo"))
        os.chown(self.path("tmp", "fifo"), OTHER, OTHER)
        with self.assertRaisesRegex(Fault, "fifo is of the user nobody"), outputs.replacing(self.path("tmp", "fifo")):
            pass
        os.chown(self.path("tmp"), OTHER, OTHER)
        with self.assertRaisesRegex(Fault, "tmp is of the user nobody"):
            self.put("tmp/b")

    def test_links_that_go_round(self) -> None:
        os.symlink("b", self.path("a"))
        os.symlink("a", self.path("b"))
        with self.assertRaisesRegex(Fault, "more than 40 links on the way"):
            outputs.folder(self.path("a", "c"))

    def test_streams_are_written_as_they_are(self) -> None:
        code = f"import sys; sys.path.insert(0, {TOOLS!r})\nfrom kulavemia import outputs\n"
        code += "with outputs.replacing(sys.argv[1]) as file: file.write(b'new')"
        for path in ("/dev/stdout", "/proc/self/fd/1", "/dev/fd/1"):
            done = subprocess.run([sys.executable, "-c", code, path], stdout=subprocess.PIPE, check=True)
            self.assertEqual(done.stdout, b"new")
            with open(self.path("a"), "wb") as file:
                subprocess.run([sys.executable, "-c", code, path], stdout=file, check=True)
            self.assertEqual(self.read("a"), "new")
        self.assertTrue(os.path.islink("/dev/stdout"))
        with outputs.replacing("/dev/null") as file:
            file.write(b"new")
        self.assertTrue(stat.S_ISCHR(os.stat("/dev/null").st_mode))
        with socket.socket(socket.AF_UNIX) as bound:
            bound.bind(self.path("socket"))
        with self.assertRaisesRegex(Fault, "socket: neither a file nor a stream"):
            with outputs.replacing(self.path("socket")):
                pass

    def test_a_full_disk_names_the_file(self) -> None:
        with self.assertRaises(OSError) as raised, outputs.replacing("/dev/full") as file:
            file.write(b"new")
        self.assertEqual(raised.exception.filename, "/dev/full")
        before = resource.getrlimit(resource.RLIMIT_FSIZE)
        self.addCleanup(signal.signal, signal.SIGXFSZ, signal.signal(signal.SIGXFSZ, signal.SIG_IGN))
        resource.setrlimit(resource.RLIMIT_FSIZE, (10, before[1]))
        try:
            for opened in (outputs.written, outputs.appended):
                with self.assertRaises(OSError) as raised, opened(self.path("a")) as file:
                    file.write(bytes(100))
                self.assertEqual(raised.exception.filename, self.path("a"))
            with self.assertRaises(OSError) as raised, outputs.scratch() as file:
                file.write(bytes(100))
        finally:
            resource.setrlimit(resource.RLIMIT_FSIZE, before)
        self.assertTrue(os.path.isdir(raised.exception.filename))
        self.assertEqual(os.listdir(self.folder), ["a"])

    def test_a_scratch_file_is_read_back(self) -> None:
        with outputs.scratch() as file:
            file.write(b"text")
            file.seek(0)
            self.assertEqual(file.read(), b"text")


class Locks(Case):
    def test_a_second_run_is_told_which_process_works_there(self) -> None:
        with outputs.locked(self.path("out")):
            with self.assertRaisesRegex(Fault, f"out: the process {os.getpid()} works in this folder") as raised:
                with outputs.locked(self.path("out")):
                    pass
            self.assertEqual(raised.exception.status, 4)
            with self.assertRaises(Fault), outputs.locked(self.path("out"), with_others=True):
                pass
        self.assertEqual(os.listdir(self.path("out")), [])

    def test_parts_work_together_and_keep_others_out(self) -> None:
        with outputs.locked(self.path("out"), with_others=True):
            with outputs.locked(self.path("out"), with_others=True):
                pass
            with self.assertRaisesRegex(Fault, "works in this folder"), outputs.locked(self.path("out")):
                pass
        with outputs.locked(self.path("out")):
            pass
        self.assertEqual(os.listdir(self.path("out")), [])

    def test_a_lock_ends_with_its_process(self) -> None:
        code = f"import sys, time; sys.path.insert(0, {TOOLS!r})\nfrom kulavemia import outputs\n"
        code += "with outputs.locked('out'): print('locked', flush=True); time.sleep(60)"
        with subprocess.Popen([sys.executable, "-c", code], cwd=self.folder, stdout=subprocess.PIPE) as running:
            assert running.stdout is not None
            self.assertEqual(running.stdout.readline(), b"locked\n")
            with self.assertRaisesRegex(Fault, f"the process {running.pid} works"), outputs.locked(self.path("out")):
                pass
            running.kill()
        with outputs.locked(self.path("out")):
            pass

    def test_what_is_no_lock_is_refused(self) -> None:
        victim = self.write("victim", "victim")
        os.mkdir(self.path("out"))
        os.link(victim, self.path("out", ".lock"))
        with self.assertRaisesRegex(Fault, "out/.lock is no lock of a run"), outputs.locked(self.path("out")):
            pass
        os.unlink(self.path("out", ".lock"))
        os.symlink(victim, self.path("out", ".lock"))
        with self.assertRaises(OSError), outputs.locked(self.path("out")):
            pass
        os.unlink(self.path("out", ".lock"))
        os.mkfifo(self.path("out", ".lock"))
        start = time.monotonic()
        with self.assertRaisesRegex(Fault, "no lock of a run"), outputs.locked(self.path("out")):
            pass
        self.assertLess(time.monotonic() - start, 30)
        self.assertEqual(self.read("victim"), "victim")


if __name__ == "__main__":
    unittest.main()
