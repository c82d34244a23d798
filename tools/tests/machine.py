"""A machine that is a folder with the files of examples/walkthrough/machine, and the commands that tools/collect runs there."""

import os
import re
import shutil
import subprocess

from support import EXAMPLES, Case

MACHINE = os.path.join(EXAMPLES, "walkthrough", "machine")
COPIED = "sh cat chmod cut find getent grep id mkdir mktemp rm sed sort tar timeout tr".split()
WRITTEN = {"hostname": "echo shop1.example.org", "ip": "cat /addr.json"}


def libraries_of(program: str) -> list[str]:
    """Returns the paths of the libraries that a program is linked with."""
    said = subprocess.run(["ldd", program], stdout=subprocess.PIPE, check=True, text=True).stdout
    return re.findall(r"(/\S+) \(0x", said)


class MachineCase(Case):
    """A test that has such a machine."""

    def copy(self, source: str, target: str) -> None:
        """Copies a file to a path below the test's folder."""
        os.makedirs(os.path.dirname(self.path(target)), exist_ok=True)
        shutil.copy(source, self.path(target))

    def runnable(self, name: str, text: str) -> None:
        """Writes a script of the shell."""
        os.chmod(self.write(name, f"#!/bin/sh\n{text}\n"), 0o755)

    def make_machine(self) -> None:
        """Makes the machine's root folder, and the command `ssh` that reaches it. Skips the test where no chroot can be used."""
        shutil.copytree(MACHINE, self.path("root"))
        for name in COPIED:
            program = os.path.realpath(shutil.which(name) or "")
            self.copy(program, f"root/usr/bin/{name}")
            for library in libraries_of(program):
                self.copy(library, f"root{library}")
        for name, text in WRITTEN.items():
            self.runnable(f"root/usr/bin/{name}", text)
        os.symlink("usr/bin", self.path("root", "bin"))
        for name in ("tmp", "dev"):
            os.mkdir(self.path("root", name))
        command = f'exec env PATH=/usr/bin {shutil.which("chroot")} {self.path("root")} /bin/sh -s'
        self.runnable("bin/ssh", f'[ "$*" = "-- shop1 sudo sh -s --" ] || exit 255\n{command}')
        if not self.can_play():
            self.skipTest("chroot cannot be used here")

    def can_play(self) -> bool:
        """Tells whether a program can be run in the machine's root folder."""
        command = [shutil.which("chroot") or "chroot", self.path("root"), "/usr/bin/id"]
        try:
            done = subprocess.run(command, stdout=subprocess.DEVNULL, stderr=subprocess.DEVNULL, check=False)
        except OSError:
            return False
        return done.returncode == 0
