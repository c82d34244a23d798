"""The peer: sudo's own testsudoers and visudo, built from Debian's source package of sudo.

Two changes are made before the build: the addresses of interfaces come from the environment in place of the machine,
and each command that is tried is printed with its place and tags. What reads and matches policies stays as it is.
"""

import glob
import os
import subprocess
import tempfile
from typing import NamedTuple

from kulavemia.command import FAILED, Fault

TESTSUDOERS, VISUDO = "testsudoers", "visudo"
INTERFACES = "DIFFERENTIAL_INTERFACES"
RELEASE = "/etc/os-release"
SOURCES = (
    "deb-src http://deb.debian.org/debian {0} main\ndeb-src http://deb.debian.org/debian-security {0}-security main\n"
)
CONFIGURE = (
    "--quiet --disable-shared --disable-nls --disable-openssl --disable-zlib --disable-hardening --disable-pie"
    " --enable-static-sudoers --disable-shared-libutil --without-pam --with-fqdn --with-env-editor"
).split()
ADDRESSES = f"""#include <config.h>
#include <stdlib.h>
#include <string.h>

int get_net_ifs(char **addresses);

int
get_net_ifs(char **addresses)
{{
    const char *given = getenv("{INTERFACES}");
    *addresses = given != NULL && *given != '\\0' ? strdup(given) : NULL;
    return *addresses != NULL;
}}
"""
TRIED = 'match == DENY ? "denied" : "unmatched");\n'
PRINTED = """\t\t\tprintf("\\tgrant %s:%d %d %d %d %d %d %d %d %d\\n", us->file, us->line,
\t\t\t    cs->tags.noexec, cs->tags.follow, cs->tags.intercept, cs->tags.log_input,
\t\t\t    cs->tags.log_output, cs->tags.send_mail, cs->tags.nopasswd, cs->tags.setenv);
"""


class Peer(NamedTuple):
    """The paths of the two programs."""

    testsudoers: str
    visudo: str


def cache() -> str:
    """Returns the folder of the peer that was built before."""
    return os.path.join(os.environ.get("XDG_CACHE_HOME") or os.path.expanduser("~/.cache"), "kulavemia", "sudo-peer")


def standing(folder: str) -> Peer | None:
    """Returns the peer of a folder, `None` if it is not there."""
    found = Peer(os.path.join(folder, TESTSUDOERS), os.path.join(folder, VISUDO))
    return found if all(os.access(path, os.X_OK) for path in found) else None


def built(folder: str) -> Peer:
    """Builds the peer into a folder. Raises `Fault` if a step fails."""
    parent = os.path.dirname(os.path.abspath(folder))
    os.makedirs(parent, exist_ok=True)
    with tempfile.TemporaryDirectory(dir=parent) as work:
        source = _source(work)
        _change(source)
        _step([os.path.join(source, "configure"), *CONFIGURE], source)
        jobs = f"-j{os.cpu_count() or 1}"
        _step(["make", "-s", jobs, "-C", "lib/util"], source)
        _step(["make", "-s", jobs, "-C", "plugins/sudoers", TESTSUDOERS, VISUDO], source)
        os.makedirs(folder, exist_ok=True)
        for name in (TESTSUDOERS, VISUDO):
            os.replace(os.path.join(source, "plugins", "sudoers", name), os.path.join(folder, name))
    peer = standing(folder)
    if peer is None:
        raise Fault(f"{folder}: the build of sudo left no {TESTSUDOERS} and {VISUDO}", FAILED)
    return peer


def _source(work: str) -> str:
    """Returns the folder of sudo's source, from the package archive by a configuration of apt for this call alone."""
    sources = os.path.join(work, "sources.list")
    os.makedirs(os.path.join(work, "lists", "partial"))
    with open(sources, "w", encoding="utf-8") as file:
        file.write(SOURCES.format(_codename()))
    options = ["-qq", "-o", f"Dir::Etc::sourcelist={sources}", "-o", "Dir::Etc::sourceparts=-"]
    options += ["-o", f"Dir::State::lists={work}/lists", "-o", f"Dir::Cache={work}/cache"]
    options += ["-o", "APT::Sandbox::User="]
    _step(["apt-get", *options, "update"], work)
    _step(["apt-get", *options, "source", "--download-only", "sudo"], work)
    found = glob.glob(os.path.join(glob.escape(work), "*.dsc"))
    if len(found) != 1:
        raise Fault("apt-get source sudo: no source package", FAILED)
    _step(["dpkg-source", "--no-check", "-x", found[0], "sudo"], work)
    return os.path.join(work, "sudo")


def _codename() -> str:
    """Returns the name of Debian's release. Raises `Fault` if this is another system."""
    try:
        with open(RELEASE, encoding="utf-8") as file:
            said = dict(line.rstrip("\n").partition("=")[::2] for line in file)
    except FileNotFoundError:
        said = {}
    if said.get("ID", "").strip('"') != "debian" or "VERSION_CODENAME" not in said:
        raise Fault("the peer is built on Debian alone; name a folder that has it by --peer", FAILED)
    return said["VERSION_CODENAME"].strip('"')


def _change(source: str) -> None:
    """Makes the source take addresses from the environment and print places. Raises `Fault` if its form is another."""
    with open(os.path.join(source, "src", "net_ifs.c"), "w", encoding="utf-8") as file:
        file.write(ADDRESSES)
    path = os.path.join(source, "plugins", "sudoers", "testsudoers.c")
    with open(path, encoding="utf-8") as file:
        text = file.read()
    if text.count(TRIED) != 1:
        raise Fault("testsudoers.c: this version of sudo has another form", FAILED)
    with open(path, "w", encoding="utf-8") as file:
        file.write(text.replace(TRIED, TRIED + PRINTED))


def _step(words: list[str], folder: str) -> None:
    """Runs a step of the build. Raises `Fault` with the last line that it wrote if it fails."""
    try:
        done = subprocess.run(
            words, cwd=folder, stdin=subprocess.DEVNULL, stdout=subprocess.PIPE, stderr=subprocess.STDOUT, check=False
        )
    except FileNotFoundError:
        raise Fault(f"{words[0]} is not installed; the peer needs it", FAILED) from None
    if done.returncode != 0:
        said = os.fsdecode(done.stdout).strip().split("\n")[-1]
        raise Fault(f"{os.path.basename(words[0])} failed: {said}", FAILED)
