"""Each input of each command is replaced by something hostile: the command ends soon, and touches nothing outside.

A file outside has a secret, which no output shows, and another one must stay as it was.
"""

import json
import os
import shutil
import signal
import stat
import subprocess
import tarfile
import threading
import unittest
from collections.abc import Callable, Iterator, Sequence
from concurrent.futures import ThreadPoolExecutor
from typing import NamedTuple

from support import PROGRAM, TOOLS, Case, needs_jinja, needs_program, needs_review

# The most seconds of a processor, and the most of a clock, since other tests run beside this one.
SECONDS = 10
DEADLINE = 90
SIDE_BY_SIDE = 4
SECRET = "canary-4711"
VICTIM = "victim as it was\n"
LONG = 100 << 20
SPARSE = 100 << 30
OTHER_USER = 65534
LOG = "Nov 20 10:01:02 web1 sudo[1]: jen : TTY=pts/0 ; PWD=/ ; USER=root ; COMMAND=/usr/bin/id\n"
USERS = "user,uid,groups\njen,1000,jen:1000\nroot,0,root:0\n"
HOSTS = "host,interfaces\nweb1,10.0.0.1/8\n"
REQUESTS = "number,user,host,runas_user,runas_group,command,arguments\n1,jen,web1,,,/usr/bin/id,\nclose,1,,,,,\n"
REPORT = "sender,number,verdict,line,tags\nweb1,1,allow,policy:2,\n"
SENDERS = "sender,name,requests,file,key\nweb1,web1,1,requests/web1.csv,keys/web1.csv\n"
POLICY = "root ALL = ALL\njen ALL = /usr/bin/id\n"
CONTROLS = [chr(code) for code in (*range(1, 32), 127, *range(0x80, 0xA0))]

FILES = {
    "policy": POLICY,
    "new": POLICY,
    "users.csv": USERS,
    "hosts.csv": HOSTS,
    "new-users.csv": USERS,
    "new-hosts.csv": HOSTS,
    "map.csv": "from,to\nweb,web1\n",
    "programs.csv": "kind,command,arguments\nshell,/usr/bin/bash,\n",
    "web1.csv": REQUESTS,
    "report.csv": REPORT,
    "auth.log": LOG,
    "hosts/web1/passwd": "root:x:0:0::/:/bin/sh\njen:x:1000:1000::/:/bin/sh\n",
    "hosts/web1/group": "root:x:0:\njen:x:1000:\n",
    "hosts/web1/hostname": "web1\n",
    "hosts/web1/addr.json": "[]",
    "hosts/web1/policy": "/etc/sudoers\n",
    "hosts/web1/tree/etc/sudoers": POLICY + "@includedir /etc/sudoers.d\n",
    "hosts/web1/tree/etc/sudoers.d/10-more": "root ALL = /usr/bin/id\n",
    "hosts/web1/logs/auth.log": LOG,
    "hosts/web1/missing": "",
    "hosts/web2/passwd": "root:x:0:0::/:/bin/sh\n",
    "hosts/web2/group": "root:x:0:\n",
    "hosts/web2/addr.json": "[]",
    "old/etc/sudoers": POLICY + "@include more\n",
    "old/etc/more": "root ALL = /usr/bin/id\n",
    "fleet/users.csv": USERS,
    "fleet/hosts.csv": HOSTS + "web2,10.0.0.2/8\n",
    "fleet/policy": "/etc/sudoers\n",
    "fleet/tree/etc/sudoers": POLICY,
    "fleet/web1/policy": "/etc/sudoers\n",
    "fleet/web1/tree/etc/sudoers": POLICY,
    "fleet/web1/users.csv": USERS,
    "fleet/web1/hosts.csv": HOSTS,
    "fleet/web1/missing": "",
    "fleet/web1/requests/web1.csv": REQUESTS,
    "fleet/web2/requests/web2.csv": REQUESTS,
    "asked/senders.csv": SENDERS,
    "asked/requests/web1.csv": REQUESTS,
    "asked/keys/web1.csv": "number,log,line,time,outcome,reason,note\n1,auth.log,1,2026-11-20T10:01:02,accepted,,\n",
    "asked/report.csv": REPORT,
    "reviewed/cautions.csv": "place,class,text,line\npolicy:2,case,a name,jen\n",
    "reviewed/grants.csv": "place,users,hosts,runas,sign,command,tags,depends\npolicy:2,jen,ALL,,,/usr/bin/id,,\n",
    "reviewed/roots.csv": "user,host,target,level,password,place,tags,via,depends\njen,web1,root,listed,own,policy:2,,,\n",
    "reviewed/subjects.csv": "place,kind,name,what\npolicy:2,user,gus,unknown\n",
    "probed/senders.csv": SENDERS,
    "probed/requests/web1.csv": REQUESTS,
    "probed/keys/web1.csv": "number,kind\n1,shell\n",
    "probed/report.csv": REPORT,
    "changes.csv": "change,sender,number,user,host,runas_user,runas_group,command,arguments,old_verdict,new_verdict,"
    "old_tags,new_tags,old_place,new_place\n",
    "lint/sudoers": POLICY + "@includedir sudoers.d\n",
    "lint/sudoers.d/10-more": "root ALL = /usr/bin/id\n",
}


class Command(NamedTuple):
    """A command line, the inputs that it names, and those that it finds below a folder of copied files.

    Another command line comes before it, or behind it to show what it did. What the files of the host `web2` become has
    a text, whatever those of `web1` are.
    """

    words: Sequence[str]
    named: Sequence[str] = ()
    found: Sequence[str] = ()
    then: Sequence[str] = ()
    first: Sequence[str] = ()
    web2: tuple[str, str] = ("", "")


DIRECTORY = ("--users", "users.csv", "--hosts", "hosts.csv")
NEW_DIRECTORY = ("--new-users", "new-users.csv", "--new-hosts", "new-hosts.csv")
COLLECTED = ("passwd", "group", "hostname", "addr.json")
TREE = ("policy", "tree", "tree/etc", "tree/etc/sudoers", "tree/etc/sudoers.d/10-more", "logs", "logs/auth.log")
OF_HOST = ["hosts/web1", *(f"hosts/web1/{name}" for name in COLLECTED)]
REPLAY = ["replay", "--policy", "policy", "--directory", ".", "--programs", "programs.csv", "--out", "out", "auth.log"]
PAGE = ["page", "--review", "reviewed", *DIRECTORY, "--out", "page.html"]
JOIN = ["fleet", "fleet", "--out", "out", "--join"]
PART = ["fleet", "fleet", "--out", "out", "--part", "1/1"]
COMMANDS = {
    "directory": Command(["directory", "out", "--from", "hosts"], found=OF_HOST),
    "directory of each host": Command(
        ["directory", "out", "--from", "hosts", "--each"], found=OF_HOST, web2=("out/web2/users.csv", "root,0,root:0\n")
    ),
    "requests": Command(
        ["requests", "auth.log", "--out", "out", "--host-map", "map.csv", "--users", "users.csv", "--hosts", "hosts.csv"],
        named=["auth.log", "map.csv", "users.csv", "hosts.csv"],
    ),
    "probe": Command(
        ["probe", *DIRECTORY, "--programs", "programs.csv", "--out", "out"],
        named=["users.csv", "hosts.csv", "programs.csv"],
    ),
    "compare": Command(
        ["compare", "policy", "new", *DIRECTORY, *NEW_DIRECTORY, "web1=web1.csv", "--out", "out.csv"],
        named=["policy", "new", "users.csv", "hosts.csv", "new-users.csv", "new-hosts.csv", "web1.csv"],
    ),
    "compare of a folder": Command(
        ["compare", "policy", "new", *DIRECTORY, "--requests", "asked", "--out", "out.csv"],
        named=["asked", "asked/senders.csv", "asked/requests/web1.csv"],
    ),
    "compare of reports": Command(
        ["compare", "--reports", "report.csv", "asked/report.csv", "web1=web1.csv", "--out", "out.csv"],
        named=["report.csv", "asked/report.csv", "web1.csv"],
    ),
    "page": Command(
        ["page", "--policy", "policy", "--requests", "asked", "--changes", "changes.csv", "--out", "page.html"],
        named=["policy", "changes.csv", *(f"asked/{name}" for name in ("senders.csv", "report.csv", "keys/web1.csv"))],
    ),
    "page of probes": Command(
        [*PAGE, "--policy", "policy", "--old-policy", "new", "--probe", "probed"],
        named=["policy", "new", *(f"probed/{name}" for name in ("senders.csv", "report.csv", "keys/web1.csv"))],
    ),
    "page of a review": Command(
        PAGE, named=["users.csv", "hosts.csv", *(f"reviewed/{name}.csv" for name in ("cautions", "grants", "roots", "subjects"))]
    ),
    "replay": Command(
        [*REPLAY, "--old-policy", "new", "--host-map", "map.csv", "--users", "new-users.csv"],
        named=["policy", "new", "users.csv", "hosts.csv", "programs.csv", "auth.log", "map.csv", "new-users.csv"],
    ),
    "replay of a host": Command(
        ["replay", "--collected", "hosts/web1", "--programs", "programs.csv", "--out", "out"],
        found=[f"hosts/web1/{name}" for name in (*COLLECTED, *TREE)],
    ),
    "replay of trees": Command(
        ["replay", "--tree", "hosts/web1/tree", "--old-tree", "old", "--directory", ".", "--no-probe", "--out", "out"],
        named=["hosts/web1/tree", "old"],
        found=["hosts/web1/tree/etc", "hosts/web1/tree/etc/sudoers", "old/etc", "old/etc/sudoers", "old/etc/more"],
    ),
    "replay that continues": Command(
        [*REPLAY, "--old-policy", "new"],
        found=[f"out/{name}" for name in (".steps.json", "requests/senders.csv", "requests/report.csv", "probe/report.csv")]
        + ["out/review/roots.csv", "out/requests/rules.csv"],
        first=[*REPLAY, "--old-policy", "new"],
    ),
    "fleet": Command(
        PART,
        found=[f"fleet/{name}" for name in ("users.csv", "hosts.csv", "policy", "tree", "tree/etc/sudoers", "web1")]
        + [f"fleet/web1/{name}" for name in ("policy", "tree", "tree/etc/sudoers", "users.csv", "hosts.csv")]
        + [f"fleet/web1/{name}" for name in ("requests", "requests/web1.csv")],
        then=JOIN,
        web2=("out/status.csv", "web2,1,done,1,\n"),
    ),
    "fleet of roots": Command(
        ["fleet", "fleet", "--out", "out", "--roots"],
        found=[f"fleet/{name}" for name in ("users.csv", "hosts.csv", "policy", "tree", "tree/etc/sudoers", "web1")]
        + [f"fleet/web1/{name}" for name in ("policy", "tree", "tree/etc/sudoers", "users.csv", "hosts.csv")],
        web2=("out/reviewed.csv", "web2,done,2,"),
    ),
    "fleet that is joined": Command(JOIN, found=["out/shards/web1.1.shard"], first=PART),
    "gather": Command(
        ["gather", "--tar", "web1.tar", "web2.tar", "--out", "out"],
        named=["web1.tar"],
        web2=("out/web2/passwd", FILES["hosts/web2/passwd"]),
    ),
    "lint": Command(["lint", "lint/sudoers"], named=["lint/sudoers"], found=["lint/sudoers.d/10-more"]),
    "lint of a folder": Command(["lint", "lint", "lint/sudoers.d"], found=["lint/sudoers", "lint/sudoers.d/10-more"]),
}


def secret_link(case: "Sweep", path: str) -> None:
    """Puts a link to the file with the secret in the place of a file."""
    os.symlink(case.path("secret"), path)


def other_users_link(case: "Sweep", path: str) -> None:
    """Puts a link to a file of another user in the place of a file."""
    os.symlink(case.path("of-another"), path)


def link_to_root(case: "Sweep", path: str) -> None:
    """Puts a link to the root folder in the place of a file."""
    os.symlink("/", path)


def link_to_zero(case: "Sweep", path: str) -> None:
    """Puts a link to a device that never ends in the place of a file."""
    os.symlink("/dev/zero", path)


def fifo(case: "Sweep", path: str) -> None:
    """Puts a FIFO in the place of a file."""
    os.mkfifo(path)


def device(case: "Sweep", path: str) -> None:
    """Puts a device that never ends in the place of a file, by a link where only root can make one."""
    if os.geteuid() == 0:
        os.mknod(path, stat.S_IFCHR | 0o666, os.makedev(1, 5))
    else:
        os.symlink("/dev/zero", path)


def sparse(case: "Sweep", path: str) -> None:
    """Puts a file of 100 GB, none of which is stored, in the place of a file."""
    with open(path, "wb") as file:
        file.truncate(SPARSE)


def folder(case: "Sweep", path: str) -> None:
    """Puts a folder in the place of a file."""
    os.mkdir(path)


def long_line(case: "Sweep", path: str) -> None:
    """Puts 100 MB without a newline in the place of a file."""
    os.link(case.path("long"), path)


# This shows the file that it is asked for, and a link is the user's own.
SHOWN = (("page", "policy"), ("page of probes", "policy"), ("replay of trees", "hosts/web1/tree"))
LINKS = (secret_link, other_users_link, link_to_root, link_to_zero)
OTHERS = (fifo, device, sparse, folder, long_line)


class Ended(NamedTuple):
    """How a command ended: its status, what it said, and after how many seconds of a processor."""

    status: int
    said: str
    seconds: float


@needs_program
@needs_review
@needs_jinja
class Sweep(Case):
    def setUp(self) -> None:
        super().setUp()
        for name, text in FILES.items():
            self.write(f"good/{name}", text)
        for host in ("web1", "web2"):
            with tarfile.open(self.path("good", f"{host}.tar"), "w") as file:
                file.add(self.path("good", "hosts", host), host)
        self.write("secret", SECRET + "\n")
        self.write("of-another", SECRET + "\n")
        self.write("victim", VICTIM)
        if os.geteuid() == 0:
            os.chown(self.path("of-another"), OTHER_USER, OTHER_USER)
            os.chmod(self.path("of-another"), 0o600)
        with open(self.path("long"), "wb") as file:
            for _ in range(100):
                file.write(b"a" * (LONG // 100))

    def copy_of_good(self, name: str) -> str:
        """Makes a folder with all inputs as they should be, and returns its path."""
        place = self.path(name)
        shutil.copytree(self.path("good"), place)
        return place

    def run_in(self, place: str, words: Sequence[str]) -> Ended:
        """Runs a command in a folder for as long as it may take."""
        running = subprocess.Popen(
            [os.path.join(TOOLS, words[0]), *words[1:]],
            cwd=place,
            stdin=subprocess.DEVNULL,
            stdout=subprocess.PIPE,
            stderr=subprocess.STDOUT,
            env={**os.environ, "SUDO_AUDIT": os.path.abspath(PROGRAM or "")},
            start_new_session=True,
        )
        watch = threading.Timer(DEADLINE, os.killpg, (running.pid, signal.SIGKILL))
        watch.start()
        assert running.stdout is not None
        with running.stdout as output:
            said = os.fsdecode(output.read())
        _, status, used = os.wait4(running.pid, 0)
        watch.cancel()
        running.returncode = os.waitstatus_to_exitcode(status)
        return Ended(running.returncode, said, used.ru_utime + used.ru_stime)

    def tried(self, place: str, command: Command) -> Ended:
        """Runs a command, and the one that shows what it did, in a folder."""
        first = self.run_in(place, command.words)
        if not command.then or first.status > 1:
            return first
        second = self.run_in(place, command.then)
        return Ended(second.status, first.said + second.said, first.seconds + second.seconds)

    def fault_of(self, name: str, command: Command, path: str, hostile: Callable[["Sweep", str], None]) -> str:
        """Returns what is wrong with the end of a command one of whose inputs is replaced, or nothing."""
        place = self.copy_of_good(f"{name}-{path}-{hostile.__name__}".replace("/", "_"))
        if command.first:
            self.assertEqual(self.run_in(place, command.first).status, 0)
        target = os.path.join(place, path)
        if os.path.isdir(target):
            if hostile is folder:
                return ""
            shutil.rmtree(target)
        else:
            os.unlink(target)
        hostile(self, target)
        ended = self.tried(place, command)
        faults = [*faults_of(ended), *self.leaks(place, target, ended)]
        # Where status 1 is no refusal, a table may have it.
        taken = (0,) if "lint" in name else (0, 1)
        told = status_of(place) + ended.said.replace(" 0 refused", "")
        if is_refused(hostile, path, command) and ended.status in taken and "refused" not in told:
            faults.append(f"status {ended.status}")
        if "web1" in path and ended.status < 2 and command.web2[1] not in text_of(place, command.web2[0]):
            faults.append("another host is stopped")
        if ended.status > 1 and not any(os.path.splitext(part)[0] in ended.said for part in path.split("/")):
            faults.append("the path is not named")
        shutil.rmtree(place)
        return f"{name}: {path}: {hostile.__name__}: {'; '.join(faults)}: {ended.said[-300:]}" if faults else ""

    def leaks(self, place: str, target: str, ended: Ended) -> Iterator[str]:
        """Yields where the secret is shown, or something outside has changed."""
        if SECRET in ended.said:
            yield "the secret is printed"
        for path in paths_below(place):
            if stat.S_ISREG(os.lstat(path).st_mode) and os.path.getsize(path) < LONG and path != target:
                with open(path, "rb") as file:
                    if SECRET.encode() in file.read():
                        yield f"the secret is in {path}"
        if self.read("victim") != VICTIM or self.read("secret") != SECRET + "\n":
            yield "something outside has changed"

    def test_inputs_as_they_should_be(self) -> None:
        for name, command in COMMANDS.items():
            with self.subTest(name):
                place = self.copy_of_good(name)
                before = set(paths_below(place))
                if command.first:
                    self.assertEqual(self.run_in(place, command.first).status, 0)
                ended = self.tried(place, command)
                self.assertEqual((ended.status, faults_of(ended)), (0, []), ended.said)
                self.assertIn(command.web2[1], text_of(place, command.web2[0]))
                made = set(paths_below(place)) - before
                self.assertEqual([path for path in made if os.stat(path).st_mode & 0o077], [])
                self.assertEqual(bool(made), "lint" not in name)

    def test_inputs_that_are_hostile(self) -> None:
        cases = [
            (name, command, path, hostile)
            for name, command in COMMANDS.items()
            for path in (*command.named, *command.found)
            for hostile in (*LINKS, *OTHERS)
            if not (hostile in LINKS and (name, path) in SHOWN)
        ]
        with ThreadPoolExecutor(SIDE_BY_SIDE) as pool:
            faults = list(filter(None, pool.map(lambda case: self.fault_of(*case), cases)))
        self.assertEqual(faults, [])
        self.assertGreater(len(cases), 700)

    def test_outputs_that_are_links(self) -> None:
        for name, path in (
            ("directory", "out/users.csv"),
            ("requests", "out/lists.csv"),
            ("requests", "out/requests"),
            ("probe", "out/senders.csv"),
            ("compare", "out.csv"),
            ("page", "page.html"),
            ("replay", "out/page.html"),
            ("fleet", "out/report.csv"),
            ("fleet", "out/shards/web1.1.shard"),
            ("gather", "out/web1"),
            ("gather", "out/status.csv"),
            ("directory", "out/.lock"),
        ):
            place = self.copy_of_good(f"{name}-{path}".replace("/", "_"))
            os.makedirs(os.path.dirname(os.path.join(place, path)), exist_ok=True)
            os.symlink(self.path("victim"), os.path.join(place, path))
            with self.subTest(name, path=path):
                ended = self.tried(place, COMMANDS[name])
                self.assertEqual(faults_of(ended), [], ended.said)
                self.assertEqual(self.read("victim"), VICTIM)

    @unittest.skipUnless(os.geteuid() == 0, "root alone can make a folder of another user")
    def test_outputs_in_a_folder_of_another_user(self) -> None:
        for name, command in COMMANDS.items():
            if "lint" in name or command.first:
                continue
            place = self.copy_of_good(name)
            words = [word.replace("out", "theirs/out") if word == "out" else word for word in command.words]
            words = [f"theirs/{word}" if word in ("out.csv", "page.html") else word for word in words]
            links = [os.path.join(place, "theirs", link) for link in ("out/users.csv", "out/page.html", "page.html", "out.csv")]
            os.makedirs(os.path.join(place, "theirs", "out"))
            for link in links:
                os.symlink(self.path("victim"), link)
            for below in ("theirs/out", "theirs"):
                os.chown(os.path.join(place, below), OTHER_USER, OTHER_USER)
            before = set(paths_below(place))
            with self.subTest(name):
                ended = self.run_in(place, words)
                self.assertEqual((ended.status, faults_of(ended)), (2, []), ended.said)
                self.assertIn("/theirs is of the user nobody, who could change what is written there", ended.said)
                self.assertEqual((self.read("victim"), set(paths_below(place)) - before), (VICTIM, set()))

    def test_text_with_control_characters(self) -> None:
        names = [f"a{code}b" for code in CONTROLS]
        events = [{"submituser": name, "submithost": name, "command": "/bin/id", "runargv": ["id", name]} for name in names]
        users = "".join(f'"{name}",{number},g{number}:{number}\n' for number, name in enumerate(names, 2000))
        for name in ("requests", "probe", "replay", "compare of a folder"):
            place = self.copy_of_good(name)
            for file, text in (
                ("auth.log", "".join(json.dumps({"accept": event}) + "\n" for event in events)),
                ("users.csv", USERS + users),
                ("asked/requests/web1.csv", REQUESTS.replace("1,jen,web1,,,/usr/bin/id,", f'1,jen,"{"".join(names)}",,,/x,')),
            ):
                with open(os.path.join(place, file), "w", encoding="utf-8", newline="") as out:
                    out.write(text)
            with self.subTest(name):
                ended = self.run_in(place, COMMANDS[name].words)
                self.assertEqual((ended.status, faults_of(ended)), (0, []), ended.said)
                self.assertTrue(ended.said.replace("\n", "").isprintable(), ended.said)
                for path in paths_below(os.path.join(place, "out")):
                    if path.endswith((".csv", ".html")) and not is_read_by_an_audit(path):
                        with open(path, encoding="utf-8", newline="") as made:
                            shown = made.read()
                        self.assertEqual([code for code in CONTROLS if code != "\n" and code in shown], [], path)

    def test_names_with_control_characters(self) -> None:
        text = FILES["hosts/web1/tree/etc/sudoers.d/10-more"]
        cases: list[tuple[str, Command, list[str]]] = [
            ("directory", COMMANDS["directory"], [f"hosts/w{code}b/passwd" for code in CONTROLS]),
            ("each", COMMANDS["directory of each host"], [f"hosts/w{code}b/passwd" for code in CONTROLS]),
            ("lint", COMMANDS["lint of a folder"], [f"lint/sudoers.d/a{code}b" for code in CONTROLS]),
            ("probe", Command(["probe", *DIRECTORY, "--out", "a\x1bb", "--programs", "\x1b"]), ["\x1b"]),
            ("compare", Command(["compare", "a\x1bb", "a\x1bb", *DIRECTORY, "--requests", "\x1b"]), ["a\x1bb", "\x1b/x"]),
            ("page", Command(["page", "--policy", "a\x1bb", "--requests", "\x1b", "--out", "\x1b.html"]), ["a\x1bb"]),
            ("gather", Command(["gather", "--out", "out", "--tar", *(f"a{code}b" for code in CONTROLS)]), []),
            ("replay", COMMANDS["replay of a host"], [f"hosts/web1/logs/a{code}b" for code in CONTROLS]),
            ("tree", COMMANDS["replay of a host"], [f"hosts/web1/tree/etc/sudoers.d/a{code}b" for code in CONTROLS]),
            ("fleet", COMMANDS["fleet"], [f"fleet/w{code}b/requests/a.csv" for code in CONTROLS]),
            ("requests", Command(["requests", "--out", "out", *(f"a{code}b" for code in CONTROLS)]), []),
        ]
        for name, command, names in cases:
            place = self.copy_of_good(name)
            for path in names or [word for word in command.words if word[:1] == "a" and word[-1:] == "b"]:
                os.makedirs(os.path.dirname(os.path.join(place, path)), exist_ok=True)
                with open(os.path.join(place, path), "w", encoding="utf-8") as file:
                    file.write(text if "sudoers.d" in path else LOG)
            with self.subTest(name):
                ended = self.tried(place, command)
                self.assertEqual(faults_of(ended), [], ended.said)
                self.assertEqual([code for code in CONTROLS if code != "\n" and code in ended.said], [])


def is_read_by_an_audit(path: str) -> bool:
    """Returns whether a file is a requests file of a folder of requests, and so has exact bytes."""
    folder, kind = os.path.split(os.path.dirname(path))
    return kind == "requests" and os.path.exists(os.path.join(folder, "senders.csv"))


def paths_below(place: str) -> Iterator[str]:
    """Yields the paths of the files and folders below a folder."""
    for above, folders, files in os.walk(place):
        yield from (os.path.join(above, name) for name in folders + files)


def faults_of(ended: Ended) -> list[str]:
    """Returns what is wrong with an end whatever was asked."""
    found = [f"took {ended.seconds:.1f} s"] if ended.seconds > SECONDS else []
    found += ["a traceback"] if "Traceback" in ended.said else []
    return found + ([] if 0 <= ended.status <= 5 else [f"status {ended.status}"])


def is_refused(hostile: Callable[["Sweep", str], None], path: str, command: Command) -> bool:
    """Returns whether an input is refused: below a folder of copied files each, and otherwise what is no plain file.

    A plain file is refused where it has to have another form. What is no folder is no host of a fleet, and a plain file
    beside folders of hosts is none. sudo, too, passes over a folder in a folder of policies, and lint over what is no
    plain file there.
    """
    if hostile is long_line:
        return path.endswith(("users.csv", "hosts.csv", "senders.csv", "report.csv", "passwd"))
    if hostile is not link_to_root and path == "fleet/web1" or hostile is folder and "sudoers.d" in path:
        return False
    if command.words[0] == "lint" and path in command.found:
        return hostile in (secret_link, other_users_link, sparse)
    if hostile is sparse and path == "hosts/web1":
        return False
    return path in command.found or hostile in (fifo, device, sparse, link_to_zero)


def status_of(place: str) -> str:
    """Returns the table of what came of each host, where there is one."""
    return text_of(place, "out/status.csv")


def text_of(place: str, name: str) -> str:
    """Returns the text of a file in a folder, empty if it is none."""
    path = os.path.join(place, name)
    if not os.path.isfile(path):
        return ""
    with open(path, encoding="utf-8") as file:
        return file.read()


if __name__ == "__main__":
    unittest.main()
