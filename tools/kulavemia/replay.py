"""From a policy, a directory and logs to a page: each step in a folder of one run."""

import itertools
import os
from collections import Counter
from collections.abc import Callable, Iterator, Mapping, Sequence
from typing import NamedTuple

from kulavemia import compare, differences, directory, evidence, foreign, logs, missing, netgroups, probe, program, record
from kulavemia import review, signing, sorting, unknown, unread
from kulavemia.command import WORDS, Fault, warn
from kulavemia.netgroups import NETGROUPS, Triple
from kulavemia.page import REPORT, Inputs, Page, want_jinja
from kulavemia.page import write as write_page
from kulavemia.policy import files_of, read
from kulavemia.requests import Source, sources_of
from kulavemia.rows import open_write
from kulavemia.shown import Form
from kulavemia.steps import Steps, unlike_any
from kulavemia.sums import File, digest_of, file_of, file_of_text
from kulavemia.tree import Prepared, main_of, of_this_machine, read_tree, write_copies

DIRECTORY = "directory"
REVIEW = "review"
CHANGES = "changes.csv"
DIFFERENCES = "differences.csv"
PAGE = "page.html"
# More probes are made only where the command line says so.
PROBES = 1_000_000
# The files of a collected host that its directory is made of.
COLLECTED = ("passwd", "group", "addr.json", "hostname", "netgroup", "domain")
RECORD = "review.json"
# Options that change where and how fast a page is made, or by whom it is signed, and not what it says.
_NO_INPUTS = ("out", "mode", "workers", "at_most", "program", "review", "sign")

Say = Callable[[str], None]


class Options(NamedTuple):
    """What the command line of a replay asks for."""

    logs: Sequence[str]
    out: str
    mode: str
    collected: str | None
    policy: str | None
    tree: str | None
    this_machine: bool
    old_policy: str | None
    old_tree: str | None
    directory: str | None
    netgroups: str | None
    addresses: str | None
    hostname: str | None
    programs: str
    no_probe: bool
    at_most: int | None
    title: str
    rows: int
    program: str | None
    review: str | None
    sign: str | None
    workers: int
    sorting: sorting.Sorting


class Policy(NamedTuple):
    """A policy of a replay: how it is audited, the texts of its files to be copied, if any, and what its files are like."""

    prepared: Prepared
    copies: Mapping[bytes, bytes]
    files: Sequence[File]


class Directory(NamedTuple):
    """The directory of a replay: its files, that of netgroups where there is one, and what they are made of where nobody made
    them.
    """

    users: str
    hosts: str
    netgroups: str
    people: Sequence[directory.Person] = ()
    machines: Sequence[directory.Machine] = ()
    triples: Sequence[Triple] | None = None


class Given(NamedTuple):
    """The inputs of a replay, all found and named. No link to a log is followed below the folder `below`.

    The name of the policy's host is empty where nobody gave it, and no policy of a collected host has `%h`.
    """

    policy: Policy
    old_policy: Policy | None
    directory: Directory
    hostname: str
    logs: Sequence[str]
    below: str | None


class Described(NamedTuple):
    """What the files of a replay are like; of a directory that is made of collected files, what these are like."""

    directory: Sequence[File]
    programs: File
    logs: Sequence[File]


def want(given: Options) -> None:
    """Raises `Fault` if what every run needs is lacking, before anything is written."""
    if given.rows < 0:
        raise Fault("--rows is not below 0", WORDS)
    if given.directory is None and not given.collected:
        raise Fault("--directory or --collected is wanted", WORDS)
    program.find(given.program)
    program.find(given.review, program.REVIEW)
    want_jinja()
    if given.sign is not None:
        signing.want_keygen()


def prepared(given: Options) -> Given:
    """Returns what the command line names; of other machines' policies and users what is to be written."""
    collected = given.collected
    hostname = given.hostname or ""
    policy, old = _policies(given, hostname)
    if collected and not hostname and any(found.prepared.names_host for found in (policy, old) if found):
        hostname = directory.hostname_of(collected, collected, os.path.basename(os.path.abspath(collected)))
        policy, old = _policies(given, hostname)
    if given.logs or not collected:
        return Given(policy, old, _directory(given), hostname, given.logs, None)
    return Given(policy, old, _directory(given), hostname, _collected_logs(collected), collected)


def _policies(given: Options, hostname: str) -> tuple[Policy, Policy | None]:
    """Returns the policy, and the one before where there is one, as a host of this name reads them."""
    collected = given.collected
    tree = os.path.join(collected, "tree") if collected else given.tree
    main = given.policy or (main_of(collected, collected) if collected else "/etc/sudoers")
    policy = _policy(given, main, tree, "policy", collected, hostname)
    old_main = given.old_policy or (main if given.old_tree else "")
    return policy, _policy(given, old_main, given.old_tree, "old-policy", given.old_tree, hostname) if old_main else None


def _policy(given: Options, main: str, tree: str | None, name: str, below: str | None, hostname: str) -> Policy:
    """Returns a policy of this machine, or that of a tree, which is copied to a folder of this name."""
    if not tree:
        return Policy(of_this_machine(main, given.this_machine, hostname), {}, _own_files(main, hostname))
    root = os.path.abspath(os.path.join(given.out, name))
    found = read_tree(tree, main, os.fsencode(root), below, hostname)
    return Policy(Prepared(main, root, found.names_host), found.files, found.originals)


def _own_files(main: str, hostname: str) -> list[File]:
    """Returns what the files of a policy of this machine are like, none if the program will say what is wrong."""
    try:
        paths = files_of(main, hostname)
        return [file_of_text(path, read(os.fsencode(path)), os.stat(path).st_mtime_ns) for path in paths]
    except (Fault, OSError):
        return []


def _directory(given: Options) -> Directory:
    """Returns the users and hosts files, to be made out of what was collected where none are named."""
    folder = given.directory or os.path.join(given.out, DIRECTORY)
    users, hosts = os.path.join(folder, "users.csv"), os.path.join(folder, "hosts.csv")
    there = os.path.join(folder, NETGROUPS)
    if given.directory:
        return Directory(users, hosts, given.netgroups or (there if foreign.exists(there) else ""))
    assert given.collected is not None
    found = directory.collected(given.collected)
    triples = netgroups.merged((host.folder, host.netgroups) for host in found) if not given.netgroups else None
    path = given.netgroups or (there if triples is not None else "")
    return Directory(users, hosts, path, directory.merged(found), [host.machine for host in found], triples)


def _collected_logs(collected: str) -> list[str]:
    """Returns the logs that were collected. Raises `Fault` if there is anything else among them."""
    folder = os.path.join(collected, "logs")
    if not foreign.exists(folder, collected):
        return []
    paths = [os.path.join(folder, entry.name) for entry in foreign.entries(folder, collected)]
    for path in paths:
        foreign.want_plain(path, foreign.LOG_CAP, collected)
    return paths


def described(given: Options, found: Given) -> Described:
    """Returns what the files of a replay are like."""
    return Described(
        _directory_files(given, found.directory),
        file_of(given.programs, foreign.TABLE_CAP),
        [_log(path, found.below) for path in found.logs],
    )


def _directory_files(given: Options, found: Directory) -> list[File]:
    """Returns what the users and hosts files are like, or the collected files of which they are made, and those of netgroups and
    addresses."""
    named = [found.netgroups] if found.netgroups and found.triples is None else []
    named += [given.addresses] if given.addresses else []
    if given.directory:
        return [file_of(path, foreign.REQUESTS_CAP) for path in (found.users, found.hosts, *named)]
    below = given.collected or ""
    paths = [os.path.join(below, name) for name in COLLECTED]
    copied = [file_of(path, foreign.ACCOUNTS_CAP, below) for path in paths if foreign.exists(path, below)]
    return copied + [file_of(path, foreign.REQUESTS_CAP) for path in named]


def _log(path: str, below: str | None) -> File:
    """Returns what a log is like; one that comes by a descriptor can be read once, and has no sum."""
    return File(path) if logs.is_handed(path) else file_of(path, foreign.LOG_CAP, below)


def sums(given: Options, found: Given, files: Described) -> dict[str, str]:
    """Returns a sum of each input that a page is made of."""
    options = {name: value for name, value in given._asdict().items() if name not in _NO_INPUTS}
    people = (found.directory.people, found.directory.machines)
    made = {
        "the command line": digest_of([repr(sorted(options.items())).encode("utf-8", "surrogateescape")]),
        "the program": program.sum_of(program.find(given.program)),
        "the second program": program.sum_of(program.find(given.review, program.REVIEW)),
        "the policy": _sum_of_files(found.policy.files),
        "the policy before": _sum_of_files(found.old_policy.files) if found.old_policy else "",
        "the directory": _sum_of_files(files.directory) + digest_of([repr(people).encode("utf-8", "surrogateescape")]),
        "the list of programs": files.programs.sum,
    }
    if found.hostname:
        made["the host"] = found.hostname
    for path in [path for path in (given.sorting.host_map, given.sorting.users) if path]:
        made[path] = file_of(path, foreign.TABLE_CAP).sum
    for log in files.logs:
        # The time of a log gives its lines their year.
        made[f"the log {log.path}"] = f"{log.sum} {log.changed}" if log.sum else unlike_any()
    return made


def _sum_of_files(files: Sequence[File]) -> str:
    return digest_of([os.fsencode(part) for file in files for part in (file.path, file.sum)])


class Replay:
    """Runs the steps that are still to do, and reports each."""

    def __init__(self, given: Options, say: Say) -> None:
        self.given = given
        self.found = prepared(given)
        self.files = described(given, self.found)
        self.steps = Steps(given.out, sums(given, self.found, self.files))
        self.say = say
        self.program = program.find(given.program)
        self.second = program.find(given.review, program.REVIEW)
        second_alone = bool(self.found.directory.netgroups or given.addresses or self.found.hostname)
        self.judge = program.find_judge(given.program, given.review, second_alone)
        self.requests = ""
        self.probe = ""
        self.changes = ""
        self.differences = ""
        self.uncompared = ""
        self.unlike: Sequence[str] = ()
        self.gained = False
        self.unread = False

    def _folder(self, name: str) -> str:
        return os.path.join(self.given.out, name)

    def _judged_by(self, policy: Prepared) -> program.Policy:
        found = self.found.directory
        reading = found.netgroups, self.given.addresses or "", self.found.hostname
        return program.Policy(policy.file(), found.users, found.hosts, policy.root, *reading)

    def run(self) -> None:
        """Runs the steps that are not done yet."""
        if self.given.collected:
            for warning in missing.warnings([self.given.collected], self.given.collected):
                warn(warning)
        self._write_copies()
        policy, old = self.found.policy.prepared, self.found.old_policy
        if self.found.directory.netgroups:
            self.say(f"netgroups: {self.found.directory.netgroups}")
        if self.given.addresses:
            self.say(f"addresses: {self.given.addresses}")
        if self.found.hostname:
            self.say(f"hostname: {self.found.hostname}")
        found = program.check(self.second, self._judged_by(policy))
        self.say(f"check: {len(found.splitlines()) - 1} warnings")
        if self.found.logs:
            self._read_logs()
        else:
            warn(f"there is no log: {'nothing is' if self.given.no_probe else 'probes alone are'} audited")
        self._review()
        if not self.given.no_probe:
            self._probe()
        if old:
            self._compare(old.prepared)
            self._compare_all(old.prepared)
        self._write_page()

    def _write_copies(self) -> None:
        """Writes the policies of other machines, and the directory that was collected."""
        for policy in filter(None, (self.found.policy, self.found.old_policy)):
            if policy.prepared.root:
                write_copies(self.steps.begin(os.path.basename(policy.prepared.root)), policy.copies)
        if not self.given.directory:
            folder, found = self.steps.begin(DIRECTORY), self.found.directory
            directory.write(folder, found.people, found.machines)
            if found.triples is not None:
                netgroups.write(folder, found.triples)

    def _read_logs(self) -> None:
        self.requests = self._folder("requests")
        found = self._sorted()
        self.say(f"logs: {sorting.told(found.counts)}")
        self.unread = unread.is_most(found.counts)
        unjudged = unknown.warning(found.hosts, directory.hosts_in(self.found.directory.hosts))
        for warning in filter(None, [*unread.warnings(found.counts), unjudged]):
            warn(warning)
        self._audit(self.requests, self.found.policy.prepared, REPORT)
        path = review.table_of(self.requests, review.RULES)
        if not foreign.exists(path, self.given.out):
            self._asked().rules(sources_of(self.requests), path, self.given.workers)

    def _sorted(self) -> sorting.Sorted:
        """Returns what the logs have; they are read where that is still to do."""
        if self.steps.result("requests") is None:
            users = self.given.sorting.users or self.found.directory.users
            how = self.given.sorting._replace(users=users, hosts=self.found.directory.hosts)
            found = sorting.sort(self.found.logs, self.steps.begin("requests"), how, self.found.below)
            self.steps.end("requests", found)
        counts, hosts, tallies, times = self.steps.result("requests")
        of_logs, of_hosts = (
            {name: sorting.Tally(*tally) for name, tally in found.items()} for found in (tallies, times)
        )
        return sorting.Sorted(Counter(counts), Counter(hosts), of_logs, of_hosts)

    def _asked(self, policy: Prepared | None = None) -> review.Asked:
        judged_by = self._judged_by(policy or self.found.policy.prepared)
        return review.Asked(self.second, judged_by, Form(self.given.sorting.spreadsheet))

    def _review(self) -> None:
        """Has the second program say, for every command, who can become root, and what it rests on."""
        if self.steps.result(REVIEW) is None:
            self.steps.end(REVIEW, self._asked().write(self.steps.begin(REVIEW)))
        counts = self.steps.result(REVIEW)
        told = ", ".join(f"{counts[name]} {name}" for name in (review.GRANTS, review.ROOTS, review.SUBJECTS, review.CAUTIONS))
        self.say(f"review: {told}")

    def _probe(self) -> None:
        """Has the probes judged, unless they are too many for an illustration."""
        if self.steps.result("probe") is None and not self._write_probe():
            return
        self.probe = self._folder("probe")
        self.say(f"probes: {self.steps.result('probe')}")
        self._audit(self.probe, self.found.policy.prepared, REPORT)

    def _write_probe(self) -> bool:
        """Writes the probes, and returns whether it did. Raises `Fault` at more than the command line allows."""
        programs = probe.programs_of(self.given.programs)
        users = list(directory.users_in(self.found.directory.users))
        hosts = directory.hosts_in(self.found.directory.hosts)
        total = len(users) * len(hosts) * len(programs)
        if self.given.at_most is None and total > PROBES:
            warn(f"{total:,} probes are left out: they only illustrate, and --at-most {total} makes them")
            return False
        if self.given.at_most is not None and total > self.given.at_most:
            said = f"{total} probes, and --at-most is {self.given.at_most}; name fewer programs by --programs, or say --no-probe"
            raise Fault(said, WORDS)
        self.steps.end("probe", probe.write(self.steps.begin("probe"), users, hosts, programs))
        return True

    def _audit(self, folder: str, policy: Prepared, report: str) -> str:
        """Returns the path of a report, which is made where it is still to do; it has its name once it is whole."""
        path = os.path.join(folder, report)
        if not foreign.exists(path, self.given.out):
            form = Form(self.given.sorting.spreadsheet)
            program.audit(self.judge, self._judged_by(policy), sources_of(folder), path, self.given.workers, form)
        return path

    def _compare(self, old: Prepared) -> None:
        self.changes = self._folder(CHANGES)
        if self.steps.result(CHANGES) is None:
            self.steps.end(CHANGES, self._write_changes(old))
        counts = Counter(self.steps.result(CHANGES))
        self.gained = any(counts[kind] for kind in compare.GAINS)
        self.unlike = review.unlike(self._asked(old), self._asked())
        for warning in compare.warnings(self.unlike):
            warn(warning)
        self.say(f"changes: {compare.told(counts)}")

    def _compare_all(self, old: Prepared) -> None:
        """Has the second program say, for every command, what changes since the policy before."""
        path = self._folder(DIFFERENCES)
        if self.steps.result(DIFFERENCES) is None:
            try:
                self.steps.end(DIFFERENCES, differences.write(self._asked(old), self._asked(), path))
            except differences.Uncompared as reason:
                # Something may be gained.
                self.uncompared, self.gained = str(reason), True
                warn(f"the policies are not compared for every command: {reason}")
                return
        self.differences = path
        counts = Counter(self.steps.result(DIFFERENCES))
        self.gained = self.gained or any(counts[kind] for kind in differences.GAINS)
        self.say("differences: " + ", ".join(f"{counts[kind]} {kind}" for kind in differences.KINDS))

    def _write_changes(self, old: Prepared) -> Counter[str]:
        """Writes the changes since the policy before, and returns how many of each kind there are."""
        found = [self._changes(folder, old) for folder in (self.requests, self.probe) if folder]
        with open_write(self.changes) as out:
            return compare.write(itertools.chain.from_iterable(found), out, Form(self.given.sorting.spreadsheet))

    def _changes(self, folder: str, old: Prepared) -> Iterator[compare.Change]:
        """Has the policy before judge the requests of a folder, and returns the changes since."""
        before = self._audit(folder, old, "old-report.csv")
        sources: Sequence[Source] = sources_of(folder)
        return compare.changes(before, os.path.join(folder, REPORT), sources)

    def _write_page(self) -> None:
        policy = self.found.policy.prepared
        old = self.found.old_policy.prepared if self.found.old_policy else None
        path = self._folder(PAGE)
        inputs = Inputs(
            title=self.given.title,
            policy=policy.main,
            root=policy.root,
            old_policy=old.main if old else "",
            old_root=old.root if old else "",
            hostname=self.found.hostname,
            review=self._folder(REVIEW),
            users=self.found.directory.users,
            hosts=self.found.directory.hosts,
            probe=self.probe,
            requests=self.requests,
            changes=self.changes,
            differences=self.differences,
            uncompared=self.uncompared,
            unlike=self.unlike,
            rows=self.given.rows,
            collected=self.found.below or "",
        )
        page = Page(inputs, self._evidence())
        write_page(page, path)
        record.write(page, self._folder(RECORD))
        self._write_sums()
        self.say(f"page: {path}")

    def _write_sums(self) -> None:
        """Writes the sums of the page and of the tables behind it, and a signature on them where that is asked for."""
        tables = [review.table_of(REVIEW, name) for name in (review.CAUTIONS, review.GRANTS, review.ROOTS, review.SUBJECTS)]
        reports = [os.path.join(folder, REPORT) for folder in ("requests", "probe")]
        names = [PAGE, RECORD, CHANGES, DIFFERENCES, *tables, *reports, review.table_of("requests", review.RULES)]
        there = [name for name in names if foreign.exists(self._folder(name), self.given.out)]
        sums = signing.write_sums(self.given.out, there)
        signing.write_signature(self.given.out, sums, self.given.sign)

    def _evidence(self) -> evidence.Evidence:
        """Returns what the page was made of."""
        sorted_ = self._sorted() if self.requests else sorting.Sorted(Counter(), Counter())
        hosts = directory.hosts_in(self.found.directory.hosts)
        return evidence.Evidence(
            evidence.made_now(),
            [
                evidence.Program(name, program.version_of(path), program.sum_of(path))
                for name, path in ((program.NAME, self.program), (program.REVIEW, self.second))
            ],
            self.found.policy.files,
            self.found.old_policy.files if self.found.old_policy else (),
            [*self.files.directory, *self._made_directory()],
            [self.files.programs] if self.probe else (),
            [evidence.Log(file, sorted_.logs.get(file.path, sorting.Tally())) for file in self.files.logs],
            evidence.hosts_of(hosts, dict.fromkeys(hosts, self._gathered()), sorted_.times),
            missing.warnings([self.given.collected], self.given.collected) if self.given.collected else (),
        )

    def _made_directory(self) -> list[File]:
        """Returns what the users, hosts and netgroups files are like that were made of collected ones, if they were."""
        found = self.found.directory
        tables = [found.users, found.hosts] if not self.given.directory else []
        tables += [found.netgroups] if found.triples is not None else []
        return [file_of(path, foreign.REQUESTS_CAP, self.given.out) for path in tables]

    def _gathered(self) -> int:
        """Returns when the users and hosts were gathered: by the collected file of users, or by the hosts file."""
        if self.given.collected and not self.given.directory:
            return next((file.changed for file in self.files.directory if file.path.endswith("/passwd")), 0)
        return self.files.directory[1].changed
