"""Tables of who can become root, and pages of them, as tests want them."""

from collections.abc import Iterable, Sequence

from support import EXAMPLES
from kulavemia.answers import Answer, Verdict
from kulavemia.differences import Difference, Differences
from kulavemia.effects import Effect, effect_of
from kulavemia.evidence import Evidence, Host, Log, Made, Program
from kulavemia.grants import Grants
from kulavemia.page import Caution, Changes, Inputs, Page, Step, Subject
from kulavemia.requests import Request
from kulavemia.review import Caution as Read
from kulavemia.roots import Roots
from kulavemia.sorting import Tally
from kulavemia.sums import File
from kulavemia.uses import Uses

POLICY = f"{EXAMPLES}/sudoers"
USERS = ("root", "ann", "bob", "cid", "dora", "eve")
HOSTS = ("h1", "h2")


def way(user: str, host: str, level: str, password: str = "own", **more: str) -> list[str]:
    """Returns a row of the table of roots."""
    rest = [more.get(name, "") for name in ("place", "tags", "via", "depends")]
    return [user, host, more.get("target", "root"), level, password, *rest]


def on_all(user: str, level: str, password: str = "own", **more: str) -> list[list[str]]:
    """Returns rows for each host."""
    return [way(user, host, level, password, **more) for host in HOSTS]


def grant(users: str, command: str, tags: str = "", sign: str = "", hosts: str = "ALL", **more: str) -> list[str]:
    """Returns a row of the table of grants."""
    return [more.get("place", "p:1"), users, hosts, more.get("runas", ""), sign, command, tags, more.get("depends", "")]


def by_host(rows: Iterable[Sequence[str]]) -> list[Sequence[str]]:
    """Returns rows of the table of roots in its order of hosts."""
    return sorted(rows, key=lambda row: row[1])


def roots_of(
    rows: Iterable[Sequence[str]], grants: Iterable[Sequence[str]] = (), is_doubtful: bool = False, users: Sequence[str] = USERS
) -> Roots:
    """Returns the table of users by hosts."""
    roots = Roots(users, HOSTS, Grants(grants, users, HOSTS), is_doubtful)
    roots.take_all(by_host(rows))
    return roots


def page_of(roots: Roots, policy: str = POLICY) -> Page:
    """Returns a page of a table of users by hosts."""
    page = Page(Inputs("t", policy=policy), Evidence(Made("2026-01-01T00:00:00+00:00", "UTC", "ann", "vm", "0")))
    page.roots = roots
    return page


def example_page() -> Page:
    """Returns a page with users of each level."""
    place = f"{POLICY}:45"
    rows = [
        *on_all("root", "root", "none"),
        *on_all("ann", "all", "none", place=place),
        *on_all("bob", "all", place=place, via="ann"),
        *on_all("cid", "all-but", place=f"{POLICY}:46"),
        *on_all("dora", "listed", place=f"{POLICY}:47"),
    ]
    grants = [grant("dora", "/opt/only <b>"), grant("dora", "/opt/never", sign="!"), grant("ann", "ALL", "NOPASSWD")]
    return page_of(roots_of(rows, [[f"{POLICY}:47", *row[1:]] for row in grants]))


def noted_page() -> Page:
    """Returns a page with users of each level of whom it depends on what is not judged."""
    rows = [
        *on_all("root", "root", "none"),
        *on_all("ann", "all", "none", place=f"{POLICY}:45", depends="digest time"),
        way("bob", "h1", "all", place=f"{POLICY}:46"),
        way("bob", "h2", "all", place=f"{POLICY}:47", via="ann", depends="digest time chroot"),
        *on_all("cid", "all-but", place=f"{POLICY}:48", depends="chroot"),
        *on_all("dora", "listed", "?", place=f"{POLICY}:49", tags="NOPASSWD", depends="time"),
    ]
    grants = [
        grant("ann", "ALL", "NOPASSWD", place=f"{POLICY}:45", depends="digest time"),
        grant("dora", "/opt/only", place=f"{POLICY}:48"),
        grant("dora", "/opt/noted", "NOPASSWD", place=f"{POLICY}:49", depends="time"),
    ]
    page = page_of(roots_of(rows, grants))
    page.depends = {f"{POLICY}:45": "digest time", f"{POLICY}:49": "time"}
    texts = [Read(f"{POLICY}:45", "depends", f"{kind}: asked", "ann ALL = ALL") for kind in ("digest", "time")]
    page.cautions = [Caution(*caution, effect_of(caution)) for caution in texts]
    return page


def full_page() -> Page:
    """Returns a page on which each section has something."""
    page, place, long = example_page(), f"{POLICY}:45", "/srv/very/long/path/" + "directory-" * 12 + "x"
    page.cautions = [Caution(place, "linked", "a command is below a folder", "a = /bin/ls", Effect("commands", "It may differ."))]
    page.subjects = [Subject(place, "user", "gus", "unknown", "gus ALL = ALL"), Subject(place, "rule", "", "reaches nobody", "")]
    page.uses = Uses()
    for outcome, verdict in (("accepted", "nomatch"), ("refused", "allow"), ("accepted", "unknown-user"), ("accepted", "allow")):
        request = Request("ann", "web-1.example.org", "root", "adm", long, "--option " * 20)
        key = (f"hosts/web-1/logs{long}.log", "7", "2026-11-20T10:01:02+01:00", outcome, "command not allowed", "quotes read")
        page.uses.take_all([Answer("s", 1, request, Verdict(verdict, place if verdict == "allow" else "", "NOPASSWD"), key)])
    page.changes = [Changes("gained", 1, {}), Changes("lost", 0, {})]
    page.changes[0].steps[Step("ann", "root", "", "nomatch", "", "", "allow", "NOPASSWD", place)] = ({"h1": None}, {long: None})
    row = Difference("ann, bob", "h1", "root", "adm", "gained", long, "-x", "nomatch", "", "", "allow", place, "NOPASSWD")
    may = row._replace(answer="may", command="", arguments="", old="allow", old_place=place)
    page.differences = [Differences("gained", 1, [row]), Differences("lost"), Differences("may", 1, [may])]
    file = File(long, 1234, "0" * 64, 1)
    tally = Tally(10, 2, 1, "2026-11-20T10:01:02.123456+01:00", "2026-11-21T10:01:02.123456+01:00")
    host = Host("web-1.example.org", True, "2026-11-27T10:00:00+00:00", "2 hours before", 10, tally.first, tally.last)
    page.evidence = Evidence(
        page.evidence.made,
        [Program("sudo_audit", "sudo_audit 0.1.0", "1" * 64), Program("sudo_review", "sudo_review 0.1.0", "2" * 64)],
        [file],
        [file],
        [file],
        [file],
        [Log(file, tally)],
        [host, host._replace(name="db-9", is_known=False)],
        ["/etc/nsswitch.conf: sudoers: files sss: not gathered"],
    )
    return page


def large_page(users: int, hosts: int, start: str = "") -> Page:
    """Returns a page on which hundreds of kinds of users reach different hosts by hundreds of rules; names have a start."""
    names = [f"{start}user{user}" for user in range(users)]
    machines = [f"{start}host{host}.example.org" for host in range(hosts)]
    roots = Roots(names, machines, Grants([], names, machines), False)
    rows = (
        way(names[user], machines[host], "all" if (user + host) % 2 else "listed", place=f"policy:{(user * 31 + host) % 300 + 1}")
        for host in range(hosts)
        for user in range(users)
        if user < 700 and (user * 31 + host * (1 + user % 13) // 5) % 3
    )
    roots.take_all(rows)
    return page_of(roots)
