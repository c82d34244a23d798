"""What a page says first, in sentences: who can become root, and what is to be looked at."""

from collections import Counter
from collections.abc import Callable, Iterable, Iterator, Mapping, Sequence
from typing import NamedTuple

from kulavemia.compare import MAY
from kulavemia.depends import all_of, told
from kulavemia.effects import NOTED, WHO, subject_of
from kulavemia.fleet_table import FleetTable
from kulavemia.fleet_work import DONE
from kulavemia.roots import ALL, ALL_BUT, ALL_FREE, LISTED, NONE, ROOT, UNSURE, Table
from kulavemia.uses import Uses

_NUMBERS = "no one two three four five six seven eight nine ten eleven twelve".split()
_NAMED = 8
_IDS = 3


def number_of(count: int) -> str:
    """Returns a number as a sentence has it."""
    return _NUMBERS[count] if count < len(_NUMBERS) else f"{count:,}"


def counted(count: int, one: str, several: str = "") -> str:
    """Returns a number with its noun: that of one, or of several."""
    return f"{number_of(count)} {one if count == 1 else several or one + 's'}"


def listed(names: Sequence[str]) -> str:
    """Returns names as a sentence lists them, the first of them alone where there are many."""
    shown = [*names[:_NAMED], f"{len(names) - _NAMED:,} more"] if len(names) > _NAMED else list(names)
    return shown[0] if len(shown) == 1 else f"{', '.join(shown[:-1])} and {shown[-1]}"


def begun(sentence: str) -> str:
    """Returns a sentence with a capital letter at its start."""
    return sentence[:1].upper() + sentence[1:]


class Reach(NamedTuple):
    """Users who reach the same on each host: on how many of the hosts each level, and on how many of these it is not sure.

    Beside these whether another user is on the way, whether some commands may need no password, and what levels depend on.
    """

    users: Sequence[str]
    hosts: Counter[int]
    perhaps: Counter[int]
    by_others: bool
    is_unasked: bool
    depends: tuple[str, ...]

    def best(self) -> int:
        """Returns the best level on any host."""
        return max(self.hosts, default=NONE)

    def on_hosts(self, levels: Iterable[int]) -> int:
        """Returns on how many hosts there is one of these levels."""
        return sum(self.hosts[level] for level in levels)

    def sure_on(self, levels: Iterable[int]) -> int:
        """Returns on how many hosts one of these levels depends on nothing."""
        return sum(self.hosts[level] - self.perhaps[level] for level in levels)


def reaches_of(roots: Table) -> list[Reach]:
    """Returns how far users come, those who reach most first."""
    answers, cells = roots.answers(), roots.cells.list()
    found = []
    for group in roots.groups():
        hosts: Counter[int] = Counter()
        perhaps: Counter[int] = Counter()
        for cell, count in Counter(group.row).items():
            hosts[answers[cell].level] += count
            perhaps[answers[cell].level] += count if answers[cell].depends else 0
        different = set(group.row)
        by_others = any(way.via for cell in different for way in cells[cell].ways)
        unasked = any(answers[cell].is_unasked for cell in different)
        depends = all_of(kind for cell in different for kind in answers[cell].depends)
        found.append(Reach(group.users, hosts, perhaps, by_others, unasked, depends))
    return found


class _Users:
    """Users of some groups, counted and listed."""

    def __init__(self, reaches: Iterable[Reach]) -> None:
        self.reaches = list(reaches)
        self.names = [user for reach in self.reaches for user in reach.users]

    def those(self, is_meant: Callable[[Reach], bool]) -> "_Users":
        """Returns those of the groups that are meant."""
        return _Users(filter(is_meant, self.reaches))

    def free(self) -> str:
        """Returns how many of the users who run any command need no password, as a part of a sentence."""
        free = len(self.those(lambda reach: not reach.hosts[ALL]).names)
        partly = len(self.those(lambda reach: bool(reach.hosts[ALL] and reach.hosts[ALL_FREE])).names)
        if free == len(self.names):
            return ", without a password"
        said = f", {number_of(free)} of them without a password" if free else ""
        if partly:
            one = "and {} without one" if free else "{} of them without a password"
            said += f", {one.format(number_of(partly))} on some of the hosts"
        return said

    def can(self, levels: Iterable[int]) -> str:
        """Returns what the users can: perhaps, if no host is sure of any of them."""
        return "can" if any(reach.sure_on(levels) for reach in self.reaches) else "can perhaps"

    def perhaps(self, levels: Sequence[int], is_on_all: bool = False) -> str:
        """Returns how many of the users come so far perhaps, where not all do, as a part of a sentence.

        They are those of whom no host is sure; where a sentence is about all hosts, also those of whom not each is.
        """
        nowhere = len(self.those(lambda reach: not reach.sure_on(levels)).names)
        partly = len(self.those(lambda reach: 0 < reach.sure_on(levels) < reach.on_hosts(levels)).names) if is_on_all else 0
        if partly == len(self.names):
            return ", on some of them perhaps"
        said = f", {number_of(nowhere)} of them perhaps" if 0 < nowhere < len(self.names) else ""
        if partly:
            said += f", {number_of(partly)} of them perhaps on some of the hosts"
        return said


def on_all(hosts: Sequence[str]) -> str:
    """Returns all hosts, as a part of a sentence."""
    if len(hosts) == 2:
        return "on both hosts"
    return f"on {hosts[0]}" if len(hosts) == 1 else f"on all {len(hosts):,} hosts"


def on_some(hosts: Sequence[str]) -> str:
    """Returns some of the hosts, as a part of a sentence."""
    return f"on {hosts[0]}" if len(hosts) == 1 else f"on one or more of the {len(hosts):,} hosts"


def on_none(hosts: Sequence[str]) -> str:
    """Returns none of the hosts, as a part of a sentence that says no."""
    if len(hosts) == 2:
        return "on either host"
    return f"on {hosts[0]}" if len(hosts) == 1 else f"on any of the {len(hosts):,} hosts"


def of_roots(roots: Table) -> Iterator[str]:
    """Yields who can become root."""
    hosts, everyone, any_command = roots.hosts, _Users(reaches_of(roots)), (ALL, ALL_FREE)
    rest = everyone.those(lambda reach: reach.best() != ROOT)
    if own := everyone.those(lambda reach: reach.best() == ROOT).names:
        yield f"{begun(counted(len(own), 'user'))} {'is' if len(own) == 1 else 'are'} root by the ID 0: {listed(own)}."
    every = rest.those(lambda reach: reach.on_hosts(any_command) == len(hosts))
    if every.names:
        yield (
            f"{begun(counted(len(every.names), 'user'))} {every.can(any_command)} run any command as root"
            f" {on_all(hosts)}{every.free()}{every.perhaps(any_command, True)}: {listed(every.names)}."
        )
    some = rest.those(lambda reach: reach.best() in any_command and reach not in every.reaches)
    if some.names:
        yield (
            f"{begun(counted(len(some.names), 'further user' if every.names else 'user'))} {some.can(any_command)} run any"
            f" command as root {on_some(hosts)}{some.free()}{some.perhaps(any_command)}: {listed(some.names)}."
        )
    for level, what, advice in (
        (ALL_BUT, "any command as root but listed ones", ". A copy of such a command under another name is not listed"),
        (LISTED, "listed commands as root", ". Whether one of these gives more, a reader has to judge"),
    ):
        found = rest.those(lambda reach: reach.best() == level)
        if names := found.names:
            start = f"{begun(counted(len(names), 'user'))} {found.can((level,))} run {what} {on_some(hosts)}"
            yield f"{start}{found.perhaps((level,))}: {listed(names)}{advice}."
    yield from _asides(roots, rest)


def _asides(roots: Table, rest: _Users) -> Iterator[str]:
    """Yields on which of these users the answers depend, and who has no way."""
    reaching = rest.those(lambda reach: reach.best() > UNSURE)
    if others := reaching.those(lambda reach: reach.by_others).names:
        gets = "gets" if len(others) == 1 else "get"
        yield f"Of these, {number_of(len(others))} {gets} there through another user or group: {listed(others)}."
    if unasked := reaching.those(lambda reach: reach.is_unasked).names:
        yield f"For {number_of(len(unasked))} of these some of the commands may need no password: {listed(unasked)}."
    yield from _perhaps(roots, reaching)
    none = len(rest.names) - len(reaching.names)
    if none:
        subject = f"The other {counted(none, 'known user')} have" if none > 1 else "The other known user has"
        noted = " and whether what rules depend on is met or not" if roots.depends() else ""
        sure = "; but sudo may decide otherwise" if roots.is_doubtful() else ": that is proved"
        yield f"{subject} no way to root by sudo {on_none(roots.hosts)}, whatever command is asked for{noted}{sure}."


def _perhaps(roots: Table, reaching: _Users) -> Iterator[str]:
    """Yields of whom the answer depends on what is not judged, and on what."""
    for kind in roots.depends():
        names = reaching.those(lambda reach: kind in reach.depends).names
        some = "" if len(roots.hosts) == 1 else ", on one or more of the hosts"
        yield f"For {number_of(len(names))} of these it depends on {told([kind])}, which is not judged{some}: {listed(names)}."


def of_fleet(fleet: FleetTable) -> Iterator[str]:
    """Yields which hosts of a fleet are not on the page, and which names may be those of several people."""
    left = [host.host for host in fleet.reviewed if host.status != DONE]
    if left:
        is_left = "is" if len(left) == 1 else "are"
        yield f"{begun(counted(len(left), 'host'))} of {len(fleet.reviewed):,} {is_left} not on this page: {listed(left)}."
    if fleet.ids:
        has = "name has" if len(fleet.ids) == 1 else "names have"
        names = [f"{user} ({_some(found)})" for user, found in fleet.ids.items()]
        yield f"{begun(number_of(len(names)))} {has} several IDs, and may be several people: {listed(names)}."
    noted = [note for note in fleet.cautions if note.answers == NOTED]
    others = [note for note in fleet.cautions if note.answers != NOTED]
    if others:
        hosts = {host for note in others for host in note.hosts}
        who = {host for note in others if note.answers == WHO for host in note.hosts}
        some = f"on {number_of(len(who))} of them who can become root may differ"
        of_hosts = f"of the policies of {counted(len(hosts), 'host')}"
        differs = some if who else "none changes who can become root"
        yield f"sudo reads or judges constructs {of_hosts} otherwise than this page: {differs}."
    yield from of_noted(all_of(subject_of(note.text) for note in noted), len({host for note in noted for host in note.hosts}))


def _some(ids: Sequence[str]) -> str:
    """Returns the first of some IDs, and how many more there are."""
    more = [f"{len(ids) - _IDS:,} more"] if len(ids) > _IDS else []
    return ", ".join([*ids[:_IDS], *more])


def of_subjects(unknown: Sequence[str]) -> Iterator[str]:
    """Yields what the policy names and the directory lacks."""
    names = list(dict.fromkeys(unknown))
    if names:
        what = counted(len(names), "user, group or host", "users, groups or hosts")
        gets = "gets what the rule gives" if len(names) == 1 else "gets what the rules give"
        yield f"The policy names {what} that the directory lacks: {listed(names)}. Whoever gets such a name {gets}."


def of_cautions(count: int, is_doubtful: bool) -> Iterator[str]:
    """Yields how many constructs of the policy sudo reads otherwise."""
    if count:
        no = "it does not change" if count == 1 else "none of them changes"
        changes = "who can become root may differ" if is_doubtful else f"{no} who can become root"
        yield f"sudo reads or judges {counted(count, 'construct')} of the policy otherwise than this page: {changes}."


def of_noted(kinds: Sequence[str], hosts: int = 1) -> Iterator[str]:
    """Yields that rules depend on what is not judged, in the policies of so many hosts."""
    if kinds:
        rules = f"rules of {number_of(hosts)} hosts" if hosts > 1 else "rules"
        yield f"What {rules} depend on is not judged ({told(kinds)}): an answer that depends on it has a question mark."


def of_missing(hosts: int) -> Iterator[str]:
    """Yields that something could not be gathered, of so many hosts."""
    if hosts:
        of_hosts = f"Of {counted(hosts, 'host')} something" if hosts > 1 else "Something"
        yield f"{of_hosts} could not be gathered, and rules may be among it that no answer here looks at: the evidence lists it."


def of_differences(counts: Mapping[str, int]) -> Iterator[str]:
    """Yields what the new policy changes for every command."""
    start = "Against the policy before, "
    if not any(counts.values()):
        yield f"{start}every command is answered as it was, to each known user on each known host."
        return
    gained = sum(count for kind, count in counts.items() if kind.startswith("gained"))
    lost, other = counts.get("lost", 0), counts.get("other", 0)
    told = ((gained, "users gain something"), (lost, "users lose something"), (other, "the answer changes otherwise"))
    parts = [f"in {counted(count, 'row')} {what}" for count, what in told if count]
    if counts.get("may"):
        may = f"in {counted(counts['may'], 'row')} it may change"
        if not parts:
            yield f"{start}no command is known to be answered otherwise, but {may}."
            return
        parts.append(may)
    yield f"{start}some commands are answered otherwise: {listed(parts)}."


def of_uncompared(reason: str) -> Iterator[str]:
    """Yields that what changes was not judged for every command, and why."""
    if reason:
        yield f"What changes since the policy before was not judged for every command: {reason}."


def of_changes(counts: Mapping[str, int], perhaps: int = 0) -> Iterator[str]:
    """Yields what the new policy changes; how many of the gains and losses depend on what is not judged."""
    gained = sum(count for kind, count in counts.items() if kind.startswith("gained"))
    lost, may = counts.get("lost", 0), counts.get(MAY, 0)
    of_them = "of the requests of the logs and the probes"
    if gained or lost:
        parts = [f"{_or_none(count)} {verb if count > 1 else verb + 's'}" for count, verb in ((gained, "gain"), (lost, "lose"))]
        some = f", {number_of(perhaps)} of them perhaps, by rules that depend on what is not judged" if perhaps else ""
        yield f"Against the policy before, {of_them} {parts[0]} something and {parts[1]} something{some}."
    elif may:
        yield f"Against the policy before, {of_them} none is known to gain or lose anything."
    elif counts:
        yield "Against the policy before, no request of the logs and no probe gains or loses anything."
    if may:
        answer = "the answer depends" if may == 1 else "the answers depend"
        yield f"For {number_of(may)} {of_them} {answer} on what is not judged under both policies: a change does not show."


def of_unlike(count: int) -> Iterator[str]:
    """Yields that only one of the two policies has constructs that sudo reads otherwise."""
    if count:
        what = counted(count, "construct that sudo reads or judges", "constructs that sudo reads or judges")
        yield f"Only one of the two policies has {what} otherwise: no change that is listed shows what sudo makes of that."


def _or_none(count: int) -> str:
    return number_of(count) if count else "none"


def of_logs(uses: Uses) -> Iterator[str]:
    """Yields how the policy answers the requests of the logs."""
    if not uses.count:
        return
    parts = [
        f"{number_of(count)} {said}"
        for count, said in (
            (uses.same, f"{_is(uses.same)} answered as then"),
            (uses.denied.count, "would be denied now"),
            (uses.allowed.count, "would be allowed now"),
            (uses.unknown.count, f"{_is(uses.unknown.count)} not judged"),
            (uses.failed, "failed for another reason"),
        )
        if count
    ]
    if len(parts) == 1:
        yield f"The logs have {counted(uses.count, 'request')}: {parts[0]}."
        return
    joined = f"{', '.join(parts[:-1])} and {parts[-1]}"
    yield f"Of {counted(uses.count, 'request')} in the logs, {joined}."


def of_unused(unused: int, total: int, noted: int = 0) -> Iterator[str]:
    """Yields how many rules no request used; what so many requests depend on is taken as met."""
    if unused:
        met = ", if what rules depend on was met" if noted else ""
        yield f"{begun(number_of(unused))} of {counted(total, 'rule')} decided no request of the logs{met}."


def _is(count: int) -> str:
    return "is" if count == 1 else "are"
