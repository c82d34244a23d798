"""One page of HTML, whole in itself, out of the reports of audits."""

import base64
import hashlib
import importlib.util
import json
import os
import time
from collections import Counter
from collections.abc import Sequence
from dataclasses import dataclass, field
from typing import Any, NamedTuple

from kulavemia import differences, foreign, missing, outputs, review, sentences
from kulavemia.answers import ALLOW, DENY, DEPENDS, answers
from kulavemia.command import FAILED, Fault
from kulavemia.compare import CHANGE_HEADER, CHANGES, MAY
from kulavemia.depends import all_of, kinds_of, told
from kulavemia.directory import hosts_in, users_in
from kulavemia.effects import NOTED, Effect, effect_of, is_doubtful, shown_text, subject_of
from kulavemia.evidence import Evidence, Program, age, at, made_now
from kulavemia.fleet_table import FleetTable, first_alike, table_of
from kulavemia.grants import Grant, Grants
from kulavemia.numbering import Numbering
from kulavemia.probes import Probes
from kulavemia.program import REVIEW
from kulavemia.requests import LOG_KEY, PROBE_KEY, sources_of
from kulavemia.review import Counted
from kulavemia.roots import LEVELS, NONE, UNSURE, Answer, Cell, Roots, Table
from kulavemia.rules import Rule, Rules
from kulavemia.shown import shown_records
from kulavemia.text import visible
from kulavemia.uses import TEXT_LIMIT, Uses, texts_of

TEMPLATES = os.path.join(os.path.dirname(__file__), "templates")
REPORT = "report.csv"
UNKNOWN = "unknown"
# The verdicts in plain words.
VERDICTS = {
    "allow": "allowed",
    "deny": "denied by a rule",
    "nomatch": "allowed by no rule",
    "unknown-user": "unknown user",
    "unknown-host": "unknown host",
    "unknown-target": "unknown target",
    "unknown-group": "unknown group",
    "depends": "depends on what is not judged",
}


class Inputs(NamedTuple):
    """The inputs of a page; empty ones are left out. No link to a log is followed below the folder `collected`.

    `uncompared` is why the policy before was not compared for every command, if it was not.
    """

    title: str
    policy: str = ""
    root: str = ""
    old_policy: str = ""
    old_root: str = ""
    hostname: str = ""
    review: str = ""
    users: str = ""
    hosts: str = ""
    probe: str = ""
    requests: str = ""
    changes: str = ""
    differences: str = ""
    uncompared: str = ""
    unlike: Sequence[str] = ()
    fleet: str = ""
    rows: int = 1000
    facts: Sequence[tuple[str, str]] = ()
    collected: str = ""


class Step(NamedTuple):
    """From what to what the answer to somebody changes."""

    user: str
    runas_user: str
    runas_group: str
    old_verdict: str
    old_tags: str
    old_place: str
    new_verdict: str
    new_tags: str
    new_place: str


@dataclass
class Changes:
    """The changes of one kind: the same steps together, with the hosts and commands of each.

    Of some it is not sure that there is a change: there an answer depends on what is not judged.
    """

    kind: str
    count: int = 0
    steps: dict[Step, tuple[dict[str, None], dict[str, None]]] = field(default_factory=dict)
    perhaps: int = 0

    def add(self, fields: dict[str, str]) -> None:
        """Adds a row of a comparison."""
        self.count += 1
        self.perhaps += DEPENDS in (fields["old_verdict"], fields["new_verdict"])
        hosts, commands = self.steps.setdefault(Step(*(fields[name] for name in Step._fields)), ({}, {}))
        hosts[fields["host"]] = None
        commands[f"{fields['command']} {fields['arguments']}".rstrip(" ")] = None


class Caution(NamedTuple):
    """A caution of the policy: its place, its class, the program's text, the line, and what it means here."""

    place: str
    kind: str
    text: str
    line: str
    effect: Effect


class Subject(NamedTuple):
    """What the directory lacks, or what reaches nobody: a row of the program's table, with the line at its place."""

    place: str
    kind: str
    name: str
    what: str
    line: str


class Reached(NamedTuple):
    """What users reach on some hosts: the answer, the cell, and the grants that it rests on."""

    users: Sequence[str]
    hosts: Sequence[str]
    answer: Answer
    cell: Cell
    grants: Sequence[Grant]


class Page:
    """The data that the template shows."""

    def __init__(self, inputs: Inputs, evidence: Evidence | None = None) -> None:
        self.inputs = inputs
        self.evidence = evidence or Evidence(made_now())
        self.now = time.time()
        self.places: Numbering[str] = Numbering()
        self.rules = Rules(inputs.policy, inputs.root, inputs.hostname) if inputs.policy else None
        self.old_rules = Rules(inputs.old_policy, inputs.old_root, inputs.hostname) if inputs.old_policy else None
        if self.rules:
            for rule in self.rules.all():
                self.places.of(rule.place)
        self.depends: dict[str, str] = {}
        self.cautions = self._cautions() if inputs.review else []
        self.subjects = self._subjects() if inputs.review else []
        self.fleet = self._fleet() if inputs.fleet else None
        self.roots: Table | None = self.fleet.table if self.fleet else self._roots() if inputs.review else None
        self.probes = self._probes() if inputs.probe else None
        self.uses = self._uses() if inputs.requests else None
        self.counts = self._counts() if inputs.requests else {}
        self.changes = self._changes() if inputs.changes else None
        self.differences = differences.by_kind(inputs.differences, inputs.rows) if inputs.differences else None
        self.log_texts = self._log_texts()

    def _fleet(self) -> FleetTable:
        """Returns the table of a fleet, and adds to the evidence what it was made of."""
        fleet = table_of(self.inputs.fleet)
        programs = [Program(REVIEW, shared.input.file.path, shared.input.file.sum) for shared in fleet.programs()]
        lacks = [f"{host}: {line}" for host, lines in fleet.missing.items() for line in lines]
        self.evidence = self.evidence._replace(programs=programs, missing=lacks)
        return fleet

    def _cautions(self) -> list[Caution]:
        found = [review.Caution(*fields) for fields in review.rows_of(self.inputs.review, review.CAUTIONS)]
        return [Caution(*caution, effect_of(caution)) for caution in found]

    def _subjects(self) -> list[Subject]:
        rows = review.rows_of(self.inputs.review, review.SUBJECTS)
        return [Subject(place, kind, name, what, self.rule_text(place)) for place, kind, name, what in rows]

    def _roots(self) -> Table:
        users, hosts = list(users_in(self.inputs.users)), hosts_in(self.inputs.hosts)
        grants = Grants(review.rows_of(self.inputs.review, review.GRANTS), users, hosts)
        self.depends.update((grant.place, grant.depends) for grant in grants.list if grant.depends)
        roots = Roots(users, hosts, grants, self._is_doubtful() or self._lacks_rules())
        roots.take_all(review.rows_of(self.inputs.review, review.ROOTS))
        return roots

    def _is_doubtful(self) -> bool:
        """Returns whether a caution of the policy is about who may do what."""
        return is_doubtful(caution.effect for caution in self.cautions)

    def _lacks_rules(self) -> bool:
        """Returns whether rules may be among what could not be gathered; its lines begin with the path of their file."""
        start = f"{os.path.join(self.inputs.collected, missing.NAME)}: "
        return missing.may_hide_rules(line.removeprefix(start) for line in self.evidence.missing)

    def _probes(self) -> Probes:
        probes = Probes(self.places)
        folder = self.inputs.probe
        probes.take_all(answers(os.path.join(folder, REPORT), sources_of(folder), PROBE_KEY))
        return probes

    def _uses(self) -> Uses:
        uses = Uses()
        folder = self.inputs.requests
        uses.take_all(answers(os.path.join(folder, REPORT), sources_of(folder), LOG_KEY))
        return uses

    def _counts(self) -> dict[str, Counted]:
        """Returns what the program's table of rules counts, where there is one, and takes from it what rules depend on."""
        if not foreign.exists(review.table_of(self.inputs.requests, review.RULES)):
            return {}
        found = {place: self._without_dropped(place, counted) for place, counted in review.rules_of(self.inputs.requests)}
        self.depends.update((place, counted.depends) for place, counted in found.items() if counted.depends)
        return found

    def _without_dropped(self, place: str, counted: Counted) -> Counted:
        """Returns the counts of a rule without the other ways in which requests of the logs may have been made."""
        dropped = self.uses.dropped if self.uses is not None else Counter[tuple[str, str]]()
        allowed, denied = counted.allowed - dropped[ALLOW, place], counted.denied - dropped[DENY, place]
        # Of an answer that depends, the report does not say which of the two it would be; most rules have one of them alone.
        either = dropped[DEPENDS, place]
        of_allowed = min(either, allowed)
        return counted._replace(allowed=allowed - of_allowed, denied=denied - (either - of_allowed))

    def _changes(self) -> list[Changes]:
        found = {kind: Changes(kind) for kind in CHANGES}
        for line, fields in shown_records(self.inputs.changes, CHANGE_HEADER):
            if fields[0] not in found:
                raise Fault(f"{self.inputs.changes}:{line}: {fields[0]} is no change")
            found[fields[0]].add(dict(zip(CHANGE_HEADER, fields)))
        return list(found.values())

    def _log_texts(self) -> dict[tuple[str, int], str]:
        if self.uses is None:
            return {}
        kinds = (self.uses.denied, self.uses.allowed, self.uses.unknown)
        shown = (asked for kind in kinds for asked in kind.list()[: self.inputs.rows])
        return texts_of(shown, self.inputs.collected or None)

    def rule_text(self, place: str) -> str:
        """Returns the text of the rule at a place of the policy."""
        return self.rules.text(place) if self.rules else ""

    def old_rule_text(self, place: str) -> str:
        """Returns the text of the rule at a place of the policy before."""
        return self.old_rules.text(place) if self.old_rules else ""

    def log_text(self, log: str, line: int) -> str:
        """Returns the text of a line of a log."""
        return self.log_texts.get((log, line), "")[:TEXT_LIMIT]

    def shown_rules(self) -> list[Rule]:
        """Returns the rules of the policy, and further places of the reports with their texts."""
        rules = self.rules.all() if self.rules else []
        known = {rule.place for rule in rules}
        return rules + [Rule(place, self.rule_text(place)) for place in self.places.list() if place not in known]

    def unused(self) -> list[Rule]:
        """Returns the rules that decided no request of the logs."""
        if self.rules is None or self.uses is None:
            return []
        return [rule for rule in self.rules.all() if rule.place not in self.uses.places]

    def sentences(self) -> list[str]:
        """Returns what the page says first."""
        found: list[str] = []
        if self.roots is not None:
            unknown = [subject.name for subject in self.subjects if subject.what == UNKNOWN]
            unknown += [note.text for note in self.fleet.subjects if note.meaning == UNKNOWN] if self.fleet is not None else []
            found += sentences.of_roots(self.roots)
            found += sentences.of_fleet(self.fleet) if self.fleet is not None else ()
            found += sentences.of_subjects(unknown)
            found += sentences.of_cautions(len(self.otherwise()), self._is_doubtful())
            found += sentences.of_noted(self.noted())
            found += sentences.of_missing(len(self.fleet.missing) if self.fleet is not None else bool(self.evidence.missing))
        if self.differences is not None:
            found += sentences.of_differences({of_kind.kind: of_kind.count for of_kind in self.differences})
        found += sentences.of_uncompared(self.inputs.uncompared)
        if self.changes is not None:
            perhaps = sum(changed.perhaps for changed in self.changes if changed.kind != MAY)
            found += sentences.of_changes({changed.kind: changed.count for changed in self.changes}, perhaps)
            found += sentences.of_unlike(len(self.inputs.unlike))
        if self.uses is not None:
            found += sentences.of_logs(self.uses)
            if self.rules is not None:
                found += sentences.of_unused(len(self.unused()), len(self.rules.all()), self.uses.noted)
        return found

    def reached(self) -> list[Reached]:
        """Returns what users reach on which hosts, those who reach the same together, and those who reach most first."""
        if self.roots is None:
            return []
        cells, answers, found = self.roots.cells.list(), self.roots.answers(), []
        for group in self.roots.groups():
            hosts: dict[int, list[str]] = {}
            for host, cell in zip(self.roots.hosts, group.row):
                hosts.setdefault(cell, []).append(host)
            for cell, names in sorted(hosts.items(), key=lambda item: -answers[item[0]].level):
                if answers[cell].level not in (NONE, UNSURE):
                    grants = [self.roots.grants[number] for number in cells[cell].grants]
                    found.append(Reached(group.users, names, answers[cell], cells[cell], grants))
        return found

    def unreached(self) -> list[str]:
        """Returns the users who have no way to root on any host."""
        return self.roots.unreached() if self.roots is not None else []

    def otherwise(self) -> list[Caution]:
        """Returns the cautions on what sudo reads or judges otherwise, not those on what is not judged."""
        return [caution for caution in self.cautions if caution.effect.answers != NOTED]

    def noted(self) -> tuple[str, ...]:
        """Returns what commands of the policy depend on that is not judged."""
        return all_of(subject_of(caution.text) for caution in self.cautions if caution.effect.answers == NOTED)

    def noted_alike(self) -> list[list[Caution]]:
        """Returns the cautions on what is not judged, those with the same text together: a policy may have many."""
        found: dict[str, list[Caution]] = {}
        for caution in self.cautions:
            if caution.effect.answers == NOTED:
                found.setdefault(caution.text, []).append(caution)
        return list(found.values())

    def told(self, depends: str | Sequence[str]) -> str:
        """Returns in words what something depends on: kinds, or a field that names them."""
        return told(kinds_of(depends) if isinstance(depends, str) else depends)

    def time_of(self, nanoseconds: int) -> str:
        """Returns a time, with how long before the page it was."""
        return f"{at(nanoseconds)} ({age(nanoseconds, self.now)})" if nanoseconds else "time not known"

    def anchor(self, place: str) -> str:
        """Returns the anchor of a place."""
        return f"rule-{self.places.of(place)}"

    def data(self) -> dict[str, Any]:
        """Returns what the page's script reads."""
        roots = self.roots.data(self.places) if self.roots else None
        return {
            "levels": LEVELS,
            "fleet": self.fleet is not None,
            "roots": roots,
            "probes": self.probes.data() if self.probes else None,
            "places": [[visible(place), visible(self.rule_text(place))] for place in self.places.list()],
        }


def as_json(value: Any) -> str:
    """Returns JSON that may stand in a page: ASCII, and no byte that ends or begins a tag."""
    text = json.dumps(value, separators=(",", ":"), ensure_ascii=True)
    return text.replace("<", "\\u003c").replace(">", "\\u003e").replace("&", "\\u0026")


def _sum(text: str) -> str:
    return "sha256-" + base64.b64encode(hashlib.sha256(text.encode()).digest()).decode()


def _part(name: str) -> str:
    with open(os.path.join(TEMPLATES, name), encoding="utf-8") as file:
        return file.read()


def want_jinja() -> None:
    """Raises `Fault` if the package that makes pages is not installed."""
    if importlib.util.find_spec("jinja2") is None:
        raise Fault("the Python package jinja2 is not there: apt-get install python3-jinja2", FAILED)


def rendered(page: Page) -> str:
    """Returns the page's text."""
    want_jinja()
    import jinja2
    import markupsafe

    def shown(value: Any) -> Any:
        return visible(value) if isinstance(value, str) and not hasattr(value, "__html__") else value

    environment = jinja2.Environment(
        loader=jinja2.FileSystemLoader(TEMPLATES),
        autoescape=True,
        undefined=jinja2.StrictUndefined,
        finalize=shown,
        trim_blocks=True,
        lstrip_blocks=True,
    )
    script, style = _part("page.js"), _part("page.css")
    return environment.get_template("page.html").render(
        page=page,
        inputs=page.inputs,
        levels=LEVELS,
        first_alike=first_alike,
        shown_text=shown_text,
        words=VERDICTS,
        script=markupsafe.Markup(script),
        style=markupsafe.Markup(style),
        script_sum=_sum(script),
        style_sum=_sum(style),
        data=markupsafe.Markup(as_json(page.data())),
    )


def write(page: Page, path: str) -> None:
    """Writes the page."""
    text = rendered(page)
    with outputs.replacing(path) as file:
        file.write(text.encode())
