"""The cautions of `sudo_review` on a file, as warnings: constructs that sudo reads or judges otherwise."""

import os
import subprocess
from collections.abc import Sequence

from kulavemia import review
from kulavemia.command import Fault, as_word
from kulavemia.lint.answers import CAUTION, ERROR, FAILED, REFUSED, RULES, WARNING, Finding, Report
from kulavemia.policy import files_of

_FOUND = (0, 5)


def with_cautions(report: Report, program: str, options: Sequence[str], strict: bool, hostname: str = "") -> Report:
    """Returns a report of a file with the cautions on it behind its findings, as the program finds them with these options.

    The file is read as on a host of this name, which the options name too. Cautions change no status, unless they are to count
    as errors do. Of a file that cannot be read there are none.
    """
    if report.status == FAILED:
        return report
    try:
        found = _cautions(program, report.path, options, hostname)
    except (Fault, OSError) as fault:
        finding = Finding(report.path, None, None, ERROR, "no-answer", f"no cautions: {fault}")
        return Report(report.path, FAILED, (*report.findings, finding))
    status = max(report.status, REFUSED) if strict and found else report.status
    return Report(report.path, status, (*report.findings, *found))


def _cautions(program: str, path: str, options: Sequence[str], hostname: str) -> list[Finding]:
    """Returns the cautions on a file, none if the program refuses it. Raises `Fault` if it gives no answer."""
    word = as_word(path)
    words = [program, review.CAUTIONS, *options, "--", word]
    done = subprocess.run(words, stdin=subprocess.DEVNULL, capture_output=True, check=False)
    if done.returncode == REFUSED:
        return []
    if done.returncode not in _FOUND:
        raise Fault(os.fsdecode(done.stderr).strip() or f"{program} ended with status {done.returncode}")
    text = done.stdout.decode("utf-8", "surrogateescape")
    return [_finding(caution) for caution in review.cautions_of(text, list(files_of(word, hostname)), program)]


def _finding(caution: review.Caution) -> Finding:
    path, _, line = caution.place.rpartition(":")
    rule = f"{CAUTION}-{caution.kind}"
    text = f"caution: {caution.kind}: {caution.text}"
    return Finding(path, int(line), None, WARNING, rule if rule in RULES else CAUTION, text)
