"""The sums of what a run made, and a signature on them that ssh-keygen makes."""

import contextlib
import os
import shutil
import subprocess
from collections.abc import Sequence

from kulavemia import foreign, outputs
from kulavemia.command import FAILED, Fault, as_word
from kulavemia.sums import file_of

SUMS = "review.sha256"
SIGNATURE = "review.sha256.sig"
# What the signature is for, as ssh-keygen -Y verify -n wants it again.
NAMESPACE = "kulavemia-review"
KEYGEN = "ssh-keygen"
_BACKSLASH = "\\"


def want_keygen() -> str:
    """Returns the path of ssh-keygen. Raises `Fault` if it is not there."""
    found = shutil.which(KEYGEN)
    if found is None:
        raise Fault(f"the command {KEYGEN} is not there: apt-get install openssh-client", FAILED)
    return found


def write_sums(folder: str, names: Sequence[str]) -> bytes:
    """Writes the sums of files of a folder, as `sha256sum -c` reads them, and returns the text."""
    found = [(file_of(os.path.join(folder, name), foreign.TABLE_CAP, folder).sum, name) for name in names]
    text = "".join(f"{_line(digest, name)}\n" for digest, name in found).encode("utf-8", "surrogateescape")
    with outputs.written(os.path.join(folder, SUMS)) as file:
        file.write(text)
    return text


def _line(digest: str, name: str) -> str:
    """Returns a line of sums; one whose name has a backslash begins with one, and has each twice."""
    return f"\\{digest}  {name.replace(_BACKSLASH, 2 * _BACKSLASH)}" if _BACKSLASH in name else f"{digest}  {name}"


def write_signature(folder: str, sums: bytes, key: str | None) -> None:
    """Signs the sums of a folder, or removes an earlier signature where there is no key."""
    path = os.path.join(folder, SIGNATURE)
    if key is None:
        with contextlib.suppress(FileNotFoundError):
            os.unlink(path)
        return
    words = [want_keygen(), "-Y", "sign", "-n", NAMESPACE, "-f", as_word(key)]
    done = subprocess.run(words, input=sums, stdout=subprocess.PIPE, stderr=subprocess.PIPE, check=False)
    if done.returncode != 0:
        said = os.fsdecode(done.stderr).strip().rpartition("\n")[2]
        raise Fault(f"{KEYGEN}: {said or f'it ended with status {done.returncode}'}", FAILED)
    with outputs.written(path) as file:
        file.write(done.stdout)
