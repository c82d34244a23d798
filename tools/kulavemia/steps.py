"""The steps of a run in a folder: which of them are done, with what result, and of which inputs.

A run that was cut off continues where its steps are done. The folder's state is a file of JSON.
"""

import json
import os
import secrets
import shutil
from collections.abc import Mapping
from typing import Any

from kulavemia import foreign, outputs
from kulavemia.command import WORDS, Fault

STATE = ".steps.json"
_STATE_CAP = 1 << 28
_AGAIN = "remove it, or name another folder"


def unlike_any() -> str:
    """Returns the sum of an input that cannot be read again: it is that of no other."""
    return secrets.token_hex(16)


class Steps:
    """The steps of a run in a folder over inputs, which are sums by names."""

    def __init__(self, folder: str, inputs: Mapping[str, str]) -> None:
        self.folder = folder
        self.inputs = dict(inputs)
        self.results: dict[str, Any] = {}
        if foreign.exists(os.path.join(folder, STATE), folder):
            self._read()
        elif any(not entry.name.startswith(".") for entry in foreign.entries(folder)):
            raise Fault(f"{folder} is not empty; {_AGAIN}", WORDS)
        self._write()

    def result(self, step: str) -> Any:
        """Returns the result of a step that is done and whose file or folder, of its name, is there, or `None`."""
        return self.results.get(step) if foreign.exists(os.path.join(self.folder, step), self.folder) else None

    def begin(self, step: str) -> str:
        """Returns the path for what a step makes, after removing what was left there."""
        path = os.path.join(self.folder, step)
        if foreign.kind_of(path, self.folder) == foreign.FOLDER:
            shutil.rmtree(path)
        return path

    def end(self, step: str, result: Any) -> None:
        """Notes that a step is done, and its result."""
        self.results[step] = result
        self._write()

    def _read(self) -> None:
        """Takes what an earlier run over these inputs did. Raises `Fault` if it was over others."""
        try:
            state = json.loads(foreign.read(os.path.join(self.folder, STATE), _STATE_CAP, self.folder))
            inputs, results = dict(state["inputs"]), dict(state["results"])
        except (ValueError, TypeError, KeyError, RecursionError):
            raise Fault(f"{os.path.join(self.folder, STATE)}: no state of a run; {_AGAIN}", WORDS) from None
        names = [name for name in {**inputs, **self.inputs} if inputs.get(name) != self.inputs.get(name)]
        if names and results:
            raise Fault(f"{self.folder} is of other inputs ({names[0]} differs); {_AGAIN}", WORDS)
        if not names:
            self.results = results

    def _write(self) -> None:
        state = {"inputs": self.inputs, "results": self.results}
        with outputs.written(os.path.join(self.folder, STATE)) as file:
            file.write(json.dumps(state).encode())
