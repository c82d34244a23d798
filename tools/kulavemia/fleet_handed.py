"""Files that every worker of a fleet receives once: the program, the files that hosts share, and the code that judges.

A worker gets this module's code by value, so that beside Dask and the same version of Python it needs nothing.
"""

import importlib
import os
import shutil
import sys
import threading
import zlib
from collections.abc import Mapping
from types import ModuleType
from typing import Any

PACKAGE = "kulavemia"
CODE = "code"
PROGRAM_FILE = "program"


def packed(data: bytes) -> bytes:
    """Returns bytes as they travel."""
    return zlib.compress(data, 1)


def unpacked(data: bytes) -> bytes:
    """Returns the bytes that were packed."""
    return zlib.decompress(data)


def write_below(folder: str, files: Mapping[str, bytes]) -> None:
    """Writes packed files below a folder."""
    for name, data in files.items():
        path = os.path.join(folder, name)
        os.makedirs(os.path.dirname(path), exist_ok=True)
        with open(path, "wb") as file:
            file.write(unpacked(data))


class Handed:
    """Files that a worker keeps. Dask hands them over as a plugin of the worker, to later workers too.

    Nothing is written before a shard wants it, so that a worker whose disk is full is found out by a shard.
    """

    def __init__(self, name: str, files: Mapping[str, bytes]) -> None:
        self.name = name
        self.files = files

    def setup(self, worker: Any) -> None:
        """Begins on a worker."""
        self.begin(worker.local_directory)

    def teardown(self, worker: Any) -> None:
        """Ends on a worker."""
        shutil.rmtree(self.place, ignore_errors=True)

    def begin(self, scratch: str) -> None:
        """Sets the folder below which the files are kept."""
        self.scratch = scratch
        self.place = os.path.join(scratch, self.name)
        self.lock = threading.Lock()
        self.code: ModuleType | None = None

    def folder(self) -> str:
        """Returns the folder that has the files."""
        with self.lock:
            if not os.path.isdir(self.place):
                fresh = f"{self.place}.{os.getpid()}"
                try:
                    write_below(fresh, self.files)
                    os.chmod(os.path.join(fresh, PROGRAM_FILE), 0o755)
                    os.rename(fresh, self.place)
                finally:
                    shutil.rmtree(fresh, ignore_errors=True)
            return self.place

    def judge(self, job: tuple[Any, ...]) -> tuple[Any, ...]:
        """Returns the result of a shard, by the code that was handed over."""
        try:
            folder = self.folder()
            code = self._loaded(os.path.join(folder, CODE))
        except OSError as error:
            return "unfit", error.strerror or str(error)
        return tuple(code.judged(code.Job(*job), folder, self.scratch))

    def _loaded(self, place: str) -> ModuleType:
        """Returns the code that judges a shard: this one, whatever other version the worker's process has met."""
        with self.lock:
            if self.code is None:
                for name in [name for name in sys.modules if name.partition(".")[0] == PACKAGE]:
                    del sys.modules[name]
                sys.path.insert(0, place)
                try:
                    importlib.invalidate_caches()
                    self.code = importlib.import_module(f"{PACKAGE}.fleet_work")
                finally:
                    sys.path.remove(place)
            return self.code


def judge(job: tuple[Any, ...], handed: str) -> tuple[str, tuple[Any, ...]]:
    """Returns the address of the worker of Dask that runs this, and the result of a shard on it."""
    from distributed import get_worker

    worker = get_worker()
    plugin: Any = worker.plugins.get(handed)
    if plugin is None:
        return worker.address, ("unfit", "the program was not handed to the worker")
    return worker.address, plugin.judge(job)
