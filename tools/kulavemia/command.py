"""How the commands begin and end: their options, faults, warnings and exit statuses."""

import argparse
import errno
import io
import os
import sys
from collections.abc import Callable, Mapping, Sequence
from typing import NoReturn

from kulavemia.text import visible

DONE = 0
FOUND = 1
WORDS = 2
REFUSED = 3
FAILED = 4
PROGRAM = 5

_NO_ROOM = (errno.ENOSPC, errno.EDQUOT, errno.EFBIG)

MEANINGS = {
    DONE: "done",
    WORDS: "the words of the command line are wrong",
    REFUSED: "an input is refused; its file and line are named where it has them",
    FAILED: "reading or writing failed",
}


class Fault(Exception):
    """Ends a command with a line on standard error, further ones where there are any, and a status."""

    def __init__(self, text: str, status: int = REFUSED, further: Sequence[str] = ()) -> None:
        super().__init__(text)
        self.status = status
        self.further = further


def line_of(fault: Exception) -> str:
    """Returns the line of a fault or of an error of the system."""
    if isinstance(fault, OSError) and fault.filename is not None:
        return f"{os.fsdecode(fault.filename)}: {fault.strerror}"
    return str(fault)


def name() -> str:
    """Returns the name of the running command."""
    return os.path.basename(sys.argv[0])


def called(other: str) -> str:
    """Returns how another of the commands is called: as an installed one where this one is, else by its path here."""
    return f"kulavemia-{other}" if name().startswith("kulavemia-") else f"tools/{other}"


def say(text: str) -> None:
    """Writes a line to standard output."""
    print(visible(text), flush=True)


def tell(text: str) -> None:
    """Writes a line to standard error."""
    print(f"{name()}: {visible(text)}", file=sys.stderr, flush=True)


def warn(text: str) -> None:
    """Writes a warning to standard error."""
    tell(f"warning: {text}")


def plain_words() -> list[str]:
    """Returns the words of the command line, those behind `--` as paths that are no options."""
    words = sys.argv[1:]
    at = words.index("--") if "--" in words else len(words)
    return words[:at] + [word if word == "-" else as_word(word) for word in words[at + 1 :]]


def as_word(path: str) -> str:
    """Returns a path as a word that no program takes for an option."""
    return "./" + path if path.startswith("-") else path


class Parser(argparse.ArgumentParser):
    """A parser whose errors show foreign text by `visible`."""

    def error(self, message: str) -> NoReturn:
        """Writes a usage error to standard error, and ends the process."""
        super().error(visible(message))


def parser(purpose: str, more: Mapping[int, str] | None = None) -> argparse.ArgumentParser:
    """Returns a parser whose help says what the command does and how it ends."""
    meanings = dict(sorted({**MEANINGS, **(more or {})}.items()))
    statuses = "\n".join(f"  {status}  {meaning}" for status, meaning in meanings.items())
    words = Parser(
        description=purpose,
        epilog=f"exit status:\n{statuses}",
        formatter_class=argparse.RawDescriptionHelpFormatter,
    )
    add_version(words)
    return words


def version() -> str:
    """Returns the version, which the file VERSION above the folder of the tools has."""
    tools = os.path.dirname(os.path.dirname(os.path.realpath(__file__)))
    with open(os.path.join(os.path.dirname(tools), "VERSION"), encoding="utf-8") as file:
        return file.read().strip()


def add_version(words: argparse.ArgumentParser) -> None:
    """Adds the option that prints the version."""
    words.add_argument("--version", action="version", version=f"%(prog)s {version()}")


def run(main: Callable[[], int]) -> NoReturn:
    """Runs a command and ends the process with its status."""
    # What is written is its owner's alone, unless the command says otherwise.
    os.umask(0o077)
    _prepare_streams()
    try:
        status = main()
        sys.stdout.flush()
    except Fault as fault:
        for line in (str(fault), *fault.further):
            tell(line)
        status = fault.status
    except BrokenPipeError:
        _drop_output()
        status = FAILED
    except OSError as error:
        tell(_place_of(error) + (error.strerror or str(error)))
        status = FAILED
    except MemoryError:
        tell("out of memory")
        status = FAILED
    except KeyboardInterrupt:
        status = 130
    sys.exit(status)


def _prepare_streams() -> None:
    """Opens the null device for each stream that is closed, and has text written as UTF-8."""
    # A stream that is closed is None here.
    sys.stdin = sys.stdin or open(os.devnull)
    sys.stdout = sys.stdout or open(os.devnull, "w")
    sys.stderr = sys.stderr or open(os.devnull, "w")
    for stream, errors in ((sys.stdout, "surrogateescape"), (sys.stderr, "backslashreplace")):
        if isinstance(stream, io.TextIOWrapper):
            stream.reconfigure(encoding="utf-8", errors=errors)


def _place_of(error: OSError) -> str:
    """Returns the path of an error of the system, with a colon.

    Writers of files name them, so that a full disk without a path is that of standard output.
    """
    if error.filename is not None:
        return f"{os.fsdecode(error.filename)}: "
    if error.errno not in _NO_ROOM:
        return ""
    _drop_output()
    return "standard output: "


def _drop_output() -> None:
    """Drops what standard output does not take, so that the end of the process does not try again."""
    os.dup2(os.open(os.devnull, os.O_WRONLY), sys.stdout.fileno())
