"""Text that was written by others, made fit to be shown."""

import re

_OPENING = "⟨"
_WRITTEN = re.compile(r"⟨(?:U\+([0-9A-F]{4,6})|byte ([0-9A-F]{2}))⟩")
_BYTES = 0xDC00
# Numbers of no character; those of bytes that are no UTF-8 are written as bytes.
_HALVES = range(0xD800, 0xE000)


def visible_character(character: str) -> str:
    """Returns a character as it is shown: by its number where it has no shape of its own, or is no text.

    The bracket that a number stands in is shown by its own, so that no two texts are shown alike.
    """
    code = ord(character)
    if character.isprintable() and character != _OPENING:
        return character
    if 0xDC80 <= code <= 0xDCFF:
        return f"⟨byte {code - _BYTES:02X}⟩"
    return f"⟨U+{code:04X}⟩"


def visible(text: str) -> str:
    """Returns the text with each character that has no shape of its own written by its number.

    These are controls, marks that turn or join letters, separators of lines, blanks but the plain one, numbers that are
    no character yet, and bytes that are no UTF-8.
    """
    return text if is_visible(text) else "".join(map(visible_character, text))


def is_visible(text: str) -> bool:
    """Returns whether a text is shown as it is."""
    return text.isprintable() and _OPENING not in text


def exact(text: str) -> str:
    """Returns the text that `visible` shows so. What it would not have written stays as it is."""
    return _WRITTEN.sub(_character, text) if _OPENING in text else text


def _character(match: re.Match[str]) -> str:
    """Returns the character that is written by its number, or the text that stands there."""
    code = int(match[1], 16) if match[1] else _BYTES + int(match[2], 16)
    if code > 0x10FFFF or match[1] and code in _HALVES:
        return match[0]
    return chr(code) if visible_character(chr(code)) == match[0] else match[0]
