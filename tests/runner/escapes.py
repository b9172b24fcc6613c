"""The escapes of case files, for line ends, bytes that don't print and long repetitions.

`\\n` is a line end, `\\\\` a backslash, `\\xHH` the byte of that number, `\\{N TEXT}` N times TEXT.
"""

import re

_ESCAPE = re.compile(r"\\(?:(?P<plain>[\\n])|x(?P<byte>[0-9a-f]{2})|\{(?P<times>[0-9]+) (?P<text>[^}]*)\}|)")


class BadEscape(ValueError):
    """A backslash that begins none of the escapes."""


def read(text: str) -> bytes:
    """The bytes that an escaped text stands for."""

    def one(match: re.Match[str]) -> str:
        if match["plain"]:
            return "\n" if match["plain"] == "n" else "\\"
        if match["byte"]:
            return chr(int(match["byte"], 16))
        if match["times"]:
            return _ESCAPE.sub(one, match["text"]) * int(match["times"])
        raise BadEscape(f"a backslash before {text[match.end():match.end() + 4]!r}")

    try:
        return _ESCAPE.sub(one, text).encode("latin-1")
    except UnicodeEncodeError:
        raise BadEscape("a character that is no byte; write its bytes as \\xHH") from None


def shown(data: bytes) -> str:
    """The escaped text of bytes, on one line."""
    text = data.decode("latin-1").replace("\\", "\\\\").replace("\n", "\\n")
    return "".join(c if " " <= c <= "~" else f"\\x{ord(c):02x}" for c in text)
