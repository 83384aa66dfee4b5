"""The forms of texts, by docs/SERVE.md, docs/SCRIPT.md and docs/TLCP.md: words, numbers, decimals, parameters, events.

Each reads bytes, and gives None where they aren't of the form, unless it says otherwise.
"""

import re
from urllib.parse import unquote_to_bytes

MOST_WHOLE = 2 ** 60
LONGEST_FORM = 50000
MOST_FIELDS = 64

NAME = re.compile(rb"[A-Za-z0-9_.-]{1,64}")
WHOLE = re.compile(rb"0|[1-9][0-9]*")
DECIMAL = re.compile(rb"([0-9]{1,9})(?:\.([0-9]{1,9}))?")


def is_name(word):
    return NAME.fullmatch(word) is not None


def whole(text, least=0, most=MOST_WHOLE):
    """A number in digits without a leading zero, from least to most."""
    if WHOLE.fullmatch(text) is None or len(text) > 20:
        return None
    number = int(text)
    return number if least <= number <= most else None


def script_number(text, least=0, most=10 ** 18 - 1):
    """A number of a script, which has 18 digits at most."""
    return whole(text, least, most)


def thousandths(text):
    """A decimal of which three digits after the point count, in thousandths."""
    found = DECIMAL.fullmatch(text)
    if found is None:
        return None
    return 1000 * int(found[1]) + int((found[2] or b"")[:3].ljust(3, b"0"))


def printed(number):
    """A number of thousandths with a point and one to three digits after it; `unlimited` for None."""
    if number is None:
        return "unlimited"
    digits = f"{number % 1000:03}".rstrip("0") or "0"
    return f"{number // 1000}.{digits}"


def is_utf8(data):
    try:
        data.decode("utf-8")
        return True
    except UnicodeDecodeError:
        return False


def parameters(text):
    """The parameters of a form text by their names. None where it is too long, a name comes twice, or anything isn't
    UTF-8."""
    if len(text) > LONGEST_FORM:
        return None
    found = {}
    for piece in text.split(b"&"):
        if piece:
            name, _, value = (unquote_to_bytes(part) for part in piece.replace(b"+", b" ").partition(b"="))
            if name in found or not is_utf8(name) or not is_utf8(value):
                return None
            found[name] = value
    return found


def names(text):
    """Names that single spaces divide. An empty text has none."""
    if not text:
        return []
    words = text.split(b" ")
    return None if b"" in words else words


def field_names(text, kind):
    """The fields of an item that is declared with this kind."""
    fields = text.split(b",")
    if len(fields) > MOST_FIELDS or len(set(fields)) < len(fields) or not all(map(is_name, fields)):
        return None
    if kind == b"COMMAND" and not {b"key", b"command"} <= set(fields):
        return None
    return fields


def item(words):
    """An item's name, kind and fields, of the words that declare it."""
    if len(words) != 3 or not is_name(words[0]) or words[1] not in (b"MERGE", b"DISTINCT", b"COMMAND"):
        return None
    fields = field_names(words[2], words[1])
    return None if fields is None else (words[0], words[1], fields)


# Events. A value is None for null, else bytes.


class BadEvent(Exception):
    """The first pair of an event that is refused: `form` for one without `=`, named twice, or not UTF-8; `field` for
    one that names no field of the item."""


def value(text):
    """A value of an event as it is written. Raises BadEvent where it isn't UTF-8."""
    if text == b"#":
        return None
    if text == b"$":
        return b""
    decoded = unquote_to_bytes(text)
    if not is_utf8(decoded):
        raise BadEvent("form")
    return decoded


def event(text, fields):
    """The values by the names of fields that an event gives; `!`, a Clear, is None."""
    if text == b"!":
        return None
    cells = {}
    for pair in text.split(b"&"):
        name, divided, written = pair.partition(b"=")
        if not divided:
            raise BadEvent("form")
        if name not in fields:
            raise BadEvent("field")
        if name in cells:
            raise BadEvent("form")
        cells[name] = value(written)
    return cells
