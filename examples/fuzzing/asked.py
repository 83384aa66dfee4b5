"""Requests of TLCP as they are read, by docs/TLCP.md ("Requests"): which are malformed, and what the others ask for."""

import re
from dataclasses import dataclass, field
from typing import Optional

from forms import names, parameters, thousandths, whole

REQUEST_ID = re.compile(rb"[A-Za-z0-9]{1,32}")
MODES = (b"RAW", b"MERGE", b"DISTINCT", b"COMMAND")
MOST_SUB = 999999999
MESSAGES = {
    2: "Unknown adapter set", 4: "Recovery not possible", 8: "Too many sessions", 19: "Unknown subscription",
    20: "Unknown session", 21: "Bad group", 23: "Bad schema", 24: "Mode not allowed", 31: "Destroyed by request",
    60: "Protocol version not supported", 65: "Malformed request", 70: "Too many lines waiting",
    71: "Too many subscriptions", 72: "Subscription id in use",
}


class Malformed(Exception):
    """A request that is refused with 65."""


@dataclass
class Asked:
    """A request: its name; of a control also its op, its id, and the session that it names: a number, 0 for a name that
    no session can have, or None where it names none. `values` has its other parameters as they are read."""

    name: str
    request: Optional[str] = None
    op: Optional[str] = None
    session: Optional[int] = None
    values: dict = field(default_factory=dict)


def read(link, name, text):
    """What a request asks for over a link, `ws` or `http`. Its op is `malformed` where it is refused with 65."""
    return read_found(link, name, parameters(text))


def read_found(link, name, found):
    """The same of parameters that were found in a text; None where they weren't."""
    known = {b"create_session": create, b"bind_session": bind, b"control": control, b"wsok": wsok}.get(name)
    asked = Asked(name.decode("latin-1") if known else "unknown")
    try:
        if found is None or known is None:
            raise Malformed
        known(asked, link, found)
    except Malformed:
        asked.op = "malformed"
    return asked


def refused(asked, code):
    """The line that refuses a request with a code."""
    if asked.name in ("create_session", "bind_session"):
        return f"CONERR,{code},{MESSAGES[code]}"
    if asked.request is not None:
        return f"REQERR,{asked.request},{code},{MESSAGES[code]}"
    return f"ERROR,{code},{MESSAGES[code]}"


# The parameters of each request, in the order in which they are read


def create(asked, link, found):
    not_polling(found)
    asked.values["set"] = found.get(b"LS_adapter_set")
    asked.values["bandwidth"] = bandwidth(found.get(b"LS_requested_max_bandwidth", b"unlimited"))
    stream(asked, link, found)


def bind(asked, link, found):
    asked.session = session(needed(found, b"LS_session"))
    not_polling(found)
    count = found.get(b"LS_recovery_from")
    asked.values["count"] = None if count is None else there(whole(count))
    stream(asked, link, found)


def stream(asked, link, found):
    """What create_session and bind_session say of their stream: its keep-alive in ms, and its length in bytes."""
    keepalive = there(whole(found.get(b"LS_keepalive_millis", b"5000")))
    asked.values["keepalive"] = min(max(keepalive, 1000), 30000)
    asked.values["length"] = None
    if link == "http":
        asked.values["length"] = max(there(whole(found.get(b"LS_content_length", b"50000000"))), 1000)


def control(asked, link, found):
    request = needed(found, b"LS_reqId")
    if REQUEST_ID.fullmatch(request) is None:
        raise Malformed
    asked.request = request.decode()
    if link == "http" or b"LS_session" in found:
        asked.session = session(needed(found, b"LS_session"))
    op = needed(found, b"LS_op")
    if op not in OPS:
        raise Malformed
    OPS[op](asked, found)
    asked.op = op.decode()


def add(asked, found):
    values = asked.values
    values["sub"] = subscription(found)
    values["mode"] = needed(found, b"LS_mode")
    if values["mode"] not in MODES:
        raise Malformed
    values["group"] = there(names(needed(found, b"LS_group")))
    values["schema"] = there(names(needed(found, b"LS_schema")))
    if found.get(b"LS_selector"):
        raise Malformed
    values["snapshot"] = snapshot(found.get(b"LS_snapshot", b"false"), values["mode"])
    values["buffer"] = buffer(found.get(b"LS_requested_buffer_size"))
    values["frequency"] = frequency(found.get(b"LS_requested_max_frequency", b"unlimited"))


def delete(asked, found):
    asked.values["sub"] = subscription(found)


def reconf(asked, found):
    asked.values["sub"] = subscription(found)
    asked.values["frequency"] = frequency(needed(found, b"LS_requested_max_frequency"))


def constrain(asked, found):
    asked.values["bandwidth"] = bandwidth(needed(found, b"LS_requested_max_bandwidth"))


def nothing(_asked, _found):
    pass


OPS = {b"add": add, b"delete": delete, b"reconf": reconf, b"constrain": constrain, b"force_rebind": nothing,
       b"destroy": nothing}


def wsok(_asked, link, _found):
    if link == "http":
        raise Malformed


# Values


def there(value):
    if value is None:
        raise Malformed
    return value


def needed(found, name):
    return there(found.get(name))


def not_polling(found):
    if found.get(b"LS_polling") == b"true":
        raise Malformed


def session(text):
    """The number of a session by its name; 0 for a text that is no session's name."""
    number = whole(text[1:]) if text.startswith(b"S") else None
    return number or 0


def subscription(found):
    return there(whole(needed(found, b"LS_subId"), 1, MOST_SUB))


def bandwidth(text):
    """In thousandths of kbit/s; None is unlimited."""
    if text == b"unlimited":
        return None
    return thousandths(text) or there(None)


def frequency(text):
    """In thousandths of an update per second; None is unlimited."""
    return None if text == b"unfiltered" else bandwidth(text)


def snapshot(text, mode):
    """How many rows are asked for; 32 are all there are."""
    number = {b"true": 32, b"false": 0}.get(text)
    if number is None:
        number = there(whole(text))
        if mode != b"DISTINCT" and number > 0:
            number = 32
    return min(number, 32)


def buffer(text):
    """How many rows a buffer is to have; None where that isn't said."""
    if text is None:
        return None
    if text == b"unlimited":
        return 256
    return min(there(whole(text, 1)), 256)
