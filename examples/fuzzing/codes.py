"""Why a request that is well formed is refused: the codes in their order, by docs/TLCP.md ("Codes").

A number that isn't known for sure is a pair: the least and the greatest that it may be. So several codes may be
allowed.
"""

MOST_NAMES = 64
MOST_WAITING = 512
MOST_SUBS = 256
MOST_SLOTS = 4096
MOST_SESSIONS = 1024


def is_above(number, most):
    """Whether a number is above another one; None where that isn't known."""
    least, greatest = number
    if least > most:
        return True
    return False if greatest <= most else None


def plus(number, more):
    return number[0] + more, number[1] + more


def allowed(conditions):
    """The codes that may be answered, by conditions in their order, each of which holds, doesn't, or may. 0 is that the
    request is done."""
    codes = set()
    for code, holds in conditions:
        if holds is not False:
            codes.add(code)
        if holds:
            return codes
    return codes | {0}


def of_request(world, session, asked):
    """The conditions of a request on a session, which is None where it isn't known. `world` has the set's name, the
    items by name, and how many sessions and slots there are."""
    if asked.op == "malformed":
        yield 65, True
    elif asked.name == "create_session":
        yield 2, asked.values["set"] not in (None, world.set_name)
        yield 8, is_above(plus(world.live(), 1), MOST_SESSIONS)
    elif asked.name != "wsok":
        yield 20, session is None
        if asked.name == "bind_session":
            yield 4, session.lacks(asked.values["count"])
        else:
            yield from of_control(world, session, asked)


def of_control(world, session, asked):
    if asked.op == "add":
        yield from of_add(world, session, asked.values)
    elif asked.op in ("delete", "reconf"):
        yield 19, asked.values["sub"] not in session.subs
        yield 70, is_above(plus(session.unsent(), 1), MOST_WAITING)
    elif asked.op == "constrain":
        yield 70, is_above(plus(session.owes(), 1), MOST_WAITING)


def of_add(world, session, values):
    yield 72, values["sub"] in session.subs
    yield 70, is_above(plus(session.unsent(), 2), MOST_WAITING)
    group = [world.items.get(name) for name in values["group"]]
    yield 21, not is_list(values["group"]) or None in group
    yield 24, values["mode"] != b"RAW" and any(item.kind != values["mode"] for item in group)
    yield 23, not is_list(values["schema"]) or lacks_field(group, values)
    yield 71, len(session.subs) == MOST_SUBS or is_above(plus(world.slots(), len(group)), MOST_SLOTS)


def is_list(names):
    return 0 < len(names) <= MOST_NAMES and len(set(names)) == len(names)


def lacks_field(group, values):
    """Whether a schema names a field that some item lacks, or lacks what mode COMMAND needs."""
    schema = set(values["schema"])
    if values["mode"] == b"COMMAND" and not {b"key", b"command"} <= schema:
        return True
    return any(not schema <= set(item.fields) for item in group)
