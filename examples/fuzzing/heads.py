"""Heads of HTTP requests with their bodies: what is answered, by docs/SERVE.md ("Clients over HTTP")."""

import base64
import binascii
import hashlib
import re
import time
from concurrent.futures import ThreadPoolExecutor
from dataclasses import dataclass

import asked as requests
from forms import is_utf8, parameters, printed
from tlcp import WEBSOCKET_TEXT
from trying import Differs, HANG, all_of, answer_to, connected, receive, send, serving

CASES_OF_UNIT = 500
AT_ONCE = 16
CONFIG = "set SET\nq MERGE a,b\n"
LONGEST_HEAD = 8192
MOST_FIELDS = 64
LONGEST_BODY = 50000
REASONS = {400: "Bad Request", 404: "Not Found", 405: "Method Not Allowed", 413: "Content Too Large"}
TOKEN = rb"[A-Za-z0-9!#$%&'*+.^_`|~-]+"
LINE_END = rb"\r?\n"
# A method, a target and a version, after empty lines; a field; and the end of a head.
START = re.compile(rb"(?:\r?\n)*(" + TOKEN + rb") ([\x21-\x7e\x80-\xff]+) HTTP/1\.[01]" + LINE_END)
FIELD = re.compile(rb"(" + TOKEN + rb"):([\t\x20-\x7e\x80-\xff]*)" + LINE_END)
END = re.compile(LINE_END)
# What may still become a head: a beginning of a first line, and of a field line.
VERSION_BEGUN = rb"(?:H|HT|HTT|HTTP|HTTP/|HTTP/1|HTTP/1\.|HTTP/1\.[01]\r?)?"
TARGET = rb"[\x21-\x7e\x80-\xff]+"
START_BEGUN = re.compile(rb"(?:\r?\n)*(?:\r|" + TOKEN + rb"(?: (?:" + TARGET + rb"(?: " + VERSION_BEGUN + rb")?)?)?)?")
FIELD_BEGUN = re.compile(rb"\r|" + TOKEN + rb"(?::[\t\x20-\x7e\x80-\xff]*\r?)?|")
TARGET_BEGUN = re.compile(rb"(?:\r?\n)*" + TOKEN + rb" ([\x21-\x7e\x80-\xff]*)")
PATHS = {b"/lightstreamer": b"GET", b"/lightstreamer/create_session.txt": b"POST",
         b"/lightstreamer/bind_session.txt": b"POST", b"/lightstreamer/control.txt": b"POST"}
NO_SESSION = 999


# The rules


@dataclass
class Head:
    method: bytes
    target: bytes
    fields: list
    length: int


def head_of(data):
    """The head at the front of some bytes; None where none is there yet; 400 where none can come; `maybe` where either
    is right."""
    data = data[:LONGEST_HEAD]
    start = START.match(data)
    if start is None:
        return begun(data, START_BEGUN)
    if not is_utf8(start[2]):
        return 400
    at, fields = start.end(), []
    while (end := END.match(data, at)) is None:
        field = FIELD.match(data, at)
        if field is None:
            waits = begun(data, FIELD_BEGUN, at)
            return "maybe" if waits is None and at < len(data) and len(fields) >= MOST_FIELDS else waits
        fields.append((field[1].lower(), field[2].strip(b" \t")))
        at = field.end()
    return 400 if len(fields) > MOST_FIELDS else Head(start[1], start[2], fields, end.end())


def begun(data, form, at=0):
    """None where the bytes are a beginning of the form; 400 where they aren't, or are as many as a head may have."""
    if len(data) == LONGEST_HEAD or form.fullmatch(data, at) is None:
        return 400
    target = TARGET_BEGUN.fullmatch(data, at) if at == 0 else None
    if target is not None:
        return None if may_become_utf8(target[1]) else "maybe"
    before = TARGET_BEGUN.match(data) if at == 0 else None
    return 400 if before is not None and not is_utf8(before[1]) else None


def may_become_utf8(data):
    try:
        data.decode("utf-8")
        return True
    except UnicodeDecodeError as error:
        return error.reason == "unexpected end of data"


def values_of(head, name):
    return [value for field, value in head.fields if field == name]


def lists(head, name, token, same_case=False):
    """Whether the lists of the fields with this name have a token."""
    elements = [element.strip(b" \t") for value in values_of(head, name) for element in value.split(b",")]
    return token in (elements if same_case else [element.lower() for element in elements])


def is_key(text):
    """Whether a text is the base64 of 16 bytes, in its one spelling."""
    try:
        data = base64.b64decode(text, validate=True)
    except binascii.Error:
        return False
    return len(data) == 16 and base64.b64encode(data) == text


def key_of(head):
    """The key of a handshake that is whole, or None."""
    keys = values_of(head, b"sec-websocket-key")
    if len(keys) != 1 or not is_key(keys[0]):
        return None
    asks = (lists(head, b"upgrade", b"websocket") and lists(head, b"connection", b"upgrade")
            and values_of(head, b"sec-websocket-version") == [b"13"]
            and lists(head, b"sec-websocket-protocol", b"TLCP-2.1.0.lightstreamer.com", same_case=True))
    return keys[0] if asks else None


def refusal(status):
    return f"HTTP/1.1 {status} {REASONS[status]}\r\nContent-Length: 0\r\nConnection: close\r\n\r\n".encode()


def answer(lines):
    """The answer that has these lines."""
    body = "".join(line + "\r\n" for line in lines)
    return ("HTTP/1.1 200 OK\r\nContent-Type: text/plain; charset=utf-8\r\nCache-Control: no-store\r\n"
            f"Content-Length: {len(body)}\r\nConnection: close\r\n\r\n{body}").encode()


STREAM_HEAD = (b"HTTP/1.1 200 OK\r\nContent-Type: text/plain; charset=utf-8\r\nCache-Control: no-store\r\n"
               b"Connection: close\r\n\r\n")


def upgrade_reply(key):
    accept = base64.b64encode(hashlib.sha1(key + WEBSOCKET_TEXT).digest())
    return (b"HTTP/1.1 101 Switching Protocols\r\nUpgrade: websocket\r\nConnection: Upgrade\r\nSec-WebSocket-Accept: "
            + accept + b"\r\nSec-WebSocket-Protocol: TLCP-2.1.0.lightstreamer.com\r\n\r\n")


def body_length(head):
    """The length of a body, or None where it isn't said once, or another coding is."""
    lengths = values_of(head, b"content-length")
    if values_of(head, b"transfer-encoding") or len(lengths) != 1 or re.fullmatch(rb"[0-9]{1,18}", lengths[0]) is None:
        return None
    return int(lengths[0])


def outcomes(data):
    """What may be answered to these bytes, after which the input ends: texts, or a request that opens a stream. And a
    word for it."""
    head = head_of(data)
    if head is None:
        return [b""], "nothing"
    if head in (400, "maybe"):
        return [refusal(400)] + ([b""] if head == "maybe" else []), "400"
    path, _, query = head.target.partition(b"?")
    if path not in PATHS:
        return [refusal(404)], "404"
    if head.method != PATHS[path]:
        return [refusal(405)], "405"
    if path == b"/lightstreamer":
        key = key_of(head)
        return ([refusal(400)], "400") if key is None else ([upgrade_reply(key)], "101")
    length = body_length(head)
    if length is None:
        return [refusal(400)], "400"
    if length > LONGEST_BODY:
        return [refusal(413)], "413"
    body = data[head.length:head.length + length]
    return ([b""], "nothing") if len(body) < length else replies(path, query, body)


def replies(path, query, body):
    """What is answered to a whole request."""
    name = path[len(b"/lightstreamer/"):-len(b".txt")]
    opens = name != b"control"
    if (parameters(query) or {}).get(b"LS_protocol") != b"TLCP-2.1.0":
        return [answer([f"{'CONERR' if opens else 'ERROR'},60,{requests.MESSAGES[60]}"])], "code 60"
    if opens:
        asked = requests.read("http", name, without_end(body))
        if asked.op == "malformed":
            return [answer([requests.refused(asked, 65)])], "code 65"
        if asked.name == "bind_session":
            return [answer([requests.refused(asked, 20)])], "code 20"
        if asked.values["set"] not in (None, b"SET"):
            return [answer([requests.refused(asked, 2)])], "code 2"
        return asked, "streams"
    return [answer([control(line) for line in lines_in(body) if line])], "answers"


def control(line):
    """The answer to a control request on no session that is there."""
    asked = requests.read("http", b"control", line)
    return requests.refused(asked, 65 if asked.op == "malformed" else 20)


def without_end(text):
    """A text without the CR LF or LF at its end."""
    return text.removesuffix(b"\n").removesuffix(b"\r") if text.endswith(b"\n") else text


def lines_in(body):
    """The lines of a body, without the CR LF or LF after each; the last one has none."""
    pieces = body.split(b"\n")
    return [without_end(piece + b"\n") for piece in pieces[:-1]] + pieces[-1:]


# What is drawn

OPS = [b"delete", b"reconf", b"constrain", b"force_rebind", b"destroy"]
METHODS = {b"POST": 80, b"GET": 10, b"HEAD": 1, b"post": 1, b"PO ST": 1, b"": 1, b"OPTIONS": 1, b"P\xc3\xa9": 1}
TARGETS = [b"/lightstreamer/create_session.txt", b"/lightstreamer/bind_session.txt", b"/lightstreamer/control.txt",
           b"/lightstreamer/control.txt"]
OTHER_TARGETS = [b"/lightstreamer", b"/", b"*", b"/lightstreamer/", b"/lightstreamer/msg.txt",
                 b"/lightstreamer/Control.txt", b"/lightstreamer/control.txt/", b"//lightstreamer",
                 b"/lightstreamer/control.txt#a", b"http://localhost/lightstreamer/control.txt",
                 b"/lightstreamer/%63ontrol.txt", b"/lightstreamer/wsok.txt", b"/lightstreamer/../lightstreamer",
                 "/é".encode(), b"/\xff", b"/\xc3", b"/\x7f"]
QUERIES = {b"?LS_protocol=TLCP-2.1.0": 80, b"": 3, b"?": 1, b"?LS_protocol=TLCP-2.2.0": 2,
           b"?ls_protocol=TLCP-2.1.0": 1, b"?LS_protocol=TLCP-2.1.0&LS_protocol=TLCP-2.1.0": 2,
           b"?a=1&LS_protocol=TLCP%2D2.1.0": 2, b"?a&a&LS_protocol=TLCP-2.1.0": 1, b"?LS_protocol=TLCP-2.1.0&a=%FF": 1,
           b"?LS%5Fprotocol=TLCP-2.1.0&&": 1, b"??LS_protocol=TLCP-2.1.0": 1, b"?LS_protocol=TLCP-2.1.0+": 1,
           b"?LS_protocol=TLCP-2.1.0?": 1}
VERSIONS = {b"HTTP/1.1": 90, b"HTTP/1.0": 6, b"HTTP/1.2": 1, b"HTTP/2.0": 1, b"http/1.1": 1, b"HTTP/1.1 ": 1,
            b"HTTP/1": 1}
OTHER_FIELDS = [b"Host: localhost", b"Origin: http://evil", b"Expect: 100-continue", b"Connection: keep-alive", b"X:",
                b"X: \t", b"X: a\tb", b"X :a", b" X: a", b"X: \xff", b"X: \x01", b"X: \x7f", b"\xc3\xa9: a", b"X",
                b": a", b"X: a\rb", b"Content-Type: text/plain", b"!#$%&'*+-.^_`|~: a"]
LENGTHS = [b"", b"x", b"-1", b"+1", b"1 1", b"1,1", b"0x1", b"1" * 18, b"1" * 19, b"50000", b"50001", b"0" * 17 + b"1",
           b"0" * 18 + b"1"]
KEYS = [b"dGhlIHNhbXBsZSBub25jZQ==", b"dGhlIHNhbXBsZSBub25jZQ", b"dGhlIHNhbXBsZSBub25jZR==", b"dGhlIHNhbXBsZSBub25jZQ=",
        b"", b"dGhlIHNhbXBsZSBub25jZS4h", b"!" * 24, b"AAAAAAAAAAAAAAAAAAAAAA==", b"AAAAAAAAAAAAAAAAAAAAAA=A",
        b"_" * 22 + b"=="]


# For each field of a handshake: good ones, and bad ones.
UPGRADE_FIELDS = [
    ([b"Upgrade: websocket", b"upgrade: WebSocket", b"Upgrade: h2c, websocket"], [b"Upgrade: websocket/13"]),
    ([b"Connection: Upgrade", b"Connection: keep-alive, Upgrade", b"connection:upgrade,"], [b"Connection: close"]),
    ([b"Sec-WebSocket-Version: 13", b"sec-websocket-version:\t13 "],
     [b"Sec-WebSocket-Version: " + version for version in (b"12", b"13, 8", b"013")]),
    ([b"Sec-WebSocket-Key: " + KEYS[0], b"SEC-WEBSOCKET-KEY:" + KEYS[7]],
     [b"Sec-WebSocket-Key: " + key for key in KEYS]),
    ([b"Sec-WebSocket-Protocol: TLCP-2.1.0.lightstreamer.com",
      b"Sec-WebSocket-Protocol: a, TLCP-2.1.0.lightstreamer.com ,b"],
     [b"Sec-WebSocket-Protocol: tlcp-2.1.0.lightstreamer.com", b"Sec-WebSocket-Protocol:"])]


def upgrade_fields(draw):
    """The fields of a handshake, perhaps with a fault."""
    fields = [draw.choice(good * 5 + bad) for good, bad in UPGRADE_FIELDS]
    if draw.chance(0.1):
        del fields[draw.randrange(len(fields))]
    if draw.chance(0.1):
        fields.append(draw.choice(fields))
    draw.shuffle(fields)
    return fields


def length_fields(draw, length):
    """The field that says a body's length, perhaps with a fault."""
    fields = [b"Content-Length: %d" % length]
    if draw.chance(0.12):
        other = max(0, length + draw.choice([-1, 1, 5]))
        fields = draw.choice([[], fields * 2, [b"Content-Length: " + draw.choice(LENGTHS)],
                              [b"content-length:%d\t" % length], [b"Content-Length: %d" % other],
                              [b"Transfer-Encoding: chunked"], fields + [b"Transfer-Encoding:"]])
    return fields


class Facts:
    """What requests that are drawn may name: a session that isn't there."""

    link, set_name = "http", b"none"

    class items(dict):
        """No items: each request is refused before they are looked for."""

    def __init__(self, draw):
        self.draw = draw

    def session(self):
        return b"S%d" % (NO_SESSION + self.draw.randrange(3))

    def sub(self):
        return self.draw.randint(1, 3)

    def count(self):
        return b"0"


def drawn_body(draw, target):
    """A body for a target."""
    facts = Facts(draw)
    end = draw.choice([b"", b"\n", b"\r\n"])
    if b"control" in target:
        ops = draw.choices(OPS, k=draw.choice([0, 1, 1, 2, 5]))
        texts = [draw.form(draw.control(facts, op, b"r%d" % number)) for number, op in enumerate(ops)]
        if draw.chance(0.01):
            texts.append(b"x=" + b"y" * (LONGEST_BODY - 2 - len(b"\n".join(texts)) - draw.randint(0, 2)))
        return draw.choice([b"\n", b"\r\n", b"\n\n"]).join(texts) + end
    pairs = draw.opening(facts, b"bind_session" if b"bind" in target else b"create_session")
    if b"create" in target and draw.chance(0.85):
        pairs[b"LS_adapter_set"] = b"none"
    return draw.form(pairs) + end


def drawn(draw):
    """A head with a body, most of the time one with a fault at most."""
    target = draw.choice(TARGETS if draw.chance(0.85) else OTHER_TARGETS)
    upgrades = draw.chance(0.15)
    if upgrades:
        target = b"/lightstreamer" if draw.chance(0.9) else target
        method, body, fields = b"GET" if draw.chance(0.9) else draw.by_weight(METHODS), b"", upgrade_fields(draw)
    else:
        method, body = draw.by_weight(METHODS), drawn_body(draw, target)
        fields = length_fields(draw, len(body))
    if draw.chance(0.7):
        fields.insert(draw.randint(0, len(fields)), b"Host: localhost:8080")
    if draw.chance(0.12):
        fields += draw.sample(OTHER_FIELDS, draw.randint(1, 3))
    if draw.chance(0.04):
        fields[0:0] = [b"X-%d: a" % number for number in range(draw.choice([60, 61, 62, 63, 64, 65, 66]) - len(fields))]
    line_end = draw.choice([b"\r\n"] * 8 + [b"\n"])
    start = b" ".join([method, target + draw.by_weight(QUERIES), draw.by_weight(VERSIONS)])
    if draw.chance(0.03):
        start = draw.choice([b"\n", b"\r\n", b"\r\n\n", b"\r", b" "]) + start
    head = line_end.join([start] + fields) + 2 * line_end
    if draw.chance(0.03):
        pad = draw.choice([8190, 8191, 8192, 8193, 9000]) - len(head)
        head = head[:-len(line_end)] + b"X: " + b"p" * (pad - 3 - len(line_end)) + 2 * line_end if pad > 5 else head
    if draw.chance(0.2):
        head = draw.mutated(head)
    data = head + body
    if draw.chance(0.05):
        data = data[:draw.randint(0, len(data))]
    return data + b"more" if draw.chance(0.02) else data


# Trying


def destroy(port, session, data):
    """Destroys a session, so that not too many are there."""
    body = f"LS_reqId=d&LS_session={session}&LS_op=destroy"
    head = f"POST /lightstreamer/control.txt?LS_protocol=TLCP-2.1.0 HTTP/1.1\r\nContent-Length: {len(body)}\r\n\r\n"
    got = answer_to(port, [(head + body).encode()])
    if got != answer(["REQOK,d"]):
        raise Differs("destroy", data, answer(["REQOK,d"]), got)


def stream(port, data, asked):
    """Sends a request that opens a stream, and ends it by its first lines."""
    values = asked.values
    begins = re.compile(re.escape(STREAM_HEAD) + rb"CONOK,(S[0-9]+),50000,%d,\*\r\nSERVNAME,tlcpd\r\nCONS,%s\r\n" % (
        values["keepalive"], printed(values["bandwidth"]).encode()))
    with connected(port) as sock:
        send(sock, [data], False)
        got, until = b"", time.monotonic() + HANG
        while (begun := begins.match(got)) is None and (piece := receive(sock, until)):
            got += piece
        if begun is None:
            raise Differs("stream", data, begins.pattern, got)
        destroy(port, begun[1].decode(), data)
        got += all_of(sock)[0]
    if got[begun.end():].replace(b"PROBE\r\n", b"") != b"END,31,Destroyed by request\r\n":
        raise Differs("stream", data, "END", got)


def tried(port, data, pieces, ends, pause):
    """Sends a head, with a pause after each piece, and compares what comes. Gives a word for that."""
    wanted, word = outcomes(data)
    try:
        if not isinstance(wanted, list):
            stream(port, data, wanted)
            return word
        got = answer_to(port, pieces, ends or b"" in wanted or word == "101", pause)
    except TimeoutError as late:
        raise Differs("head", data, wanted, "no end") from late
    if word == "101" and got.startswith(wanted[0]):
        return word
    if got not in wanted:
        raise Differs("head", data, wanted, got)
    return word


def may_find(data):
    """Whether a request names a session that may be there: the one that goes on beside, or one of another case."""
    head = head_of(data)
    length = body_length(head) if isinstance(head, Head) else None
    if length is None:
        return False
    body = data[head.length:head.length + length]
    named = [(parameters(text) or {}).get(b"LS_session", b"") for text in [without_end(body)] + lines_in(body)]
    return any(0 < requests.session(name) < NO_SESSION for name in named)


def unit(draw, count, told):
    """Tries so many heads, and gives how many they were. `told` counts what came of them."""
    with serving(CONFIG) as server, ThreadPoolExecutor(AT_ONCE) as several:
        cases = []
        for _ in range(count):
            while may_find(data := drawn(draw)):
                pass
            cases.append((server.port, data, draw.pieces(data), draw.chance(0.5), draw.choice([0, 0, 0, 0.002, 0.012])))
        for word in several.map(lambda case: tried(*case), cases):
            told[word] += 1
    return count
