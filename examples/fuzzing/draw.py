"""What is drawn: bytes with mutations, values of events, and the parameters of requests."""

import random
from urllib.parse import quote_from_bytes

INTERESTING = [b"", b" ", b"\t", b"\r", b"\n", b"\r\n", b"\0", b"&", b"=", b"+", b"%", b"%2", b"%zz", b"%00", b"%26",
               b"|", b"#", b"$", b"^", b",", b";", b"?", b"/", b":", b"-", b"0", b"9", b"\x7f", b"\x80", b"\xc3",
               b"\xff", "é".encode(), "\U0001d11e".encode(), b"S1", b"true", b"LS_", b"1" * 19]
VALUES = [b"1", b"2", b"A", b"3.04", b"20:00:33", b"", b"$", b"#", b"#a", b"$b", b"^2", b"^", b"%23", b"%24", b"%5E4",
          b"a%7Cb%25", b"|", b"%", b"100%", b"%4", b"%zz", "é".encode(), b"%C3%A9", b"%c3%a9", "\u20ac".encode(),
          "\U0001d11e".encode(), b"%00", b"%0D%0A", b"%7F", b"\x01", b"\x7f", b"\r", b"\t", b"a,b", b"a=b", b"=", b"+",
          b"a+b", b"a%20b", b"%26", b"%3D", b"##", b"$$", b"a#", b"%2523", b"%EF%BB%BF"]
BAD_VALUES = [b"%FF", b"\xff", b"%C3", b"\xc3(", b"%ED%A0%80", b"\xf4\x90\x80\x80", b"a%80"]
WHOLES = [b"0", b"1", b"2", b"5", b"31", b"32", b"33", b"255", b"256", b"257", b"999", b"1000", b"1001", b"29999",
          b"30000", b"30001", b"999999999", b"1000000000", b"1152921504606846976"]
NO_WHOLES = [b"", b"x", b"01", b"-1", b"1.0", b"+1", b" 1", b"1 ", b"1\n", b"1152921504606846977", b"9" * 30,
             "١".encode(), b"0x1", b"1e3", b"00"]
DECIMALS = [b"unlimited", b"0.5", b"1", b"2.0", b"3.0", b"10", b"0.001", b"007.5", b"1.2345", b"333.333",
            b"999999999.999", b"0.0019", b"000000001"]
NO_DECIMALS = [b"", b"0", b"0.0", b"0.0009", b"x", b"1.", b".5", b"1e3", b"1234567890", b"1.1234567890", b"-1", b"+1",
               b"UNLIMITED", b"1,5", b"1.5\n", b"unlimited "]
IGNORED = [(b"LS_cid", b"a b"), (b"LS_user", b"u"), (b"LS_password", b"&="), (b"LS_cause", b"api"),
           (b"LS_ack", b"false"), (b"LS_supported_diffs", b""), (b"LS_send_sync", b"false"), (b"ls_op", b"add"),
           (b"", b"1"), (b"LS_op ", b"x"), ("é".encode(), b"\0")]
POOLS = {b"LS_snapshot": ([b"true", b"false"] + WHOLES, NO_WHOLES + [b"TRUE"]),
         b"LS_requested_buffer_size": ([b"unlimited"] + WHOLES[1:], NO_WHOLES + [b"0"]),
         b"LS_requested_max_frequency": (DECIMALS + [b"unfiltered"], NO_DECIMALS),
         b"LS_requested_max_bandwidth": (DECIMALS, NO_DECIMALS + [b"unfiltered"]),
         b"LS_keepalive_millis": (WHOLES, NO_WHOLES), b"LS_content_length": (WHOLES, NO_WHOLES),
         b"LS_recovery_from": (WHOLES[:6], NO_WHOLES), b"LS_polling": ([b"false", b"", b"TRUE", b"true "], [b"true"]),
         b"LS_adapter_set": ([], [b"other", b"", b"default", b"DEFAULT "]), b"LS_selector": ([b""], [b"x", b" "]),
         b"LS_subId": ([b"1", b"2", b"3", b"999999999"], NO_WHOLES + [b"0", b"1000000000"]),
         b"LS_mode": ([b"RAW", b"MERGE", b"DISTINCT", b"COMMAND"], [b"", b"merge", b"MERGE ", b"FOO", "é".encode()]),
         b"LS_reqId": ([b"1", b"a1Z", b"9" * 32],
                       [b"", b"a b", "é".encode(), b"a" * 33, b"a-b", b"a_b", b"1,2", b"1\n"]),
         b"LS_op": ([], [b"", b"ADD", b"subscribe", b"add ", b"msg"]),
         b"LS_session": ([], [b"", b"S", b"S0", b"S01", b"s1", b"1", b"S1152921504606846977", b"S1152921504606846976",
                              b"S+1", b"S1 ", b" S1"]),
         b"LS_group": ([], [b" ", b"  ", b"a ", b" a"]), b"LS_schema": ([], [b" ", b"  ", b"a ", b" a"])}
MODES = (b"RAW", b"MERGE", b"DISTINCT", b"COMMAND")


class Draw(random.Random):
    """A source of what is drawn. The same words give the same draws."""

    def __init__(self, *words):
        self.words = " ".join(map(str, words))
        super().__init__(self.words)

    def chance(self, probability):
        return self.random() < probability

    def by_weight(self, weights):
        """One of the keys, each as often as its weight says."""
        return self.choices(list(weights), list(weights.values()))[0]

    def mutated(self, data, most=3):
        """Some bytes with one to `most` changes."""
        data = bytearray(data)
        for _ in range(self.randint(1, most)):
            at = self.randint(0, len(data))
            end = min(len(data), at + self.choice([1, 1, 1, 2, 4, 16]))
            way = self.randrange(6)
            if way == 0:
                data[at:end] = b""
            elif way == 1:
                data[at:at] = self.choice(INTERESTING)
            elif way == 2:
                data[at:end] = self.choice(INTERESTING)
            elif way == 3:
                data[at:at] = data[at:end]
            elif way == 4 and at < len(data):
                data[at] ^= 1 << self.randrange(8)
            else:
                data[at:end] = self.randbytes(end - at)
        return bytes(data)

    def name(self, longest=12):
        """A name of a script or a config."""
        letters = "abcxyzABCXYZ0189_.-"
        return "".join(self.choices(letters, k=self.randint(1, longest))).encode()

    def pieces(self, data):
        """The same bytes in some pieces."""
        if self.chance(0.6) or len(data) < 2:
            return [data]
        cuts = sorted(self.sample(range(1, len(data)), min(len(data) - 1, self.randint(1, 4))))
        return [data[begin:end] for begin, end in zip([0] + cuts, cuts + [len(data)])]

    # Events

    def event_value(self):
        if self.chance(0.02):
            return self.choice(BAD_VALUES)
        if self.chance(0.02):
            return b"v" * self.choice([1000, 2048, 4000, 4095, 4096, 4097, 5000])
        return self.choice(VALUES) if self.chance(0.5) else str(self.randrange(1000)).encode()

    def event(self, kind, fields):
        """The text of an event of an item, most of the time a good one."""
        if self.chance(0.04):
            return b"!"
        chosen = self.sample(fields, self.randint(1, min(len(fields), 6)))
        if kind == b"COMMAND" and self.chance(0.97):
            chosen = [b"key", b"command"] + [name for name in chosen if name not in (b"key", b"command")]
            self.shuffle(chosen)
        pairs = [name + b"=" + self._value_of(kind, name) for name in chosen]
        if self.chance(0.04):
            pairs.insert(self.randint(0, len(pairs)),
                         self.choice([b"", b"=", b"x", b"=1", b"ghost=1", chosen[0] + b"=", chosen[0], b"%61=1"]))
        return b"&".join(pairs)

    def _value_of(self, kind, name):
        if kind == b"COMMAND" and name == b"command" and self.chance(0.97):
            return self.choice([b"ADD", b"UPDATE", b"UPDATE", b"DELETE", b"%41DD"])
        if kind == b"COMMAND" and name == b"key" and self.chance(0.9):
            return b"k%d" % self.randrange(8)
        return self.event_value()

    # Requests

    def coded(self, text):
        """A name or a value in a form text."""
        way = self.randrange(10)
        if way == 0:
            return b"".join(b"%%%02x" % byte for byte in text)
        if way == 1:
            return quote_from_bytes(text, safe="").encode()
        coded = text.replace(b"%", b"%25").replace(b"&", b"%26").replace(b"+", b"%2B").replace(b"\n", b"%0A")
        return coded.replace(b"=", b"%3D").replace(b"\r", b"%0D").replace(b" ", b"+")

    def form(self, pairs):
        """A form text of these pairs, perhaps with more of them, and perhaps with mutations."""
        pairs = list(pairs.items())
        if self.chance(0.15):
            pairs += self.sample(IGNORED, self.randint(1, 3))
        if self.chance(0.04) and pairs:
            pairs.append(self.choice(pairs))
        if self.chance(0.2):
            self.shuffle(pairs)
        texts = [self.coded(name) + b"=" + self.coded(value) for name, value in pairs]
        if self.chance(0.05):
            texts.insert(self.randint(0, len(texts)), self.choice([b"", b"a", b"=", b"%FF=1", b"a=%C3", b"&", b"%"]))
        text = b"&".join(texts)
        return self.mutated(text).replace(b"\n", b"") if self.chance(0.06) else text

    def spoilt(self, pairs):
        """The same pairs, of which one may be another, or absent."""
        way = self.random()
        if pairs and way < 0.12:
            name = self.choice(list(pairs))
            if way < 0.04 or name not in POOLS:
                del pairs[name]
            else:
                pairs[name] = self.choice(POOLS[name][1] or [b"x"])
        return pairs

    def optional(self, pairs, name, probability=0.3):
        """Gives a parameter a good value, perhaps."""
        if self.chance(probability) and POOLS[name][0]:
            pairs[name] = self.choice(POOLS[name][0])

    def opening(self, facts, name):
        """The pairs of create_session or bind_session."""
        pairs = {}
        if name == b"bind_session":
            pairs[b"LS_session"] = facts.session()
            if self.chance(0.4):
                pairs[b"LS_recovery_from"] = facts.count()
            self.optional(pairs, b"LS_recovery_from", 0.1)
        elif self.chance(0.3):
            pairs[b"LS_adapter_set"] = facts.set_name
        for other in (b"LS_keepalive_millis", b"LS_content_length", b"LS_polling"):
            self.optional(pairs, other, 0.2)
        if name == b"create_session":
            self.optional(pairs, b"LS_requested_max_bandwidth", 0.2)
            if self.chance(0.03):
                pairs[b"LS_adapter_set"] = self.choice(POOLS[b"LS_adapter_set"][1])
        return self.spoilt(pairs)

    def control(self, facts, op, request):
        """The pairs of a control with this op and this id."""
        pairs = {b"LS_reqId": request, b"LS_op": op}
        if facts.link == "http" or self.chance(0.4):
            pairs[b"LS_session"] = facts.session()
        if op in (b"add", b"delete", b"reconf"):
            pairs[b"LS_subId"] = b"%d" % facts.sub()
        if op == b"add":
            self._add(facts, pairs)
        if op == b"reconf":
            self.optional(pairs, b"LS_requested_max_frequency", 1)
        if op == b"constrain":
            self.optional(pairs, b"LS_requested_max_bandwidth", 1)
        return self.spoilt(pairs)

    def _add(self, facts, pairs):
        mode, group, schema = self.subscription(facts)
        pairs.update({b"LS_mode": mode, b"LS_group": b" ".join(group), b"LS_schema": b" ".join(schema)})
        for name in (b"LS_snapshot", b"LS_requested_buffer_size", b"LS_requested_max_frequency"):
            self.optional(pairs, name)
        self.optional(pairs, b"LS_selector", 0.05)

    def subscription(self, facts):
        """A mode, a group and a schema, most of the time good ones."""
        first = facts.items[self.choice(list(facts.items))]
        mode = first.kind if self.chance(0.75) else self.choice(MODES)
        group = [name for name, item in facts.items.items() if mode == b"RAW" or item.kind == mode] or [b"none"]
        group = self.sample(group, self.randint(1, min(len(group), self.choice(facts.groups))))
        fields = [facts.items[name].fields for name in group if name in facts.items] or [[b"a"]]
        common = [field for field in fields[0] if all(field in others for others in fields)] or [b"a"]
        schema = self.sample(common, self.randint(1, len(common)))
        if mode == b"COMMAND" and self.chance(0.97):
            schema += [name for name in (b"key", b"command") if name not in schema]
            self.shuffle(schema)
        if self.chance(0.06):
            self._spoil(group, list(facts.items))
        if self.chance(0.06):
            self._spoil(schema, [b"key", b"command", b"a", b"b"])
        return mode, group, schema

    def _spoil(self, names, others):
        """Makes a list of names one that may be refused."""
        way = self.randrange(6)
        if way == 0:
            names.clear()
        elif way == 1:
            names.append(b"ghost")
        elif way == 2:
            names.append(names[0])
        elif way == 3:
            names += [b"n%d" % number for number in range(self.choice([63, 64, 65]))]
        elif way == 4:
            names.insert(self.randint(0, len(names)), b"")
        else:
            names.append(self.choice(others))
