#!/usr/bin/env python3
"""What bytes are answered with, and what a device makes of a reply, by docs/FORMATS.md and by nothing of the program.

`Server` answers the bytes of one connection after the other, as a server of the file `home` and the group `home` with the token `local`
does, and `judged` says what a reply is. checks/bytes compares a server with the former. Run as a program it writes the tables of changed
requests and of changed replies in crates/sync_examples/src/changed.rt: a row says how many bytes in a row come to the same, and to what.
"""
import bisect
import calendar
import json
import re

TOKEN = b"local"

# ---- hashes, keys and tries

MASK = (1 << 32) - 1


def murmur(data):
    """MurmurHash3, x86, 32 bits, seed 0, as a signed number."""
    def turned(x, r):
        return (x << r | x >> (32 - r)) & MASK

    h = 0
    whole = len(data) // 4 * 4
    for at in range(0, whole, 4):
        k = int.from_bytes(data[at:at + 4], "little")
        h ^= turned(k * 0xCC9E2D51 & MASK, 15) * 0x1B873593 & MASK
        h = (turned(h, 13) * 5 + 0xE6546B64) & MASK
    if data[whole:]:
        h ^= turned(int.from_bytes(data[whole:], "little") * 0xCC9E2D51 & MASK, 15) * 0x1B873593 & MASK
    h ^= len(data)
    for factor, shift in ((0x85EBCA6B, 16), (0xC2B2AE35, 13), (1, 16)):
        h = (h ^ h >> shift) * factor & MASK
    return h - (1 << 32) if h >> 31 else h


def signed(h):
    h &= MASK
    return h - (1 << 32) if h >> 31 else h


STAMP = re.compile(rb"([0-9]{4})-([0-9]{2})-([0-9]{2})T([0-9]{2}):([0-9]{2}):([0-9]{2})\.([0-9]{3})Z-[0-9A-F]{4}-([0-9A-Za-z]{16})\Z")
WINDOW = 3 ** 16


def millis_of(text):
    """The time of a timestamp in milliseconds since 1970, or None where the text is no timestamp."""
    match = STAMP.match(text)
    if not match or match[8] == b"0" * 16:
        return None
    year, month, day, hour, minute, second, milli = (int(part) for part in match.groups()[:7])
    if year < 1970 or not 1 <= month <= 12 or hour > 23 or minute > 59 or second > 59:
        return None
    if not 1 <= day <= calendar.monthrange(year, month)[1]:
        return None
    millis = calendar.timegm((year, month, day, hour, minute, second)) * 1000 + milli
    return millis if millis // 60_000 < WINDOW else None


def key_of(text):
    """The sixteen digits to the base 3 of a timestamp's minute."""
    minute = millis_of(text) // 60_000
    return "".join(str(minute // 3 ** place % 3) for place in reversed(range(16)))


def trie_text(stamps):
    """The text of the trie of these timestamps."""
    hashes = [(key_of(stamp), murmur(stamp)) for stamp in stamps]

    def node(below):
        """The node over these, each with what is left of its key."""
        total = 0
        for _, h in below:
            total ^= h
        parts = {}
        for key, h in below:
            if key:
                parts.setdefault(key[0], []).append((key[1:], h))
        members = ['"%s":%s' % (digit, node(parts[digit])) for digit in sorted(parts)[-2:]]
        return "{" + ",".join(members + ['"hash":%d' % signed(total)]) + "}"

    return node(hashes).encode()


def root_of(text):
    """The hash at the root of the trie that a text is, or None where it is none."""
    class Float:
        """A number that is written with a point or an exponent."""

    def refuse(_name):
        raise ValueError

    def node(value, depth):
        if depth > 16 or not isinstance(value, dict) or set(value) - {"0", "1", "2", "hash"}:
            raise ValueError
        found = value.get("hash", "0")
        if not isinstance(found, Written) or found.text == "-0" or not -(1 << 31) <= int(found.text) < 1 << 31:
            raise ValueError
        for digit in "012":
            if digit in value:
                node(value[digit], depth + 1)
        return int(found.text)

    class Written:
        """A whole number, as it is written."""

        def __init__(self, text):
            self.text = text

    def whole(value):
        if isinstance(value, dict):
            value.setdefault("hash", Written("0"))
            for digit in "012":
                if digit in value:
                    whole(value[digit])

    try:
        value = json.loads(text.decode(), parse_int=Written, parse_float=lambda _text: Float(), parse_constant=refuse)
        whole(value)
        return node(value, 0)
    except (ValueError, RecursionError):
        return None


# ---- Protocol Buffers

class Fault(Exception):
    """The first fault of a body, and its place."""

    def __init__(self, at):
        super().__init__(at)
        self.at = at


def number(data, at, end):
    """The number at a place, and the place behind it."""
    value = 0
    for count in range(10):
        if at + count >= end:
            raise Fault(end)
        byte = data[at + count]
        value |= (byte & 127) << 7 * count
        if byte < 128:
            if value >> 64:
                raise Fault(at)
            return value, at + count + 1
    raise Fault(at)


def utf8(data, at):
    """A text that has to be UTF-8, and stands at this place of the body."""
    try:
        data.decode()
    except UnicodeDecodeError as fault:
        raise Fault(at + fault.start) from None
    return data


def fields(data, at, end, types):
    """The fields of a message in turn: number, value, place of the value. `types` has those of the numbers that it knows."""
    while at < end:
        first = at
        tag, at = number(data, at, end)
        field, kind = tag >> 3, tag & 7
        if field == 0 or kind not in (0, 1, 2, 5) or types.get(field, kind) != kind:
            raise Fault(first)
        if kind == 0:
            value, at = number(data, at, end)
            yield field, value, at
        else:
            size = {1: 8, 5: 4}.get(kind)
            if size is None:
                size, at = number(data, at, end)
            if size > end - at:
                raise Fault(end)
            yield field, data[at:at + size], at
            at += size


def content(data, at, end):
    """Dataset, row, column and value of a content."""
    parts = {1: b"", 2: b"", 3: b"", 4: b""}
    for field, value, place in fields(data, at, end, {1: 2, 2: 2, 3: 2, 4: 2}):
        if field in parts:
            parts[field] = utf8(value, place)
    return tuple(parts[field] for field in (1, 2, 3, 4))


def is_name(name):
    return 1 <= len(name) <= 255 and all(byte >= 32 and byte != 127 for byte in name)


def envelope(data, at, end):
    """The timestamp and the content of an envelope, or None where it is encrypted."""
    stamp, encrypted, where = b"", False, (at, at)
    for field, value, place in fields(data, at, end, {1: 2, 2: 0, 3: 2}):
        if field == 1:
            stamp = utf8(value, place)
        elif field == 2:
            encrypted = value != 0
        elif field == 3:
            where = place, place + len(value)
    parts = None if encrypted else content(data, *where)
    if millis_of(stamp) is None:
        raise Fault(at)
    if parts is not None and not all(is_name(name) for name in parts[:3]):
        raise Fault(at)
    return None if encrypted else (stamp, parts)


def body(data, texts, others):
    """The messages of a body, whether one is encrypted, and the texts of these fields."""
    messages, encrypted, found = [], False, dict.fromkeys(texts, b"")
    for field, value, place in fields(data, 0, len(data), {1: 2} | dict.fromkeys(texts, 2) | dict.fromkeys(others, 2)):
        if field == 1:
            message = envelope(data, place, place + len(value))
            if message is None:
                encrypted = True
            else:
                messages.append(message)
        elif field in found:
            found[field] = utf8(value, place)
    return messages, encrypted, found


# ---- heads

TCHAR = b"!#$%&'*+-.^_`|~0123456789ABCDEFGHIJKLMNOPQRSTUVWXYZabcdefghijklmnopqrstuvwxyz"


class Partial(Exception):
    """More bytes may make it a head."""


class Hopeless(Exception):
    """No bytes can make it a head."""


class Reader:
    """Reads the parts of a head."""

    def __init__(self, data):
        self.data = data
        self.at = 0

    def peek(self):
        if self.at == len(self.data):
            raise Partial
        return self.data[self.at]

    def exactly(self, wanted):
        for byte in wanted:
            if self.peek() != byte:
                raise Hopeless
            self.at += 1

    def end_of_line(self):
        if self.peek() == 13:
            self.at += 1
        self.exactly(b"\n")

    def span(self, allowed):
        first = self.at
        while allowed(self.peek()):
            self.at += 1
        return self.data[first:self.at]

    def some(self, allowed):
        part = self.span(allowed)
        if not part:
            raise Hopeless
        return part

    def blank_lines(self):
        while self.peek() in (10, 13):
            self.end_of_line()

    def section(self):
        """The fields, at most 64, and the empty line."""
        found = []
        while self.peek() not in (10, 13):
            if len(found) == 64:
                raise Hopeless
            name = self.some(lambda byte: byte in TCHAR)
            self.exactly(b":")
            value = self.span(lambda byte: byte == 9 or byte >= 32 and byte != 127)
            self.end_of_line()
            found.append((name.lower(), value.strip(b" \t")))
        self.end_of_line()
        return found


def version(reader):
    reader.exactly(b"HTTP/1.")
    if reader.peek() not in b"01":
        raise Hopeless
    reader.at += 1


def request_head(data):
    """Method, target, fields and length of the head of a request."""
    reader = Reader(data)
    reader.blank_lines()
    method = reader.some(lambda byte: byte in TCHAR)
    reader.exactly(b" ")
    target = reader.some(lambda byte: byte > 32 and byte != 127)
    try:
        target.decode()
    except UnicodeDecodeError:
        raise Hopeless from None
    reader.exactly(b" ")
    version(reader)
    reader.end_of_line()
    return method, target, reader.section(), reader.at


def response_head(data):
    """Status, fields and length of the head of a response."""
    reader = Reader(data)
    reader.blank_lines()
    version(reader)
    reader.exactly(b" ")
    digits = b""
    for _ in range(3):
        if not 48 <= reader.peek() <= 57:
            raise Hopeless
        digits += bytes([reader.peek()])
        reader.at += 1
    if reader.peek() == 32:
        reader.span(lambda byte: byte == 9 or byte >= 32 and byte != 127)
    reader.end_of_line()
    return int(digits), reader.section(), reader.at


def length_in(text):
    return int(text) if 1 <= len(text) <= 18 and all(48 <= byte <= 57 for byte in text) else None


def under(name, found):
    return [value for other, value in found if other == name]


# ---- what a server answers

STATUSES = {
    b"too-large": (413, b"Payload Too Large"), b"bad-request": (400, b"Bad Request"), b"not-found": (404, b"Not Found"),
    b"method-not-allowed": (405, b"Method Not Allowed"), b"length-required": (411, b"Length Required"), b"token-not-found": (401, b"Unauthorized"),
    b"bad-message": (400, b"Bad Request"), b"encrypted-message": (400, b"Bad Request"), b"since-required": (422, b"Unprocessable Entity"),
    b"file-not-found": (400, b"Bad Request"), b"file-has-reset": (400, b"Bad Request"),
}


def reply_of(status, phrase, kind, data):
    return b"HTTP/1.1 %d %s\r\nContent-Type: %s\r\nContent-Length: %d\r\nConnection: close\r\n\r\n%s" % (status, phrase, kind, len(data), data)


def refusal(word):
    return reply_of(*STATUSES[word], b"text/plain", word)


class Refused(Exception):
    """A request is refused with this word."""


def judged_head(method, target, found):
    """The length of the body that is taken."""
    if target.split(b"?")[0] != b"/sync/sync":
        raise Refused(b"not-found")
    if method != b"POST":
        raise Refused(b"method-not-allowed")
    told = under(b"content-length", found)
    if under(b"transfer-encoding", found) or not told:
        raise Refused(b"length-required")
    lengths = {length_in(text) for text in told}
    if len(lengths) > 1 or None in lengths:
        raise Refused(b"bad-request")
    length = lengths.pop()
    if length > 67_108_864:
        raise Refused(b"too-large")
    if under(b"x-actual-token", found)[:1] != [TOKEN]:
        raise Refused(b"token-not-found")
    return length


def spelled(field, data):
    """A field of bytes, in the fewest bytes."""
    out, size = bytearray([8 * field + 2]), len(data)
    while size > 127:
        out.append(size & 127 | 128)
        size >>= 7
    return bytes(out) + bytes([size]) + data


def written(stamp, parts):
    """The one spelling of an envelope."""
    inner = b"".join(spelled(field, part) for field, part in enumerate(parts, 1) if part)
    return spelled(1, spelled(1, stamp) + spelled(3, inner))


class Server:
    """A server of the file `home` of the group `home`, which has no message at first."""

    def __init__(self):
        self.stamps = []
        self.envelopes = {}
        self.trie = trie_text(())

    def request(self, data):
        messages, encrypted, texts = body(data, (2, 3, 6), (5,))
        if encrypted:
            raise Refused(b"encrypted-message")
        if not texts[6]:
            raise Refused(b"since-required")
        if texts[2] != b"home":
            raise Refused(b"file-not-found")
        if texts[3] != b"home":
            raise Refused(b"file-has-reset")
        told = b"".join(self.envelopes[stamp] for stamp in self.stamps[bisect.bisect_right(self.stamps, texts[6]):])
        before = len(self.stamps)
        for stamp, parts in messages:
            if stamp not in self.envelopes:
                self.envelopes[stamp] = written(stamp, parts)
                bisect.insort(self.stamps, stamp)
        if len(self.stamps) > before:
            self.trie = trie_text(self.stamps)
        return told + spelled(2, self.trie)

    def answer(self, data):
        """The reply to all bytes of a connection, or None where they are cut."""
        try:
            method, target, found, start = request_head(data[:65_536])
            length = judged_head(method, target, found)
            if len(data) - start < length:
                return None
            return reply_of(200, b"OK", b"application/actual-sync", self.request(data[start:start + length]))
        except Refused as word:
            return refusal(word.args[0])
        except Hopeless:
            return refusal(b"bad-request")
        except Partial:
            return refusal(b"too-large") if len(data) >= 65_536 else None
        except Fault:
            return refusal(b"bad-message")


# ---- what a device makes of a reply

def judged(data):
    """What a reply is judged as: ("reply", place), ("status", number), or ("answer", messages, hash at the root)."""
    if len(data) > 268_435_456:
        return "reply", 268_435_456
    try:
        status, found, start = response_head(data)
    except (Partial, Hopeless):
        return "reply", 0
    if any(length_in(text) != len(data) - start for text in under(b"content-length", found)):
        return "reply", 0
    if status != 200:
        return "status", status
    try:
        messages, encrypted, texts = body(data[start:], (2,), ())
    except Fault as fault:
        return "reply", start + fault.at
    root = root_of(texts[2])
    if encrypted or root is None:
        return "reply", len(data)
    return "answer", messages, root


def made_of(data, reading):
    """What a sync comes to of a device without messages, at this reading, where each reply is this one."""
    what, *rest = judged(data)
    if what != "answer":
        return "%s %d" % (what, rest[0])
    messages, root = rest
    stamps = {stamp for stamp, _ in messages}
    if any(millis_of(stamp) > reading + 300_000 for stamp in stamps):
        return "clock"
    mine = 0
    for stamp in stamps:
        mine ^= murmur(stamp)
    return "synced 1 %d" % len(stamps) if signed(mine) == root else "apart %d %d" % (signed(mine), root)


# ---- the tables of crates/sync_examples/src/changed.rt

READING = 1_704_448_800_000
STAMPS = b"2024-01-05T10:00:00.000Z-0000-00000000000000aa", b"2024-01-05T10:00:01.000Z-0000-00000000000000bb"
FOOD, MEALS = (written(stamp, (b"categories", b"food", b"name", value)) for stamp, value in zip(STAMPS, (b"S:Food", b"S:Meals")))

# the signs of crates/sync_examples/src/sides.rt
SIGNS = (
    ("#", FOOD), ("%", MEALS), ("<", STAMPS[0]), (">", STAMPS[1]), ("@", trie_text(STAMPS[:1])), ("&", trie_text(STAMPS)),
    ("^", b"POST /sync/sync HTTP/1.1\r\nX-ACTUAL-TOKEN: local\r\nContent-Length: "),
    ("~", b"HTTP/1.1 200 OK\r\nContent-Type: application/actual-sync\r\nContent-Length: "),
    ("_", b"\r\nContent-Type: text/plain\r\nContent-Length: "), ("$", b"\r\nConnection: close\r\n\r\n"),
    (";", b"\x12\x04home\x1a\x04home2"), ("|", b"\r\n"), ("`", b"\n"),
)

REQUEST = '^99||#;\x010'
REPLY = '~104$#\x12\x12{"hash":189847234}'
CHANGES = ("0", lambda byte: 0), ("255", lambda byte: 255), ("TURNED", lambda byte: byte ^ 128)

# lengths that are not the body's, above it and below
REQUESTS = (
    REQUEST, '^100||#;\x010', '^98||#;\x010', '^96||#;\x010', '^84||#;\x010', '^0||#;\x010', '^99||#;\x010#;\x010', '^67108864||#;\x010',
    '^67108865||#;\x010', '^99|Content-Length: 99||#;\x010', '^99|Content-Length: 98||#;\x010', '^99|Content-Length: 0099||#;\x010',
)
HELD = '#\x12\x12{"hash":189847234}'
REPLIES = (
    REPLY, '~105$' + HELD, '~103$' + HELD, '~0$' + HELD, '~104$', '~104|Content-Length: 104$' + HELD, '~104|Content-Length: 103$' + HELD,
    '~0104$' + HELD, '~+104$' + HELD, 'HTTP/1.1 200 OK||' + HELD, 'HTTP/1.1 200 OK|Transfer-Encoding: chunked||' + HELD, 'HTTP/1.1 299 OK||' + HELD,
)


def nested(levels):
    """The text of a trie with so many levels below its root, whose deepest node has the hash 1."""
    return '{"0":' * levels + '{"hash":1}' + ',"hash":1}' * levels


def with_trie(text):
    """A reply without messages, which has this text as its trie."""
    size = len(text)
    length = chr(size) if size < 128 else chr(size % 128 + 128) + chr(size // 128)
    return "HTTP/1.1 200 OK||\x12" + length + text


# texts that are tries, and such as are none
TRIES = (
    '{"hash":0}', '{}', '{"0":{},"1":{},"2":{}}', '{"3":{"hash":0},"hash":0}', '{"0":{"3":{}}}', '{"hash":2147483648}', '{"hash":-2147483649}',
    '{"hash":2147483647}', '{"hash":-2147483648}', '{"0":{"hash":2147483648},"hash":0}', '{"hash":-0}', '{"hash":0.0}', '{"hash":0e1}', '{"hash":"0"}',
    '{"hash":null}', '{"hash":01}', '[]', '0', '', '{"hash":0}}', '{"hash":0', ' {"hash" : 0}\t', '{"h\\u0061sh":0}', '{"hash":1,"hash":0}', '{"0":[],"hash":0}',
    nested(16), nested(17),
)


def bytes_of(side):
    """The bytes that a side stands for."""
    for sign, data in SIGNS:
        side = side.replace(sign, data.decode("latin-1"))
    return side.encode("latin-1")


def answered(data):
    """What a server without messages answers: the word of a refusal, or else nothing, or the reply in hexadecimal."""
    reply = Server().answer(data)
    if reply is None:
        return "cut"
    if reply.startswith(b"HTTP/1.1 200 "):
        return "accepted" if reply == Server().answer(bytes_of(REQUEST)) else "200 " + reply.hex()
    return reply.split(b"\r\n\r\n", 1)[1].decode()


def made(data):
    """What a device without messages makes of replies that are these bytes each time, at the reading of the tables."""
    return made_of(data, READING)


def rows(data, outcome, change):
    """How many places in a row come to the same, and to what; `here` is a reply that is bad at the place that was changed."""
    found = []
    for place, byte in enumerate(data):
        what = outcome(data[:place] + bytes([change(byte)]) + data[place + 1:])
        if what == "reply %d" % place and place:
            what = "reply here"
        if found and found[-1][1] == what:
            found[-1][0] += 1
        else:
            found.append([1, what])
    return found


def literal(text):
    """A text as Rust writes it."""
    escapes = {'"': '\\"', "\\": "\\\\", "\t": "\\t"}
    return '"%s"' % "".join(escapes.get(sign) or (sign if 32 <= ord(sign) < 127 else "\\x%02x" % ord(sign) if ord(sign) < 128 else "\\u{%x}" % ord(sign)) for sign in text)


def main():
    for name, side, outcome in (("REQUEST", REQUEST, answered), ("REPLY", REPLY, made)):
        data = bytes_of(side)
        print("/// %d bytes.\nconst %s: &str = %s;\n" % (len(data), name, literal(side)))
        for change, changed in CHANGES:
            table = rows(data, outcome, changed)
            print("const %s_%s: [(usize, &str); %d] = [" % (name, change, len(table)))
            for count, what in table:
                print("    (%d, %s)," % (count, literal(what)))
            print("];\n")
    for name, sides, outcome in (("REQUESTS", REQUESTS, answered), ("REPLIES", REPLIES + tuple(map(with_trie, TRIES)), made)):
        print("const %s: [(&str, &str); %d] = [" % (name, len(sides)))
        for side in sides:
            print("    (%s, %s)," % (literal(side), literal(outcome(bytes_of(side)))))
        print("];\n")


if __name__ == "__main__":
    main()
