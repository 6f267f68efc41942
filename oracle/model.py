#!/usr/bin/env python3
"""docs/RULES.md as a plain program: answers the commands of COMMANDS.md, with the numbers of rule N1 after `no`.

Usage: oracle/model.py [LEVEL] < COMMANDS
LEVEL is the last request that counts for the kinds that there are, 8 without it: from 4 on kinds 21, 22 and 0xD4, from 8
on 9 and 10. All other rules hold at any level.

The model tries out the driver and the command language. It is a second opinion beside the proved library on the
numbers, which the original doesn't have, and on the stations and the captures, which it doesn't have either. The
generator takes its layouts from here.
"""
import collections
import itertools
import struct
import sys

STORE_PLACES, STORE_KEYS, PLACE = 32, 16, 1492
SENDER_PLACES, SENDER_KEYS = 8, 4
MOST_FRAGMENTS = 9
MOST_STATIONS = 128
MOST_PAIRS = 1024
# The last request that counts, where none is named.
LEVEL = 8
EXPIRES = 3000
# Of the command language: bytes of a line, and bytes that come out of one.
LONGEST_LINE, MOST_BYTES = 32768, 66000


class Refused(Exception):
    """A refusal: the number, then what it carries."""


class Bad(Exception):
    """Not a command."""


# --- words ---

def to_bytes(text):
    if text == "-":
        return b""
    if "*" not in text:
        return bytes.fromhex(text)
    out, at = bytearray(), 0
    while at < len(text):
        times = 1
        if text[at] == "*":
            colon = text.index(":", at)
            times, at = int(text[at + 1:colon]), colon + 1
        if times > MOST_BYTES - len(out):
            raise Bad
        out += bytes.fromhex(text[at:at + 2]) * times
        at += 2
    return bytes(out)


def text(data):
    """Bytes as a field: runs of eight and more as a repeat."""
    if not data:
        return "-"
    if len(data) < 64:
        return data.hex()
    parts = []
    for byte, run in itertools.groupby(data):
        count = len(list(run))
        parts.append("*%d:%02x" % (count, byte) if count > 7 else "%02x" % byte * count)
    return "".join(parts)


def checksum(data):
    total = 0xcbf29ce484222325
    for byte in data:
        total = (total ^ byte) * 0x100000001b3 & 0xffffffffffffffff
    return "%016x" % total


def shown(data):
    if not data:
        return "-"
    return data.hex() if len(data) <= 64 else "#%d:%s" % (len(data), checksum(data))


# --- framing ---

def read_tlv(data, at=0):
    """Type, length of the value, bytes consumed."""
    there = len(data) - at
    if there < 3:
        raise Refused(1, 3 - there)
    length = data[at + 1] * 256 + data[at + 2]
    if there - 3 < length:
        raise Refused(2, length - (there - 3))
    return data[at], length, 3 + length


def walk(data):
    """Type, offset and length of each TLV, up to the end marker, or to the end."""
    found, at = [], 0
    while at < len(data):
        try:
            kind, length, consumed = read_tlv(data, at)
        except Refused as refused:
            number, shortfall = refused.args
            raise Refused(number, at, shortfall)
        found.append((kind, at, length))
        at += consumed
        if kind == length == 0:
            break
    return found


def write_tlv(kind, value, room):
    if len(value) > 65535:
        raise Refused(8)
    if 3 + len(value) > room:
        raise Refused(7)
    return bytes([kind, len(value) >> 8, len(value) & 255]) + value


def header(data):
    if len(data) < 8:
        raise Refused(1, 8 - len(data))
    return data[0], data[1], data[2] * 256 + data[3], data[4] * 256 + data[5], data[6], data[7], data[7] >> 7


# --- kinds ---

# Fixed kinds: bytes read. Query: by its own rule.
FIXED = {0: 0, 1: 6, 2: 6, 13: 1, 15: 1, 16: 1, 26: 1, 12: 1, 0x92: 13, 0xB3: 1, 0xB4: 4}
QUERY = 8
# Counted kinds: levels from the top, each the fixed bytes of its entries.
COUNTED = {
    0x80: [1],
    23: [6, 9],
    24: [22, 33],
    4: [0, 6],
    0x83: [6, 6, 1],
    0xB7: [6, 8, 1],
}
# To the end: bytes in front, bytes of an entry.
TO_THE_END = {6: (6, 6), 7: (6, 7)}
PAIRS = {9: (12, 29), 10: (12, 23)}
# Kinds that hold text (rules E5 to E8): fixed fields of 64 bytes, the whole value, strings with their lengths.
TEXTS = set()
KINDS, RECORD_KINDS, LIST_KINDS = [], [], []


def use_level(level):
    """The kinds that there are once the requests up to this one have landed."""
    TEXTS.clear()
    if level >= 4:
        TEXTS.update((21, 22, 0xD4))
    for kind in PAIRS:
        TO_THE_END.pop(kind, None)
    if level >= 8:
        TO_THE_END.update(PAIRS)
    RECORD_KINDS[:] = sorted([*FIXED, QUERY])
    LIST_KINDS[:] = sorted([*COUNTED, *TO_THE_END])
    KINDS[:] = sorted([*RECORD_KINDS, *LIST_KINDS, *TEXTS])


use_level(LEVEL)


def string_end(data, at):
    """The offset after a string with its one-byte length."""
    return end_of_list(data, at, [1])


def texts_of(kind, data):
    """The texts, the offset of the radios' count (or None), the offsets at which radios end, and the bytes consumed."""
    if kind == 21:
        if len(data) < 192:
            raise Refused(3)
        return [data[at:at + 64].split(b"\0")[0] for at in (0, 64, 128)], None, [], 192
    if kind == 22:
        return [data], None, [], len(data)
    at, texts, ends = 0, [], []
    for _ in range(3):
        end = string_end(data, at)
        texts.append(data[at + 1:end])
        at = end
    if len(data) < at + 1:
        raise Refused(3)
    radios, end = at, at + 1
    for _ in range(data[at]):
        start, end = end, string_end(data, end + 6)
        texts.append(data[start + 7:end])
        ends.append(end)
    return texts, radios, ends, end


def checked_texts(kind, data):
    found = texts_of(kind, data)
    for text in found[0]:
        try:
            text.decode("utf-8")  # Python's is RFC 3629's
        except UnicodeDecodeError:
            raise Refused(18)
    return found


def end_of_list(data, at, levels):
    """The offset after the list that starts at `at`; entries are fixed bytes, then the list of the level below."""
    fixed, below = levels[0], levels[1:]
    if len(data) < at + 1:
        raise Refused(3)
    count, at = data[at], at + 1
    if not below:
        at += count * fixed
    else:
        for _ in range(count):
            at = end_of_list(data, at + fixed, below)
    if len(data) < at:
        raise Refused(3)
    return at


def consumed(kind, data):
    """The layout's length in the value; refusals 16, 3, 18, 4, 5."""
    if kind in TEXTS:
        return checked_texts(kind, data)[3]
    if kind in TO_THE_END:
        front, entry = TO_THE_END[kind]
        if len(data) < front:
            raise Refused(3)
        if (len(data) - front) % entry:
            raise Refused(4)
        return len(data)
    if kind in COUNTED:
        used = end_of_list(data, 0, COUNTED[kind])
    elif kind == QUERY:
        used = 8 if data[:1] == b"\x01" else 2
    elif kind in FIXED:
        used = FIXED[kind]
    else:
        raise Refused(16)
    if len(data) < used:
        raise Refused(3)
    if kind == 0 and used < len(data):
        raise Refused(4)
    if kind in (13, 15) and data[0] != 0:
        raise Refused(5)
    if kind == 0x92 and data[12] & 0x7f:
        raise Refused(5)
    if kind == 0xB3 and data[0] == 0:
        raise Refused(5)
    return used


def kind_asked(words):
    """The kind that a command asks about; `U` names none."""
    return 0xD4 if words[0] == "U" else int(words[1])


# Codes with names; any other is reserved and kept.
NAMED = {16: range(0, 3), 26: range(0, 2), 12: range(0, 1), 0xB3: range(1, 4)}


def fields(kind, data):
    if kind in TEXTS:
        texts, radios, ends, _ = texts_of(kind, data)
        count = [] if radios is None else [str(len(ends))]
        return " ".join([shown(text) for text in texts[:3]] + count)
    if kind in TO_THE_END:
        front, entry = TO_THE_END[kind]
        return "%s %d" % (shown(data[:front]), (len(data) - front) // entry)
    if kind in COUNTED:
        return "- %d" % data[0]
    if kind == 0:
        return ""
    if kind in (1, 2):
        return data[:6].hex()
    if kind in (13, 15):
        return str(data[0])
    if kind in NAMED:
        return "%s%d" % ("" if data[0] in NAMED[kind] else "r", data[0])
    if kind == QUERY:
        if data[0] == 1:
            return "1 %s %d" % (data[1:7].hex(), data[7])
        return "%d - %d" % (data[0], data[1])
    if kind == 0x92:
        return "%s %s %d" % (data[:6].hex(), data[6:12].hex(), data[12] >> 7)
    flags = data[2]
    bits = (flags >> 6, flags >> 5 & 1, flags >> 4 & 1, flags >> 3 & 1, flags & 7)
    return "%d %d %d %d %d %d %d %d" % (data[0], data[1], *bits, data[3])


def value_of_fields(kind, words):
    """The value that a record is written as; 9 for a record that reading never gives."""
    if kind == 0:
        return b""
    if kind in (1, 2):
        return bytes.fromhex(words[0])
    if kind in (13, 15):
        if int(words[0]):
            raise Refused(9)
        return b"\0"
    if kind in NAMED:
        reserved, code = words[0][0] == "r", int(words[0].lstrip("r"))
        if not reserved and code not in NAMED[kind]:
            raise Bad
        if reserved and (code in NAMED[kind] or kind == 0xB3 and code == 0):
            raise Refused(9)
        return bytes([code])
    if kind == QUERY:
        if (words[0] == "1") == (words[1] == "-"):
            raise Refused(9)
        return bytes([int(words[0])]) + to_bytes(words[1]) + bytes([int(words[2])])
    if kind == 0x92:
        return bytes.fromhex(words[0] + words[1]) + (b"\x80" if int(words[2]) else b"\0")
    if kind == 0xB4:
        rules, reserved, units, a, b, c, low, vids = map(int, words)
        if low > 7:
            raise Refused(9)
        return bytes([rules, reserved, units << 6 | a << 5 | b << 4 | c << 3 | low, vids])
    raise Refused(16)


def entry_at(kind, data, numbers):
    """The part of the value that is the entry with these numbers."""
    used = consumed(kind, data)
    if not numbers:
        raise Refused(6)
    if kind in TO_THE_END:
        front, size = TO_THE_END[kind]
        if len(numbers) > 1 or numbers[0] >= (used - front) // size:
            raise Refused(6)
        return data[front + numbers[0] * size:front + (numbers[0] + 1) * size]
    if kind == 0xD4 and kind in TEXTS:
        _, radios, ends, _ = texts_of(kind, data)
        if len(numbers) > 1 or numbers[0] >= len(ends):
            raise Refused(6)
        return data[([radios + 1] + ends)[numbers[0]]:ends[numbers[0]]]
    levels, at, part = COUNTED.get(kind, []), 0, b""
    for number in numbers:
        if not levels:
            raise Refused(6)
        fixed, levels = levels[0], levels[1:]
        if number >= data[at]:
            raise Refused(6)
        at += 1
        for _ in range(number):
            at = end_of_list(data, at + fixed, levels) if levels else at + fixed
        end = end_of_list(data, at + fixed, levels) if levels else at + fixed
        part, at = data[at:end], at + fixed
    return part


def every_entry(kind, data):
    """Each entry before those below it, asked for by growing numbers until there is none."""
    consumed(kind, data)
    found = []

    def level(numbers, levels):
        for number in itertools.count():
            try:
                part = entry_at(kind, data, numbers + [number])
            except Refused:
                return
            found.append((numbers + [number], part))
            if levels > 1:
                level(numbers + [number], levels - 1)

    level([], len(COUNTED.get(kind, [0])))
    return found


def text_at(kind, data, number):
    """A text of the value itself, which has three or one."""
    consumed(kind, data)
    own = checked_texts(kind, data)[0][:3] if kind in TEXTS else []
    if number >= len(own):
        raise Refused(6)
    return own[number]


def radio_text_at(data, number):
    """The text of a radio of DeviceInventory."""
    radios = checked_texts(0xD4, data)[0][3:]
    if number >= len(radios):
        raise Refused(6)
    return radios[number]


# --- finding ---

def find(kind, data, tlvs, start):
    """How many were looked at up to the first that reads, and the bytes read."""
    if kind not in KINDS:
        raise Refused(16)
    for index in range(start, len(tlvs)):
        code, at, length = tlvs[index]
        value = data[at + 3:at + 3 + length]
        if code == kind and at + 3 + length <= len(data):
            try:
                return index + 1, value[:consumed(kind, value)]
            except Refused:
                pass
    # a carried 0 is not shown
    raise Refused(15, *[len(tlvs)][:len(tlvs)])


def found_words(looked, value):
    return "ok %d %d %s" % (looked - 1, looked, shown(value))


# --- table ---

class Table:
    # A rule of the original's, for compare.py: a duplicate stands in the place of the kept fragment.
    replaces = False

    def __init__(self):
        self.keys = {}
        # the payloads of the message that became whole last (rule T10), for story.py
        self.finished = []

    def places(self):
        return sum(len(key[1]) for key in self.keys.values())

    def held_by(self, sender):
        """How many keys a sender holds, and how many places (rule T15)."""
        held = [kept for (of, _), (_, kept) in self.keys.items() if of == sender]
        return len(held), sum(map(len, held))

    def wanting(self, name):
        """The number by which one more fragment of this key is refused, or 0 (rule T6)."""
        (keys, places), new = self.held_by(name[0]), name not in self.keys
        if places == SENDER_PLACES or new and keys == SENDER_KEYS:
            return 20
        return 10 if self.places() == STORE_PLACES or new and len(self.keys) == STORE_KEYS else 0

    def push(self, sender, ident, version, kind, number, last, now, payload):
        if len(payload) > PLACE:
            raise Refused(12)
        name, new = (sender, ident), (version, kind, last, payload)
        key = self.keys.get(name)
        if key and number in key[1]:
            if self.replaces:
                key[1][number] = new
            return "DuplicatedFragment"
        if not last:
            if self.wanting(name):
                raise Refused(self.wanting(name))
            self.keys.setdefault(name, (now, {}))[1][number] = new
            return "waiting"
        kept = dict(key[1]) if key else {}
        kept[number] = new
        self.keys.pop(name, None)
        if len({fragment[:2] for fragment in kept.values()}) > 1:
            return "InconsistentMetadata"
        if sorted(kept) != list(range(len(kept))):
            return "MissingFragments"
        if not kept[max(kept)][2]:
            return "MissingLastFragment"
        self.finished = [kept[n][3] for n in sorted(kept)]
        return "complete %s %s" % ("single" if len(kept) == 1 else "joined", shown(b"".join(self.finished)))

    def sweep(self, now):
        dropped = 0
        for name, (first, _) in list(self.keys.items()):
            if max(0, now - first) < EXPIRES:
                continue
            del self.keys[name]
            dropped += 1
        return "swept %d" % dropped

    def contents(self):
        text = ["ok %d %d" % (len(self.keys), self.places())]
        for (sender, ident), (first, kept) in sorted(self.keys.items()):
            text.append("%s/%d@%d" % (sender, ident, first))
            for number, (version, kind, last, payload) in sorted(kept.items()):
                text.append("%d:%d:%d:%d:%s" % (number, version, kind, last, shown(payload)))
        return " ".join(text)

    def totals(self):
        senders = sorted({sender for sender, _ in self.keys})
        return " ".join(["ok %d" % len(senders)] + ["%s:%d:%d" % ((sender,) + self.held_by(sender)) for sender in senders])


# --- stations (rules P1 to P7) ---

class Stations:
    """The access point that each station is at; addresses are words of twelve hex digits, in the addresses' order."""

    def __init__(self):
        self.point_of = {}

    def join(self, station, point):
        was = self.point_of.get(station)
        if was is None and len(self.point_of) == MOST_STATIONS:
            raise Refused(17)
        self.point_of[station] = point
        return "placed" if was is None else "same" if was == point else "moved " + was

    def leave(self, station, point):
        if self.point_of.get(station) != point:
            return "stale"
        del self.point_of[station]
        return "removed"

    def event_from(self, data):
        consumed(0x92, data)
        station, point = data[:6].hex(), data[6:12].hex()
        return self.join(station, point) if data[12] else self.leave(station, point)

    def where(self, station):
        return "at " + self.point_of[station] if station in self.point_of else "nowhere"

    def contents(self):
        return " ".join(["ok %d" % len(self.point_of)] + ["%s@%s" % held for held in sorted(self.point_of.items())])

    def answer(self, command, words):
        if command == "Z":
            self.__init__()
            return "ok"
        if command == "Y":
            return self.contents()
        if command == "y":
            return self.where(words[1])
        if command == "J":
            return self.event_from(to_bytes(words[1]))
        return self.join(*words[1:3]) if command == "j" else self.leave(*words[1:3])


# --- link quality (rules Q1 to Q7) ---

# What is said over pairs: the lowest signal strength is None where there is none.
Report = collections.namedtuple("Report", "kind pairs errors packets lowest sum")
MOST_OF_A_PAIR = 0xffffffff  # errors or packets
# Where the errors of a pair stand; its packets follow.
ERRORS_AT = {9: 15, 10: 14}


def report_over(kind, data):
    if kind not in PAIRS:
        raise Refused(16)
    consumed(kind, data)
    (front, size), at = PAIRS[kind], ERRORS_AT[kind]
    pairs = [data[start:start + size] for start in range(front, len(data), size)]
    if len(pairs) > MOST_PAIRS:
        raise Refused(19)
    errors = sum(int.from_bytes(pair[at:at + 4], "big") for pair in pairs)
    packets = sum(int.from_bytes(pair[at + 4:at + 8], "big") for pair in pairs)
    signals = [int.from_bytes(pair[22:], "big", signed=True) for pair in pairs if kind == 10]
    return Report(kind, len(pairs), errors, packets, min(signals, default=None), sum(signals))


def some_value_gives(report):
    """Rule Q6."""
    most = report.pairs * MOST_OF_A_PAIR
    if report.pairs > MOST_PAIRS or report.errors > most or report.packets > most:
        return False
    if report.kind == 9 or report.pairs == 0:
        return report.lowest is None and report.sum == 0
    if report.lowest is None:
        return False
    return report.pairs * report.lowest <= report.sum <= report.lowest + (report.pairs - 1) * 127


def merged(one, other):
    if one.kind != other.kind or one.pairs + other.pairs > MOST_PAIRS:
        raise Refused(19)
    if not some_value_gives(one) or not some_value_gives(other):
        raise Refused(19)
    lowest = min((low for low in (one.lowest, other.lowest) if low is not None), default=None)
    return Report(one.kind, *(a + b for a, b in zip(one[1:4], other[1:4])), lowest, one.sum + other.sum)


def report_in(words):
    lowest = None if words[4] == "-" else int(words[4])
    return Report(*map(int, words[:4]), lowest, int(words[5]))


def report_text(report):
    """A report as six fields: those of `M`."""
    return " ".join("-" if field is None else str(field) for field in report)


def reported(report):
    """A report as an answer: without its kind, and of kind 9 without signal strengths."""
    fields = report_text(report).split(" ")[1:]
    return " ".join(["ok"] + (fields if report.kind == 10 else fields[:3]))


# --- how a message is cut (rules M1 to M5) ---

Fragment = collections.namedtuple("Fragment", "version type id number last payload")
# Of the command language: fragments that are proposed, and places of a list of ends.
MOST_PROPOSED, MOST_PLACES = 12, 16


def whole_tlvs(message):
    """The TLVs of a message, each as its bytes (rule M1)."""
    tlvs = [message[at:at + 3 + length] for _, at, length in walk(message)]
    if sum(map(len, tlvs)) < len(message):
        raise Refused(4)
    return tlvs


def is_run(payload):
    """Whether a payload is one or more whole TLVs."""
    try:
        return len(whole_tlvs(payload)) > 0
    except Refused:
        return False


def is_cutting(message, fragments):
    """Rule M3, for a message that is not refused by itself."""
    count, payloads = len(fragments), [fragment.payload for fragment in fragments]
    if not 1 <= count <= MOST_FRAGMENTS or any(len(payload) > PLACE for payload in payloads):
        return False
    if any(fragment[:3] != fragments[0][:3] for fragment in fragments):
        return False
    if [fragment.number for fragment in fragments] != list(range(count)):
        return False
    if [fragment.last for fragment in fragments] != [0] * (count - 1) + [1]:
        return False
    if b"".join(payloads) != message:
        return False
    return all(map(is_run, payloads)) or message == b"" and count == 1


def filled(tlvs):
    """The payloads of fragments that are filled as far as whole TLVs go, however many they are (rule M5)."""
    payloads = [b""]
    for tlv in tlvs:
        if len(payloads[-1] + tlv) > PLACE:
            payloads.append(b"")
        payloads[-1] += tlv
    return payloads


def ends_of(payloads):
    return " ".join(["ok %d" % len(payloads)] + [str(end) for end in itertools.accumulate(map(len, payloads))])


def cut(message, room):
    tlvs = whole_tlvs(message)
    payloads = filled(tlvs)
    if any(len(tlv) > PLACE for tlv in tlvs) or len(payloads) > MOST_FRAGMENTS:
        raise Refused(21)
    if len(payloads) > room:
        raise Refused(7)
    return payloads


def proposed(pieces, size, data):
    """The message, and the fragments that are proposed for it, whose payloads follow it."""
    fragments, at = [], size
    for piece in [] if pieces == "-" else pieces.split(","):
        *head, length = map(int, piece.split(":"))
        fragments.append(Fragment(*head, data[at:at + length]))
        at += length
    if at != len(data) or len(fragments) > MOST_PROPOSED:
        raise Bad
    return data[:size], fragments


def checked(message, fragments):
    whole_tlvs(message)
    return "yes" if is_cutting(message, fragments) else "not"


def check_command(message, fragments):
    """The command that proposes these."""
    pieces = ["%d:%d:%d:%d:%d:%d" % (*fragment[:5], len(fragment.payload)) for fragment in fragments]
    data = b"".join([message] + [fragment.payload for fragment in fragments])
    return "q %d %s %s" % (len(message), ",".join(pieces) or "-", text(data))


# --- captures (rules G1 to G9) ---

MAGIC, ETHER_TYPE, MULTICAST = 0xa1b2c3d4, b"\x89\x3a", bytes.fromhex("0180c2000013")
# Of the command language: frames of a lent list, at most.
MOST_FRAMES = 40


def fitting(data, room):
    if len(data) > room:
        raise Refused(7)
    return data


def file_header(order="<", version=(2, 4), zone=0, accuracy=0, snap=65535, link=1, magic=MAGIC):
    """The numbers are in one of the two byte orders of the module struct."""
    return struct.pack(order + "IHHIIII", magic, *version, zone, accuracy, snap, link)


def record_of(frame, seconds, micros, order="<", original=None):
    return struct.pack(order + "IIII", seconds, micros, len(frame), len(frame) if original is None else original) + frame


def frame_of(sender, ident, version, kind, number, flags, payload, reserved=0, target=MULTICAST):
    return target + sender + ETHER_TYPE + struct.pack(">BBHHBB", version, reserved, kind, ident, number, flags) + payload


def frame_written(sender, ident, version, kind, number, last, now, payload, room):
    if len(payload) > PLACE:
        raise Refused(12)
    if now // 1000 >= 1 << 32:
        raise Refused(23)
    frame = frame_of(bytes.fromhex(sender), ident, version, kind, number, 128 * last, payload)
    return fitting(record_of(frame, now // 1000, now % 1000 * 1000), room)


def order_of(data):
    """The byte order of a file, by its header."""
    if len(data) < 24:
        raise Refused(2, 24 - len(data))
    for order in "<>":
        magic, major, minor, link = struct.unpack(order + "IHH12xI", data[:24])
        if magic == MAGIC and (major, minor, link) == (2, 4, 1):
            return order
    raise Refused(22)


def capture(data, room):
    """Each 1905 frame with its times, and how many others there are."""
    order, at, frames, others = order_of(data), 24, [], 0
    while at < len(data):
        there = len(data) - at
        if there < 16:
            raise Refused(2, 16 - there)
        seconds, micros, stored, original = struct.unpack_from(order + "IIII", data, at)
        if stored != original:
            raise Refused(23)
        if there - 16 < stored:
            raise Refused(2, stored - (there - 16))
        frame = data[at + 16:at + 16 + stored]
        at += 16 + stored
        if len(frame) >= 22 and frame[12:14] == ETHER_TYPE:
            frames.append((seconds, micros, frame))
        else:
            others += 1
    if len(frames) > room:
        raise Refused(14)
    return frames, others


def frame_text(seconds, micros, frame):
    version, _, kind, ident, number, flags, last = header(frame[14:])
    at = "%s/%d@%d:%d" % (frame[6:12].hex(), ident, seconds, micros)
    return "%s %d:%d:%d:%d:%s" % (at, number, version, kind, last, shown(frame[22:]))


def captured(data, room):
    frames, others = capture(data, min(room, MOST_FRAMES))
    return " ".join(["ok %d %d" % (len(frames), others)] + [frame_text(*frame) for frame in frames])


# --- commands ---

def listed(tlvs, size):
    padding = size - sum(3 + length for _, _, length in tlvs)
    if len(tlvs) <= 16:
        return " ".join(["ok %d %d" % (len(tlvs), padding)] + ["%d:%d:%d" % tlv for tlv in tlvs])
    data = b"".join(bytes([k]) + at.to_bytes(4, "big") + n.to_bytes(2, "big") for k, at, n in tlvs)
    return "ok %d %d %s" % (len(tlvs), padding, checksum(data))


def answer(table, stations, line):
    if len(line) > LONGEST_LINE:
        raise Bad
    words = line.split(" ")
    command, last = words[0], words[-1]
    if command in ("Z", "j", "x", "y", "Y", "J"):
        return stations.answer(command, words)
    if command == "z":
        table.__init__()
        return "ok"
    if command == "c":
        return table.contents()
    if command == "C":
        return table.totals()
    if command == "v":
        return table.sweep(int(words[1]))
    if command == "p":
        ident, version, kind, number, flags, now = map(int, words[2:8])
        return table.push(words[1], ident, version, kind, number, flags >> 7, now, to_bytes(last))
    if command == "f":
        kind = int(words[1])
        return "ok " + shown(write_tlv(kind, value_of_fields(kind, words[3:]), int(words[2])))
    if command == "M":
        return reported(merged(report_in(words[1:7]), report_in(words[7:13])))
    if command == "H":
        return "ok " + shown(fitting(file_header(), int(words[1])))
    if command == "F":
        ident, version, kind, number, flags, now = map(int, words[2:8])
        written = frame_written(words[1], ident, version, kind, number, flags >> 7, now, to_bytes(words[8]), int(last))
        return "ok " + shown(written)
    data = to_bytes(last)
    if command == "t":
        kind, length, used = read_tlv(data)
        return "ok %d %d %d %s" % (kind, length, used, shown(data[3:used]))
    if command == "w":
        return "ok " + shown(write_tlv(int(words[1]), data, int(words[2])))
    if command == "h":
        return "ok %d %d %d %d %d %d %d" % header(data)
    if command in ("k", "g"):
        return listed(walk(data), len(data))
    if command == "q":
        return checked(*proposed(words[2], int(words[1]), data))
    if command == "Q":
        return ends_of(cut(data, min(int(words[1]), MOST_PLACES)))
    if command == "L":
        tlvs, room = walk(data), int(words[1])
        if room < len(tlvs):
            raise Refused(14, tlvs[room][1])
        return listed(tlvs, len(data))
    if command == "U":
        return "ok " + shown(radio_text_at(data, int(words[1])))
    if command == "R":
        return captured(data, int(words[1]))
    kind = int(words[1])
    if command == "u":
        return "ok " + shown(text_at(kind, data, int(words[2])))
    if command == "r":
        used = consumed(kind, data)
        return ("ok %d %d %s" % (used, len(data) - used, fields(kind, data))).rstrip()
    if command == "s":
        return "ok " + shown(write_tlv(kind, data[:consumed(kind, data)], int(words[2])))
    if command == "m":
        return reported(report_over(kind, data))
    if command == "e":
        numbers = [] if words[2] == "-" else [int(word) for word in words[2].split(".")]
        return "ok " + shown(entry_at(kind, data, numbers))
    if command == "a":
        found = every_entry(kind, data)
        text = b"".join(
            bytes([len(numbers)]) + b"".join(n.to_bytes(2, "big") for n in numbers) + len(part).to_bytes(2, "big") + part
            for numbers, part in found)
        return "ok %d %s" % (len(found), checksum(text))
    if command == "l":
        records = [] if words[2] == "-" else [tuple(map(int, r.split(":"))) for r in words[2].split(",")]
        return found_words(*find(kind, data, records, 0))
    if command in ("d", "D") and kind not in KINDS:
        raise Refused(16)
    if command == "d":
        return found_words(*find(kind, data, walk(data), 0))
    if command == "D":
        tlvs, looked, count, parts = walk(data), 0, 0, []
        while True:
            try:
                looked, value = find(kind, data, tlvs, looked)
            except Refused:
                return "ok %d %s" % (count, checksum(b"".join(parts)))
            count += 1
            parts.append(len(value).to_bytes(2, "big") + value)
    raise Bad


def told(table, line, stations=None):
    """The answer in words, refused or not."""
    try:
        return answer(table, stations, line)
    except Refused as refused:
        return " ".join(["no"] + [str(number) for number in refused.args])
    except (Bad, ValueError, IndexError):
        return "bad"


def main():
    if len(sys.argv) > 1:
        use_level(int(sys.argv[1]))
    table, stations = Table(), Stations()
    for line in sys.stdin:
        sys.stdout.write(told(table, line.removesuffix("\n"), stations) + "\n")


if __name__ == "__main__":
    main()
