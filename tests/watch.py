"""Captures for tests/watch, and beside each what the plain model of oracle/story.py says of it.

Usage: python3 tests/watch.py FOLDER SEED SIZE
Writes FOLDER/GROUP-NUMBER.pcap with GROUP-NUMBER.lines, the story, and GROUP-NUMBER.fields, the story with -v; or with
GROUP-NUMBER.fault, the sentence. SIZE is how many captures a random group has. The group filtered has captures of other
groups without the frames that are passed over; beside each is the story of the capture with them, but for their count.
"""
import random
import re
import sys
from pathlib import Path

sys.dont_write_bytecode = True
sys.path.insert(0, str(Path(__file__).resolve().parent.parent / "oracle"))
import model  # noqa: E402
import story  # noqa: E402

WINDOW = 131072
# 2023-11-14 22:13:20 UTC
START = 1700000000000
# Gaps between frames; a key is swept once its first time is 3,000 milliseconds old.
GAPS = [0] * 8 + [1] * 6 + [40] * 6 + [400] * 4 + [1500, 2999, 3000, 3001, 7000, -1, -2000]
JOINED, LEFT = 0x80, 0


def tlv(kind, value):
    return bytes([kind]) + len(value).to_bytes(2, "big") + value


def numbered(first, n):
    """An address."""
    return bytes([2, first, 0, 0]) + n.to_bytes(2, "big")


def event(station, point, way):
    return tlv(story.ASSOCIATION, numbered(9, station) + numbered(5, point) + bytes([way]))


class Tape:
    """A capture as it grows, in one of the byte orders."""

    def __init__(self, r, order=None):
        self.random, self.order = r, order or r.choice("<>")
        self.now, self.records = START, []

    def frame(self, frame, gap=0, micros=None):
        self.now = max(0, self.now + gap)
        micros = self.now % 1000 * 1000 + self.random.randrange(1000) if micros is None else micros
        self.records.append(model.record_of(frame, self.now // 1000, micros, self.order))

    def push(self, sender, ident, kind, number, last, payload, version=0, gap=0):
        r = self.random
        flags, reserved = 128 * last + r.choice((0, 0, 0x7f)), r.choice((0, 0, 9))
        self.frame(model.frame_of(sender, ident, version, kind, number, flags, payload, reserved), gap)

    def file(self):
        r = self.random
        # numbers that nobody looks at
        unused = {"zone": r.choice((0, 3600)), "accuracy": r.choice((0, 7)), "snap": r.choice((0, 65535, 262144))}
        return model.file_header(self.order, **unused) + b"".join(self.records)


def other_frame(r):
    """A frame that is passed over: another EtherType, a tag in front of it, or too short for its headers."""
    frame = model.frame_of(numbered(1, 1), 1, 0, 1, 0, 128, event(1, 1, JOINED))
    return r.choice((frame[:12] + b"\x08\x00" + r.randbytes(r.choice((0, 46, 200, 1500))),
                     frame[:12] + b"\x81\0\0\5" + frame[12:], frame[:r.randrange(22)],
                     frame[:12] + r.choice((b"\x88\xcc", b"\x3a\x89", b"\x89\x3b")) + frame[14:]))


# --- random messages ---

def random_event(r):
    right = numbered(9, r.randrange(6)) + numbered(5, r.randrange(3))
    if r.randrange(6):
        return tlv(story.ASSOCIATION, right + bytes([r.choice((JOINED, JOINED, LEFT))]) + bytes(r.choice((0, 0, 0, 4))))
    wrong = (right[:r.randrange(12)], right, right + b"\x01", right + b"\x81\0", right + b"\x40")
    return tlv(story.ASSOCIATION, r.choice(wrong))


def random_tlv(r):
    if r.randrange(2):
        return random_event(r)
    kind = r.choice(sorted(story.TLV_NAMES)[1:] + [5, 0x1d, 0x7f, 0xff])
    return tlv(kind, r.randbytes(r.choice((0, 1, 6, 13, 30))))


def random_payload(r):
    """TLVs, most often with a marker and padding; now and then cut, or nothing at all."""
    data = b"".join(random_tlv(r) for _ in range(r.choice((0, 1, 1, 2, 3, 6))))
    way = r.randrange(12)
    if way == 0:
        return data[:r.randrange(len(data) + 1)]
    if way == 1:
        return data + r.choice((b"\1", b"\7\1", b"\x0b\0\2\5", b"\x92\xff\xff", tlv(0, b"\5"), b""))
    return data + bytes(3) + r.choice((b"", bytes(35), b"\x92\0")) if way < 10 else data


def pieces(r, data):
    """A payload in one to nine parts, cut anywhere."""
    cuts = sorted(r.randrange(len(data) + 1) for _ in range(r.choice((0, 0, 1, 1, 2, 4, 7, 8))))
    return [data[a:b] for a, b in zip([0] + cuts, cuts + [len(data)])]


def random_message(r, senders):
    """The fragments of a message in an order that ends with the last one, and often with something wrong."""
    parts = pieces(r, random_payload(r))
    whose = [numbered(1, r.randrange(senders)), r.randrange(3), r.choice([*story.MESSAGE_NAMES, 0x9999, 0x13])]
    all_of = [whose + [n, n == len(parts) - 1, part, 0] for n, part in enumerate(parts)]
    early = all_of[:-1]
    r.shuffle(early)
    all_of = early + all_of[-1:]
    way, one = r.randrange(20), r.randrange(len(all_of))
    if way == 0:
        del all_of[one]
    elif way == 1:
        all_of.insert(r.randrange(len(all_of)), list(all_of[one]))
    elif way == 2:
        all_of[one][r.choice((2, 6))] += 1
    elif way == 3:
        all_of[-1][4] = False
    elif way == 4:
        r.shuffle(all_of)
    elif way == 5:
        all_of[-1][3] = r.choice((0, 200, 255))
    elif way == 6:
        all_of[one][5] = bytes(r.choice((1492, 1493, 2000)))
    elif way == 7:
        # the one that is marked last has not the highest number
        all_of = [whose + [n, n == 1, b"", 0] for n in (2, 0, 1)]
    return all_of


def mixed(r):
    """Messages of several senders at once, their fragments mixed, with other frames between them."""
    tape, under_way = Tape(r), []
    for _ in range(r.choice((1, 2, 10, 60, 150))):
        if len(under_way) < 4:
            under_way.append(random_message(r, r.choice((2, 4))))
        if r.randrange(8) == 0:
            tape.frame(other_frame(r), r.choice((0, 5000)))
        one = r.choice(under_way)
        if one:
            sender, ident, kind, number, last, payload, version = one.pop(0)
            tape.push(sender, ident, kind, number % 256, last, payload, version, r.choice(GAPS))
        under_way = [rest for rest in under_way if rest]
    return tape.file()


def crowd(r):
    """Fragments of so many senders that the table is full, and of some that hold their share."""
    tape = Tape(r)
    for _ in range(150):
        sender, ident = numbered(1, r.randrange(r.choice((2, 12)))), r.randrange(6)
        number, last, version = r.randrange(4), r.randrange(25) == 0, r.randrange(12) == 0
        gap = r.choice((0,) * 60 + (1, 5, 100, 3000))
        tape.push(sender, ident, r.randrange(4), number, last, random_payload(r), version, gap)
    return tape.file()


def stations(r):
    """More stations than the table holds come and go."""
    tape = Tape(r)
    for n in range(260):
        ways = [r.choice((JOINED, JOINED, JOINED, LEFT)) for _ in range(n % 4 + 1)]
        events = [event(r.randrange(170), r.randrange(9), way) for way in ways]
        tape.push(numbered(1, n % 5), n, r.choice((1, 0x8025, 0x4242)), 0, True, b"".join(events) + bytes(3), gap=3)
    return tape.file()


def times(r):
    """Any seconds and microseconds: a clock that goes back, midnight, and both ends."""
    tape = Tape(r)
    for n in range(40):
        any_time = r.randrange(1 << 32) * 1000
        tape.now = r.choice((0, 999, 2999, 3000, 86399999, 86400000, 1700006399999, 4294967295999, any_time))
        frame = model.frame_of(numbered(1, n % 3), r.randrange(2), 0, 1, r.randrange(3), 128 * (n % 4 == 0), b"")
        tape.frame(frame, micros=r.choice((0, 999, 1000, 999999, 1000000, 4294967295, r.randrange(1 << 32))))
    return tape.file()


# --- files that a window cuts ---

def long_frames(r):
    """Frames about as long as the window and longer, of both sorts, between short ones."""
    tape = Tape(r)
    for n in range(6):
        size = r.choice((WINDOW, 2 * WINDOW, 300000)) - r.choice((-1, 0, 1, 16, 22, 24, 38, 40))
        if r.randrange(2):
            tape.push(numbered(1, 7), n, 1, 0, True, bytes(size), gap=r.choice((0, 3000)))
        else:
            tape.frame(bytes(12) + b"\x08\x00" + bytes(size))
        for _ in range(r.randrange(3)):
            tape.push(numbered(1, 1), n, 1, 0, False, b"\5")
            tape.push(numbered(1, 1), n, 1, 1, True, event(n, 1, JOINED))
    return tape.file()


def at_the_edge(r, before):
    """A window ends so many bytes after the start of a record."""
    tape = Tape(r)
    tape.frame(bytes(WINDOW - 24 - 16 - before))
    for n in range(3):
        tape.push(numbered(1, 2), 5, 1, n, n == 2, (event(4, 2, JOINED) + bytes(3), b"", b"")[n], gap=7)
    return tape.file()


def many_frames(r):
    """Some windows of short frames and middling ones."""
    tape = Tape(r)
    for n in range(3000):
        if r.randrange(3):
            tape.frame(other_frame(r))
        else:
            joined = event(r.randrange(90), r.randrange(4), JOINED)
            tape.push(numbered(1, r.randrange(4)), n, 1, 0, True, joined, gap=r.randrange(9))
    return tape.file()


# --- files with a fault ---

def small_file(r, order):
    tape = Tape(r, order)
    tape.push(numbered(1, 1), 1, 1, 0, True, event(1, 1, JOINED))
    tape.frame(b"\5" * 9)
    return tape.file()


def faults(r):
    """Files cut at each byte, headers that are none, lengths that differ, and faults after windows without one."""
    for order in "<>":
        whole = small_file(r, order)
        yield from (whole[:cut] for cut in range(0, len(whole), 1 if order == "<" else 7))
        for form in ({"magic": 0xa1b23c4d}, {"magic": 0x0a0d0d0b}, {"version": (2, 3)}, {"version": (4, 2)},
                     {"link": 0}, {"link": 65537}):
            yield model.file_header(order, **form) + whole[24:]
        for frame, original in ((b"", 1), (bytes(60), 1514), (bytes(60), 59), (bytes(22), (1 << 32) - 1)):
            yield whole + model.record_of(frame, 1, 2, order, original) + whole[24:]
        for length in (1, 40, WINDOW, 1 << 31, (1 << 32) - 1):
            in_order = length.to_bytes(4, "little" if order == "<" else "big")
            yield whole + bytes(8) + in_order * 2
    yield story.PCAPNG + bytes(28)
    yield story.PCAPNG
    for late in (many_frames(r), long_frames(r)):
        yield late[:-1]
        yield late + bytes(15)
        yield late + model.record_of(bytes(30), 1, 2, "<" if late[0] == 0xd4 else ">", 31)


def names(r):
    """A message of each type that has a name and of one that has none beside it, and a message of all types of TLV."""
    tape = Tape(r)
    for n, kind in enumerate(sorted({near for kind in story.MESSAGE_NAMES for near in (kind, kind + 1)} | {0xffff})):
        tape.push(numbered(1, 1), n, kind, 0, True, b"")
    tape.push(numbered(1, 1), 1, 1, 0, True, b"".join(tlv(kind, b"\5") for kind in range(256)))
    return tape.file()


def short(text):
    return bytes([len(text)]) + text


def values(r):
    """Values that -v shows the fields of, without entries, with one and with two, and texts of all sorts of bytes."""
    texts = (b"", b"The Old Lighthouse Keepers House", b'\\ "\x1b[0m" ~\x7f', "caf\u00e9".encode(), bytes(3))
    counts = b"\0" * 4 + b"\xff" * 4
    found = [tlv(kind, numbered(5, 1) + b"\2\0\0\0\0\7"[:size] * many)
             for kind, size in ((1, 0), (2, 0), (6, 6)) for many in (0, 1, 2)]
    for many in (0, 1, 2):
        found.append(tlv(7, numbered(5, 1) + (numbered(5, 2) + b"\x80") * many))
        for kind, figures in ((9, b"\1" + counts + b"\1\2\3\4\5\6"), (10, counts + b"\x80"), (10, counts + b"\x7f")):
            pair = numbered(6, 1) + numbered(6, 2) + b"\1\5" + figures
            found.append(tlv(kind, numbered(5, 1) + numbered(5, 2) + pair * many))
        for text in texts:
            for kind, flags in ((0x83, b""), (0xb7, b"\x80\0")):
                network = numbered(6, 3) + flags + short(text)
                found.append(tlv(kind, bytes([many]) + (numbered(6, 4) + bytes([many]) + network * many) * many))
            radios = bytes([many]) + (numbered(6, 5) + short(text)) * many
            found.append(tlv(0xd4, short(b"1") + short(text) + short(b"3") + radios))
    for text in texts:
        found += [tlv(22, text), tlv(21, text.ljust(64, b"\0") + b"x" * 64 + bytes(64))]
    tape = Tape(r)
    for n, value in enumerate(found):
        tape.push(numbered(1, 1), n, 3, 0, True, value)
    return tape.file()


def fixed(r):
    """The least files, all names, all values, and the longest message."""
    yield names(r)
    yield values(r)
    yield model.file_header("<")
    yield model.file_header(">")
    for order in "<>":
        yield small_file(r, order)
    tape = Tape(r)
    for n in range(9):
        data = event(1, 1, JOINED) + tlv(11, bytes(9 * model.PLACE - 22)) if n == 0 else b""
        tape.push(numbered(1, 1), 1, 1, n, n == 8, data[:model.PLACE] or bytes(model.PLACE))
    yield tape.file()
    tape = Tape(r)
    tape.frame(b"")
    tape.push(numbered(1, 1), 1, 1, 0, True, b"\1\0\0" * 497)
    tape.push(numbered(1, 1), 2, 1, 0, False, b"")
    yield tape.file()


def without_others(data):
    """A capture with the frames that are passed over taken out (rule H6)."""
    order, (frames, _) = model.order_of(data), model.capture(data, len(data))
    return data[:24] + b"".join(model.record_of(frame, *time, order) for *time, frame in frames)


def none_counted(line):
    return re.sub(r"^(\d+ frames?), \d+ others? passed over,", r"\1, 0 others passed over,", line)


def all_captures(seed, size):
    """The name of a group and each of its captures."""
    r = random.Random(seed)
    for group, many in ((mixed, 2 * size), (crowd, size), (stations, 4), (times, size), (long_frames, size)):
        for _ in range(many):
            yield group.__name__, group(r)
    for before in range(42):
        yield "edges", at_the_edge(r, before)
    yield "many", many_frames(r)
    for group in (fixed, faults):
        for data in group(r):
            yield group.__name__, data


class Folder:
    """The captures that are written, by their groups."""

    def __init__(self, path):
        self.path, self.count = Path(path), {}

    def write(self, group, data, texts):
        self.count[group] = self.count.get(group, 0) + 1
        beside = self.path / ("%s-%d" % (group, self.count[group]))
        beside.with_suffix(".pcap").write_bytes(data)
        for ending, lines in texts.items():
            beside.with_suffix(ending).write_text("".join(line + "\n" for line in lines))


def main():
    folder = Folder(sys.argv[1])
    for group, data in all_captures(int(sys.argv[2]), int(sys.argv[3])):
        try:
            texts = {".lines": story.story_of(data), ".fields": story.story_of(data, True)}
        except story.Fault as fault:
            texts = {".fault": [str(fault)]}
        folder.write(group, data, texts)
        if group in ("mixed", "long_frames", "many"):
            folder.write("filtered", without_others(data), {".lines": [none_counted(line) for line in texts[".lines"]]})


if __name__ == "__main__":
    main()
