"""What the program `watch` prints of a capture, as a plain program over the table and the stations of model.py.

Usage: python3 oracle/story.py [-v] < CAPTURE
A file with a fault prints nothing but a sentence on standard error, and ends with 1. tests/watch holds the program
against this. It is written from docs/RULES.md and not from the program.
"""
import itertools
import struct
import sys
from pathlib import Path

sys.dont_write_bytecode = True
sys.path.insert(0, str(Path(__file__).resolve().parent))
import model  # noqa: E402

# type 30 has a name here, and is no kind
model.use_level(13)
PCAPNG = b"\x0a\x0d\x0d\x0a"
ASSOCIATION = 0x92

MESSAGE_NAMES = {
    0x0000: "topology discovery", 0x0001: "topology notification", 0x0002: "topology query",
    0x0003: "topology response", 0x0004: "vendor specific", 0x0005: "link metric query",
    0x0006: "link metric response", 0x0007: "autoconfiguration search", 0x0008: "autoconfiguration response",
    0x0009: "autoconfiguration WSC", 0x000a: "autoconfiguration renew", 0x000b: "push button event",
    0x000c: "push button join", 0x000d: "higher layer query", 0x000e: "higher layer response",
    0x000f: "power change request", 0x0010: "power change response", 0x0011: "generic PHY query",
    0x0012: "generic PHY response", 0x8000: "acknowledgement", 0x8001: "AP capability query",
    0x8002: "AP capability report", 0x8003: "policy request", 0x8004: "channel preference query",
    0x8005: "channel preference report", 0x8006: "channel selection request", 0x8007: "channel selection response",
    0x8008: "operating channel report", 0x8009: "client capability query", 0x800a: "client capability report",
    0x800b: "AP metrics query", 0x800c: "AP metrics response", 0x800d: "STA link metrics query",
    0x800e: "STA link metrics response", 0x800f: "unassociated STA metrics query",
    0x8010: "unassociated STA metrics response", 0x8011: "beacon metrics query", 0x8012: "beacon metrics response",
    0x8013: "combined metrics", 0x8014: "client steering request", 0x8015: "client steering report",
    0x8016: "association control request", 0x8017: "steering completed", 0x8018: "higher layer data",
    0x8019: "backhaul steering request", 0x801a: "backhaul steering response", 0x801b: "channel scan request",
    0x801c: "channel scan report", 0x8022: "client disassociation", 0x8025: "association status",
}
TLV_NAMES = {
    0x00: "end of message", 0x01: "AL MAC address", 0x02: "MAC address", 0x03: "device information",
    0x04: "bridging capability", 0x06: "non-1905 neighbours", 0x07: "1905 neighbours", 0x08: "link metric query",
    0x09: "link metric tx", 0x0a: "link metric rx", 0x0b: "vendor specific", 0x0c: "link metric result",
    0x0d: "searched role", 0x0e: "autoconfiguration band", 0x0f: "supported role", 0x10: "supported band",
    0x11: "WSC", 0x15: "device identification", 0x16: "control URL", 0x17: "IPv4", 0x18: "IPv6",
    0x1a: "profile version", 0x1e: "layer-2 neighbours", 0x80: "supported service", 0x81: "searched service",
    0x83: "operational BSS", 0x84: "associated clients", 0x92: "client association", 0xb3: "Multi-AP profile",
    0xb4: "AP capability (profile 2)", 0xb7: "BSS configuration", 0xd4: "device inventory",
}
LOSSES = {
    "MissingFragments": "fragments are missing",
    "MissingLastFragment": "its last fragment is missing",
    "InconsistentMetadata": "its fragments differ in version or type",
}
REFUSALS = {
    10: "the table is full (10)",
    12: "its payload is above 1,492 bytes (12)",
    20: "its sender holds its share (20)",
}


class Fault(Exception):
    """Why a file is no capture, as a sentence."""


# --- words ---

def counted(number, one, more):
    return "%d %s" % (number, one if number == 1 else more)


def fragments(number):
    return counted(number, "fragment", "fragments")


def are_missing(number):
    return counted(number, "byte is", "bytes are") + " missing"


def address(data):
    return ":".join("%02x" % byte for byte in data)


def time_of_day(millis):
    minutes, seconds = divmod(millis // 1000 % 86400, 60)
    return "%02d:%02d:%02d.%03d" % (*divmod(minutes, 60), seconds, millis % 1000)


def message_name(kind):
    return MESSAGE_NAMES.get(kind, "message type 0x%04x" % kind)


def tlv_name(kind):
    return TLV_NAMES.get(kind, "TLV 0x%02x" % kind)


# --- what -v says of a TLV ---

def quoted(data):
    """A text or a network's name. A name may be any bytes: those that a terminal doesn't show as they are, in hex."""
    return '"%s"' % "".join(chr(b) if 0x20 <= b < 0x7f and chr(b) not in '"\\' else "\\x%02x" % b for b in data)


def networks(kind, value):
    """Each radio, and then each network of it with its name."""
    fixed, at = model.COUNTED[kind][1], 1
    for _ in range(value[0]):
        yield "radio " + address(value[at:at + 6])
        count, at = value[at + 6], at + 7
        for _ in range(count):
            name, end = at + fixed + 1, at + fixed + 1 + value[at + fixed]
            yield "BSS %s %s" % (address(value[at:at + 6]), quoted(value[name:end]))
            at = end


def links(kind, value):
    """Who reports on the links to whom, and then of each link its figures."""
    yield "%s to %s" % (address(value[:6]), address(value[6:12]))
    (front, size), at = model.PAIRS[kind], model.ERRORS_AT[kind]
    for pair in (value[start:start + size] for start in range(front, len(value), size)):
        yield "link %s to %s" % (address(pair[:6]), address(pair[6:12]))
        form, names = ((">IIHHH", "errors packets throughput availability rate") if kind == 9 else
                       (">IIb", "errors packets signal"))
        yield from map("%s %d".__mod__, zip(names.split(), struct.unpack(form, pair[at:])))


def texts(kind, value):
    found, radios, ends, _ = model.texts_of(kind, value)
    names = {21: "name maker model", 22: "URL", 0xd4: "serial software environment"}[kind].split()
    yield from ("%s %s" % (name, quoted(said)) for name, said in zip(names, found))
    for start, said in zip([radios and radios + 1] + ends, found[3:]):
        yield "radio %s %s" % (address(value[start:start + 6]), quoted(said))


def fields(kind, value):
    """Addresses, names and figures, of the kinds that have such."""
    if kind in (1, 2):
        return [address(value[:6])]
    if kind in (6, 7):
        front, size = model.TO_THE_END[kind]
        return ["at " + address(value[:6])] + [address(value[at:at + 6]) for at in range(front, len(value), size)]
    if kind == ASSOCIATION:
        way = "joined" if value[12] else "left"
        return ["station %s %s %s" % (address(value[:6]), way, address(value[6:12]))]
    for some, read in (((0x83, 0xb7), networks), (model.PAIRS, links), (model.TEXTS, texts)):
        if kind in some:
            return read(kind, value)
    return [counted(len(value), "byte", "bytes")]


def fields_line(kind, value):
    try:
        if kind in model.KINDS:
            model.consumed(kind, value)
        said = ", ".join(fields(kind, value)) or "nothing"
    except model.Refused as refused:
        said = "not readable (%d)" % refused.args[0]
    return "    %s: %s" % (tlv_name(kind), said)


# --- the file (rule G6) ---

def look_for_fault(data):
    """Says what is wrong with a file, where, and how much is missing."""
    if data[:4] == PCAPNG:
        raise Fault("this is a pcapng file; editcap -F pcap IN OUT makes a capture of it that can be read here")
    if len(data) < 24:
        raise Fault("the file header is cut, %s (2)" % are_missing(24 - len(data)))
    try:
        order = model.order_of(data)
    except model.Refused:
        raise Fault("this is no pcap file of Ethernet frames: magic number, version or link type is another (22)")
    at = 24
    while at < len(data):
        there = len(data) - at
        if there < 16:
            raise Fault("the record header at %d is cut, %s (2)" % (at, are_missing(16 - there)))
        stored, original = struct.unpack_from(order + "8xII", data, at)
        if stored != original:
            raise Fault("the frame at %d was captured with %d of its %d bytes (23)" % (at, stored, original))
        if there - 16 < stored:
            raise Fault("the frame at %d is cut, %s (2)" % (at, are_missing(stored - (there - 16))))
        at += 16 + stored


# --- the story ---

class Numbered:
    """Rows, or places: who comes takes the lowest free number, and who is gone leaves it free."""

    def __init__(self):
        self.number_of = {}

    def settle(self, holders):
        for gone in self.number_of.keys() - set(holders):
            del self.number_of[gone]
        for holder in holders:
            if holder not in self.number_of:
                taken = set(self.number_of.values())
                self.number_of[holder] = next(n for n in itertools.count() if n not in taken)

    def ascending(self, holders):
        return sorted(holders, key=self.number_of.get)


class Story:
    def __init__(self, verbose=False):
        self.verbose, self.lines = verbose, []
        self.table, self.rows, self.places = model.Table(), Numbered(), Numbered()
        self.stations, self.station_rows = model.Stations(), Numbered()
        self.messages = self.losses = 0

    def settle(self):
        self.rows.settle(self.table.keys)
        self.places.settle([(name, number) for name, (_, kept) in self.table.keys.items() for number in kept])

    def say(self, now, name, kind, said):
        sender, ident = name
        self.lines.append("%s %s %s, id %d%s" % (time_of_day(now), address(sender), message_name(kind), ident, said))

    def loss(self, now, name, kind, why):
        self.losses += 1
        self.say(now, name, kind, ": " + why)

    def kind_of(self, name, kept):
        """The message type of the fragment that lies in the lowest of a key's places."""
        return kept[self.places.ascending((name, number) for number in kept)[0][1]][1]

    def frame(self, seconds, micros, frame):
        now = seconds * 1000 + micros // 1000
        self.sweep(now)
        version, _, kind, ident, number, _, last = model.header(frame[14:])
        name = frame[6:12], ident
        try:
            answer = self.table.push(*name, version, kind, number, last, now, frame[22:])
        except model.Refused as refused:
            return self.loss(now, name, kind, "fragment %d refused, %s" % (number, REFUSALS[refused.args[0]]))
        self.settle()
        if answer in LOSSES:
            self.loss(now, name, kind, "lost, " + LOSSES[answer])
        elif answer.startswith("complete"):
            self.whole(now, name, kind)

    def sweep(self, now):
        before = dict(self.table.keys)
        self.table.sweep(now)
        for name in self.rows.ascending(before.keys() - self.table.keys.keys()):
            kept = before[name][1]
            why = "lost, not whole after 3 seconds, " + fragments(len(kept))
            self.loss(now, name, self.kind_of(name, kept), why)
        self.settle()

    def whole(self, now, name, kind):
        """Only a message that walks to its end has its events taken."""
        data = b"".join(self.table.finished)
        try:
            tlvs = model.walk(data)
        except model.Refused as refused:
            _, offset, short = refused.args
            return self.loss(now, name, kind, "lost, a TLV is cut at %d, %s" % (offset, are_missing(short)))
        self.messages += 1
        names = ", ".join(tlv_name(code) for code, _, _ in tlvs) or "nothing"
        self.say(now, name, kind, ", %s: %s" % (fragments(len(self.table.finished)), names))
        values = [(code, data[at + 3:at + 3 + length]) for code, at, length in tlvs]
        if self.verbose:
            self.lines += [fields_line(*tlv) for tlv in values]
        self.lines += ["  " + self.event(value) for code, value in values if code == ASSOCIATION]

    def event(self, value):
        try:
            model.consumed(ASSOCIATION, value)
        except model.Refused as refused:
            return "an event that is not readable (%d)" % refused.args[0]
        station, point = address(value[:6]), address(value[6:12])
        was = self.stations.point_of.get(value[:6].hex())
        was = was and address(bytes.fromhex(was))
        try:
            answer = self.stations.event_from(value).split(" ")[0]
        except model.Refused:
            return "station %s refused at %s: 128 stations are held (17)" % (station, point)
        self.station_rows.settle(self.stations.point_of)
        return "station %s %s" % (station, {
            "placed": "placed at %s" % point,
            "moved": "moved from %s to %s" % (was, point),
            "same": "at %s already" % point,
            "removed": "removed from %s" % point,
            "stale": "stale leave from %s%s" % (point, ", it is at %s" % was if was else ""),
        }[answer])

    def end(self, frames, others):
        for name in self.rows.ascending(self.table.keys):
            first, kept = self.table.keys[name]
            why = "still open at the end, " + fragments(len(kept))
            self.loss(first, name, self.kind_of(name, kept), why)
        self.lines.append("%s, %s passed over, %s, %d lost" % (
            counted(frames, "frame", "frames"), counted(others, "other", "others"),
            counted(self.messages, "message", "messages"), self.losses))
        for station in self.station_rows.ascending(self.stations.point_of):
            point = self.stations.point_of[station]
            self.lines.append("%s is at %s" % tuple(address(bytes.fromhex(word)) for word in (station, point)))


def story_of(data, verbose=False):
    """The lines, or the fault of the file."""
    look_for_fault(data)
    frames, others = model.capture(data, len(data))
    story = Story(verbose)
    for frame in frames:
        story.frame(*frame)
    story.end(len(frames), others)
    return story.lines


def main():
    try:
        lines = story_of(sys.stdin.buffer.read(), sys.argv[1:] == ["-v"])
    except Fault as fault:
        sys.exit(str(fault))
    sys.stdout.writelines(line + "\n" for line in lines)


if __name__ == "__main__":
    main()
