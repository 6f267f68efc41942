"""Which answers agree, and which differences docs/DIFFERENCES.md explains by name.

An explanation looks at the command and at both answers, and says yes only to the one difference that it names.
"""
from pathlib import Path

import model


def agree(original, ours):
    """Refusals agree whatever the number, which the original doesn't have; `-` is what it can't know. The original's
    four counts of a sweep are compared by their sum (rule S2)."""
    if original == ours:
        return True
    first, second = original.split(" "), ours.split(" ")
    if first[0] == second[0] == "swept":
        return sum(map(int, first[1:])) == sum(map(int, second[1:]))
    if first[0] != "no" or second[0] != "no":
        return False
    return all(a in ("-", b) for a, b in zip(first, second))


def accepted(answer):
    return answer.startswith("ok ")


def write_above_65535(words, original, ours, before):
    if ours != "no 8" or not accepted(original):
        return False
    if words[0] == "w":
        return len(model.to_bytes(words[3])) > 65535
    return words[0] == "s" and original.startswith("ok #") and int(original[4:].split(":")[0]) > 3 + 65535


def record_never_read(words, original, ours, before):
    if words[0] != "f" or ours != "no 9" or not accepted(original):
        return False
    kind, fields = int(words[1]), words[3:]
    if kind in (13, 15):
        return fields[0] != "0"
    if kind == 8:
        return (fields[0] == "1") != (fields[1] != "-")
    if kind == 0xB4:
        return int(fields[6]) > 7
    codes = {12: ("r0",), 16: ("r0", "r1", "r2"), 26: ("r0", "r1"), 0xB3: ("r0", "r1", "r2", "r3")}
    return fields[0] in codes.get(kind, ())


def single_fragment_checked(words, original, ours, before):
    """The original looks into the TLVs of a message that is one fragment, and wants an end marker."""
    if words[0] != "h" or original != "no" or not accepted(ours):
        return False
    data = model.to_bytes(words[1])
    if data[6] != 0 or data[7] < 128:
        return False
    at, payload, last = 0, data[8:], None
    while at < len(payload) and last != (0, 0):
        try:
            kind, length, used = model.read_tlv(payload, at)
        except model.Refused:
            return True
        at, last = at + used, (kind, length)
    return last not in (None, (0, 0))


class Replacing(model.Table):
    replaces = True


def first_copy_kept(words, original, ours, before):
    """The original replaces the kept fragment by the duplicate; rule T5 doesn't. Both are played over the group, from
    its start on."""
    lines = [line for line, _, _ in before] + [" ".join(words)]
    if words[0] not in "pc" or lines[0] != "z":
        return False
    first, last = model.Table(), Replacing()
    return [model.told(first, line) for line in lines][-1] == ours and [model.told(last, line) for line in lines][-1] == original


def table_full(words, original, ours, before):
    if words[0] != "p" or ours != "no 10" or original != "waiting" or not before:
        return False
    line, _, shown = before[-1]
    return line == "c" and (shown.startswith("ok 16 ") or shown.split(" ")[2:3] == ["32"])


def sender_full(words, original, ours, before):
    """Rule T6 refuses a fragment of a sender that holds its share; the original has none."""
    lines, table = [line for line, _, _ in before] + [" ".join(words)], model.Table()
    return words[0] == "p" and lines[0] == "z" and original == "waiting" and ours == "no 20" == [model.told(table, line) for line in lines][-1]


# --- how a message is cut (rules M1 and M5) ---

def by_rules(words):
    return model.told(None, " ".join(words))


def is_cut_by_original(words, original):
    """Whether the original cut as rule M5 fills fragments, the padding left out, however many they are."""
    data = model.to_bytes(words[2])
    payloads = model.filled([data[at:at + 3 + length] for _, at, length in model.walk(data)])
    return len(data) > model.PLACE and original == model.ends_of(payloads)


def fitting_not_read(words, original, ours, before):
    if words[0] != "Q" or ours != by_rules(words) or ours.split(" ")[:2] not in (["no", "1"], ["no", "2"], ["no", "4"]):
        return False
    size = len(model.to_bytes(words[2]))
    return size <= model.PLACE and original == "ok 1 %d" % size


def padding_dropped(words, original, ours, before):
    return words[0] == "Q" and ours == "no 4" == by_rules(words) and is_cut_by_original(words, original)


def more_than_nine(words, original, ours, before):
    return words[0] == "Q" and ours == "no 21" == by_rules(words) and is_cut_by_original(words, original)


def payload_above_1492(words, original, ours, before):
    return words[0] == "p" and ours == "no 12" and len(model.to_bytes(words[8])) > 1492


# --- texts (rules E5 and E6) ---

BLANK = "\t\n\x0b\x0c\r \x85\xa0\u1680" + "".join(map(chr, range(0x2000, 0x200b))) + "\u2028\u2029\u202f\u205f\u3000"


def kept_by_original(text, fixed):
    """What the original keeps of a text: no UTF-8 is replaced, zeros are taken off both ends, in a field blanks too."""
    kept = text.decode("utf-8", "replace").strip("\0")
    return (kept.strip(BLANK) if fixed else kept).encode()


def texts_alike(kind, value):
    """Whether the original keeps every text of a value as rules E5 and E6 do, byte for byte; a cut value has none."""
    try:
        if kind == 21:
            fields = [value[at:at + 64] for at in (0, 64, 128)] if len(value) >= 192 else []
            return all(kept_by_original(f, True) == f.split(b"\0")[0] == f.rstrip(b"\0") for f in fields)
        return all(kept_by_original(text, False) == text for text in model.texts_of(kind, value)[0])
    except model.Refused:
        return True


def reads(kind, value):
    try:
        model.consumed(kind, value)
        return True
    except model.Refused:
        return False


def values_of(words):
    """The values of the asked kind in a command."""
    kind, data = model.kind_asked(words), model.to_bytes(words[-1])
    if words[0] in "rseauU":
        return kind, [data]
    records = [tuple(map(int, r.split(":"))) for r in words[2].split(",")] if words[0] == "l" and words[2] != "-" else []
    if words[0] in "dD":
        records = model.walk(data)
    return kind, [data[at + 3:at + 3 + length] for code, at, length in records if code == kind and at + 3 + length <= len(data)]


def text_not_utf8(words, original, ours, before):
    if words[0] not in "rseadDluU":
        return False
    kind, values = values_of(words)
    if kind not in model.TEXTS:
        return False
    refused = [v for v in values if not texts_alike(kind, v) and not reads(kind, v)]
    return bool(refused) and (words[0] in "dDl" or ours == "no 18" and original != "panic")


def text_trimmed(words, original, ours, before):
    # What was trimmed may fit where the value as read doesn't.
    if words[0] not in "rseadDluU" or not accepted(original) or not (accepted(ours) or words[0] == "s" and ours == "no 7"):
        return False
    kind, values = values_of(words)
    if kind not in model.TEXTS:
        return False
    if words[0] in "ruU":
        texts, _, ends, used = model.texts_of(kind, values[0])
        if kind == 21:
            texts = [values[0][at:at + 64] for at in (0, 64, 128)]
        shown = [model.shown(kept_by_original(text, kind == 21)) for text in texts]
        if words[0] != "r":
            return original == "ok " + (shown[int(words[2])] if words[0] == "u" else shown[3 + int(words[1])])
        shown = shown[:3]
        count = [str(len(ends))] if kind == 0xD4 else []
        return original == " ".join(["ok", str(used), str(len(values[0]) - used)] + shown + count)
    return any(reads(kind, v) and not texts_alike(kind, v) for v in values)


EXPLAINED = {
    "text-not-utf8": text_not_utf8,
    "text-trimmed": text_trimmed,
    "write-above-65535": write_above_65535,
    "record-never-read": record_never_read,
    "single-fragment-checked": single_fragment_checked,
    "first-copy-kept": first_copy_kept,
    "table-full": table_full,
    "sender-full": sender_full,
    "payload-above-1492": payload_above_1492,
    "fitting-not-read": fitting_not_read,
    "padding-dropped": padding_dropped,
    "more-than-nine": more_than_nine,
}


def explanation(line, original, ours, before):
    """The name of the difference, or None. `before`: the lines and answers of the same group in front of this one."""
    words = line.split(" ")
    for name, explains in EXPLAINED.items():
        try:
            if explains(words, original, ours, before):
                return name
        except (ValueError, IndexError, model.Refused):
            pass
    return None


def differences(lines, original, ours):
    """The places where the answers don't agree, each with the name of its difference or None; and those where they
    agree, and the model's table answers otherwise. Commands from a `z` on depend on each other."""
    before, table = [], model.Table()
    for at, line in enumerate(lines):
        if line == "z":
            before = []
        by_rule = model.told(table, line) if line[0] in "zpvc" else ours[at]
        if not agree(original[at], ours[at]):
            yield at, explanation(line, original[at], ours[at], before)
        elif ours[at] != by_rule:
            yield at, None
        if line[0] in "zpvc":
            before.append((line, original[at], ours[at]))


def known():
    """The names that the text about differences has; a difference without one isn't explained."""
    path = Path(__file__).resolve().parent.parent / "docs" / "DIFFERENCES.md"
    text = path.read_text() if path.exists() else ""
    return {name for name in EXPLAINED if "`%s`" % name in text}
