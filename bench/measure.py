"""Counts the instructions of each row in the programs that bench/run built; writes docs/BENCHMARK.md and its picture.

A row's count is the difference of a run with 40 turns and one with 20, over 20. Before it counts, they must give the same
answer.
"""
import datetime
import os
import re
import subprocess
import sys
import textwrap

WORK = "target/bench"
COUNTER = ["qemu-x86_64", "-plugin", f"{WORK}/icount.so"]
# tlvlist and the original are linked to the machine's shared C library; the other programs hold theirs.
ORIGINAL = f"{WORK}/cargo/x86_64-unknown-linux-gnu/release/rows"
PROGRAMS = {"plain": [f"{WORK}/plain"], "original": [ORIGINAL], "ours": [f"{WORK}/ours"]}
WITHOUT_ORIGINAL = {who: PROGRAMS[who] for who in ("plain", "ours")}
LISTERS = {"plain": [f"{WORK}/plain-tlvlist"], "original": [ORIGINAL, "list"], "ours": ["crates/tlvlist/out/tlvlist"]}
TURNS = 20
# Where the stack lies moves with the environment's length, and with it what a copy on the stack costs: so the programs
# get always the same one.
FIXED = {"PATH": os.defpath}

# what is done; words for the programs; at most so many times plain C; less than, or at most, so many times the
# original, None where it has no such call; at most so many beyond the payload's copy
ROWS = [
    ("A CMDU header", "header", 2, None, None),
    ("Walk of 1,492 bytes, 497 TLVs", "walk-497", 2, 0.5, None),
    ("the same into a list", "list-497", 2, 0.5, None),
    ("Walk of 1,492 bytes, 165 TLVs", "walk-165", 2, 0.5, None),
    ("the same into a list", "list-165", 2, 0.5, None),
    ("Ipv4, 8 × 16, 1,209 bytes", "ipv4", 3, 0.1, None),
    ("ApOperationalBss, 2 × 4 × 32, 327 bytes", "bss", 3, 0.1, None),
    ("The same with 255 radios, 41,566 bytes", "bss-255", None, None, None),
    ("all its entries but the bytes of names, one after the other", "go-bss-255", 3, None, None),
    ("DeviceInventory, 255 radios, 48,964 bytes", "inventory-255", None, None, None),
    ("all its radios, one after the other", "go-inventory-255", 3, None, None),
    ("ControlUrl, a text of 1,400 ASCII bytes", "url-1400", None, None, 4200),
    ("Find, none among 166", "find-none", 1.2, 0.5, None),
    ("Find, the first of 166", "find-first", None, 1.25, None),
    ("Find all of 15,914, one after the other", "find-all", 2, None, None),
    ("Push 3 × 1,492 bytes to complete", "push-1492", 1.5, 0.5, None),
    ("Push 3 × 16 bytes to complete", "push-16", 1.5, 0.5, None),
    ("A push of 16 bytes that waits, empty table", "wait 0", 2.5, 1, 900),
    ("the same, 31 of 32 places used", "wait 31", 2.5, 1, 900),
    ("A push of 1,492 bytes that waits, empty table", "wait-1492 0", 2.5, 1, 900),
    ("the same, 31 of 32 places used", "wait-1492 31", 2.5, 1, 900),
    ("Sweep of 16 keys, none dropped", "sweep-none", None, 1, None),
    ("Sweep of 16 keys, all dropped", "sweep-all", None, 1, None),
    ("A join of a known station, 128 held", "join-known", None, None, 1500),
    ("A join of a new station, 127 held", "join-new", None, None, 1500),
    ("A stale leave, 128 held", "leave-stale", None, None, 1500),
    ("Where a station is that is not held, 128 held", "where-none", None, None, 1500),
    ("Cut of 13,428 bytes, 9 TLVs", "cut-9", 2, None, None),
    ("Cut of 13,428 bytes, 36 TLVs", "cut-36", 2, None, None),
    ("Cut of 13,428 bytes, 3,357 TLVs", "cut-3357", 2, None, None),
    ("Check of 13,428 bytes, 36 TLVs in 9 fragments", "check-36", None, None, None),
    ("A report over 1,024 pairs of kind 10", "report-1024", 3, None, None),
    ("Two reports of 512 pairs made into one", "merge", 2, None, None),
    ("A CMDU header written", "write-header", 3, None, None),
    ("A client association written from its fields", "write-association", 3, None, None),
    ("ApOperationalBss written, 327 bytes", "write-bss", 3, None, None),
    ("A frame of a capture written, 46 bytes of payload", "frame-46", 3, None, None),
    ("the same, 1,492 bytes", "frame-1492", 3, None, None),
    ("A capture of 100 frames checked", "capture-check", 3, None, None),
    ("the same into a list", "capture-list", 3, None, None),
]
# no payload is copied in these
UNCOPIED = ("url-1400", "join-known", "join-new", "leave-stale", "where-none")
WALKS = [10, 30, 100, 300, 497, 1000, 3000, 10000, 15914]
USED = range(32)


def run(command, stdin=b""):
    done = subprocess.run(COUNTER + command, input=stdin, capture_output=True, env=FIXED)
    found = re.search(rb"^instructions (\d+)$", done.stderr, re.M)
    if done.returncode != 0 or not found:
        sys.exit(f"bench: {' '.join(command)} failed with {done.returncode}: {done.stderr.decode(errors='replace')[-500:]}")
    return done.stdout, int(found.group(1))


def counted(words, programs=PROGRAMS):
    """The instructions of a turn in each program, whose answers have to be the same."""
    name, *size = words.split()
    counts, answers = {}, {}
    for who, program in programs.items():
        answers[who], once = run(program + [name, str(TURNS)] + size)
        again, twice = run(program + [name, str(2 * TURNS)] + size)
        if again != answers[who]:
            sys.exit(f"bench: row {words}: {who} answers {answers[who]} and then {again}")
        counts[who] = (twice - once) / TURNS
    if len(set(answers.values())) != 1:
        sys.exit(f"bench: row {words}: the answers differ: {answers}")
    return counts


def listed():
    """tlvlist over the largest payload with the most TLVs, less what it takes for an empty one."""
    payload = b"\x01\x00\x00" * 15913 + b"\x01\x00\x02ab"
    counts, answers = {}, {}
    for who, program in LISTERS.items():
        empty = run(program)
        answers[who], whole = run(program, payload)
        answers[who] += empty[0]
        counts[who] = whole - empty[1]
    if len(set(answers.values())) != 1:
        sys.exit(f"bench: tlvlist: the answers differ: { {who: a[-60:] for who, a in answers.items()} }")
    return counts


def shown(n):
    return f"{n:,.0f}"


def ratio(counts, to):
    return "" if to not in counts else f"{counts['ours'] / counts[to]:.2f}"


def judged(counts, plain, original, beyond, copy):
    """The bars of a row, and those that it misses."""
    bars, missed = [], []
    if plain:
        bars.append(f"≤ {plain} × C")
        if counts["ours"] > plain * counts["plain"]:
            missed.append(f"{ratio(counts, 'plain')} times plain C, the bar is {plain}")
    if original:
        bars.append("< original" if original == 1 else f"≤ {original} × original")
        share = counts["ours"] / counts["original"]
        if share > original or (original == 1 and share == 1):
            missed.append(f"{share:.2f} times the original, the bar is {original}")
    if beyond:
        bars.append(f"≤ {beyond:,}" + (" beyond the copy" if copy else ""))
        if counts["ours"] - copy > beyond:
            missed.append(f"{counts['ours'] - copy:,.0f}{' beyond the copy of its payload' if copy else ''}, the bar is {beyond:,}")
    return bars, missed


def reasons():
    with open("bench/reasons.txt", encoding="utf-8") as f:
        lines = [line.rstrip("\n") for line in f if line.strip() and not line.startswith("#")]
    return dict(line.split(": ", 1) for line in lines)


def first_line(*command):
    return subprocess.run(command, capture_output=True, text=True, check=True).stdout.split("\n")[0]


def versions():
    yield "Rattle", first_line("rt", "version")
    yield "plain C", first_line("x86_64-linux-gnu-gcc", "--version") + ", -O3"
    yield "original", first_line("/usr/bin/rustc", "--version") + ", release; nom " + re.search(r"nom-([0-9.]+)", " ".join(os.listdir("/usr/share/cargo/registry"))).group(1)
    yield "counted by", first_line("qemu-x86_64", "--version")
    for file in sorted(os.listdir(f"{WORK}/original/src/original")):
        yield f"sha256 of {file}", subprocess.run(["sha256sum", f"{WORK}/original/src/original/{file}"], capture_output=True, text=True, check=True).stdout[:16] + "…"


def picture(walks, pushes):
    import matplotlib

    matplotlib.use("Agg")
    from matplotlib import pyplot

    names = {"original": "original", "ours": "ours", "plain": "plain C"}
    figure, (left, right) = pyplot.subplots(1, 2, figsize=(11, 4.5))
    for who, name in names.items():
        # plain C and ours may lie on one line
        style = {"marker": "o", "markersize": 3, "label": name, "linestyle": "--" if who == "plain" else "-", "linewidth": 1 if who == "plain" else 2}
        left.plot(WALKS, [c[who] for c in walks], **style)
        right.plot([u + 1 for u in USED], [c[who] for c in pushes], **style)
    left.set(xscale="log", yscale="log", xlabel="TLVs in the payload", ylabel="instructions", title="Walk")
    right.set(xlabel="places used, the new one among them", ylabel="instructions", title="A push of 16 bytes that waits", ylim=(0, None))
    for axes in (left, right):
        axes.grid(alpha=0.3)
        axes.legend()
    figure.tight_layout()
    figure.savefig("docs/benchmark.png", dpi=110, metadata={"Software": None})


def growth(walks, pushes, rows):
    """What the picture shows, in two sentences: the cost of a TLV in the longest walk, the range of a waiting push. And
    what going over all entries costs beside one read of their value."""
    for_each = {who: f"{counts / WALKS[-1]:.1f}" for who, counts in walks[-1].items()}
    spans = {who: f"{shown(min(c[who] for c in pushes))} to {shown(max(c[who] for c in pushes))}" for who in PROGRAMS}
    walk, push = (f"{by['ours']}{of}, plain C {by['plain']}, the original {by['original']}"
                  for by, of in ((for_each, " instructions for each TLV"), (spans, " as the table fills")))
    over = [f"{rows['go-' + row]['ours'] / rows[row]['ours']:.2f}" for row in ("bss-255", "inventory-255")]
    entries = f"Going over all entries, the first call among them, takes {over[0]} times one read of the value for\nApOperationalBss, and {over[1]} times for DeviceInventory; the bar is 3."
    return f"A walk takes {walk}.\nA push that waits takes {push}.\n{entries}\n"


def main():
    # asked first, so that a document is written whole or not at all
    known = list(versions())
    copies = {n: counted(f"copy {n}", {"plain": PROGRAMS["plain"]})["plain"] for n in (16, 1492)}
    told = reasons()
    table, misses, by_row = [], [], {}
    for title, words, plain, original, beyond in ROWS + [("tlvlist over 47,744 bytes, 15,914 TLVs", "tlvlist", None, 1, None)]:
        counts = listed() if words == "tlvlist" else counted(words, PROGRAMS if original else WITHOUT_ORIGINAL)
        by_row[words] = counts
        bars, missed = judged(counts, plain, original, beyond, 0 if words in UNCOPIED else copies[1492 if "1492" in words else 16])
        print(f"{words}: {counts}{' MISSES: ' + '; '.join(missed) if missed else ''}", flush=True)
        table.append(f"| {title} | {shown(counts['plain'])} | {shown(counts['original']) if original else 'no such call'} | {shown(counts['ours'])} | {ratio(counts, 'plain')} | {ratio(counts, 'original')} | {', '.join(bars)} | {'missed' if missed else 'kept' if bars else 'no bar'} |")
        if missed:
            why = told.get(words, "The reason is not recorded yet.")
            said = f"- **{title}** (`{words}`): {'; '.join(missed)}. {why}"
            misses.append(textwrap.fill(said, 120, subsequent_indent="  ", break_on_hyphens=False))
    walks = [counted(f"walk {n}") for n in WALKS]
    pushes = [counted(f"wait {u}") for u in USED]
    picture(walks, pushes)
    stack = subprocess.run(["bench/stack"], capture_output=True, text=True)
    frames = [line.split(" ", 3) for line in stack.stdout.strip().split("\n")]

    with open("docs/BENCHMARK.md", "w", encoding="utf-8") as f:
        f.write(f"""# Speed and stack

Made by `bench/run` on {datetime.date.today().isoformat()}; not to be edited by hand. The numbers are instructions of x86-64
executed for one turn, counted by a plugin of an emulator: the difference of runs with {2 * TURNS} and {TURNS} turns, over {TURNS}.
A row is counted only if all programs give the same answer.

- **Plain C** is `bench/plain.c` and `bench/plain_fields.c`: written by hand, without copies, with the same checks, refusals and calls as ours.
- **Original** is the Rust code that was ported, unchanged. Its rows include its own lists and buffers; the fragments
  that are pushed to it are made before the first turn. A row of its sweep includes the turn of the runtime that wakes
  its worker. Its rows of push differ a little from run to run.
- **Ours** are the calls of include/ashlar.h, linked as an archive. tlvlist is the proved program.
- The programs run in one fixed environment, because copying a table on the stack costs more or less as the stack lies.
- Bars are set against plain C, the original, or a number of instructions. A waiting push may take 900 beyond the copy
  of its payload, which by itself takes {copies[16]:,.0f} for 16 bytes and {copies[1492]:,.0f} for 1,492. A text may take 3 for each
  byte. A call of the station table may take 1,500; the station is the one that is found last. A check of fragments
  has no bar: ours compares them with the message byte by byte, plain C by its library's memcmp.
- Some rows have no original: it reads a header only together with what follows it, it cuts and replaces texts, it
  copies every fragment where it cuts a message, and it has neither a station table nor link reports nor captures. Its
  find returns the value itself; ours and plain C say where it lies, so their turns copy it out.

| Work | Plain C | Original | Ours | to plain C | to the original | Bar | |
|---|---:|---:|---:|---:|---:|---|---|
""")
        f.write("\n".join(table) + "\n\n## Rows that miss their bar\n\n")
        f.write(("\n".join(misses) if misses else "None.") + "\n\n## How cost grows\n\n")
        f.write(growth(walks, pushes, by_row))
        f.write("""
![Instructions of a walk by its TLVs, and of a waiting push by the places used](benchmark.png)

## Stack

Bytes of stack that a call takes with all that it calls, its return address included. `bench/stack` reads them off the
archive, and fails where a frame isn't constant. The gate compares each with its bar (rule C3, `tests/stack`).

| Call | Bytes | Bar | Deepest way | |
|---|---:|---:|---|---|
""")
        f.writelines(f"| `{name}` | {int(size):,} | {int(bar):,} | {way.replace(' > ', ' → ')} | {'missed' if int(size) > int(bar) else 'kept'} |\n" for name, size, bar, way in frames)
        f.write("\n## Versions\n\n")
        f.writelines(f"- {what}: {version}\n" for what, version in known)
    if stack.returncode:
        print(stack.stderr.strip())
    print(f"docs/BENCHMARK.md: {len(misses)} of {len(table)} rows miss a bar")


main()
