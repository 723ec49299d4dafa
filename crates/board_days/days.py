#!/usr/bin/env python3
"""Writes the days of data/ that are not among the given vectors, data/our-*.frames, and for some of them the sums that were worked
out by hand, data/our-*.sums.

Words are document 01's: a ticket's steps are kind, a, b, c in sixteen bits each; a frame line is lower-case hexadecimal.
"""
from pathlib import Path

DATA = Path(__file__).parent / "data"


def step(kind, a=0, b=0, c=0):
    return f"{kind:04x}{a:04x}{b:04x}{c:04x}"


def take(bay):
    return step(1, bay)


def drop(bay):
    return step(2, bay)


def put(word, value):
    return step(3, word, value >> 16, value & 0xFFFF)


def add(word, b, c):
    return step(4, word, b, c)


def sub(word, b, c):
    return step(5, word, b, c)


def skip(word, to):
    return step(7, word, to)


END = step(8)


def hand_in(desk, number, steps, args=(0,) * 8):
    return f"01{desk:02x}{number:016x}" + "".join(f"{a:016x}" for a in args) + "".join(steps)


def turns(desk, n):
    return f"02{desk:02x}{n:04x}"


def rounds(n):
    return f"04{n:04x}"


CUT = "03"
TICKET = [take(3), put(24, 5), drop(3), END]


def write(name, lines, last=b"\n"):
    text = b"\n".join(l if isinstance(l, bytes) else l.encode() for l in lines)
    (DATA / f"our-{name}.frames").write_bytes(text + last)


def sums(name, bays=None, waited=(), moved=()):
    """The sums of a day, by hand: data/OUR-DAYS.md says how. Bays and desks that are not named have 0."""
    rows = {
        "bays": [(bays or {}).get(b, 0) for b in range(64)],
        "waited": (*waited, *[0] * 8)[:8],
        "moved": (*moved, *[0] * 8)[:8],
    }
    lines = [" ".join([row, *map(str, numbers)]) for row, numbers in rows.items()]
    (DATA / f"our-{name}.sums").write_text("\n".join(lines) + "\n")


def refusals():
    """Each cause of a hand-in or a turn, and a good ticket after it: the board goes on."""
    good = [hand_in(0, 9, TICKET), turns(0, 19)]
    long = [take(3)] + [put(24, i) for i in range(62)]
    rows = {
        "1-desk": [hand_in(2, 1, TICKET), turns(2, 3), turns(255, 1)],
        "2-busy": [hand_in(0, 1, TICKET), hand_in(0, 2, TICKET), turns(0, 5), hand_in(0, 3, TICKET), turns(0, 14)],
        "3-number": [hand_in(0, 0, TICKET), hand_in(0, 5, TICKET), turns(0, 19), hand_in(0, 5, TICKET), hand_in(0, 4, TICKET)],
        "4-none": [hand_in(0, 1, [])],
        "4-two": [hand_in(0, 1, [take(3), END])],
        "4-sixty-five": [hand_in(0, 1, long + [drop(3), END])],
        "order": [hand_in(2, 1, []), hand_in(0, 0, [])],
        "5-kind-0": [hand_in(0, 1, [take(3), step(0), drop(3), END])],
        "5-kind-9": [hand_in(0, 1, [take(3), step(9), drop(3), END])],
        "5-bay-64": [hand_in(0, 1, [take(64), drop(64), END])],
        "5-word-520": [hand_in(0, 1, [take(3), put(520, 1), drop(3), END])],
        "5-take-with-b": [hand_in(0, 1, [step(1, 3, 1), drop(3), END])],
        "5-skip-back": [hand_in(0, 1, [take(3), skip(512, 1), drop(3), END])],
        "5-skip-outside": [hand_in(0, 1, [take(3), skip(512, 4), drop(3), END])],
        "5-end-inside": [hand_in(0, 1, [take(3), END, drop(3), END])],
        "5-no-end": [hand_in(0, 1, [take(3), put(24, 5), drop(3)])],
        "6-no-take": [hand_in(0, 1, [put(512, 1), take(3), drop(3), END])],
        "6-nothing-held": [hand_in(0, 1, [take(3), drop(3), take(4), drop(4), END])],
        "6-held-at-end": [hand_in(0, 1, [take(3), put(24, 5), END])],
        "7-take-twice": [hand_in(0, 1, [take(3), take(3), drop(3), END])],
        "7-take-below": [hand_in(0, 1, [take(3), take(2), drop(2), drop(3), END])],
        "7-drop-not-held": [hand_in(0, 1, [take(3), drop(4), drop(3), END])],
        "8-target": [hand_in(0, 1, [take(3), put(32, 5), drop(3), END])],
        "8-operand": [hand_in(0, 1, [take(3), add(24, 23, 512), drop(3), END])],
        "8-skip": [hand_in(0, 1, [take(3), skip(0, 2), drop(3), END])],
        "9-skip-to-end": [hand_in(0, 1, [take(3), skip(512, 3), drop(3), END])],
        "9-skip-over-take": [hand_in(0, 1, [take(3), skip(512, 3), take(4), drop(4), drop(3), END])],
        "5-before-6": [hand_in(0, 1, [put(512, 1), step(9), END])],
    }
    for name, lines in rows.items():
        write(f"cause-{name}", ["02"] + lines + good)
    write("sixty-four-steps", ["01", hand_in(0, 1, [take(3)] + [put(24, i) for i in range(61)] + [drop(3), END]), turns(0, 300)])


def malformed():
    """Each sort of malformed line, after lines that print and before one that would."""
    line = hand_in(0, 2, TICKET)
    rows = {
        "upper-case": "02000A05",
        "upper-case-in-steps": line[:-1] + "F",
        "blank": "02 00005",
        "blank-behind": "02000005 ",
        "carriage-return": "02000005\r",
        "tab": "\t2000005",
        "byte-0": b"02000\x0005",
        "byte-128": b"0200\x800005"[:8],
        "byte-255": b"\xff",
        "slash": "0200000/",
        "colon": "0200000:",
        "backquote": "0200000`",
        "letter-g": "0200000g",
        "empty-line": "",
        "one-digit": "0",
        "kind-00": "00",
        "kind-05": "050005",
        "kind-10": "10000005",
        "kind-ff": "ff",
        "turns-7": "0200001",
        "turns-9": "020000010",
        "turns-2": "02",
        "cut-3": "030",
        "cut-4": "0300",
        "rounds-2": "04",
        "rounds-5": "04001",
        "rounds-7": "0400001",
        "rounds-8": "04000001",
        "rounds-blank-behind": "040001 ",
        "rounds-upper-case": "04000A",
        "hand-in-2": "01",
        "hand-in-147": line[:147],
        "steps-part-1": line[:149],
        "steps-part-15": line[:163],
        "steps-part-17": line[:165],
        "steps-part-8": line[:156],
        "digits-4096": hand_in(0, 2, [END] * 247)[:4096],
        "digits-4097": hand_in(0, 2, [END] * 247)[:4097],
        "digits-4100": hand_in(0, 2, [END] * 247),
        "digits-9000": "0" * 9000,
    }
    for name, bad in rows.items():
        write(f"malformed-{name}", ["01", hand_in(0, 1, TICKET), turns(0, 3), bad, turns(0, 3)])
    write("malformed-at-the-end", ["01", hand_in(0, 1, TICKET), turns(0, 3), "0x"], last=b"")
    write("digits-4084", ["02", hand_in(0, 1, [END] * 246), hand_in(2, 1, [END] * 246), turns(0, 1), CUT])


def first_lines():
    for d in list(range(11)) + [0x10, 0x80, 0xFF]:
        write(f"first-{d:02x}", [f"{d:02x}", hand_in(0, 1, TICKET), turns(0, 2), CUT])
    for name, bad in {"upper-case": "0A", "one-digit": "1", "three-digits": "001", "empty": "", "blank": " 1", "letter": "0g", "frame": CUT + "00"}.items():
        write(f"first-{name}", [bad, hand_in(0, 1, TICKET), turns(0, 2)])
    write("first-alone", ["08"])
    write("first-alone-no-line-end", ["08"], last=b"")
    write("first-half-no-line-end", ["0"], last=b"")
    (DATA / "our-nothing.frames").write_bytes(b"")
    (DATA / "our-line-end-alone.frames").write_bytes(b"\n")
    (DATA / "our-two-line-ends.frames").write_bytes(b"01\n\n")


def waits():
    a = hand_in(0, 1, TICKET)
    b = hand_in(1, 7, [take(3), add(24, 24, 512), drop(3), END], args=(2, 0, 0, 0, 0, 0, 0, 0))
    write("wait", ["02", a, b, turns(0, 3), turns(1, 0xFFFF), turns(0, 19), turns(1, 0xFFFF), turns(0, 1)])
    sums("wait", {3: 65534}, (0, 65534), (19, 19))
    write("wait-across-a-cut", ["02", a, b, turns(0, 6), turns(1, 9), CUT, turns(1, 9), turns(0, 50), turns(1, 50), CUT])
    write("no-turns", ["01", a, turns(0, 0), turns(9, 0), turns(0, 1), CUT, CUT, turns(0, 0)])
    write("idle-turns", ["01", turns(0, 0xFFFF), a, turns(0, 0xFFFF), turns(0, 5), CUT, turns(0, 3)])
    sums("idle-turns", moved=(19,))
    write("no-last-line-end", ["01", a, turns(0, 5), CUT], last=b"")
    write("turns-no-last-line-end", ["01", a, turns(0, 5)], last=b"")
    whole, top = turns(1, 0xFFFF), 2 * 65535
    write("wait-each-turn", ["02", a, b, turns(0, 2), turns(1, 1), whole, whole, turns(2, 0xFFFF), turns(0, 0xFFFF), whole])
    sums("wait-each-turn", {3: top}, (0, top), (19, 19))
    eight = ["08"] + [hand_in(d, 1, [take(d), take(8), add(64, 64, 512), drop(8), drop(d), END], args=(d + 1,) + (0,) * 7) for d in range(8)]
    threes = [turns(d, 3) for _ in range(40) for d in range(8)]
    write("eight-desks", eight + threes)
    write("eight-desks-cut", eight + threes[:77] + [CUT] + threes[:50] + [CUT, CUT] + threes * 2)


def reports():
    """Document 02, 1/14: a drop cut behind its lock word, resumed; a skip, of which nothing is printed."""
    a = hand_in(0, 3, [take(3), add(24, 24, 512), drop(3), END], args=(5,) + (0,) * 7)
    b = hand_in(1, 4, [take(3), skip(24, 3), add(24, 24, 512), drop(3), END], args=(70,) + (0,) * 7)
    write("report-already-free", ["02", a, turns(0, 15), CUT, turns(0, 6)])
    write("report-anothers", ["02", a, turns(0, 15), CUT, b, turns(1, 2), turns(0, 2), turns(1, 50), turns(0, 50)])
    write("report-each-by-a-line", ["02", a, turns(0, 15), CUT, b, turns(1, 3)] + [turns(0, 1)] * 6 + [turns(1, 1)] * 20)
    write("report-cut-again", ["02", a, turns(0, 15), CUT, turns(0, 2), CUT, b, turns(1, 2), turns(0, 3), CUT, turns(0, 9), turns(1, 50)])
    write("report-freed", ["02", a, turns(0, 13), CUT, turns(0, 6)])
    write("report-freed-by-recovery", ["02", a, turns(0, 14), CUT, turns(0, 6)])
    write("report-skip-none", ["02", b, b, turns(1, 7), CUT, turns(1, 50)])


def totals():
    """Document 02, 5/14: sums that stop at 2^64 - 1 and differences that stop at 0, also resumed."""
    top, half = 2**64 - 1, 2**63
    rest = [drop(3), END]

    def day(name, steps, args, *lines):
        ticket = hand_in(0, 1, [take(3)] + steps + rest, args=args + (0,) * (8 - len(args)))
        write(f"total-{name}", ["01", ticket, *(lines or [turns(0, 99)])])

    # word 24 := the first argument, and then a sum or a difference with the second
    given = [add(24, 512, 514)]
    more, less = [add(24, 24, 513)], [sub(24, 24, 513)]
    day("stops-at-the-top", given + more, (top, 4))
    day("stops-from-the-middle", given + more, (half, half))
    day("just-the-top", given + more, (top - 1, 1))
    day("just-the-top-from-the-middle", given + more, (half, half - 1))
    day("stops-at-0", given + less, (5, 7))
    day("just-0", given + less, (half, half))
    day("past-the-middle", given + more, (half, 5))
    day("stop-not-remembered", given + more + less, (top, 1))
    day("skip-at-0", given + less + [skip(24, 5), put(25, 9)], (5, 7))
    day("no-skip-at-the-top", given + more + [skip(24, 5), put(25, 9)], (top, 1))
    for name, n in ("value", 12), ("place", 13), ("target", 14):
        day(f"cut-behind-the-{name}", given + more, (top, 4), turns(0, n), CUT, turns(0, 99))
    day("cut-not-added-twice", given + more, (top - 5, 3), turns(0, 14), CUT, turns(0, 99))
    day("cut-difference", given + less, (5, 7), turns(0, 13), CUT, turns(0, 99))


def two_desks():
    """Two desks at one bay, a turn each in turn, cut after n turns of each, and then to the end."""
    a = hand_in(0, 3, [take(3), add(24, 24, 512), drop(3), END], args=(5,) + (0,) * 7)
    b = hand_in(1, 4, [take(2), take(3), add(24, 24, 513), skip(24, 5), put(16, 9), drop(3), drop(2), END], args=(0, 70) + (0,) * 6)
    for n in range(42):
        lines = ["02", a, b] + [turns(d, 1) for _ in range(n) for d in (0, 1)] + [CUT]
        lines += [turns(d, 5) for _ in range(14) for d in (0, 1)]
        write(f"two-desks-cut-{n:02d}", lines + [CUT])


def in_rounds():
    """Document 02, 7/14: rounds of one desk, and where none is open."""
    a, c = hand_in(0, 1, TICKET), hand_in(2, 1, TICKET)
    most = rounds(0xFFFF)
    write("rounds-none", ["01", a, rounds(0), turns(0, 1), rounds(0), CUT, rounds(0)])
    sums("rounds-none", moved=(1,))
    write("rounds-before-any-hand-in", ["03", rounds(1), most, CUT, most, c, rounds(1)])
    sums("rounds-before-any-hand-in", moved=(0, 0, 1))
    write("rounds-spent-amid-a-ticket", ["02", a, rounds(7), turns(1, 5), rounds(0), rounds(5)])
    sums("rounds-spent-amid-a-ticket", moved=(12,))
    write("rounds-just-enough", ["01", a, rounds(18), rounds(1), rounds(1), hand_in(0, 2, TICKET)])
    sums("rounds-just-enough", moved=(19,))
    write("rounds-to-the-end", ["03", a, most, most, hand_in(0, 2, TICKET), c, most])
    sums("rounds-to-the-end", {3: 13}, (0, 0, 13), (38, 0, 19))
    slow = [take(3)] + [put(24, i) for i in range(61)] + [drop(3), END]
    write("rounds-each-digit", ["01", hand_in(0, 1, slow), rounds(0x100), rounds(0x3), hand_in(0, 2, slow), rounds(0x10), rounds(0x1000)])
    sums("rounds-each-digit", moved=(518,))
    write("rounds-no-last-line-end", ["01", a, rounds(5)], last=b"")
    write("rounds-no-desk", ["02", a, turns(2, 0xFFFF), turns(0, 3), turns(255, 0xFFFF), rounds(2), turns(1, 0xFFFF), most])
    sums("rounds-no-desk", moved=(19,))
    write("rounds-first-refused", ["09", rounds(5), a, rounds(5)])
    sums("rounds-first-refused")
    write("rounds-first-malformed", [rounds(1), a, rounds(5)])
    write("rounds-then-malformed", ["02", a, hand_in(1, 1, TICKET), rounds(9), "040", rounds(9)])
    sums("rounds-then-malformed", {3: 8}, (0, 8), (9, 1))


def rounds_of_many():
    """Document 02, 7/14: rounds of desks that wait for each other, and across cuts."""
    a, b, c = (hand_in(d, 1, TICKET) for d in range(3))
    most = rounds(0xFFFF)
    write("rounds-two-desks", ["02", a, b, most])
    sums("rounds-two-desks", {3: 13}, (0, 13), (19, 19))
    write("rounds-three-desks", ["03", c, rounds(2), a, b, most])
    sums("rounds-three-desks", {3: 37}, (12, 25), (19, 19, 19))
    long = [take(2), put(16, 1), put(17, 2), put(18, 3), drop(2), END]
    both = [take(1), take(2), drop(2), drop(1), END]
    write("rounds-two-bays", ["03", hand_in(0, 1, [take(1), drop(1), END]), hand_in(1, 1, long), hand_in(2, 1, both), most])
    sums("rounds-two-bays", {1: 9, 2: 6}, (0, 0, 15), (15, 27, 27))
    write("rounds-among-turns", ["02", a, b, turns(0, 2), rounds(3), turns(1, 7), rounds(2), turns(0, 100), turns(1, 4), rounds(9), turns(1, 0xFFFF)])
    sums("rounds-among-turns", {3: 11}, (0, 11), (19, 19))
    write("rounds-across-a-cut", ["02", a, b, rounds(5), CUT, rounds(3), b, most])
    sums("rounds-across-a-cut", {3: 9}, (0, 9), (19, 20))
    eight = [hand_in(d, 1, [take(d), take(8), add(64, 64, 512), drop(8), drop(d), END], args=(d + 1,) + (0,) * 7) for d in range(8)]
    write("rounds-eight-desks", ["08"] + eight + [rounds(40), most])
    sums("rounds-eight-desks", {8: 364}, range(0, 92, 13), (31,) * 8)
    write("rounds-eight-desks-cut", ["08"] + eight + [rounds(n) if n else CUT for n in (9, 0, 13, 0, 0, 60, 0, 1, 0)] + eight + [most])
    other = hand_in(1, 1, [take(4), put(32, 7), drop(4), END])
    late = hand_in(2, 1, [take(4), skip(32, 3), add(32, 32, 32), drop(4), END])
    write("rounds-report-each", ["03", a, other, rounds(15), CUT, late, turns(2, 2), most])
    sums("rounds-report-each", moved=(21, 21, 20))
    write("rounds-report-cut-again", ["03", a, other, rounds(15), CUT, rounds(2), CUT, late, turns(2, 2), rounds(2), CUT, late, most])
    sums("rounds-report-cut-again", moved=(25, 25, 24))
    for n in 1, 4, 5, 14, 15, 16, 20, 28, 33:
        write(f"rounds-cut-{n:02d}", ["02", a, b, rounds(n), CUT, rounds(3), CUT, b, most])


if __name__ == "__main__":
    for old in DATA.glob("our-*"):
        old.unlink()
    refusals()
    malformed()
    first_lines()
    waits()
    reports()
    totals()
    two_desks()
    in_rounds()
    rounds_of_many()
