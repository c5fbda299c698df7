#!/usr/bin/env python3
"""Plans as bytes, by document 01: how the stored plans of the tests and samples are made, and what one holds.

    python3 tests/plans.py FILE     prints the head, periods and doses of a plan file
"""
import datetime
import struct
import sys

OPEN = 0xFFFFFFFF
MOST = 9_999_999_999


def dose(day=1, kind=0, mark=0, minute=0, low=100, high=0, rest=0):
    return struct.pack("<HBBHHQQ", day, kind, mark, minute, rest, low, high)


def seal(block):
    first = second = 0
    for (word,) in struct.iter_unpack("<I", block[:504]):
        first = (first + word) & 0xFFFFFFFF
        second = (second + first) & 0xFFFFFFFF
    return block[:504] + struct.pack("<II", first, second)


def block(start, body=b""):
    return seal((start.ljust(24, b"\0") + body).ljust(512, b"\0"))


def period(first, last, doses=(), interval=0):
    """The period's block and its continuation blocks."""
    doses = list(doses)
    blocks = [block(struct.pack("<BBHII", 2, len(doses[:20]), interval, first, last), b"".join(doses[:20]))]
    for at in range(20, len(doses), 20):
        blocks.append(block(struct.pack("<BB", 3, len(doses[at:at + 20])), b"".join(doses[at:at + 20])))
    return blocks


def plan(*periods, start=0, end=OPEN, number=1, revision=1, vka=0, count=None):
    blocks = [b for p in periods for b in p]
    further = len(blocks) if count is None else count
    head = block(struct.pack("<BBHIIIIB", 1, further, 7, start, end, number, revision, vka))
    return head + b"".join(blocks)


def damaged(plan, at, byte, sealed=True):
    """The plan with one byte changed; `sealed`: that block's sums made right again."""
    b = at // 512 * 512
    plan = plan[:at] + bytes([byte]) + plan[at + 1:]
    return plan[:b] + seal(plan[b:b + 512]) + plan[b + 512:] if sealed else plan


FIXED, NEED, MIXED = [dose()], [dose(mark=1)], [dose(), dose(mark=1)]


def fixed(first, last):
    return period(first, last, FIXED, 1)


def need(first, last):
    return period(first, last, NEED, 1)


def mixed(first, last):
    return period(first, last, MIXED, 1)


def empty(first, last):
    return period(first, last)


KINDS = ["none", "morning", "noon", "evening", "night", "clock"]


def day(number):
    return "open" if number == OPEN else str(datetime.date(2000, 1, 1) + datetime.timedelta(number)) if number < 73049 else f"day {number}"


def contents(data):
    """The lines that show a plan's blocks, whether or not it is accepted."""
    for at in range(0, len(data), 512):
        b = data[at:at + 512].ljust(512, b"\0")
        sums = "" if b == seal(b) else " (sums wrong)"
        kind, count, number, first, last = struct.unpack_from("<BBHII", b)
        if kind == 1:
            plan_number, revision = struct.unpack_from("<II", b, 12)
            yield f"{at // 512:2} head: {count} further blocks, unit {number}, from {day(first)} to {day(last)}, plan {plan_number}, revision {revision}, vka {b[20]}{sums}"
        elif kind in (2, 3):
            dates = f"period: {day(first)} to {day(last)}, interval {number}" if kind == 2 else "continuation"
            yield f"{at // 512:2} {dates}, {count} doses{sums}"
            for i in range(min(count, 20)):
                d, k, mark, minute, _, low, high = struct.unpack_from("<HBBHHQQ", b, 24 + 24 * i)
                time = f"{minute // 60:02}:{minute % 60:02}" if k == 5 else KINDS[k] if k < 5 else f"kind {k}"
                amount = f"{low / 100:.2f}" + (f" to {high / 100:.2f}" if high else "")
                yield f"     day {d} {time} {amount}{' as needed' if mark else ''}"
        else:
            yield f"{at // 512:2} neither head, period nor continuation{sums}"


if __name__ == "__main__":
    with open(sys.argv[1], "rb") as f:
        print("\n".join(contents(f.read())))
