#!/usr/bin/env python3
"""Writes the plans of crates/cases/stdin, and what document 01 says of each into crates/cases/stdout.

    python3 tests/cases.py

Each answer below was worked out by hand from document 01. A plan stands in stdin behind its length, four bytes, least
byte first. Both files are kept in the repository: the program is run on them, and this file only says how they came about.
"""
import os
import struct

from plans import MOST, OPEN, block, damaged, dose, empty, fixed, mixed, need, period, plan


def daily(doses, first=8000, last=OPEN):
    return plan(period(first, last, doses, 1))


good = plan(fixed(8000, OPEN))
full = plan(*[period(8000 + 10 * i, 8009 + 10 * i, [dose(d, k) for d in range(1, 6) for k in range(1, 5)], 5) for i in range(31)])

CASES = [
    # the cases of "Worked on paper"
    ("P6", plan(fixed(6547, 6550), fixed(6557, 6560)), 17, 255),
    ("P7", plan(fixed(6547, 6550), empty(6551, 6556), fixed(6557, 6560)), 0, 255),
    ("P8", plan(fixed(6547, 6550), need(6551, 6554), fixed(6555, 6558)), 17, 255),
    ("P9", plan(fixed(6547, 6550), mixed(6548, 6551)), 16, 2),
    ("10 untimed doses", daily([dose(low=MOST)] * 10), 0, 255),
    ("11 untimed doses", daily([dose(low=MOST)] * 11), 14, 1),
    ("99 doses", daily([dose(low=1)] * 99), 0, 255),
    ("100 doses", daily([dose(low=1)] * 100), 9, 1),
    # 1
    ("no bytes", b"", 1, 255),
    ("a byte short", good[:-1], 1, 255),
    ("32 blocks", full, 0, 255),
    ("33 blocks", full + full[-512:], 1, 255),
    # 2
    ("a sum", damaged(good, 1021, 1, sealed=False), 2, 1),
    ("sums before kinds", damaged(damaged(good, 0, 9), 1000, 1, sealed=False), 2, 1),
    ("zeros have right sums", bytes(512), 3, 0),
    # 3
    ("no head", damaged(good, 0, 2), 3, 0),
    ("count", plan(fixed(8000, OPEN), count=2), 3, 0),
    ("a control block", damaged(good, 512, 4), 3, 1),
    ("20 and a continuation", plan(period(8000, 8009, [dose(low=1)] * 21, 1)), 0, 255),
    ("19 and a continuation", plan(period(8000, 8009, [dose(low=1)] * 19, 1), [block(bytes([3, 1]), dose())]), 3, 2),
    ("continuation of a head of 20", plan([block(bytes([3, 1]), dose())], count=20)[:512 * 2], 3, 0),
    # 4
    ("continuation of 0", plan(period(8000, 8009, [dose(low=1)] * 20, 1), [block(bytes([3, 0]))]), 4, 2),
    ("21 doses", damaged(good, 513, 21), 4, 1),
    ("vka 2", damaged(good, 20, 2), 4, 0),
    ("a head byte", damaged(good, 21, 1), 4, 0),
    ("a period byte", damaged(good, 512 + 23, 1), 4, 1),
    ("behind the doses", damaged(good, 512 + 48, 1), 4, 1),
    ("kind 6", daily([dose(kind=6)]), 4, 1),
    ("mark 2", daily([dose(mark=2)]), 4, 1),
    ("minute 1439", daily([dose(kind=5, minute=1439)]), 0, 255),
    ("minute 1440", daily([dose(kind=5, minute=1440)]), 4, 1),
    ("minute without a clock", daily([dose(kind=4, minute=1)]), 4, 1),
    ("bytes 6 and 7", daily([dose(rest=256)]), 4, 1),
    ("amount", daily([dose(low=MOST + 1)]), 4, 1),
    ("last day of all", plan(fixed(73048, 73048)), 0, 255),
    ("a day more", plan(fixed(73048, 73049)), 4, 1),
    ("nearly open", plan(fixed(8000, OPEN - 1)), 4, 1),
    ("open first day", plan(fixed(OPEN, OPEN)), 4, 1),
    ("first after last", plan(fixed(8001, 8000)), 4, 1),
    ("start after end", plan(fixed(8000, 8000), start=8001, end=8000), 4, 0),
    # 5
    ("before the treatment", plan(fixed(8000, 8009), start=8001), 5, 1),
    ("to its end", plan(fixed(8000, 8009), start=8000, end=8009), 0, 255),
    ("past its end", plan(fixed(8000, 8010), end=8009), 5, 1),
    ("open, and it is not", plan(fixed(8000, OPEN), end=73048), 5, 1),
    # 6
    ("out of order", plan(fixed(8010, 8019), fixed(8000, 8009)), 6, 2),
    ("numbers before places", plan(period(8010, 8019, [dose(2)], 1), fixed(8000, 8009)), 6, 2),
    # 7
    ("falling", plan(period(8000, 8009, [dose(2), dose(1)], 7)), 7, 1),
    ("past the interval", plan(period(8000, 8001, [dose(8)], 7)), 7, 1),
    ("interval past the length", plan(period(8000, 8001, [dose(7)], 7)), 0, 255),
    ("past the length", plan(period(8000, 8001, [dose(3)])), 7, 1),
    ("open has no length", plan(period(73048, OPEN, [dose(2)])), 0, 255),
    # 8
    ("any day, fixed", plan(period(8000, 8009, [dose(0)], 7)), 8, 1),
    ("any day, as needed", plan(period(8000, 8009, [dose(0, mark=1)], 7)), 0, 255),
    ("any day and another", plan(period(8000, 8009, [dose(0, mark=1), dose(1, mark=1)], 7)), 8, 1),
    # 10
    ("morning twice", daily([dose(kind=1), dose(kind=1, mark=1)]), 10, 1),
    ("evening before morning", daily([dose(kind=3), dose(kind=1), dose(kind=2)]), 0, 255),
    ("evening, morning, evening", daily([dose(kind=3), dose(kind=1), dose(kind=3)]), 10, 1),
    ("a minute twice", daily([dose(kind=5, minute=9), dose(kind=5, minute=3), dose(kind=5, minute=9)]), 10, 1),
    # 11
    ("other amounts", daily([dose(low=5), dose(low=6)]), 11, 1),
    ("other marks", daily([dose(low=5), dose(low=6, mark=1)]), 0, 255),
    ("raw amounts", daily([dose(low=5), dose(low=5, high=5)]), 11, 1),
    # 12
    ("none and morning", plan(period(8000, 8009, [dose(1), dose(2, kind=1)], 7)), 12, 1),
    ("none and clock", plan(period(8000, 8009, [dose(1), dose(2, kind=5)], 7)), 0, 255),
    # 13
    ("high is low", daily([dose(low=5, high=5)]), 13, 1),
    ("low is 0", daily([dose(low=0, high=5)]), 13, 1),
    ("both are 0", daily([dose(low=0, high=0)]), 0, 255),
    # 14
    ("open, not iterated, as needed", plan(period(8000, OPEN, [dose(mark=1, low=MOST)] * 20)), 0, 255),
    ("two days", plan(period(8000, OPEN, [dose(1, low=MOST)] * 10 + [dose(2, low=MOST)] * 10)), 0, 255),
    ("upper amounts", daily([dose(low=1, high=MOST)] * 11), 14, 1),
    # 15
    ("no period", plan(), 15, 255),
    ("only empty", plan(empty(8000, 8009)), 15, 255),
    ("only empty, VKA", plan(empty(8000, 8009), vka=1), 0, 255),
    ("no period, VKA", plan(vka=1), 15, 255),
    # 16
    ("need over fixed", plan(fixed(8000, 8009), need(8005, 8014)), 0, 255),
    ("need over empty", plan(need(8000, 8009), empty(8005, 8014)), 0, 255),
    ("need over need", plan(need(8000, 8009), need(8009, 8014)), 16, 2),
    ("empty over fixed", plan(fixed(8000, 8009), empty(8009, 8014)), 16, 2),
    ("two empty", plan(empty(8000, 8009), empty(8009, 8014), vka=1), 16, 2),
    ("later of equal first days", plan(mixed(8000, 8000), fixed(8000, 8009)), 16, 2),
    # 17
    ("a day between", plan(fixed(8000, 8009), fixed(8011, 8014)), 17, 255),
    ("need between need", plan(need(8000, 8009), fixed(8010, 8012), need(8013, 8014)), 17, 255),
    ("mixed between need", plan(need(8000, 8009), mixed(8010, 8012), need(8013, 8014)), 0, 255),
    ("empty edges", plan(empty(8000, 8009), fixed(8010, 8012), empty(8013, 8014)), 0, 255),
]

here = os.path.join(os.path.dirname(os.path.abspath(__file__)), "..", "crates", "cases")
with open(os.path.join(here, "stdin"), "wb") as f:
    for _, data, _, _ in CASES:
        f.write(struct.pack("<I", len(data)) + data)
with open(os.path.join(here, "stdout"), "w") as f:
    for name, _, number, place in CASES:
        f.write(f"{number} {place}\n")
print(len(CASES), "cases,", sum(4 + len(c[1]) for c in CASES), "bytes")
