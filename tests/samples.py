#!/usr/bin/env python3
"""Writes samples/*.plan, and what the program answers to each into samples/*.out, with a word on each in samples/README.md.

    python3 tests/samples.py

Each answer below was worked out by hand from document 01. All files are kept in the repository.
"""
import os

from plans import OPEN, damaged, day, dose, empty, fixed, need, period, plan

MORNING, NOON, EVENING, NIGHT = 1, 2, 3, 4


def mixed_day(number, amount):
    """Morning and evening fixed, noon and night as needed: source 001's mixed days."""
    return [dose(number, MORNING, low=amount), dose(number, NOON, 1), dose(number, EVENING, low=amount), dose(number, NIGHT, 1)]


def as_needed(number):
    return [dose(number, NOON, 1), dose(number, NIGHT, 1)]


# 2017-12-04 is day 6547
first_mixed = period(6547, 6550, [d for i in range(1, 5) for d in mixed_day(i, 300 if i < 3 else 100)])
second_mixed = period(6555, 6558, mixed_day(1, 100) + mixed_day(2, 100) + as_needed(3) + as_needed(4))
SAMPLES = [
    ("mixed", "source 001's mixed plan: two mixed periods with an empty one between them, which goes into both parts",
     plan(first_mixed, empty(6551, 6554), second_mixed, start=6544),
     """verdict 0 255
fixed 2017-12-04 2017-12-07 8
fixed 2017-12-08 2017-12-11 0
fixed 2017-12-12 2017-12-15 4
need 2017-12-04 2017-12-07 8
need 2017-12-08 2017-12-11 0
need 2017-12-12 2017-12-15 8
"""),
    ("open", "one open period with a dose each day; the need part is a head by itself",
     plan(fixed(6547, OPEN)), "verdict 0 255\nfixed 2017-12-04 open 1\n"),
    ("last-day", "the calendar's last day, written out and not open",
     plan(fixed(73000, 73048), need(73000, OPEN)), "verdict 0 255\nfixed 2199-11-13 2199-12-31 1\nneed 2199-11-13 open 1\n"),
    ("vka", "a VKA plan of empty periods is accepted, and both parts are heads by themselves",
     plan(empty(6547, 6550), empty(6551, OPEN), vka=1), "verdict 0 255\n"),
    ("thirty", "30 as-needed days, every other day, in one empty period: with its 29 shares the longest need part, 60 blocks",
     plan(empty(8000, 8058), *[need(8000 + 2 * i, 8000 + 2 * i) for i in range(30)]),
     "verdict 0 255\n" + "".join(f"need {day(8000 + i)} {day(8000 + i)} {1 - i % 2}\n" for i in range(59))),
    ("long", "a period of 41 doses in three blocks",
     plan(period(8000, 8040, [dose(i) for i in range(1, 42)])), "verdict 0 255\nfixed 2021-11-26 2022-01-05 41\n"),
    ("end-date", "source 003's first answer: 1.00 daily to 2022-03-11, so that 500 from 2022-02-11 on last to that day",
     plan(fixed(8077, 8105)), "verdict 0 255\nfixed 2022-02-11 2022-03-11 1\n"),
    # From 2022-02-11, day 8077, with 500.00: 97 x 5.15 = 499.55 to 2022-05-18, and 98 would be 504.70; 29 x 17.00 = 493.00 to
    # 2022-03-11, and 30 would be 510.00; 15 x (17.00 + 15.00) = 480.00 to 2022-02-25, and 16 would be 512.00; 16 x 15.00 +
    # 308 x 0.80 = 486.40 to 2022-12-31, where the as-needed doses end.
    ("dates", "source 003's second answer: a fixed dose \"from .. to\" under as-needed ones, so that a pack has four last days",
     plan(period(8077, OPEN, [dose(low=515, high=1700)], 1), period(8077, 8092, [dose(mark=1, low=500, high=1500)], 1),
          period(8093, 8400, [dose(mark=1, low=80)], 1)),
     "verdict 0 255\nfixed 2022-02-11 open 1\nneed 2022-02-11 2022-02-26 1\nneed 2022-02-27 2022-12-31 1\n"),
    ("revision-4", "plan 7 as first approved: the older plan of `tests/approval`",
     plan(fixed(6547, 6560), number=7, revision=4), "verdict 0 255\nfixed 2017-12-04 2017-12-17 1\n"),
    ("revision-5", "plan 7 with a week more: the newer one",
     plan(fixed(6547, 6567), number=7, revision=5), "verdict 0 255\nfixed 2017-12-04 2017-12-24 1\n"),
    ("no-bytes", "no bytes at all break rule 1", b"", "verdict 1 255\n"),
    ("too-long", "33 blocks break rule 1, though each is right",
     plan(*[fixed(8000 + i, 8000 + i) for i in range(32)]), "verdict 1 255\n"),
    ("sums", "a changed byte breaks rule 2 in its block", damaged(plan(fixed(6547, OPEN)), 540, 1, sealed=False), "verdict 2 1\n"),
    ("days-fall", "a day number that falls breaks rule 7", plan(period(6547, 6550, [dose(2), dose(1)])), "verdict 7 1\n"),
    ("twice", "the same clock minute twice in a day breaks rule 10, out of order and with other need marks",
     plan(period(6547, 6550, [dose(1, 5, 0, 600), dose(1, 5, 0, 480), dose(1, 5, 1, 600)])), "verdict 10 1\n"),
    ("overlap", "P9: a mixed period shares a day with a fixed one, rule 16 at the later",
     plan(fixed(6547, 6550), period(6548, 6551, [dose(), dose(mark=1)], 1)), "verdict 16 2\n"),
    ("hole", "P8: as-needed days do not fill a hole between fixed periods, rule 17",
     plan(fixed(6547, 6550), need(6551, 6554), fixed(6555, 6558)), "verdict 17 255\n"),
]


def main():
    top = os.path.dirname(os.path.dirname(os.path.abspath(__file__)))
    lines = ["# Sample plans", "", "`bash run samples/NAME.plan` judges one, and `python3 tests/plans.py samples/NAME.plan` shows what it holds. `NAME.out` is what the program has to answer. They are made by `tests/samples.py`.", "",
             "| plan | what it shows |", "|---|---|"]
    for name, shows, data, out in SAMPLES:
        with open(f"{top}/samples/{name}.plan", "wb") as f:
            f.write(data)
        with open(f"{top}/samples/{name}.out", "w") as f:
            f.write(out)
        lines.append(f"| {name} | {shows} |")
        if name == "mixed":
            with open(f"{top}/crates/chivetassel/stdin", "wb") as f:
                f.write(data)
            with open(f"{top}/crates/chivetassel/stdout", "w") as f:
                f.write(out)
    with open(f"{top}/samples/README.md", "w") as f:
        f.write("\n".join(lines) + "\n")


main()
