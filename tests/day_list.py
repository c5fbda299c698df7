#!/usr/bin/env python3
"""Writes the plan of crates/day_list/stdin, and what document 01 says of some of its days into crates/day_list/stdout.

    python3 tests/day_list.py

The answers were worked out by hand from document 01. Both files are kept in the repository.
"""
import os

from plans import OPEN, dose, period, plan

top = os.path.dirname(os.path.dirname(os.path.abspath(__file__)))
every_other_day = [dose(day=1, kind=1, low=150, high=300), dose(day=1, kind=3, low=200), dose(day=2, kind=1, low=100)]
as_needed = [dose(day=0, mark=1, low=50), dose(day=3, mark=1, low=70, high=90)]
with open(f"{top}/crates/day_list/stdin", "wb") as f:
    f.write(plan(period(8000, OPEN, every_other_day, 2), period(8001, 8003, as_needed)))
with open(f"{top}/crates/day_list/stdout", "w") as f:
    f.write("""day 7999: 0 0 0 0
day 8000: 350 500 500 0
  150 to 300
  200 to 200
day 8001: 100 100 150 50
  100 to 100
  50 to 50, as needed
day 8003: 100 100 190 90
  100 to 100
  70 to 90, as needed
day 8004: 350 500 500 0
  150 to 300
  200 to 200
""")
