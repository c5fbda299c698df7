#!/usr/bin/env python3
"""Writes what crates/story is run on and has to answer: P14 of document 01 on real bytes, and how it goes on.

    python3 tests/story.py

The answers were worked out by hand from document 01. Both files are kept in the repository.
"""
import os

from plans import fixed, plan

top = os.path.dirname(os.path.dirname(os.path.abspath(__file__)))
with open(f"{top}/crates/story/stdin", "wb") as f:
    f.write(plan(fixed(6547, 6560), number=7, revision=4))
    f.write(plan(fixed(6547, 6567), number=7, revision=5))
with open(f"{top}/crates/story/stdout", "w") as f:
    f.write("""clear 0 255
submit 4 0 255
sign 4 by A 0 255
submit 5 0 255
sign 5 by B 0 255
release 38 255
  bytes 0, of revision 0
sign 4 by A 34 255
sign 5 by B 36 255
state 0 255
  revision 5, signers 1
sign 5 by A 0 255
state 0 255
  revision 5, signers 2
release 0 255
  bytes 1024, of revision 5
submit 4 32 255
drop 0 255
release 33 255
  bytes 0, of revision 0
""")
