#!/usr/bin/env python3
"""Tests share.py on a small proof file, without the prover: what moves, what stays, twice, and back.

    tools/test_share.py
"""
import os
import sys

sys.path.insert(0, os.path.dirname(os.path.abspath(__file__)))
import share  # noqa: E402

BLOCK = """
  where
    at-f : tie.After-f I
    at-f = search

    start : tie.Start I
    start = let c = at-f in search
"""
HEAD = """-- a proof
use native.Mathlib.Omega.{arith}
"""
# one and two arise at one place; three arises there too but binds c again; four arises elsewhere, alone
BEFORE = HEAD + """
one : tie.Need-one I
one c = omega (arith, at-f .f .ensures, law start 1)""" + BLOCK + """
two : tie.Need-two I
two c κs = start .pre .room
  where
    start : tie.Start I
    start = search

three : tie.Need-three I
three c = law (λ c. start)""" + BLOCK + """
four : tie.Need-four I
four c = at-f .f .ensures (start .pre)""" + BLOCK
AFTER = BEFORE.replace(BLOCK, '\n', 1).replace("""
  where
    start : tie.Start I
    start = search
""", '\n', 1).replace('at-f .f .ensures, law start 1', 'at-f c .f .ensures, law (start c) 1').replace('= start .pre', '= start c .pre').replace("""
one :""", """
module _ (c : tie.P I) where
  abbrev at-f : tie.After-f I
  at-f = search

  abbrev start : tie.Start I
  start = let c = at-f in search

one :""").replace('\n\n\n', '\n\n')


class Places:
    need = {'Need-one': 'P', 'Need-two': 'P', 'Need-three': 'P', 'Need-four': 'Q', 'Need-five': 'Q'}


def same(what, got, expected):
    if got != expected:
        sys.exit('%s:\n%s\nexpected:\n%s' % (what, got, expected))


same('shared', share.share(BEFORE, Places), AFTER)
same('shared twice', share.share(AFTER, Places), AFTER)
same('undone and shared', share.share(share.undo(AFTER), Places), AFTER)
same('undone', share.undo(AFTER).count('  where\n'), 4)
# a second place gets names of its own, and a module takes in an answer that comes later
five = BEFORE + '\nfive : tie.Need-five I\nfive c = start .args' + BLOCK
same('numbered', 'five c = start-2 c .args' in share.share(five, Places), True)
same('taken in', share.share(AFTER + '\ntwo : tie.Need-two I\ntwo c = start .args' + BLOCK, Places),
     AFTER + '\ntwo : tie.Need-two I\ntwo c = start c .args\n')
print('share.py: passed')
