#!/usr/bin/env python3
"""Tests what crates.py sees of the lister's imports and calls, on small files; that the lists are exact is `crates.py check`.

    tools/test_crates.py
"""
import os
import sys

sys.path.insert(0, os.path.dirname(os.path.abspath(__file__)))
import crates  # noqa: E402

PROOF = """-- a law. Assumes nothing; not Rattle·store.proofs.VertexLaws
use Rattle·laws.proofs.Sound.{Sound}
use Rattle·index.specs.Index.{Indexed}
%s
use Rattle·own·proofs.proofs.OwnLaws.{own}
"""
CODE = """// store::never(x) is named in a comment alone
use memory::Held;
use spell::spell;
fn f(es: &[u32]) -> u32
{
    own::g(store::edge_to(es, 0)) + mine(es) + index::degree(es)
}
"""


def functions(crate):
    return crate in ("index", "store", "own")


def main():
    cases = [
        (crates.opened(PROOF % "", "own", functions), []),
        (crates.opened(PROOF % "use Rattle·index.proofs.IndexLaws.{outgoing-is}", "own", functions), ["index"]),
        (crates.opened(PROOF % "use Rattle·store.proofs.put_edge.Reads as reads", "own", functions), ["store"]),
        (crates.called(CODE, ["own"]), ["index::degree", "spell::spell", "store::edge_to"]),
        (crates.has_functions("index"), True),
        (crates.has_functions("laws"), False),
        (crates.has_functions("sg"), True),
    ]
    for found, due in cases:
        if found != due:
            sys.exit("crates.py finds %r, and not %r" % (found, due))
    listed, _ = crates.read_list()
    unnamed = list(crates.lister_faults(listed, ""))
    if not any("list_haplotypes calls accept::read_sequence_graph" in fault for fault in unnamed):
        sys.exit("what no decision names is not told: %r" % unnamed)
    for crate in (line.name for line in listed.values() if line.group == crates.LISTER):
        if crates.has_functions(crate) and not any(fault.startswith(crate + " calls ") for fault in unnamed):
            sys.exit("nothing is told of " + crate)
    print("crates.py: %d cases" % len(cases))


main()
