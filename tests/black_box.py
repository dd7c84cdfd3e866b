"""Checks the built program from outside: what it writes, its line on standard error and its exit status.

Usage: black_box.py PROGRAM [WORD]. With a word only the cases are run whose name has it, and there must be one. Each case runs
in a folder of its own. Expected texts are written out, or computed by the plain rules of the standard, and never taken from
the program."""
import sys

if not 2 <= len(sys.argv) <= 3:
    sys.exit(__doc__)

import batching
import buffers
import drawing
import edges
import examples
import extremes
import harness
import making
import many
import replaying
import serving
import walking

walking.cases()
making.cases()
replaying.cases()
batching.cases()
edges.cases()
buffers.cases()
examples.cases()
extremes.cases()
serving.cases()
many.cases()
drawing.cases()
passed, failed = harness.counts["passed"], harness.counts["failed"]
print(f"black box: {passed} passed, {failed} failed" + (f", of the cases with {harness.WORD!r}" if harness.WORD else ""))
sys.exit(1 if failed or not passed else 0)
