"""bench/compare [PROGRAM] [PLAN..]: the program beside bench/peer/peer.rs, the table in plain Rust without proofs, which rustc builds.
Each plan (those of bench/plans by default) is run three times by each with one worker, and the best seconds of a processor are
printed, with their ratio and whether the tables are the same bytes."""
import sys
import tempfile
from pathlib import Path

from ..paths import PROGRAM
from ..program import build_peer
from .costs import PLANS, best_cost


def main() -> int:
    words = [Path(it) for it in sys.argv[1:]]
    program = words.pop(0) if words and words[0].suffix != ".json" else PROGRAM
    is_same = True
    with tempfile.TemporaryDirectory() as folder:
        peer = build_peer(Path(folder))
        for plan in words or PLANS:
            (ours, table), (plain, wanted) = (best_cost(it, plan) for it in ([str(program), "run"], [str(peer.path)]))
            is_same &= table == wanted
            word, ratio = "same table" if table == wanted else "OTHER TABLE", ours.seconds / plain.seconds
            print(f"{plan.name:24} {ours.seconds:8.3f} s {plain.seconds:8.3f} s  ratio {ratio:5.2f}  {word}")
    return int(not is_same)
