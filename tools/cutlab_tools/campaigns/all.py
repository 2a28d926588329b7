"""All campaigns, which share a number of minutes: as many at once as there are processors, each with its share of the
time. Ends with 1 where one found a difference."""
import os
import subprocess
from concurrent.futures import ThreadPoolExecutor

from ..commands import parser
from ..paths import ROOT

CAMPAIGNS = "plans faulty_plans texts checkpoints migrations kills crashes sessions laws shares restarts peers".split()
CAMPAIGNS += ["explanations", "exact"]


def main() -> int:
    words = parser(__doc__, "--program")
    words.add_argument("--minutes", type=float, default=10, help="for how long all of them run together")
    words.add_argument("--seed", default="1", help="what the cases are drawn from")
    given = words.parse_args()
    lanes = min(os.cpu_count() or 1, len(CAMPAIGNS))
    rest = ["--seed", given.seed, "--minutes", str(given.minutes * lanes / len(CAMPAIGNS)), "--program", given.program]
    with ThreadPoolExecutor(lanes) as pool:
        statuses = pool.map(lambda name: subprocess.run([ROOT / "campaigns" / name, *rest]).returncode, CAMPAIGNS)
        return int(any(list(statuses)))
