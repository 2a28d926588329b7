"""Cases that a campaign found to differ once, tests/data/regressions, tried again. A case is drawn anew from its seed; where
its campaign no longer draws it, as it compares something else, that is said too."""
import json
from pathlib import Path

from ..commands import parser
from .campaign import FAILURES, REGRESSIONS, campaign_of


def difference(path: Path, program: Path) -> str | None:
    kept = json.loads(path.read_text())
    campaign = campaign_of(kept["campaign"])(program, kept["options"])
    try:
        campaign.attempt(kept["seed"], kept["number"])
    except FAILURES as found:
        return str(found)
    finally:
        campaign.close()
    drawn = kept["compares"] in (None, *campaign.compared)
    return None if drawn else f"{kept['campaign']} draws this case no more: {kept['compares']}"


def main() -> int:
    program = parser(__doc__, "--program").parse_args().program
    paths = sorted(REGRESSIONS.glob("*.json"))
    found = {path: what for path in paths if (what := difference(path, program))}
    for path, what in found.items():
        print(f"regressions: {path.name}: {what}")
    print(f"regressions: {len(paths)} tried, {len(found)} different")
    return int(bool(found))
