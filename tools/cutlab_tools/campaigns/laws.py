"""Laws of cut_laws on the program's own tables, of drawn plans that may be too large for the reference: what the numbers of each
line say of each other, and those of two plans that differ in H alone, in L alone, or in implicit alerts alone."""
import json
import random
from types import SimpleNamespace as Line

from ..paths import reference
from ..plans import Plan, drawn_plan, text_of
from .campaign import Campaign


class Laws(Campaign):
    def case(self, rng: random.Random) -> None:
        plan = drawn_plan(rng, most_work=4_000_000)
        if rng.random() < 0.3:
            plan |= {"liars": 0, "links": 0}
            plan["faults" if plan["version"] == 1 else "deaf"] = "crash" if plan["version"] == 1 else 0
        lines = self.lines_of(plan)
        for line in lines:
            self.check_line(plan, line, f"{line} of {json.dumps(plan)}")
        for x, y in zip(lines, self.lines_of({**plan, "implicit": not plan["implicit"]})):
            what = f"implicit alerts change a line with L = H: {x}, {y}, {json.dumps(plan)}"
            self.require(x.l != x.h or x == y, what)
        top = min(plan["k"])
        high = rng.randint(1, top)
        low = rng.randint(1, high)
        first = plan | {"h": [low], "l": sorted({min(l, low) for l in plan["l"]})}
        self.check_longer(first, {**first, "h": [high]})
        first = plan | {"implicit": False, "h": sorted({min(max(h, low), top) for h in plan["h"]}), "l": [low]}
        self.check_longer(first, {**first, "l": [rng.randint(1, low)]})

    def lines_of(self, plan: Plan) -> list[Line]:
        names, *rows = [line.split(",") for line in self.table_of(text_of(plan), "--workers", "2").splitlines()]
        return [Line(**dict(zip(names, map(int, row)))) for row in rows]

    def check_line(self, plan: Plan, x: Line, what: str) -> None:
        """What holds of a line, which is of all trials of its cell."""
        nodes, quorum = plan["nodes"], reference.quorum(plan["nodes"])
        wrong, to_spare = x.conflicts + x.extra + x.silent, max(nodes - x.f + 1 - quorum, 0)
        is_right, all_or_none = int(quorum + x.silent + x.conflicts <= x.receivers), x.silent in (0, x.receivers)
        no_targets, alone, met = x.f == 0, x.trials == 1, x.l == x.h
        laws = {
            "a wrong decision without a wrong quorum": quorum * x.decided <= quorum * x.right + x.conflicts + x.extra,
            "right receivers without a vote": x.receivers <= x.votes + wrong,
            "a trial is not right with receivers to spare": to_spare * (x.trials - x.right) <= wrong,
            "a decision where too many failed": x.f <= (nodes - 1) // 4 or x.decided == x.right == 0,
            "a conflict where none failed": not no_targets or x.conflicts == x.right == 0,
            "a proposal of nobody": not no_targets or x.extra + x.silent == x.receivers,
            "a proposal of two with L = H": not met or x.f < 2 or x.conflicts + x.silent == x.receivers,
            "a right trial of two targets with L = H": not met or x.f < 2 or x.right == 0,
            "one trial is right against its verdicts": not alone or x.extra > 0 or x.right == is_right,
            "some of one trial are silent and some not with L = H": not alone or not met or all_or_none,
        }
        for said, holds in laws.items():
            self.require(holds, f"{said}: {what}")
        fails_by_crash = plan["faults"] == "crash" if plan["version"] == 1 else plan["deaf"] == 0
        if x.f != 1 or not fails_by_crash or plan["liars"] or plan["links"]:
            return
        quorums = x.trials if nodes >= 5 else 0
        found = x.conflicts, x.silent, x.extra, x.votes, x.decided, x.right
        self.expect(f"one crash: {what}", (0, 0, 0, x.trials * (nodes - 1), quorums, quorums), found)
        if plan["version"] == 2:
            most = x.receivers * (plan["copies"] * (x.h - 1) + 1)
            self.require(x.receivers * x.h <= x.settled <= most, f"one crash at other places: {what}")

    def check_longer(self, plan: Plan, other: Plan) -> None:
        """That each line of the second plan's table is of receivers that wait longer."""
        sooner, later = self.lines_of(plan), self.lines_of(other)
        self.require(len(sooner) == len(later), f"as many lines: {json.dumps(plan)}")
        for x, y in zip(sooner, later):
            laws = {
                "other receivers": y.receivers == x.receivers,
                "a new conflict": y.conflicts <= x.conflicts,
                "a silence ends": x.silent <= y.silent,
                "an extra is gone": x.extra + x.silent <= y.extra + y.silent,
                "a proposal comes sooner": y.silent > 0 or not hasattr(x, "settled") or x.settled <= y.settled,
            }
            for said, holds in laws.items():
                self.require(holds, f"{said}: {x} of {json.dumps(plan)}, then {y} of {json.dumps(other)}")
