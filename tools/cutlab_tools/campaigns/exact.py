"""The exact shares of tools/study beside the definitions, and beside the program.

Each case has two parts. Every order of the alerts of a small world is given to the reference's detector: the orders that end in
a conflict, in silence and in an extra have to be the exact shares of all orders, as whole numbers. Then the program's table of a
drawn plan is set beside the exact shares by the roles of its own trials. What is certain, as that nobody is silent, has to be so; of
the conflicts the squares of the distances, in standard deviations, are added up over the cells. A sum that chance exceeds once
in ten million cases is a difference: so a run of a thousand cases gives a false alarm once in ten thousand."""
import itertools
import json
import math
import random
from fractions import Fraction

from cutlab_study import exact
from cutlab_study.shares import Rule
from cutlab_study.tables import Line, table_of

from ..paths import reference
from ..plans import Plan, drawn_plan, drawn_seed, text_of
from .campaign import Campaign

MOST_ALERTS, MOST_STEPS, RARE, LEAST_VARIANCE = 7, 3 * 10**8, 1e-7, 5.0
COLUMNS = ("conflicts", "silent", "extra")


class SmallWorld:
    """A few processes with their rings, their roles, a cell, and at most seven alerts."""

    def __init__(self, rng: random.Random) -> None:
        while True:
            nodes, k = rng.randint(3, 7), rng.randint(1, 4)
            failed, low = rng.randint(0, min(3, nodes - 1)), rng.randint(1, k)
            self.plan: Plan = {"nodes": nodes, "implicit": rng.random() < 0.6, "dead": rng.choice(["silent", "speak"])}
            self.plan |= {"deaf": rng.randint(0, failed), "liars": rng.choice([0, 0, 1])}
            self.plan |= {"links": rng.choice([0, 0, 1]), "seed": drawn_seed(rng), "version": 2}
            self.layout = reference.Layout([rng.sample(range(nodes), nodes) for _ in range(k)])
            self.roles = reference.Roles(self.plan, failed, reference.Source(self.plan, 0), self.layout)
            self.edges = reference.alert_list(self.plan, self.layout, self.roles, k)
            if len(self.edges) <= MOST_ALERTS:
                self.cell = (k, rng.randint(low, k), low, len(self.roles.targets))
                return

    def proposed(self, order: tuple[reference.Edge, ...]) -> set[int] | None:
        detector = reference.Detector(self.layout, *self.cell[:3], self.plan["implicit"])
        for edge in order:
            detector.deliver(edge)
            if members := detector.settled():
                return set(members)
        return None

    def counts(self) -> list[int]:
        targets, found = set(self.roles.targets), map(self.proposed, itertools.permutations(self.edges))
        ends = [(not targets <= it, False, not it <= targets) if it else (False, True, False) for it in found]
        return [sum(its) for its in zip(*ends)]

    def shown(self) -> str:
        what = {"cell": self.cell, "implicit": self.plan["implicit"], "rings": self.layout.rings}
        return json.dumps(what | {"alerts": self.edges, "targets": self.roles.targets})


def trial_columns(plan: Plan, layout: reference.Layout, number: int, line: Line) -> list[exact.Columns]:
    """The columns of each trial of a cell, or none where these would take too long."""
    worlds, rule = exact.worlds_of(plan, layout, number, plan["repeats"]), Rule(line.h, line.l)
    if sum(exact.steps_of(world, rule) for world in worlds) > MOST_STEPS:
        return []
    return [exact.columns_of(world, rule, 1, 1) for world in worlds]


class Exact(Campaign):
    def case(self, rng: random.Random) -> None:
        small = SmallWorld(rng)
        world = exact.world_of(small.plan, small.layout, small.roles, small.cell)
        columns = exact.columns_of(world, Rule(*small.cell[1:3]), 1, 1)
        found = [getattr(columns, name) * math.factorial(len(small.edges)) for name in COLUMNS]
        self.expect(f"orders in conflict, silent and with an extra of {small.shown()}", small.counts(), found)
        self.check_table({**drawn_plan(rng), "repeats": rng.randint(4, 30)})

    def check_column(self, plan: Plan, line: Line, name: str, shares: list[Fraction]) -> float | None:
        """A column of a line beside its exact shares by trials: its distance in standard deviations, if that says much."""
        receivers, found = plan["nodes"] - line.f, getattr(line, name)
        mean = sum(receivers * share for share in shares)
        variance = float(sum(receivers * share * (1 - share) for share in shares))
        if shares and variance == 0:
            self.expect(f"{name} of {line} of {json.dumps(plan)}", mean, found)
        return float(found - mean) / math.sqrt(variance) if variance >= LEAST_VARIANCE else None

    def check_table(self, plan: Plan) -> None:
        layout, distances = reference.layout_of(plan), list[float]()
        for number, line in enumerate(table_of("table", self.table_of(text_of(plan)).encode()).lines):
            columns = trial_columns(plan, layout, number, line)
            for name in COLUMNS:
                distance = self.check_column(plan, line, name, [getattr(it, name) for it in columns])
                distances += [distance] if name == "conflicts" and distance is not None else []
        total = sum(it * it for it in distances)
        is_likely = not distances or exact.chance_of_more(total, len(distances)) >= RARE
        what = f"the squares of {len(distances)} distances add up to {total:.1f}"
        self.require(is_likely, f"conflicts of {json.dumps(plan)}: {what}")
