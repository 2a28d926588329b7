"""Tests of tools/study: python3 -m unittest discover tools/tests"""
import json
import math
import sys
import tempfile
import unittest
from fractions import Fraction
from pathlib import Path
from typing import Any

sys.path.insert(0, str(Path(__file__).resolve().parents[1]))

from cutlab_study import choose, exact, plans, report, tables, vary  # noqa: E402
from cutlab_study.exact import crash_share as conflicts  # noqa: E402
from cutlab_study.shares import Kind, Rule, World  # noqa: E402
from cutlab_tools.plans import SMALLEST  # noqa: E402

HEADER = "k,h,l,f,trials,receivers,conflicts,silent,extra,votes,decided,right,ppm\n"
PLAN = SMALLEST | dict(dead="speak", f=[2], h=[2, 3], implicit=False, k=[3], nodes=10, repeats=5)
ROWS = ("3,2,1,2,5,40,16,0,0,24,0,0,400000", "3,3,1,2,5,40,4,0,0,36,5,5,100000")


def table(*rows: str) -> tables.Table:
    return tables.table_of("table", (HEADER + "\n".join(rows) + "\n").encode())


def plan(**fields: Any) -> plans.Plan:
    return plans.plan_of(plans.text_of({**PLAN, **fields}))


class ExactShares(unittest.TestCase):
    """Shares that were counted order by order, or published with the method."""

    def test_fractions(self) -> None:
        self.assertEqual(conflicts(3, 2, 1, 2), Fraction(288, math.factorial(6)))
        self.assertEqual(conflicts(4, 3, 2, 3), Fraction(256_545_792, math.factorial(12)))
        self.assertEqual(conflicts(10, 9, 3, 2), Fraction(23, 4199))
        self.assertEqual(conflicts(10, 9, 3, 3), Fraction(496_291, 400_504_819))

    def test_rare_conflicts(self) -> None:
        rare = {2: 1.08e-5, 3: 2.0e-7, 4: 9.5e-9, 6: 1.6e-10, 8: 9.7e-12, 12: 2.1e-13, 16: 1.4e-14}
        for failed, share in rare.items():
            self.assertAlmostEqual(float(conflicts(10, 10, 1, failed)) / share, 1, delta=0.05)

    def test_two_failures_are_not_always_the_worst(self) -> None:
        shares = [round(float(conflicts(10, 6, 4, failed)), 3) for failed in (2, 3, 4)]
        self.assertEqual(shares, [0.370, 0.398, 0.372])

    def test_closed_form_of_two_failures(self) -> None:
        for h in range(6, 10):
            for l in range(1, 5):
                orders = sum(math.comb(h - 1 + b, b) * math.comb(20 - h - b, 10 - h) for b in range(l))
                self.assertEqual(conflicts(10, h, l, 2), Fraction(2 * orders, math.comb(20, 10)))

    def test_turned_round(self) -> None:
        for h in range(1, 11):
            for l in range(1, h + 1):
                self.assertEqual(conflicts(10, h, l, 3), conflicts(10, 11 - l, 11 - h, 3))

    def test_one_alert_each_is_silence_where_two_are_needed(self) -> None:
        found = exact.columns_of(World(((Kind(1, True), 1), (Kind(3, True), 1))), Rule(3, 2), 9, 8)
        self.assertEqual((found.conflicts, found.silent, found.right), (1, 0, 0.0))
        self.assertEqual(exact.columns_of(World(((Kind(2, True), 1),)), Rule(3, 2), 9, 8)[:2], (0, 1))

    def test_a_plan_without_roles(self) -> None:
        found = {it.cell: (it.columns.conflicts, it.trials) for it in exact.exact(plan()) if it.columns}
        self.assertEqual(found, {(3, 2, 1, 2): (Fraction(2, 5), 0), (3, 3, 1, 2): (Fraction(1, 10), 0)})

    def test_tails(self) -> None:
        self.assertAlmostEqual(exact.tail(10, Fraction(1, 2), 8), 56 / 1024, places=12)
        self.assertAlmostEqual(exact.tail(10, Fraction(1, 2), 2), 1 - 11 / 1024, places=12)


class Bounds(unittest.TestCase):
    """Wilson's bounds, against values of textbooks."""

    def test_bounds(self) -> None:
        wanted = ((0, 20, 0.0, 0.161), (0, 300, 0.0, 0.0126), (0, 3000, 0.0, 0.00128), (5, 10, 0.2366, 0.7634))
        for count, of, low, high in wanted:
            found = tables.share_of(count, of)
            self.assertAlmostEqual(found.low, low, places=4)
            self.assertAlmostEqual(found.high, high, delta=0.001)

    def test_receivers_of_a_trial_are_one_try(self) -> None:
        silent = table("10,9,1,2,20,19960,0,19960,0,0,0,0,0").lines[0].share("silent")
        self.assertEqual(silent.of, 20)
        self.assertAlmostEqual(silent.low, 0.839, places=3)

    def test_sums_of_squares(self) -> None:
        """The values of a table of the chi-squared distribution that are exceeded in five of a hundred cases."""
        for count, value in ((1, 3.841), (2, 5.991), (3, 7.815), (10, 18.307), (30, 43.773), (100, 124.342)):
            self.assertAlmostEqual(exact.chance_of_more(value, count), 0.05, places=4)


class Choices(unittest.TestCase):
    LINES = (
        "10,9,1,2,20,20000,10,0,0,0,20,20,500",
        "10,10,1,2,20,20000,0,0,0,0,20,20,0",
        "10,9,1,0,20,20000,0,20000,0,0,0,0,0",
    )

    def test_a_gap_below_all_rings_comes_first(self) -> None:
        _, said = choose.choose(table(*self.LINES), choose.Limits(None, 0.001, None), "conflicts", 2)
        self.assertTrue(said[0].startswith("K = 10, H = 9, L = 1: "))
        self.assertTrue(said[1].startswith("K = 10, H = 10, L = 1: "))
        self.assertIn("one lost alert", said[2])

    def test_nothing_fits(self) -> None:
        with self.assertRaisesRegex(plans.Refused, "The nearest is K = 10, H = 9, L = 1(?s:.*)it lacks: .*conflicts"):
            choose.choose(table(self.LINES[0]), choose.Limits(0.0001, 0.001, None), "conflicts", 1)

    def test_the_nearest_may_be_narrow(self) -> None:
        with self.assertRaises(plans.Refused) as caught:
            choose.choose(table(*self.LINES), choose.Limits(None, -1.0, None), "conflicts", 1)
        near = str(caught.exception)
        self.assertEqual("H = 10, L = 1" in near, "one lost alert" in near)

    def test_silence_comes_last(self) -> None:
        lines = ("10,9,1,2,20,20000,0,20000,0,0,0,0,0", "10,8,1,2,20,20000,40,0,0,0,20,20,2000")
        _, said = choose.choose(table(*lines), choose.Limits(None, None, None), "conflicts", 1)
        self.assertTrue(said[0].startswith("K = 10, H = 8"))
        self.assertIn("2000 ppm", said[0])


class Tables(unittest.TestCase):
    def test_what_is_no_table(self) -> None:
        rows = ("1,1,1,1,2,0,0,0,0,0,0,0,0\n", "1,1,1,1,2,8,0,0,0,8,2,2,0\n" * 2)
        for text in ("", HEADER, "a,b\n1,2\n", *(HEADER + it for it in rows)):
            self.assertRaises(plans.Refused, tables.table_of, "text", text.encode())

    def test_a_table_comes_back(self) -> None:
        text = HEADER + "1,1,1,1,2,8,2,0,0,8,2,2,250000\n"
        self.assertEqual(tables.csv_of(list(tables.table_of("text", text.encode()).lines)), text)

    def test_pooled(self) -> None:
        with tempfile.TemporaryDirectory() as folder:
            changes: list[dict[str, Any]] = [{}, {"seed": "1" * 64}, {"seed": "2" * 64, "liars": 1}]
            texts = [*(json.dumps(PLAN | its) for its in changes), HEADER + "\n".join(ROWS) + "\n"]
            one, other, far, csv = (f"{folder}/{at}" for at in range(4))
            for path, text in zip((one, other, far, csv), texts):
                Path(path).write_text(text)
            sums = "3,2,1,2,10,80,32,0,0,48,0,0,400000\n3,3,1,2,10,80,8,0,0,72,10,10,100000\n"
            self.assertEqual(vary.pool([(one, csv), (other, csv)]), HEADER + sums)
            for second, why in ((far, "differ in liars"), (one, "one seed")):
                with self.assertRaisesRegex(plans.Refused, why):
                    vary.pool([(one, csv), (second, csv)])

    def test_values_of_fields(self) -> None:
        for field, text in (("seed", "0" * 64), ("dead", "speak")):
            self.assertEqual(vary.value_of(field, text), text)
        self.assertEqual(vary.value_of("h", "8,9"), [8, 9])
        self.assertEqual(vary.value_of("implicit", "true"), True)

    def test_differences(self) -> None:
        self.assertTrue(vary.differ(tables.share_of(10, 1000), tables.share_of(40, 1000)))
        self.assertFalse(vary.differ(tables.share_of(10, 1000), tables.share_of(14, 1000)))


class Reports(unittest.TestCase):
    def test_a_page_needs_nothing_else(self) -> None:
        text = report.page(plan(), table(*ROWS), choose.Limits(None, 0.5, None), 1)
        shown = ("exact 40 %", "exact 10 %", "H = 2, L = 1: 16 conflicts of 40 receivers")
        for part in ("K = 3, F = 2", *shown, PLAN["seed"]):
            self.assertIn(part, text)
        for part in ("<script", "http://", "https://", "<link", "src="):
            self.assertNotIn(part, text)

    def test_another_plan_is_refused(self) -> None:
        limits = choose.Limits(None, None, None)
        self.assertRaises(plans.Refused, report.page, plan(), table(ROWS[0]), limits, 1)


if __name__ == "__main__":
    unittest.main()
