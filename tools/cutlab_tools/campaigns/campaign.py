"""What all campaigns have in common: options, seeds, counts, the report of a difference, and cases that are kept.

A case is drawn from the name of its campaign, a seed and its own number, so that these three say which case it is. One that
differs is kept in tests/data/regressions, and tried by ./check before all others from then on."""
import argparse
import importlib
import inspect
import json
import random
import re
import subprocess
import sys
import tempfile
import time
from pathlib import Path
from typing import Any, ClassVar

from ..commands import parser
from ..paths import DATA, ROOT
from ..program import Ended, Program, Word

REGRESSIONS = DATA / "regressions"


class Differs(Exception):
    """The program and what it is set beside say different things."""


# What is no difference that a comparison found, but comes of a program that does not answer.
FAILURES = (Differs, TimeoutError, subprocess.TimeoutExpired)


class Campaign:
    """A campaign with values for the options of its own, which are words for argparse by their names."""

    name: ClassVar[str]
    options: ClassVar[dict[str, dict[str, Any]]] = {}

    def __init_subclass__(cls) -> None:
        super().__init_subclass__()
        cls.name = re.sub(r"(?<=[a-z])(?=[A-Z])", " ", cls.__name__).lower()

    def __init__(self, path: Path, values: dict[str, Any]) -> None:
        self.path, self.values = path.absolute(), values
        self.compared: set[str] = set()

    def case(self, rng: random.Random) -> None:
        """Tries one case."""
        raise NotImplementedError

    def close(self) -> None:
        """Ends what the cases share."""

    def attempt(self, seed: str, number: int) -> None:
        """Tries the case of a number, in a folder of its own."""
        self.compared.clear()
        with tempfile.TemporaryDirectory() as folder:
            self.folder = Path(folder)
            self.program = Program(self.path, self.folder)
            self.case(random.Random(f"{self.name}/{seed}/{number}"))

    def expect(self, what: str, wanted: object, found: object) -> None:
        """Compares what the reference says with what the program does."""
        self.compared.add(what)
        if wanted != found:
            raise Differs(f"{what}\n  reference: {wanted!r}\n  program:   {found!r}")

    def require(self, fact: object, what: str) -> None:
        """Checks a fact that has to hold of what the program printed."""
        self.expect(what, True, bool(fact))

    def expect_run(self, wanted: Ended, *words: Word, text: bytes = b"", what: str = "") -> None:
        what = what or f"{' '.join(map(str, words))} < {text.decode(errors='backslashreplace')}"
        self.expect(what, wanted, self.program.run(*words, text=text))

    def table_of(self, text: bytes, *words: Word) -> str:
        """The table of a study that is run at once and has to end well."""
        table, faults, status = self.program.run("run", *words, text=text, limit=600)
        self.expect(f"a run of {text.decode()}", ("", 0), (faults, status))
        return table


def campaign_of(name: str) -> type[Campaign]:
    for module in ("drawn", "exact", "files", "laws", "servers"):
        importlib.import_module(f"{__package__}.{module}")
    return next(it for it in Campaign.__subclasses__() if it.name == name.replace("_", " "))


def keep(campaign: Campaign, seed: str, number: int, difference: str) -> str:
    """Keeps a case that differs: a line that says where."""
    what = difference.split("\n  reference: ")[0]
    kept = {"campaign": campaign.name, "seed": seed, "number": number, "options": campaign.values}
    kept["compares"] = what if what in campaign.compared else None  # (nothing, where the program did not answer)
    path = REGRESSIONS / f"{campaign.name.replace(' ', '_')}-{seed}-{number}.json"
    try:
        path.parent.mkdir(exist_ok=True)
        path.write_text(json.dumps(kept, indent=1) + "\n")
    except OSError as error:
        return f"not kept: {error}"
    return f"kept: {path.relative_to(ROOT)}"


def described(campaign: Campaign, given: argparse.Namespace, tried: int, difference: str) -> str:
    number = given.first + tried
    own = [f"--{name}" if value is True else f"--{name} {value}" for name, value in campaign.values.items() if value]
    again = " ".join([sys.argv[0], f"--seed {given.seed} --from {number} --count 1", *own])
    head = f"{campaign.name}: case {number} differs after {tried} that did not"
    kept = [] if given.forget else [keep(campaign, given.seed, number, difference)]
    return "\n".join([head, difference, f"again: {again}", *kept])


def run(command: str, _: None = None) -> int:
    """The command of a campaign: tries cases until `count` are tried or `minutes` have passed, or one differs."""
    kind, tried = campaign_of(Path(command).name), 0
    words = parser(inspect.getdoc(kind), "--program")
    words.add_argument("--seed", default="1", help="what the cases are drawn from")
    words.add_argument("--from", dest="first", type=int, default=0, help="the number of the first case")
    words.add_argument("--count", type=int, default=100, help="how many cases are tried")
    words.add_argument("--minutes", type=float, help="for how long cases are tried, in place of a count")
    words.add_argument("--forget", action="store_true", help="keep no case that differs")
    for name, its in kind.options.items():
        words.add_argument(f"--{name}", **its)
    given = words.parse_args()
    campaign = kind(given.program, {name: getattr(given, name) for name in kind.options})
    last = time.monotonic() + 60 * (given.minutes or 0)
    try:
        while time.monotonic() < last if given.minutes else tried < given.count:
            campaign.attempt(given.seed, given.first + tried)
            tried += 1
    except FAILURES as difference:
        sys.exit(described(campaign, given, tried, str(difference)))
    finally:
        campaign.close()
    print(f"{campaign.name}: {tried} tried, 0 different", flush=True)
    return 0
