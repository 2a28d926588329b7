"""Tests of a built program: each has many cases, which are compared in subtests, so that one that differs hides no other."""
import tempfile
import unittest
from pathlib import Path
from types import ModuleType
from typing import ClassVar

from ..commands import parser
from ..paths import PROGRAM
from ..program import Ended, Program, Word


class Cases(unittest.TestCase):
    """Tests each of which has a folder of its own, in which the program is run."""

    path: ClassVar[Path] = PROGRAM
    tried: ClassVar[int] = 0
    differing: ClassVar[int] = 0
    maxDiff = None

    def setUp(self) -> None:
        self.place = tempfile.TemporaryDirectory()
        self.addCleanup(self.place.cleanup)
        self.folder = Path(self.place.name)
        self.program = Program(self.path, self.folder)

    def expect(self, what: str, wanted: object, found: object) -> None:
        Cases.tried += 1
        Cases.differing += wanted != found
        with self.subTest(what):
            self.assertEqual(wanted, found)

    def expect_run(self, wanted: Ended, *words: Word, text: bytes = b"") -> None:
        found = self.program.run(*words, text=text)
        self.expect(f"{' '.join(map(str, words))} < {text.decode(errors='backslashreplace')}", wanted, found)

    def file(self, name: str) -> Path:
        return self.folder / name

    def size(self, name: str) -> int:
        return self.file(name).stat().st_size


def run(command: str, module: ModuleType) -> int:
    """Runs the tests of a module; the last line says how many cases were tried, and how many were different."""
    words = parser(module.__doc__)
    words.add_argument("-k", metavar="NAME", action="append", help="only the tests whose names have this in them")
    words.add_argument("-v", action="store_true", help="print the name of each test")
    given = words.parse_args()
    Cases.path = given.program
    loader = unittest.TestLoader()
    loader.testNamePatterns = [f"*{it}*" for it in given.k] if given.k else None
    found = unittest.TextTestRunner(verbosity=1 + given.v).run(loader.loadTestsFromModule(module))
    differing = max(Cases.differing, len(found.failures) + len(found.errors))
    print(f"{command.removeprefix('tests/')}: {Cases.tried} tried, {differing} different")
    return int(differing > 0)
