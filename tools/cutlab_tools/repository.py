"""The files of the repository and what the built program prints, by which documents are made and checked.

What the program prints on both streams is read like a file, whose name is a command line: `$ cutlab run --help`, or with an
input, `$ cutlab explain < {}`. Texts are read once, and may be changed here without a change of any file.
"""
from __future__ import annotations

from pathlib import Path

from .paths import PROGRAM, ROOT
from .program import Program


class Repository:
    def __init__(self, program: Path = PROGRAM, texts: dict[str, str] | None = None) -> None:
        self.program, self.texts = program, texts or {}

    def read(self, name: str) -> str:
        if name not in self.texts:
            self.texts[name] = self.printed(name[9:]) if name.startswith("$ cutlab ") else (ROOT / name).read_text()
        return self.texts[name]

    def printed(self, line: str) -> str:
        words, _, text = line.partition(" < ")
        output, errors, _ = Program(self.program.absolute()).run(*words.split(), text=text.encode())
        return output + errors

    def has(self, name: str) -> bool:
        return (ROOT / name).is_file()

    def paths(self, *patterns: str) -> list[str]:
        """The files whose paths are of some pattern, in their order."""
        return sorted(str(it.relative_to(ROOT)) for pattern in patterns for it in ROOT.glob(pattern))

    def changed(self, name: str, old: str, new: str) -> Repository:
        """The same with one text changed, in one place."""
        return Repository(self.program, {**self.texts, name: self.read(name).replace(old, new, 1)})

    def rows(self, page: str, heading: str) -> list[list[str]]:
        """The rows of the first table below a heading of a page, each a list of its cells."""
        below = self.read(page).partition(f"\n{heading}\n")[2].split("\n## ")[0].split("\n")
        table = [it.strip("|").split("|") for it in below if it.startswith("|")]
        return [[cell.strip() for cell in row] for row in table[2:]]
