"""The commands of the program with their arguments, as its help says them."""
import re
from typing import NamedTuple

from .repository import Repository

ARGUMENT = re.compile(r"^ +(?:--(\w+)(?: <(.+?)>)?|[<\[](.+?)[>\]](\.\.)?\.?) {2,}(.*?)(?: \[default: (\w+)\])?$")
# What stands in a word or a value, by the name that the help gives it. A share, I/N, is nothing that can be completed.
FOLDERS, FILES = {"DIR"}, {"FILE", "SOCKET", "OLD", "NEW", "OLD..", "PLAN"}


class Argument(NamedTuple):
    name: str
    value: str  # what it is called, if it has one
    help: str
    default: str | None
    is_word: bool

    @property
    def takes(self) -> str:
        """What it takes: a file, a folder, as an option another value, or nothing."""
        other = "value" if self.value and not self.is_word else ""
        return "folder" if self.value in FOLDERS else "file" if self.value in FILES else other


class Command(NamedTuple):
    name: str
    about: str
    arguments: list[Argument]
    lines: list[str]  # of its help

    @property
    def options(self) -> list[Argument]:
        return [it for it in self.arguments if not it.is_word]

    @property
    def takes_files(self) -> bool:
        return any(it.is_word and it.takes == "file" for it in self.arguments)


def arguments(lines: list[str]) -> list[Argument]:
    found = []
    for name, value, word, more, about, default in (it.groups() for it in map(ARGUMENT.match, lines) if it):
        value = value or (word + (more or "") if word else "")
        found.append(Argument(name or word, value, about, default, bool(word)))
    return found


def commands(repository: Repository) -> list[Command]:
    """The commands in the order of the help, but for `help` itself."""
    listed = repository.read("$ cutlab --help").split("Commands:\n")[1].split("\n\n")[0]
    found = []
    for name in re.findall(r"^  (?!help)(\w+)", listed, re.M):
        about, *lines = repository.read(f"$ cutlab {name} --help").split("\n")
        found.append(Command(name, about, arguments(lines), lines))
    return found
