"""docs/manual/make [--check] [PROGRAM]: makes the man page docs/cutlab.1 from the help of the program, in the form in which
help2man makes one, with the sections of docs/manual/include. With --check it writes nothing, and says what differs. An option's
range in the help is compared with what the program takes, as it says where it refuses a number."""
import re
from typing import Iterator

from ..options import Command, commands
from ..repository import Repository
from . import NotMade

PAGE, INCLUDE = "docs/cutlab.1", "docs/manual/include"
# The sections that are made of the help, in the order of the page; those that only the include has come after them.
MADE = ("NAME", "SYNOPSIS", "DESCRIPTION", "COMMANDS")


def roff(text: str) -> str:
    """A text of the help, with what has a meaning for roff written out."""
    return re.sub(r"^(?=[.'])", r"\\&", text.replace("\\", r"\e").replace("-", r"\-"), flags=re.M)


def usage(command: Command) -> str:
    return next(line for line in command.lines if line.startswith("Usage: ")).removeprefix("Usage: cutlab ")


def command_lines(command: Command) -> Iterator[str]:
    """What the page says of a command: its call, what it does, its arguments, and what the help has after these."""
    yield from (f'.SS "cutlab {roff(usage(command))}"', roff(command.about) + ".")
    for it in command.arguments:
        value = roff(f"<{it.value}>".replace("..>", ">...")) if it.value else ""
        head = value if it.is_word else f"\\fB\\-\\-{it.name}\\fR {value}".rstrip()
        default = f" [default: {it.default}]" if it.default else ""
        yield from (".TP", head, roff(it.help + default))
    last = max(at for at, line in enumerate(command.lines) if line.startswith("  "))
    for line in command.lines[last + 1 :]:
        yield from (".PP", roff(line)) if line and not line.startswith("See ") else ()


def made(repository: Repository) -> dict[str, str]:
    listed = commands(repository)
    # Each section of the include begins with a line of its name in brackets.
    _, *given = re.split(r"^\[([A-Z ]+)\]\n", repository.read(INCLUDE), flags=re.M)
    included = dict(zip(given[::2], (it.strip("\n") for it in given[1::2])))
    about, version = (repository.read(f"$ cutlab --{it}").split("\n")[0] for it in ("help", "version"))
    if not listed or "NAME" in included:
        raise NotMade("the help lists no commands, or the include has what is made")
    found = {"NAME": f"cutlab \\- {roff(about[:1].lower() + about[1:])}"}
    calls = [usage(it).partition(" ") for it in listed]
    found["SYNOPSIS"] = "\n.br\n".join(f".B cutlab {name}\n{roff(words)}" for name, _, words in calls)
    found["COMMANDS"] = "\n".join(line for it in listed for line in command_lines(it))
    order = [*MADE, *(name for name in included if name not in MADE)]
    parts = {name: "\n".join(it[name] for it in (included, found) if name in it) for name in order}
    first = f'.\\" Made by docs/manual/make.\n.TH CUTLAB 1 "" "{" ".join(version.split()[:2])}" "User Commands"\n'
    return {PAGE: first + "".join(f".SH {name}\n{text}\n" for name, text in parts.items())}


def differences(repository: Repository) -> Iterator[str]:
    """The options whose help names another range than the program takes."""
    for command in commands(repository):
        for option in (it for it in command.options if it.takes == "value"):
            refusal = repository.read(f"$ cutlab {command.name} --{option.name} 0")
            found = re.search(r"0 is not in (\d+)\.\.=(\d+)", refusal)
            low, high = found.groups() if found else ("?", "?")
            if not re.search(rf" from {low} to {high}(?!\d)", option.help):
                yield f"the help: {command.name} --{option.name} takes {low} to {high}: {option.help}"


def summary(repository: Repository) -> str:
    return f"{len(commands(repository))} commands are as in the help"
