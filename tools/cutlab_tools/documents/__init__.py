"""Documents that are made of the sources or of what the program prints, and their checks.

The module of a document has `made`, if the document is made: its texts by the files that they stand in. It may have
`differences`, which gives a line for each thing that differs, and `summary`, which says what was found right."""
from pathlib import Path
from types import ModuleType

from ..commands import parser
from ..paths import PROGRAM, ROOT
from ..repository import Repository


class NotMade(Exception):
    """Why no document can be made."""


def found_in(command: str, module: ModuleType, repository: Repository) -> list[str]:
    """What the check of a document finds, a line for each."""
    texts: dict[str, str] = module.made(repository) if hasattr(module, "made") else {}
    other = [path for path, text in texts.items() if not repository.has(path) or repository.read(path) != text]
    more = module.differences(repository) if hasattr(module, "differences") else []
    return [*(f"{path}: not what {command} makes: run it" for path in other), *more]


def run(command: str, module: ModuleType) -> int:
    """The command of a document: makes it, or with --check, or where it is not made, says what differs."""
    words = parser(module.__doc__, "")
    words.add_argument("program", nargs="?", type=Path, default=PROGRAM, help="the built program, if it is asked")
    if hasattr(module, "made"):
        words.add_argument("--check", action="store_true", help="only say what differs")
    given = words.parse_args()
    repository = Repository(given.program)
    try:
        if not getattr(given, "check", True):
            for path, text in module.made(repository).items():
                (ROOT / path).write_text(text)
        found = found_in(command, module, repository)
        summary = module.summary(repository) if hasattr(module, "summary") and not found else ""
    except NotMade as why:
        found, summary = [f"{command}: {why}"], ""
    except FileNotFoundError as error:
        found, summary = [f"{command}: there is no {error.filename}: build the program, or name it"], ""
    print("\n".join(found) or f"{command}: {summary or 'nothing differs'}")
    return int(bool(found))
