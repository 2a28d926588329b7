"""docs/refuses [PROGRAM]: shows that the checks of documents refuse what is not that of the sources or of the program: each change
of tests/data/refuses.json in what they read. It prints what was accepted, and ends with 1 where something was."""
import importlib
import json
from typing import Any, Iterator

from ..commands import module_of
from ..paths import DATA
from ..repository import Repository
from . import NotMade, found_in

CHANGES: list[dict[str, Any]] = json.loads((DATA / "refuses.json").read_text())


def is_refused(check: str, repository: Repository) -> bool:
    """Whether a command refuses the documents, or can make nothing of what it reads."""
    module = importlib.import_module(module_of(check.split()[0]))
    try:
        if check.endswith("/make"):
            return not module.made(repository)
        return bool(found_in(check, module, repository))
    except (KeyError, IndexError, ValueError, NotMade):
        return True


def differences(repository: Repository) -> Iterator[str]:
    """What the checks accept, a line for each change; and what is not as the list of changes has it."""
    checks = dict.fromkeys(change["check"] for change in CHANGES)
    yield from (f"{check} refuses the documents as they are" for check in checks if is_refused(check, repository))
    for change in CHANGES:
        name, old = change["file"], change["old"]
        if old not in repository.read(name):
            yield f"{name} lacks: {old}"
        elif not is_refused(change["check"], repository.changed(name, old, change["new"])):
            yield f"{change['check']} accepts: {change['what']}"


def summary(_: Repository) -> str:
    return f"{len(CHANGES)} changes are refused"
