"""The commands of this repository that are written in Python. Each gives its path to tools/run, and that names its module."""
import argparse
import importlib.util
import os
import sys
from pathlib import Path
from typing import Any, NoReturn

from .paths import PROGRAM

# The packages of folders that have another name, and the modules of commands that have.
PACKAGES = {"docs": "documents", "tests": "testing"}
MODULES = {"docs/try": "tools.documents.pages", "bench/run": "tools.bench.costs", "tools/study": "study.cli"}


def existing(program: str) -> Path:
    if not os.access(program, os.X_OK):
        raise argparse.ArgumentTypeError(f"there is no program {os.path.relpath(program)}: build it, or name it")
    return Path(program).absolute()


def parser(about: str | None, program: str = "program") -> argparse.ArgumentParser:
    """A parser of words that may name the built program, if that has a name among them."""
    words = argparse.ArgumentParser(description=about, formatter_class=argparse.RawDescriptionHelpFormatter)
    if program:
        many: dict[str, Any] = {} if program.startswith("-") else {"nargs": "?"}
        words.add_argument(program, **many, type=existing, default=str(PROGRAM), help="the built program")
    return words


def module_of(command: str) -> str:
    """The module of a command's path, as docs/words or docs/schema/make."""
    *folder, name = command.removesuffix("/make").split("/")
    parts = ["tools", *(PACKAGES.get(it, it) for it in folder), name]
    return "cutlab_" + (MODULES.get(command) or ".".join(parts))


def main() -> NoReturn:
    """Runs the command whose path is the first word: its module's `main`, or what its package has for the others."""
    command = sys.argv.pop(1)
    sys.argv[0] = command
    path = module_of(command)
    module: Any = importlib.import_module(path) if importlib.util.find_spec(path) else None
    if hasattr(module, "main"):
        sys.exit(module.main())
    sys.exit(importlib.import_module(path.rpartition(".")[0]).run(command, module))
