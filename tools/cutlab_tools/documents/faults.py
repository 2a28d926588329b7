"""Checks what says a fault besides the list of `cut_faults`: docs/faults. What differs is printed, and the status is then 1.

- The list of docs/FORMATS.md has its numbers, names and order, and the exit status where a command can end with the fault.
- Each of the crates' faults stands for that of the same name, but for those of `RENAMED`; each of the list for some fault."""
import re
from itertools import zip_longest
from typing import Iterator

from ..repository import Repository

FORMATS, CODE = "docs/FORMATS.md", "crates/cut_faults/src/code.rt"
# A row of the list in the code, and one on the page: the number, the name and the status, which the page leaves out where no
# command ends with the fault.
IN_CODE = re.compile(r'=> FaultRow::new\((\d+), "(\w+)", (\d+)\)')
ON_PAGE = re.compile(r"^\| (\d+) \| (\w+) \|.*\| (\d*) ?\|$", re.M)
# A row by which a crate's fault, the last word before the sign, stands for one of the list.
STANDS_FOR = re.compile(
    r"^(?:code|number)_of\w* \(?(?:\w+\.)?(\w+)[^=]*= (?:[\w.]*number_of )?(?:code\.)?([A-Z]\w+)$", re.M
)
# Faults that say more by another name: of memory while a study is run, of what is written or read, and of a place.
RENAMED = {"Memory": "WorkMemory", "Request": "Write", "Output": "Write"}
RENAMED |= {"Endless": "Read", "Socket": "Read", "Folder": "Disk"}


def differences(repository: Repository) -> Iterator[str]:
    code: list[tuple[str, ...]] = IN_CODE.findall(repository.read(CODE))
    page: list[tuple[str, ...]] = ON_PAGE.findall(repository.read(FORMATS))
    if not code:
        yield "the code has no list"
    for there, said in zip_longest(code, page, fillvalue=("", "nothing", "")):
        if there[:2] != said[:2] or said[2] not in ("", there[2]):
            yield f"{FORMATS}: {' '.join(said)}, in the code {' '.join(there)}"
    stands_for = set()
    for path in repository.paths("crates/*/specs/**/*.antt"):
        for fault, name in STANDS_FOR.findall(repository.read(path)):
            stands_for.add(name)
            if fault != name and RENAMED.get(fault) != name:
                yield f"{path}: {fault} is {name}"
    yield from (f"no crate has the fault {name}" for _, name, _ in code if name not in stands_for)
