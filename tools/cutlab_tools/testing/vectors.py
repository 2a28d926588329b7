"""tests/vectors: values of tests/data, computed elsewhere, beside a program's. Each difference is printed, their number last."""
import contextlib
import json
import re
import socket
from pathlib import Path
from typing import Any

from ..paths import DATA
from ..plans import trials_in
from ..program import Ended, end_of, replies_to, send
from . import Cases

# The numbers of the faults of a checkpoint that is refused.
READINGS = {"NoStudy": 22, "OtherPlan": 23, "Damaged": 24}


def vectors_of(name: str) -> Any:
    return json.loads((DATA / f"{name}.json").read_text())


def fault_in(errors: str) -> tuple[int, str] | str:
    """The number that a fault's line begins with, and the words after the fault's name."""
    found = re.fullmatch(r"cutlab: fault (\d+) \w+ ?(.*)\n", errors)
    return (int(found[1]), found[2]) if found else errors


class Vectors(Cases):
    def put(self, name: str, held: str) -> Path:
        """A file of these bytes, in hexadecimal digits."""
        self.file(name).write_bytes(bytes.fromhex(held))
        return self.file(name)

    def printed(self, row: Any, *words: str | Path) -> str:
        """What a command over a row's plan prints: its output, or the fault that its line reports, with its name."""
        output, errors, _ = self.program.run(*words, text=row.get("plan", "").encode())
        return output or re.sub(r"^cutlab: fault (.*)\n\Z", r"\1", errors)

    def test_canonical(self) -> None:
        for row in (*vectors_of("checkpoints"), *vectors_of("migrations")):
            self.expect_run(Ended(row["canonical"] + "\n"), "canonical", text=row["plan"].encode())

    def test_plans(self) -> None:
        for row in vectors_of("plans"):
            for words in (["run"], ["run", "--workers", "3", "--piece", "2"]):
                self.expect_run(Ended(row["table"]), *words, text=row["plan"].encode())

    def test_refusals(self) -> None:
        for row in vectors_of("refusals"):
            _, errors, status = self.program.run("check", text=row["text"].encode())
            fault = row["fault"]
            wanted = ((fault["number"], fault["field"] or ""), 3) if fault else ("", 0)
            self.expect(f"check < {row['text']}", wanted, (fault_in(errors), status))

    def test_checkpoints(self) -> None:
        """How the files of each plan are read, by a join: how many slips one has, or the fault."""
        for row in vectors_of("checkpoints"):
            for held in ({"file": row["file"], "reading": row["slips"]}, *row["changed"]):
                self.put("old", held["file"])
                output, errors, _ = self.program.run("join", "new", "old", text=row["plan"].encode())
                self.file("new").unlink(missing_ok=True)
                joined = re.match(r"joined (\d+) into", output)
                found = int(joined[1]) if joined else fault_in(errors)
                reading = held["reading"]
                name, _, place = reading.partition(" ") if isinstance(reading, str) else ("", "", "")
                wanted = (READINGS[name], place) if name else len(reading)
                self.expect(f"the file {held['file']}", wanted, found)

    def test_statuses(self) -> None:
        for row in vectors_of("statuses"):
            path = self.put("study.cut", row["file"])
            self.expect(f"the status of {row['file']}", row["printed"], self.printed(row, "status", path.name))

    def test_migrations(self) -> None:
        for row in vectors_of("migrations"):
            old, new = self.put("old", row["old"]), self.file("new")
            new.unlink(missing_ok=True)
            found = self.printed(row, "migrate", old, new), new.read_bytes().hex()
            self.expect(f"migrate {row['old']}", (row["printed"], row["new"] or ""), found)

    def test_shares(self) -> None:
        """What a share prints that goes on from a file, whose trials it has then, and its slips, if these are listed."""
        for row in vectors_of("shares"):
            path = self.put("share.cut", row["before"])
            words = ["share", row["share"], path.name, "--piece", str(row["piece"]), "--workers", "2"]
            what = f"share {row['share']} in pieces of {row['piece']} from {row['before']}"
            self.expect(what, row["printed"], self.printed(row, *words))
            held = path.read_bytes()
            at, size = 45 + int.from_bytes(held[9:13], "big"), 105 if held[8:9] == b"1" else 113
            slips = [held[start : start + size] for start in range(at, len(held) - 1, size)]
            pieces = [(int.from_bytes(it[1:9], "big"), int.from_bytes(it[9:17], "big")) for it in slips]
            if "slips" in row:
                self.expect(f"the slips of {what}", [tuple(it) for it in row["slips"]], pieces)
            else:
                self.expect(f"the trials of {what}", row["trials"], trials_in(pieces))

    def test_joins(self) -> None:
        for row in vectors_of("joins"):
            old = [self.put(f"{number}.cut", held) for number, held in enumerate(row["files"])]
            new = self.file("new.cut")
            new.unlink(missing_ok=True)
            self.expect(f"join {row['files']}", row["printed"], self.printed(row, "join", new, *old))
            if row["new"] is not None:
                self.expect(f"the file that joins {row['files']}", row["new"], new.read_bytes().hex())

    def test_sessions(self) -> None:
        for row in vectors_of("sessions"):
            server = self.program.serve(self.file("socket"), studies=row["slots"])
            replies = replies_to(self.file("socket"), bytes.fromhex(row["sent"])).hex()
            _, errors, status = end_of(server)
            self.expect(f"a session of {row['sent']}", (row["replies"], "", 0), (replies, errors, status))

    def asked(self, answer: bytes) -> tuple[int | str, int]:
        """What a client reports that is sent this answer, and how many bytes of lines it prints."""
        path = self.file("socket")
        with socket.socket(socket.AF_UNIX) as server:
            server.bind(str(path))
            server.listen()
            server.settimeout(120)
            client = self.program.start("ask", path, text=vectors_of("plans")[0]["plan"].encode())
            wire, _ = server.accept()
            with wire:
                send(wire, [answer])
                with contextlib.suppress(OSError):
                    while wire.recv(65536):
                        pass
                output, errors, _ = end_of(client)
        path.unlink()
        return (fault_in(errors)[0] if errors else 0), len(output.encode())

    def test_answers(self) -> None:
        for row in vectors_of("answers"):
            found = self.asked(bytes.fromhex(row["answer"]))
            self.expect(f"an answer of {row['answer']}", (row["fault"], row["written"]), found)
