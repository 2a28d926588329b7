"""tests/program: what a built program does with its words, files and streams. Each difference is printed, their number last."""
import contextlib
import hashlib
import json
import os
import re
import resource
import shutil
import signal
import subprocess
import time
from functools import partial
from typing import Any, Sequence

from ..paths import DATA, ROOT, reference
from ..plans import SMALLEST, Plan, upgrade
from ..program import Child, Ended, Program, Word, connect, end_of, refused
from . import Cases

# Tables that were worked out by hand, command lines with a mistake, and names of files as a line quotes them.
TABLES: dict[str, list[Any]] = json.loads((DATA / "program.json").read_text())
HEADER = "k,h,l,f,trials,receivers,conflicts,silent,extra,votes,decided,right,ppm\n"
UPGRADE_HEADER = HEADER.replace(",ppm", ",settled,ppm")
# One cell of two trials: in each one process crashes, and the four others propose it.
FIELDS: Plan = {**SMALLEST, "f": [1], "nodes": 5, "repeats": 2}
UPGRADE_FIELDS = upgrade(FIELDS)
PLAN, UPGRADE = reference.canonical_text(FIELDS), reference.canonical_text(UPGRADE_FIELDS)
ROW, UPGRADE_ROW = "1,1,1,1,2,8,0,0,0,8,2,2,0", "1,1,1,1,2,8,0,0,0,8,2,2,8,0"
TABLE, UPGRADE_TABLE = f"{HEADER}{ROW}\n", f"{UPGRADE_HEADER}{UPGRADE_ROW}\n"
# The name of the plan's file in a server's folder.
NAME = f"{hashlib.sha256(PLAN).hexdigest()}.cut"
HEAD, SLIP = 45 + len(PLAN), 105
# The fault of a text of so many blanks.
BLANKS = {65_536: "1 NotJson", 65_537: "19 PlanTooLong", 70_000: "19 PlanTooLong"}


def plan_with(**fields: Any) -> bytes:
    return reference.canonical_text({**FIELDS, **fields})


def named(file: str, fault: str) -> Ended:
    """How a join ends with the fault of a file that it names."""
    return Ended("", f"cutlab: file {file}\ncutlab: fault {fault}\n", 4)


def limit_files(room: int) -> None:
    """Lets this process write files of this many bytes alone."""
    signal.signal(signal.SIGXFSZ, signal.SIG_IGN)
    resource.setrlimit(resource.RLIMIT_FSIZE, (room, room))


class ProgramCases(Cases):
    """Tests whose commands are lines, and are given the plan where no other text is."""

    def ends(self, line: str, wanted: Ended | str, text: bytes = PLAN) -> None:
        """Compares how a command ends; words alone are its whole output."""
        self.expect_run(Ended(wanted) if isinstance(wanted, str) else wanted, *line.split(), text=text)

    def ends_soon(self, line: str, wanted: Ended) -> None:
        """Compares how a command ends that has to wait for nobody."""
        found = Ended("", "it waits")
        with contextlib.suppress(subprocess.TimeoutExpired):
            found = self.program.run(*line.split(), text=PLAN, limit=10)
        self.expect(line, wanted, found)

    def names(self) -> list[str]:
        return sorted(it.name for it in self.folder.iterdir())

    def served(self, *words: Word, sessions: int = 1) -> Child[bytes]:
        """A server of two workers and two slots at the socket of the folder."""
        return self.program.serve(self.file("socket"), *words, workers=2, sessions=sessions, studies=2)

    def asked_until(self, status: int, passing: Sequence[str] = ()) -> Ended:
        """How a client ends, once one ends with this status and by none of the faults that pass."""
        for _ in range(1000):
            found = self.program.run("ask", "socket", text=PLAN)
            if found.status == status and found not in map(refused, passing):
                break
            time.sleep(0.01)
        return found


class Studies(ProgramCases):
    def test_small_studies(self) -> None:
        versions = (FIELDS, HEADER, TABLES["small"]), (UPGRADE_FIELDS, UPGRADE_HEADER, TABLES["small_upgrades"])
        for plan, header, rows in versions:
            for fields, row in rows:
                text = reference.canonical_text({**plan, **fields})
                for words in (f"--workers {workers} --piece {size}" for workers in (1, 2, 3) for size in (1, 2, 16)):
                    self.ends(f"run {words}", f"{header}{row}\n", text)

    def test_large_studies(self) -> None:
        """65 cells, one more than a word has bits, from results and from slips; and 1,999 processes on 31 rings."""
        cells = plan_with(f=[0], h=list(range(20, 25)), k=[32], l=list(range(1, 14)), repeats=1)
        rows = "".join(f"32,{h},{l},0,1,5,0,5,0,0,0,0,0\n" for h in range(20, 25) for l in range(1, 14))
        for _ in range(2):
            self.ends("run --piece 1 --checkpoint cells.cut", HEADER + rows, cells)
        rings = plan_with(copies=4, dead="speak", h=[31], k=[31], nodes=1999, repeats=1)
        found = self.program.run("run", text=rings, limit=600)
        self.expect("31 rings", Ended(f"{HEADER}31,31,1,1,1,1998,0,0,0,1998,1,1,0\n"), found)

    def test_answers(self) -> None:
        for line in ("run", "run --workers 3"):
            self.ends(line, TABLE)
        self.ends("check", "cells 1\ntrials 2\nquorum 4\n")
        self.ends("canonical", f"{PLAN.decode()}\n")
        large = plan_with(nodes=1000, k=[10], h=[6, 7, 8, 9], l=[1, 2, 3, 4], f=[2, 4, 8, 16], repeats=20, dead="speak")
        self.ends("check", "cells 64\ntrials 1280\nquorum 751\n", large)
        for nodes, quorum in ((2, 2), (4, 4), (5, 4), (9, 7)):
            self.ends("check", f"cells 1\ntrials 2\nquorum {quorum}\n", plan_with(nodes=nodes))

    def test_progress(self) -> None:
        output, errors, status = self.program.run("run", "--progress", text=PLAN)
        self.expect("run --progress", (0, TABLE, True), (status, output, "cutlab: 2 of 2 trials, " in errors))
        self.ends("run --progress", refused("2 NotObject", 3), b"[]")

    def test_explanations(self) -> None:
        output, errors, status = self.program.run("explain", text=PLAN)
        self.expect("explain", (0, "accepted\ncells 1\ntrials 2\nquorum 4\n", ""), (status, output[:35], errors))
        why = "refused: 2 NotObject\nfound an empty list; expected an object, in braces\n"
        self.ends("explain", refused("2 NotObject", 3)._replace(output=why), b"[]")

    def test_refusals(self) -> None:
        texts = {b"": "1 NotJson", b"[]": "2 NotObject", b'{"x":0}': "3 UnknownField", b"{}": "4 MissingField copies"}
        for text, fault in {**texts, plan_with(h=[3]): "8 NoCell"}.items():
            for command in ("run", "check"):
                self.ends(command, refused(fault, 3), text)

    def test_limits(self) -> None:
        """The most cells, the most failed processes, and the longest text."""
        every: Plan = dict(f=list(range(2048)), nodes=2048)
        self.ends("check", "cells 4096\ntrials 8192\nquorum 1537\n", plan_with(**every, k=[2], h=[1, 2]))
        three: Plan = dict(**every, k=[3], h=[1, 2, 3])
        self.ends("check", refused("10 TooManyTrials", 3), plan_with(**three))
        self.ends("check", refused("9 TooManyFaults", 3), plan_with(**{**three, "liars": 2048}))
        for size, fault in BLANKS.items():
            self.expect(f"check of {size} blanks", refused(fault, 3), self.program.run("check", text=b" " * size))


class Checkpoints(ProgramCases):
    def test_checkpoints(self) -> None:
        """A checkpoint is opened before anything is read, and kept."""
        self.file("folder").mkdir()
        for path in ("folder", "none/study.cut", ""):
            found = self.program.run("run", "--checkpoint", path, text=b"[]")
            self.expect(f"a checkpoint at {path!r}", refused("20 Disk"), found)
        for _ in range(2):
            self.ends("run --piece 1 --checkpoint study.cut", TABLE)
            self.expect("the length of a checkpoint of two slips", HEAD + 2 * SLIP + 1, self.size("study.cut"))
        self.ends("status study.cut", f"trials 2 of 2\ncells 1 of 1\nslips 2\n{PLAN.decode()}\n", b"")
        for path in ("folder", "none.cut"):
            self.ends(f"status {path}", refused("20 Disk"), b"")

    def test_resumed(self) -> None:
        """Studies that go on from files with more slips than a word has bits, and from a false slip that could be true."""
        many, line = plan_with(repeats=130), "run --piece 1 --checkpoint many.cut"
        table, start = f"{HEADER}1,1,1,1,130,520,0,0,0,520,130,130,0\n", 45 + len(plan_with(repeats=130))
        self.ends(line, table, many)
        whole = self.file("many.cut").read_bytes()
        self.expect("the length of a file of 130 slips", start + 130 * SLIP + 1, len(whole))
        for slips in (0, 1, 63, 64, 65, 128, 129):
            self.file("many.cut").write_bytes(whole[: start + slips * SLIP] + b"\0")
            self.ends(line, table, many)
            self.expect(f"the length after {slips} slips", len(whole), self.size("many.cut"))
        sums = dict(zip(reference.SUMS, (4, 4, 0, 0, 4, 1, 0, 0)))
        self.file("false.cut").write_bytes(reference.file_of(FIELDS, [(0, 1, sums)]))
        self.ends("run --checkpoint false.cut", f"{HEADER}1,1,1,1,2,8,4,0,0,8,2,1,500000\n")

    def test_migrations(self) -> None:
        self.ends("migrate old.cut new.cut", refused("20 Disk"))
        self.expect("the files that a migration of none makes", [], self.names())
        self.ends("run --piece 1 --checkpoint old.cut", TABLE)
        self.ends("migrate old.cut new.cut", "migrated 2\n")
        self.ends("run --checkpoint new.cut", UPGRADE_TABLE, UPGRADE)
        self.ends("migrate old.cut new.cut", refused("25 Held"))
        self.expect("the lengths of both", (477, 485), (self.size("old.cut"), self.size("new.cut")))

    def test_foreign_files(self) -> None:
        """Files that hold something else than a study stay as they are; what an interrupted creation left is taken."""
        self.ends("run --checkpoint study.cut", TABLE)
        kinds = {"notes": b"my notes\n", "plan.json": PLAN, "zip": b"PK\3\4" + bytes(300), "gate": b"\xa5"}
        commands = "run --checkpoint {0}", "share 1/1 {0}", "join {0} study.cut", "migrate study.cut {0}"
        for name, text in kinds.items():
            self.file(name).write_bytes(text)
            for line in (command.format(name) for command in commands):
                self.ends(line, refused("22 NoStudy"))
                self.expect(f"{name} after {line}", text, self.file(name).read_bytes())
        for name, text in (("empty", b""), ("zero", b"\0"), ("torn", b"\0CUTLAB")):
            self.file(name).write_bytes(text)
            self.ends(f"run --checkpoint {name}", TABLE)

    def test_foreign_file_of_a_server(self) -> None:
        kept = self.file("kept")
        kept.mkdir()
        (kept / NAME).write_bytes(b"my notes\n")
        server = self.served("--dir", kept)
        connect(self.file("socket")).close()
        end_of(server)
        server = self.served("--dir", kept)
        self.expect("a client of that server", refused("30 Checkpoint"), self.asked_until(4, ["43 Read"]))
        self.expect("that server", Ended("accepted 0\n"), end_of(server))
        self.expect("the file of that server", b"my notes\n", (kept / NAME).read_bytes())

    def test_blocking_files(self) -> None:
        """What is no regular file is looked at before it is opened, so that nobody waits for who writes to it."""
        self.ends("run --checkpoint study.cut", TABLE)
        os.mkfifo(self.file("pipe"))
        for line in TABLES["blocking"]:
            self.ends_soon(line, refused("20 Disk"))


class PlanFiles(ProgramCases):
    """Plans that are named by their files, which stay as they are."""

    # Each command with a plan's file.
    COMMANDS = "run {0}|check {0}|explain {0}|canonical {0}|run --checkpoint a.cut {0}|share 1/1 b.cut --plan {0}"

    def answer(self, line: str, text: bytes) -> Ended:
        """How a command ends that is given this text, but for the time of an estimate."""
        output, errors, status = self.program.run(*line.split(), text=text)
        return Ended(re.sub("(?m)^.*processor.*\n", "", output), errors, status)

    def test_plan_files(self) -> None:
        """Each command says of a file what it says of the same text on its input, of which it reads nothing then."""
        self.file("plan.json").write_bytes(PLAN)
        for line in self.COMMANDS.split("|"):
            wanted = self.answer(line.format("").replace("--plan ", ""), PLAN)
            self.expect(line, 0, wanted.status)
            self.expect(line, wanted, self.answer(line.format("plan.json"), b"no plan"))
        self.ends("run --piece 1 --checkpoint old.cut plan.json", TABLE, b"")
        self.ends("migrate old.cut new.cut --plan plan.json", "migrated 2\n", b"")
        self.ends("join joined.cut old.cut --plan plan.json", "joined 2 into 1, 2 of 2\n", b"")
        self.expect("the plan's file", PLAN, self.file("plan.json").read_bytes())

    def test_asked(self) -> None:
        self.file("plan.json").write_bytes(PLAN)
        server = self.served()
        while not self.file("socket").exists():
            time.sleep(0.01)
        self.ends("ask socket --plan plan.json", TABLE, b"no plan")
        self.expect("that server", Ended("accepted 2\n"), end_of(server))

    def test_refused(self) -> None:
        """Files that hold no plan, that are too long, and what is no file, which nobody waits for."""
        self.file("folder").mkdir()
        os.mkfifo(self.file("pipe"))
        texts = {"bad.json": (b"{}", "4 MissingField copies"), "empty.json": (b"", "1 NotJson")}
        texts |= {f"{size}.json": (b" " * size, fault) for size, fault in BLANKS.items()}
        faults = {name: refused("20 Disk") for name in ("folder", "pipe", "none.json", "/dev/null")}
        for name, (text, fault) in texts.items():
            self.file(name).write_bytes(text)
            faults[name] = refused(fault, 3)
        lines = "run {0}", "check {0}", "canonical {0}", "share 1/1 share.cut --plan {0}", "join j.cut o.cut --plan {0}"
        for name, wanted in faults.items():
            for line in lines:
                self.ends_soon(line.format(name), wanted)

    def test_own_checkpoint(self) -> None:
        """A plan's file is not taken for a checkpoint, and stays byte for byte."""
        self.file("plan.json").write_bytes(PLAN)
        for line in ("run --checkpoint {0} {0}", "share 1/1 {0} --plan {0}", "migrate {0} new.cut --plan {0}"):
            self.ends(line.format("plan.json"), refused("22 NoStudy"), b"")
        self.expect("the plan's file", PLAN, self.file("plan.json").read_bytes())


class Machines(ProgramCases):
    def test_joins(self) -> None:
        self.file("empty.cut").touch()
        faults = {"none.cut": "20 Disk", "empty.cut": "22 NoStudy", "joined.cut": "20 Disk"}
        none, empty, same = (named(f'2: "{name}"', it) for name, it in faults.items())
        first = named('1: "none.cut"', "20 Disk")
        self.ends("share 1/1 share.cut", "share 1 of 1: 2 of 2\n")
        self.ends("join joined.cut share.cut none.cut", refused("20 Disk"))
        self.ends("join --which joined.cut share.cut none.cut", none)
        self.ends("join --which joined.cut none.cut share.cut", first)
        self.ends("join --which joined.cut share.cut empty.cut", empty)
        self.ends("join joined.cut share.cut --which", "joined 1 into 1, 2 of 2\n")
        self.ends("join joined.cut share.cut --which", refused("25 Held"))
        self.ends("join more.cut share.cut --which none.cut", none)
        self.file("more.cut").unlink(missing_ok=True)
        self.ends("join --which joined.cut share.cut joined.cut", same)
        self.expect("the files of the joins", ["empty.cut", "joined.cut", "share.cut"], self.names())
        for name, quoted in TABLES["quoted"]:
            found = self.program.run("join", "--which", "other.cut", "share.cut", name, text=PLAN)
            self.expect(f"the line of {name!r}", named(f'2: "{quoted}"', "20 Disk"), found)

    def test_joins_of_many(self) -> None:
        """Joins of more files than a word has bits, and of as many as are joined at most, each with the slip of one trial.
        The files stay as they are."""
        many = plan_with(repeats=1000)
        done = self.program.run("run", "--piece", "1", "--checkpoint", "whole.cut", text=many)
        self.expect("a study in pieces of one trial", 0, done.status)
        whole, start = self.file("whole.cut").read_bytes(), 45 + len(many)
        trials = {f"{(7 * trial) % 1000}.cut": trial for trial in range(1000)}
        for name, trial in trials.items():
            slip = whole[start + trial * SLIP : start + (trial + 1) * SLIP]
            self.file(name).write_bytes(whole[:start] + slip + b"\0")
        names = sorted(trials)
        before = [self.file(name).read_bytes() for name in names]
        for count in (65, 1000):
            joined = {trials[name] for name in names[:count]}
            ranges = sum(trial - 1 not in joined for trial in joined)
            found = self.program.run("join", f"joined{count}.cut", *names[:count], text=many)
            self.expect(f"a join of {count} files", Ended(f"joined {count} into {ranges}, {count} of 1000\n"), found)
        is_same = before == [self.file(name).read_bytes() for name in names]
        self.expect("whether files that were joined stay as they were", True, is_same)
        self.ends("run --checkpoint joined1000.cut", f"{HEADER}1,1,1,1,1000,4000,0,0,0,4000,1000,1000,0\n", many)

    def test_resumed_share(self) -> None:
        """The progress of a share of four trials that goes on from one of its two blocks."""
        plan, row = plan_with(repeats=8), "share 1/2 --piece 2 --workers 3 share.cut"
        self.ends(row, "share 1 of 2: 4 of 4\n", plan)
        whole, start = self.file("share.cut").read_bytes(), 45 + len(plan)
        self.expect("the length of a share of two blocks", start + 2 * SLIP + 1, len(whole))
        self.file("share.cut").write_bytes(whole[: start + SLIP] + b"\0")
        output, errors, status = self.program.run(*row.split(), "--progress", text=plan)
        lines = re.findall("(?m)^cutlab: ([0-9]+) of ([0-9]+) trials, [0-9]+ s(?:, about [0-9]+ s left)?$", errors)
        self.expect("a resumed share", (0, "share 1 of 2: 4 of 4\n"), (status, output))
        self.expect("its lines of progress", (errors.count("\n"), [("4", "4")]), (len(lines), lines[-1:]))
        self.expect("a number in them", [], [line for line in lines if line not in (("2", "4"), ("4", "4"))])
        self.expect("the length of a resumed share", len(whole), self.size("share.cut"))

    def test_pieces(self) -> None:
        """A file has one slip for each piece, whichever the number of workers: seven trials, three a piece."""
        plan = plan_with(repeats=7)
        self.ends("run --piece 3 --workers 2 --checkpoint run.cut", f"{HEADER}1,1,1,1,7,28,0,0,0,28,7,7,0\n", plan)
        self.ends("share 1/1 --piece 3 --workers 2 share.cut", "share 1 of 1: 7 of 7\n", plan)
        for name in ("run.cut", "share.cut"):
            self.expect(f"the length of {name}", 45 + len(plan) + 3 * SLIP + 1, self.size(name))


class Lines(ProgramCases):
    def test_words(self) -> None:
        for line, text in TABLES["helps"]:
            output, errors, status = self.program.run(*line.split())
            self.expect(line, (True, "", 0), (text in output, errors, status))
        output, errors, status = self.program.run("frob")
        self.expect("frob", ("", True, 2), (output, "unrecognized subcommand 'frob'" in errors, status))
        for row, text, usage in TABLES["mistakes"]:
            output, errors, status = self.program.run(*row.split(), text=PLAN)
            shown = errors[errors.find("Usage: ") :].split("\n")[0]
            self.expect(row, (2, "", True, f"Usage: cutlab {usage}"), (status, output, text in errors, shown))
        wanted = Ended("", "error: a word of the command line is not UTF-8\n", 2)
        self.expect("a word that is no UTF-8", wanted, self.program.run(b"\xff", text=PLAN))

    def test_full_outputs(self) -> None:
        """An output that takes some bytes and then fails."""
        for word, room in (("run", 0), ("run", 14), ("check", 7), ("--help", 21)):
            with self.file("output").open("wb") as output:
                how: dict[str, Any] = dict(stdout=output, stderr=subprocess.PIPE, restore_signals=False, timeout=120)
                done = subprocess.run([self.path, word], input=PLAN, preexec_fn=partial(limit_files, room), **how)
            found = Ended("", done.stderr.decode(), done.returncode), self.size("output")
            self.expect(f"{word} with room for {room} bytes", (refused(f"31 Write {room}"), room), found)

    def test_closed_streams(self) -> None:
        """Commands one of whose standard streams is closed where they begin: no file takes its place."""
        self.ends("run --piece 1 --checkpoint whole.cut", TABLE)
        whole = self.file("whole.cut").read_bytes()
        commands = {"run.cut": (1, "run --piece 1 --checkpoint"), "share.cut": (1, "share 1/1 --piece 1")}
        for name, (number, line) in {**commands, "line.cut": (2, "run --progress --piece 1 --checkpoint")}.items():
            found = self.program.run(*line.split(), name, text=PLAN, preexec_fn=partial(os.close, number))
            self.expect(f"{name} with stream {number} closed", Ended(TABLE if number == 2 else ""), found)
            self.expect(f"the bytes of {name}", whole, self.file(name).read_bytes())
        server = self.served(sessions=3)
        connect(self.file("socket")).close()
        for number, wanted in ((1, Ended()), (0, refused("1 NotJson", 3))):
            found = self.program.run("ask", "socket", text=PLAN, preexec_fn=partial(os.close, number))
            self.expect(f"ask with stream {number} closed", wanted, found)
        self.expect("their server", Ended("accepted 2\n"), end_of(server))


class Servers(ProgramCases):
    def test_servers(self) -> None:
        """A study that a server keeps is there for the next one."""
        kept = self.file("kept")
        kept.mkdir()
        for line in ("accepted 2\n", "accepted 0\n"):
            server = self.served("--dir", kept)
            self.expect("what a client is sent", Ended(TABLE), self.asked_until(0))
            self.expect("what its server prints", Ended(line), end_of(server))
            self.expect("the files of its folder", [NAME], os.listdir(kept))
            self.expect("the length of one slip's file", HEAD + SLIP + 1, (kept / NAME).stat().st_size)
        self.ends("ask none", refused("43 Read"))

    def test_two_clients(self) -> None:
        liar, server = plan_with(f=[0], liars=1, repeats=1), self.served(sessions=2)
        with connect(self.file("socket")) as first:
            self.expect("who may connect", 0o600, self.file("socket").stat().st_mode & 0o777)
            with connect(self.file("socket")) as second:
                for wire, text in ((first, PLAN), (second, liar)):
                    wire.sendall(reference.frame("R", text) + reference.frame("Q"))
                found = [wire.makefile("rb").read() for wire in (first, second)]
        for what, row in zip(found, (ROW, "1,1,1,0,1,5,0,0,5,5,1,0,0")):
            frames = b"".join(reference.frame("T", line.encode()) for line in (HEADER, f"{row}\n"))
            self.expect("what one of two clients is sent", frames + reference.frame("Z"), what)
        self.expect("a server of two clients", Ended("accepted 3\n"), end_of(server))

    def test_guests(self) -> None:
        """A client that leaves early, and one that holds the only connection: how a later one is refused is up to the system."""
        server = self.served()
        with connect(self.file("socket")) as wire:
            wire.sendall(reference.frame("R", PLAN))
        self.expect("the server of a client that leaves", 0, end_of(server).status)
        server = self.served()
        with connect(self.file("socket")):
            late = self.asked_until(4)
            self.expect("a client that is late", (4, ""), (late.status, late.output))
        self.expect("a server that is asked nothing", Ended("accepted 0\n"), end_of(server))
        self.expect("the files that servers leave", [], self.names())

    def test_bad_servers(self) -> None:
        self.file("plain").touch()
        faults = {"none/socket": "43 Read", "socket --dir plain": "20 Disk", "socket --dir none": "20 Disk"}
        for words, fault in faults.items():
            self.ends(f"serve {words} --workers 2 --sessions 1 --studies 2", refused(fault), b"")
        self.expect("the files that they leave", ["plain"], self.names())


class Scripts(ProgramCases):
    """The scripts of examples/ in a folder whose name has a blank, by the program on PATH."""

    def setUp(self) -> None:
        super().setUp()
        self.folder /= "a folder"
        self.file("bin").mkdir(parents=True)
        self.file("bin/cutlab").symlink_to(self.path)
        self.program = Program(self.path, self.folder)
        self.environment = {**os.environ, "PATH": f"{self.folder}/bin:{os.environ['PATH']}"}
        self.file("a plan.json").write_bytes(PLAN)

    def script(self, what: str, wanted: Ended, *words: str, **more: str) -> None:
        """Runs many_machines.sh, and compares how it ends; of its errors some part."""
        found = Program(ROOT / "examples/many_machines.sh", self.folder).run(*words, env={**self.environment, **more})
        self.expect(f"many_machines.sh {what}", wanted, found._replace(errors=wanted.errors))
        self.expect(f"what many_machines.sh {what} reports", True, wanted.errors in found.errors)

    def test_many_machines(self) -> None:
        self.script("without words", Ended("", "usage: many_machines.sh PLAN SHARES", 2))
        if not shutil.which("parallel"):
            print("program: GNU parallel is not installed, so many_machines.sh was not tried")
            return
        share = partial(self.script, PIECE="1")
        words = ("a plan.json", "2")
        share("over a plan with a blank", Ended(TABLE, "joined 2 into 1, 2 of 2\n"), *words)
        for name in ("share1.cut", "share2.cut", "study.cut"):
            self.file(name).unlink()
        self.ends("share 2/2 share2.cut", "share 2 of 2: 0 of 0\n", UPGRADE)
        share("with a file of another plan", Ended("", "share2.cut:\tcutlab: fault 23 OtherPlan\n", 1), *words)
        self.file("share2.cut").unlink()
        self.file("bin/ssh").write_text("#!/bin/sh\necho no way there >&2\nexit 255\n")
        self.file("bin/ssh").chmod(0o755)
        remote = (*words, "--sshlogin", "elsewhere")
        share("whose ssh fails", Ended("", "2 of 2 shares did not end", 1), *remote)
        self.expect("whether it joins them", False, self.file("study.cut").exists())
        share("whose ssh fails, with REST=here", Ended(TABLE), *remote, REST="here")

    def test_serve_on(self) -> None:
        pipe, path = subprocess.PIPE, self.file("a server/cutlab.sock")
        command = [str(ROOT / "examples/serve_on.sh"), "a server"]
        served = Child(command, cwd=self.folder, env=self.environment, stdout=pipe, stderr=pipe)
        connect(path).close()
        self.expect("what serve_on.sh serves", Ended(TABLE), self.program.run("ask", path, text=PLAN))
        self.expect("client.py", Ended(TABLE), Program(ROOT / "examples/client.py").run(path, text=PLAN))
        served.terminate()
        self.expect("serve_on.sh ended by a signal", Ended(), end_of(served))
        self.expect("its socket, and its server", (False, 4), (path.exists(), self.program.run("ask", path).status))
