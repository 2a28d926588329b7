"""Campaigns over servers: what clients are sent, whatever they send, and after servers that were killed."""
import contextlib
import json
import random
import tempfile
import time
from concurrent.futures import ThreadPoolExecutor
from pathlib import Path
from typing import Iterator

from ..damage import mutated
from ..paths import reference
from ..plans import SMALLEST, drawn_plan, fault_of, sizes, slips_in, text_of, trials_of, wanted
from ..program import Child, Ended, Program, connect, end_of, refused, replies_to
from .campaign import Campaign, Differs

SLOTS = 4
Message = tuple[str, "bytes | None"]


def drawn_messages(rng: random.Random, texts: list[bytes]) -> bytes:
    """The bytes of some requests, some of them no requests at all."""
    stream = b""
    for _ in range(rng.randint(0, 5)):
        way = rng.randrange(10)
        if way < 5:
            stream += reference.frame("R", rng.choice(texts))
        elif way < 7:
            stream += reference.frame("S", rng.choice([0, 1, SLOTS - 1, SLOTS, 2**32 - 1]).to_bytes(4, "big"))
        elif way == 7:
            stream += reference.frame("Q")
        elif way == 8:
            stream += rng.choice([b"X", b"Q\0\0\0\1", b"S\0\0\0\5abcde", b"R\0\1\0\1", b"R\0", b"S\0\0\0\4\0"])
        else:
            stream += reference.frame("R", rng.choice([b"", b"[]", b"{", b"{}", b"\xff"]))
    return stream + rng.choice([reference.frame("Q"), reference.frame("Q"), b""])


def wanted_replies(sent: bytes) -> Iterator[Message]:
    """The replies to a session, where a count of trials is None."""
    requests, stream_fault = reference.messages(reference.REQUESTS, sent)
    for kind, payload in requests:
        if kind == "Q":
            return
        if kind == "S":
            yield ("S", None) if int.from_bytes(payload, "big") < SLOTS else ("E", (26).to_bytes(2, "big"))
        elif fault := fault_of(payload):
            yield "E", fault.to_bytes(2, "big")
        else:
            for line in reference.table(reference.plan_of(payload)).splitlines(keepends=True):
                yield "T", line.encode()
            yield "Z", b""
    if stream_fault:
        yield "E", stream_fault.to_bytes(2, "big")


def accepted_plans(sent: bytes) -> Iterator[bytes]:
    """The canonical texts of the plans among the requests that are answered."""
    for kind, payload in reference.messages(reference.REQUESTS, sent)[0]:
        if kind == "Q":
            return
        if kind == "R" and fault_of(payload) is None:
            yield reference.canonical_text(reference.plan_of(payload))


class Sessions(Campaign):
    """Sessions of several clients at once with drawn messages and cuts: what a server replies beside the reference, and
    what it prints at its end."""

    def case(self, rng: random.Random) -> None:
        texts = [text_of(drawn_plan(rng, most_work=4_000)) for _ in range(rng.randint(1, 3))]
        streams = [drawn_messages(rng, texts) for _ in range(rng.randint(1, 4))]
        path, workers = self.folder / "s", rng.randint(1, 3)
        kept = ["--dir", str(self.folder)] if rng.random() < 0.5 else []
        server = self.program.serve(path, *kept, workers=workers, sessions=len(streams), studies=SLOTS)
        pieces = []
        for sent in streams:
            cuts = sorted(rng.randrange(len(sent) + 1) for _ in range(rng.randint(0, 4)))
            pieces.append([sent[first:last] for first, last in zip([0, *cuts], [*cuts, len(sent)])])
        with ThreadPoolExecutor(len(streams)) as pool:
            heard = list(pool.map(lambda its: replies_to(path, *its), pieces))
        ended = end_of(server, 60)
        for sent, found in zip(streams, heard):
            replies, fault = reference.messages(reference.REPLIES, found)
            without_counts = [("S", None) if kind == "S" else (kind, payload) for kind, payload in replies]
            self.expect(f"the replies to {sent.hex()}", (list(wanted_replies(sent)), None), (without_counts, fault))
        plans = {text for sent in streams for text in accepted_plans(sent)}
        trials = sum(trials_of(reference.plan_of(text)) for text in plans)
        what = f"what a server of {workers} workers and {len(streams)} sessions prints and reports"
        self.expect(what, Ended(f"accepted {trials}\n"), ended)


class Restarts(Campaign):
    """Servers that keep their studies in a folder and are killed at drawn moments, while a client asks: each next server
    goes on with the files, and what a client was sent is a prefix of the table, or all of it where it ended well."""

    def case(self, rng: random.Random) -> None:
        plan = drawn_plan(rng, most_work=30_000)
        text = text_of({**plan, "repeats": rng.randint(1, 20) * plan["repeats"]})
        whole = self.table_of(text)
        for _ in range(rng.randint(1, 6)):
            with self.server(rng):
                client = self.program.start("ask", "s", text=text)
                time.sleep(rng.random() * 0.1)
            output, errors, status = end_of(client)
            self.expect("what was sent is a prefix of the table", whole[: len(output)], output)
            self.require(status in (0, 4), f"the status after {errors!r}")
            self.require(status != 0 or output == whole, "all of it where the client ended well")
        with self.server(rng) as server:
            for _ in range(1000):  # (it may not listen at its socket yet)
                found = end_of(self.program.start("ask", "s", text=text))
                if found != refused("43 Read"):
                    break
                time.sleep(0.005)
            server.wait(60)
        self.expect("the table at the end", Ended(whole), found)
        kept = list(self.folder.glob("*.cut"))
        self.expect("how many studies are kept", 1, len(kept))
        slips_in(reference.plan_of(text), kept[0].read_bytes())

    @contextlib.contextmanager
    def server(self, rng: random.Random) -> Iterator[Child[bytes]]:
        """A server of one session that keeps its study in the folder, and is killed. It makes its socket soon."""
        path, last = self.folder / "s", time.monotonic() + 10
        server = self.program.serve(path, "--dir", self.folder, workers=rng.randint(1, 3))
        try:
            while not path.exists():
                if server.poll() is not None or time.monotonic() > last:
                    raise Differs("the server makes no socket")
                time.sleep(0.005)
            yield server
        finally:
            server.kill()
            end_of(server, 60)
            path.unlink(missing_ok=True)


class Session:
    """A session with a server that has no room for a study, of less than its 1,000,000 requests."""

    def __init__(self, program: Path) -> None:
        self.left, self.held = 900_000, contextlib.ExitStack()
        path = Path(self.held.enter_context(tempfile.TemporaryDirectory()), "socket")
        server = Program(program).serve(path)
        self.held.callback(server.communicate)
        self.held.callback(server.kill)
        self.wire = self.held.enter_context(connect(path))
        self.wire.settimeout(60)
        self.replies = self.held.enter_context(self.wire.makefile("rb"))
        self.wire.sendall(reference.frame("R", text_of(SMALLEST)))
        while self.reply()[0] == "T":  # (the only study of the server is run)
            pass

    def reply(self) -> tuple[str, bytes]:
        head = self.replies.read(5)
        size = int.from_bytes(head[1:], "big")
        payload = self.replies.read(size)
        if len(head) < 5 or len(payload) < size:
            raise ConnectionError("it was ended")
        return chr(head[0]), payload

    def answer(self, text: bytes) -> int | str:
        """The number of the fault that the server replies to a text, or what else it replies."""
        self.left -= 1
        self.wire.sendall(reference.frame("R", text))
        kind, payload = self.reply()
        return int.from_bytes(payload, "big") if kind == "E" else kind


class Texts(Campaign):
    """Mutated texts of plans, by bytes, tokens, numbers, nesting and UTF-8: what the program makes of each beside the
    reference, which leaves to Python's own reader what JSON is. The program is started for each text, or with --session all
    of them are sent to one server: it has room for one study, which it is sent first, and runs none of the others."""

    options = {"session": dict(action="store_true", help="sends the texts to one server")}
    session: Session | None = None

    def case(self, rng: random.Random) -> None:
        plan = drawn_plan(rng)
        text = rng.choice([text_of(plan), json.dumps(plan, indent=1).encode(), reference.canonical_text(plan)])
        for _ in range(rng.choice([1, 1, 1, 2, 3])):
            text = mutated(rng, text)
        if self.values["session"] and len(text) <= 65_536:
            self.expect(repr(text), fault_of(text) or 29, self.sent(text))  # (29: no room for another study)
        else:
            self.expect_run(wanted(text, sizes), "check", text=text, what=repr(text))

    def sent(self, text: bytes) -> int | str:
        """What is answered to a text in the session, or in another one where it has no requests left."""
        if self.session and not self.session.left:
            self.close()
        try:
            self.session = self.session or Session(self.path)
            return self.session.answer(text)
        except OSError as error:
            raise Differs(f"{text!r}: the session failed: {error}") from None

    def close(self) -> None:
        if self.session:
            self.session.held.close()
        self.session = None
